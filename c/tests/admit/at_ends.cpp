// What runs as a thread or the program ends uses the library: destructors of threads' data, of keys, static ones, and atexit.
//
// Threads return, exit or are cancelled amid a context, while the processors that they may use change. Nothing stays held. A thread goes on
// at the program's end.
#include "ww_mutex.hpp"
#include <atomic>
#include <cstdio>
#include <cstdlib>
#include <pthread.h>
#include <sched.h>
#include <thread>
#include <unistd.h>

#define MUST(fact) ((fact) ? (void)0 : (std::fprintf(stderr, "%s:%d: not so: %s\n", __FILE__, __LINE__, #fact), std::_Exit(1)))

static DEFINE_WW_CLASS(boxes);
static struct ww_mutex m = WW_MUTEX_INIT(&boxes);
static struct ww_shared_mutex s = WW_SHARED_MUTEX_INIT(&boxes);
static long data; // under m
static std::atomic<unsigned> keys;

static void uses()
{
	struct ww_class own;
	struct ww_mutex its;

	{
		ww::context x(boxes);

		MUST(!x.lock_by([&] {
			const int r = ww_mutex_lock(&m, x.get());
			return r ? r : ww_shared_mutex_lock_shared(&s, x.get());
		}));
		data++;
	}
	ww_mutex_lock(&m, nullptr);
	MUST(ww_mutex_is_held_by(&m, nullptr));
	ww_mutex_unlock(&m);
	ww_class_init(&own, 0, "own");
	MUST(!ww_class_limit(&own, 1, 1)); // so it opens soon
	ww_mutex_init(&its, &own);
	MUST(ww_mutex_trylock(&its, nullptr));
	ww_mutex_unlock(&its);
	MUST(!ww_mutex_destroy(&its) && !ww_class_free(&own));
}

struct last {
	~last() { uses(); }
};
static last of_program;
static thread_local last of_thread;
static pthread_key_t key;

static void of_key(void *value)
{
	static thread_local int again;

	uses();
	keys++;
	if (again++ < 2)
		pthread_setspecific(key, value);
}

// A destructor releases what it holds, whichever way it ends.
static void *runs(void *kind)
{
	(void)&of_thread;
	pthread_setspecific(key, &data);
	for (int k = 0; k < 5; k++)
		uses();
	if (kind == &keys || kind == &key) {
		ww::context x(boxes);

		MUST(!x.lock_by([&] { return ww_mutex_lock(&m, x.get()); }));
		for (;;) {
			if (kind == &key)
				pthread_exit(nullptr);
			usleep(1000);
		}
	}
	return nullptr;
}

int main()
{
	enum { THREADS = 9, ROUNDS = 3 };
	void *const kinds[] = { nullptr, &keys, &key };
	struct ww_class_counts counts;

	pthread_key_create(&key, of_key);
	std::atexit(uses);
	for (unsigned round = 0; round < ROUNDS; round++) {
		pthread_t threads[THREADS];

		for (unsigned k = 0; k < THREADS; k++)
			MUST(!pthread_create(&threads[k], nullptr, runs, kinds[k % 3]));
		for (unsigned k = 0; k < THREADS; k++) {
			cpu_set_t one;

			CPU_ZERO(&one);
			CPU_SET((k + round) % 2, &one);
			(void)pthread_setaffinity_np(threads[k], sizeof one, &one); // where there is no such processor, the set stays
			if (kinds[k % 3] == &keys)
				pthread_cancel(threads[k]);
		}
		for (pthread_t it : threads)
			MUST(!pthread_join(it, nullptr));
	}
	ww_class_stats(&boxes, &counts);
	MUST(!counts.contexts && !ww_mutex_is_locked(&m) && !ww_shared_mutex_is_locked(&s) && keys == 3 * THREADS * ROUNDS);
	std::thread([] {
		for (;;)
			uses();
	}).detach();
	usleep(5000);
	std::puts("at_ends: nothing stays held, whatever runs at an end");
	return 0;
}
