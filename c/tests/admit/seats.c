/*
 * A class of sixteen contexts: all may be in use, by one thread or by many.
 *
 * A thread that used the class keeps none of them from others, whether it ended or not; and a thread that has to wait
 * for one goes on once one ends.
 */
#include "../mutex_test.h"

static DEFINE_WW_CLASS(wound_wait);
static DEFINE_WD_CLASS(wait_die);
static struct ww_class *c;
static pthread_barrier_t all_there, all_done;

static void is_full(void)
{
	struct ww_acquire_ctx one;
	struct ww_mutex m;

	MUST(ww_acquire_init_checked(&one, c) == -EAGAIN);
	ww_mutex_init(&m, c);
	MUST(!ww_mutex_trylock(&m, NULL) && !ww_mutex_is_locked(&m));
	struct timespec soon = in_ms(5);
	MUST(ww_mutex_lock_until(&m, NULL, &soon) == -ETIMEDOUT && !ww_mutex_destroy(&m));
}

static void *begins(void *arg)
{
	struct ww_acquire_ctx x;

	(void)arg;
	ww_acquire_init(&x, c);
	ww_acquire_fini(&x);
	return NULL;
}

static struct ww_mutex awaited;
static void *locks_alone(void *arg)
{
	(void)arg;
	MUST(!ww_mutex_lock(&awaited, NULL));
	ww_mutex_unlock(&awaited);
	return NULL;
}

/* All at once, by this thread. */
static void all_in_use(void)
{
	struct ww_acquire_ctx list[16];
	pthread_t threads[3];

	for (unsigned k = 0; k < 16; k++)
		MUST(!ww_acquire_init_checked(&list[k], c));
	is_full();
	ww_mutex_init(&awaited, c);
	threads[0] = begin_thread(begins, NULL);
	threads[1] = begin_thread(begins, NULL);
	threads[2] = begin_thread(locks_alone, NULL);
	awaits_waiter(&awaited);
	MUST(ww_mutex_destroy(&awaited) == -EBUSY);
	ww_acquire_fini(&list[7]);
	for (unsigned k = 0; k < 3; k++)
		end_thread(threads[k]);
	for (unsigned k = 0; k < 16; k++)
		if (k != 7)
			ww_acquire_fini(&list[k]);
	MUST(!ww_mutex_destroy(&awaited));
}

/* It used the class, and stays. */
static void *keeps(void *arg)
{
	begins(arg);
	pthread_barrier_wait(&all_there);
	pthread_barrier_wait(&all_done);
	begins(arg);
	return NULL;
}

/* Sixteen others each had a context; this one takes them all. */
static void kept_by_others(void)
{
	pthread_t threads[16];
	struct ww_acquire_ctx list[16];

	for (unsigned k = 0; k < 16; k++)
		threads[k] = begin_thread(keeps, NULL);
	pthread_barrier_wait(&all_there);
	for (unsigned k = 0; k < 16; k++)
		MUST(!ww_acquire_init_checked(&list[k], c));
	is_full();
	for (unsigned k = 0; k < 16; k++)
		ww_acquire_fini(&list[k]);
	pthread_barrier_wait(&all_done);
	for (unsigned k = 0; k < 16; k++)
		end_thread(threads[k]);
	for (unsigned k = 0; k < 40; k++)
		end_thread(begin_thread(begins, NULL));
}

/* A thread keeps its seat while nobody else takes it; then another one does as well. */
static void *uses_for_long(void *arg)
{
	struct ww_acquire_ctx x;
	struct ww_seat *first = NULL;

	(void)arg;
	for (unsigned k = 0; k < 1000; k++) {
		ww_acquire_init(&x, c);
		MUST(!first || x.own == first);
		first = x.own;
		ww_acquire_fini(&x);
	}
	return NULL;
}

/* A thread comes back to the seat that it used last, though the one that it used before is free, too. */
static void *comes_back(void *arg)
{
	struct ww_acquire_ctx first, last;
	const struct ww_seat *its;

	ww_acquire_init(&first, c);
	ww_acquire_init(&last, c);
	its = last.own;
	ww_acquire_fini(&first);
	ww_acquire_fini(&last);
	ww_acquire_init(&last, c);
	MUST(last.own == its);
	ww_acquire_fini(&last);
	return arg;
}

/* Many threads for few contexts: each gets one at last. */
static unsigned long sum;
static struct ww_mutex guard;
static void *adds(void *arg)
{
	struct ww_acquire_ctx x;

	(void)arg;
	for (unsigned k = 0; k < 500; k++) {
		ww_acquire_init(&x, c);
		MUST(!ww_mutex_lock(&guard, &x));
		sum++;
		ww_mutex_unlock(&guard);
		ww_acquire_fini(&x);
	}
	return NULL;
}

static void many_for_few(void)
{
	enum { THREADS = 24 };
	pthread_t threads[THREADS];

	MUST(!ww_class_free(c) && !ww_class_limit(c, 4, 3));
	ww_mutex_init(&guard, c);
	sum = 0;
	for (unsigned k = 0; k < THREADS; k++)
		threads[k] = begin_thread(adds, NULL);
	for (unsigned k = 0; k < THREADS; k++)
		end_thread(threads[k]);
	MUST(sum == THREADS * 500 && !ww_mutex_destroy(&guard) && !ww_class_free(c));
}

static unsigned tries = 30000;
static bool is_over;
static void *goes_from_one_to_the_next(void *arg)
{
	struct ww_acquire_ctx x[2];
	unsigned k = 0;

	ww_acquire_init(&x[0], c);
	for (; !__atomic_load_n(&is_over, __ATOMIC_RELAXED); k++) {
		ww_acquire_init(&x[(k + 1) % 2], c);
		ww_acquire_fini(&x[k % 2]);
	}
	ww_acquire_fini(&x[k % 2]);
	return arg;
}

/* Of three contexts one is free all the while, though maybe none where somebody looks just then: a begin finds it, or is to try again. */
static void one_is_always_free(void)
{
	struct ww_acquire_ctx x;
	pthread_t thread;

	MUST(!ww_class_limit(c, 0, 3));
	is_over = false;
	thread = begin_thread(goes_from_one_to_the_next, NULL);
	for (unsigned k = 0; k < tries; k++) {
		int r;

		while ((r = ww_acquire_init_checked(&x, c)))
			MUST(r == -EAGAIN);
		ww_acquire_fini(&x);
	}
	__atomic_store_n(&is_over, true, __ATOMIC_RELAXED);
	end_thread(thread);
	MUST(!ww_class_free(c));
}

int main(int count, char **words)
{
	struct ww_class *classes[] = { &wound_wait, &wait_die };

	if (count > 1)
		tries = (unsigned)atoi(words[1]);
	pthread_barrier_init(&all_there, NULL, 16 + 1);
	pthread_barrier_init(&all_done, NULL, 16 + 1);
	for (unsigned kind = 0; kind < 2; kind++) {
		c = classes[kind];
		MUST(!ww_class_limit(c, 0, 16));
		for (unsigned again = 0; again < 3; again++) {
			all_in_use();
			kept_by_others();
			end_thread(begin_thread(uses_for_long, NULL));
			end_thread(begin_thread(comes_back, NULL));
			MUST(!ww_class_free(c)); /* what threads kept of it is nothing to the next one */
		}
		many_for_few();
		one_is_always_free();
	}
	puts("seats: sixteen at once, and whoever waited went on");
	return 0;
}
