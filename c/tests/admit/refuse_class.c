/*
 * Each allocation of a class's opening is refused in turn: nothing is left, and the same call does it later.
 *
 * Those of the thread-local key and of what a fork calls are refused too.  The class isn't open then, and nothing is
 * left but the one piece of memory that the next class has.  No other call allocates, but one that needs a seat that isn't made yet,
 * which finds fewer seats then, and no other error; and the first read of a context's seat, which is refused, and changes nothing.
 * This heap stands in for that of the library, and what the library's sources ask for comes by the wrappers (ld --wrap).
 */
#include "../mutex_test.h"
#include "../../admit/class.h"
#include "ww_poll.h"
#include "ww_shared.h"
#include <fcntl.h>
#include <limits.h>
#include <sys/mman.h>

struct tried {
	bool ok;
	void *p;
};

/*
 * How many allocations were asked for, how many of these are live, keys apart; and which one is refused: the first, as the
 * program is loaded.
 */
static long made, live, keys, refused;
static long refused_from = LONG_MAX; /* and all from this one on */
static bool is_refused(void) { return made++ == refused || made > refused_from; }
static char nothing[16];

/* How the proved library is told of an allocation: whether it has the memory, and an address in any case. */
static struct tried told(void *p) { return (struct tried){ p != NULL, p ? p : nothing }; }

/* Counts what came. */
static void *counted(void *p)
{
	live += p != NULL;
	return p;
}

struct tried rattle_alloc(size_t size, size_t align);
struct tried rattle_realloc(void *p, size_t kept, size_t size, size_t align);
void rattle_dealloc(void *p);
void *__real_aligned_alloc(size_t align, size_t size);
void *__real_calloc(size_t count, size_t size);
void __real_free(void *p);
int __real_pthread_key_create(pthread_key_t *key, void (*end)(void *));
void *__wrap_aligned_alloc(size_t align, size_t size);
void *__wrap_calloc(size_t count, size_t size);
void *__real_mmap(void *at, size_t size, int protection, int flags, int file, off_t from);
void *__wrap_mmap(void *at, size_t size, int protection, int flags, int file, off_t from);
int __real_munmap(void *at, size_t size);
int __wrap_munmap(void *at, size_t size);
void __wrap_free(void *p);
int __wrap_pthread_key_create(pthread_key_t *key, void (*end)(void *));
int __real_pthread_key_delete(pthread_key_t key);
int __wrap_pthread_key_delete(pthread_key_t key);
int __real_pthread_atfork(void (*before)(void), void (*parent)(void), void (*child)(void));
int __wrap_pthread_atfork(void (*before)(void), void (*parent)(void), void (*child)(void));

struct tried rattle_alloc(size_t size, size_t align)
{
	return told(counted(is_refused() ? NULL : malloc(size ? size : align)));
}

struct tried rattle_realloc(void *p, size_t kept, size_t size, size_t align)
{
	(void)kept;
	return told(is_refused() ? NULL : realloc(p, size ? size : align));
}

void rattle_dealloc(void *p) { free(p); }

/* It returns nothing to the system. */
void ww_heap_opens(void) { }
size_t ww_heap_opened(void) { return 0; }

void *__wrap_aligned_alloc(size_t align, size_t size)
{
	return counted(is_refused() ? NULL : __real_aligned_alloc(align, size));
}

void *__wrap_calloc(size_t count, size_t size) { return counted(is_refused() ? NULL : __real_calloc(count, size)); }

/* That of the seats, and of a slot. */
void *__wrap_mmap(void *at, size_t size, int protection, int flags, int file, off_t from)
{
	if (is_refused())
		return MAP_FAILED;
	live++;
	return __real_mmap(at, size, protection, flags, file, from);
}

int __wrap_munmap(void *at, size_t size)
{
	live--;
	return __real_munmap(at, size);
}

int __wrap_pthread_key_create(pthread_key_t *key, void (*end)(void *))
{
	if (is_refused())
		return EAGAIN;
	keys++;
	return __real_pthread_key_create(key, end);
}

int __wrap_pthread_key_delete(pthread_key_t key)
{
	keys--;
	return __real_pthread_key_delete(key);
}

int __wrap_pthread_atfork(void (*before)(void), void (*parent)(void), void (*child)(void))
{
	return is_refused() ? ENOMEM : __real_pthread_atfork(before, parent, child);
}

void __wrap_free(void *p)
{
	live -= p != NULL;
	__real_free(p);
}

static DEFINE_WW_CLASS(wound_wait);
static DEFINE_WD_CLASS(wait_die);
static struct ww_class *c;
static int nowhere;

/* Each call that may be the first to use the class. */
static int opens(unsigned way)
{
	static struct ww_mutex m;
	struct ww_acquire_ctx x;
	int r;

	switch (way) {
	case 0: return ww_class_open(c);
	case 1: r = ww_mutex_init_checked(&m, c); return r ? r : ww_mutex_destroy(&m);
	default: r = ww_acquire_init_checked(&x, c); return r ? r : ww_acquire_fini_checked(&x);
	}
}

static void uses_all(void)
{
	static const struct timespec past;
	struct ww_mutex list[4];
	struct ww_acquire_ctx x;

	for (unsigned k = 0; k < 4; k++)
		ww_mutex_init(&list[k], c);
	ww_acquire_init(&x, c);
	ww_until_all_locked(&x)
		for (unsigned k = 0; k < 3; k++)
			MUST(!ww_mutex_lock(&list[k], &x));
	MUST(!ww_mutex_lock(&list[3], NULL));
	MUST(ww_mutex_lock_until(&list[3], &x, &past) == -ETIMEDOUT); /* it waits */
	ww_class_print(c, nowhere);
	for (unsigned k = 0; k < 4; k++)
		ww_mutex_unlock(&list[k]);
	ww_acquire_fini(&x);
	for (unsigned k = 0; k < 4; k++)
		MUST(!ww_mutex_destroy(&list[k]));
}

static void nobody_wakes(void *loop, void *task) { (void)loop, (void)task; }

/* Each call that may be the first to read; a downgrade goes on writing. */
static int reads_first(unsigned way, struct ww_shared_mutex *m, uint32_t number, struct ww_acquire_ctx *x)
{
	const struct ww_waker waker = { nobody_wakes, NULL, NULL };

	switch (way) {
	case 0: return ww_shared_mutex_lock_shared(m, x);
	case 1: return ww_shared_mutex_trylock_shared(m, x) ? 0 : -ENOMEM;
	case 2: return ww_shared_mutex_lock_shared_poll(m, x, &waker);
	case 3: return ww_shared_mutex_lock_shared_until(ww_number_at(number, c), x, NULL);
	case 4: return ww_shared_mutex_lock_shared_poll(ww_number_at(number, c), x, &waker);
	default:
		MUST(!ww_shared_mutex_lock(m, x));
		ww_shared_mutex_downgrade(m, x);
		return ww_shared_mutex_is_written_by(m, x) && !ww_shared_mutex_unlock(m, x) ? -ENOMEM : 0;
	}
}

static void reads_all(void)
{
	for (unsigned way = 0; way < 6; way++) {
		struct ww_shared_mutex m;
		struct ww_acquire_ctx x;
		uint32_t number;

		ww_shared_mutex_init(&m, c);
		refused = made;
		MUST(ww_number_take(&number, c) == -ENOMEM);
		refused = -1;
		MUST(!ww_number_take(&number, c));
		ww_acquire_init(&x, c);
		refused = made;
		MUST(reads_first(way, &m, number, &x) == -ENOMEM && !x.acquired);
		refused = -1;
		MUST(!reads_first(way % 5, &m, number, &x) && x.acquired == 1);
		ww_acquire_end_reads(&x);
		ww_acquire_fini(&x);
		MUST(!ww_shared_mutex_destroy(&m) && !ww_number_put(number, c) && !ww_class_free(c) && live == 1);
	}
}

/* ---- seats that are made later ---- */

enum { SOME = 5 };

static bool begins(struct ww_acquire_ctx *x)
{
	int r = ww_acquire_init_checked(x, c);

	MUST(!r || r == -EAGAIN);
	return !r;
}

/* All that there are, with this one. */
static unsigned begin_all(struct ww_acquire_ctx *all, unsigned most)
{
	unsigned count = 0;

	while (count < most && begins(&all[count]))
		count++;
	return count;
}

static void end_all(struct ww_acquire_ctx *all, unsigned count)
{
	while (count)
		ww_acquire_fini(&all[--count]);
}

/* Those for one more seat are refused, from each on in turn: then there is none, and each call says so in its way. */
static void refuses_each(void)
{
	struct ww_acquire_ctx all[SOME + 1];
	struct ww_mutex m;
	long of_one;

	MUST(!ww_class_limit(c, 4, SOME));
	ww_mutex_init(&m, c);
	MUST(begins(&all[0]));
	for (refused_from = 0;; refused_from++) {
		struct timespec soon = in_ms(1);

		made = 0;
		if (begins(&all[1]))
			break;
		made = 0;
		MUST(!ww_mutex_trylock(&m, NULL) && !ww_mutex_is_locked(&m));
		made = 0;
		MUST(ww_mutex_lock_until(&m, NULL, &soon) == -ETIMEDOUT && !ww_mutex_is_locked(&m));
		made = 0;
		MUST(ww_acquire_init_until(&all[1], c, &soon) == -ETIMEDOUT);
		made = 0;
		MUST(ww_acquire_init_poll(&all[1], c, NULL, NULL) == -ETIMEDOUT);
	}
	of_one = made;
	MUST(made == refused_from && made > 0);
	refused_from = LONG_MAX;
	made = 0;
	MUST(begin_all(&all[2], SOME - 1) == SOME - 2 && made == (SOME - 2) * of_one);
	end_all(all, SOME);
	made = 0;
	MUST(begin_all(all, SOME + 1) == SOME && !made);
	end_all(all, SOME);
	MUST(!ww_mutex_destroy(&m) && !ww_class_free(c) && live == 1);
	printf("%ld allocations for one more seat, refused from each on\n", of_one);
}

static struct ww_acquire_ctx held[3];

static void *ends_soon(void *arg)
{
	usleep(5000);
	ww_acquire_fini(arg);
	return NULL;
}

/* No seat is made any more: there are those that were, for threads and for tasks, and whoever waits gets one that is given. */
static void by_the_first_ones(bool own_is_there)
{
	const struct ww_waker waker = { nobody_wakes, NULL, NULL };
	struct ww_seek seek = { 0 };
	struct ww_acquire_ctx x;
	unsigned most = own_is_there ? 3 : 2;

	MUST(begin_all(held, 3) == most);
	for (unsigned k = 0; k < most; k++) {
		pthread_t thread = begin_thread(ends_soon, &held[k]);

		MUST(!ww_acquire_init_until(&x, c, NULL));
		end_thread(thread);
		ww_acquire_fini(&x);
		MUST(begins(&held[k]));
	}
	MUST(ww_acquire_init_poll(&x, c, &seek, &waker) == -EINPROGRESS);
	end_all(held, most);
	MUST(!ww_acquire_init_poll(&x, c, &seek, &waker));
	MUST(ww_acquire_init_poll(&held[0], c, NULL, NULL) == -ETIMEDOUT);
	ww_acquire_fini(&x);
}

/* A class that says nothing opens with a seat for threads and one for tasks, which threads may have too. */
static void refuses_all_seats(void)
{
	struct ww_acquire_ctx all[SOME];

	MUST(!ww_class_limit(c, 4, 0) && !ww_class_open(c));
	refused_from = 0;
	by_the_first_ones(false);
	refused_from = LONG_MAX;
	MUST(begins(&all[0]) && all[0].own != c->pool->seats);
	ww_acquire_fini(&all[0]);
	refused_from = 0;
	by_the_first_ones(true);
	refused_from = LONG_MAX;
	MUST(begin_all(all, SOME) == SOME);
	end_all(all, SOME);
	MUST(!ww_class_free(c) && live == 1);
}

/* However many contexts a class may have, it opens with as many allocations. */
static void are_as_many(void)
{
	const uint32_t contexts[] = { 2, 16, 4094 };
	long first = 0;

	for (unsigned k = 0; k < sizeof contexts / sizeof *contexts; k++) {
		made = 0;
		MUST(!ww_class_limit(c, 100, contexts[k]) && !ww_class_open(c));
		first = k ? first : made;
		MUST(made == first && !ww_class_free(c));
	}
}

int main(void)
{
	struct ww_class *classes[] = { &wound_wait, &wait_die };

	nowhere = open("/dev/null", O_WRONLY);
	for (unsigned kind = 0; kind < 2; kind++) {
		c = classes[kind];
		for (unsigned way = 0; way < 3; way++) {
			MUST(!ww_class_limit(c, 100, 16));
			for (refused = 0;; refused++) {
				int r;

				made = 0;
				r = opens(way);
				if (!r)
					break;
				MUST(r == -ENOMEM && live <= 1 && keys <= 1 && !c->pool && !ww_class_free(c));
			}
			MUST(made == refused && live > 1);
			printf("%ld allocations to open a class, each refused in turn; none by the other calls, once it has its seats\n", made);
			refused = -1;
			uses_all();
			made = 0;
			uses_all();
			MUST(!made && !ww_class_free(c) && live == 1);
		}
		reads_all();
		refuses_each();
		refuses_all_seats();
		are_as_many();
	}
	return 0;
}
