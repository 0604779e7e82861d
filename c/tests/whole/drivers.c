/*
 * What code that was written for the kernel's mutexes uses besides the calls.
 *
 * By `base` Linux asserts that a mutex is held; and a mutex exists before any call, and gets its number at its first
 * lock.  Also which context holds a mutex, marks, and counts.
 */
#include "../mutex_test.h"
#include <stddef.h>
#include <sys/wait.h>

static DEFINE_WW_CLASS(wound_wait);
static DEFINE_WD_CLASS(wait_die);
static struct ww_class *c;

/* As in a kernel without lockdep: it evaluates its argument, and does nothing. */
#define lockdep_assert_held(lock) \
	do { \
		(void)(lock); \
	} while (0)

static void base_has_an_address(void)
{
	struct object {
		struct ww_mutex lock;
	} it, *object = &it;
	struct ww_mutex_base *base = &it.lock.base;

	ww_mutex_init(&it.lock, c);
	MUST(!ww_mutex_lock(&it.lock, NULL));
	lockdep_assert_held(&object->lock.base);
	MUST((void *)base == (void *)&it.lock && sizeof it.lock == 32);
	ww_mutex_unlock(&it.lock);
	MUST(!ww_mutex_destroy(&it.lock));
}

/* ---- WW_MUTEX_INIT ---- */

static struct ww_mutex of_wound_wait = WW_MUTEX_INIT(&wound_wait), of_wait_die = WW_MUTEX_INIT(&wait_die);

/* Each call may be the first one, also a destroy, which then takes no number back. */
static void first_call(unsigned by)
{
	struct ww_mutex m = WW_MUTEX_INIT(c), held = WW_MUTEX_INIT(c), *both[] = { &held, &m };
	struct ww_acquire_ctx x;
	struct timespec at = in_ms(0);

	MUST(!ww_mutex_is_locked(&m) && ww_mutex_unlock_checked(&m) == -EINVAL);
	ww_acquire_init(&x, c);
	MUST(!ww_mutex_lock(&held, &x));
	switch (by) {
	case 0: MUST(!ww_mutex_lock(&m, &x)); break;
	case 1: MUST(!ww_mutex_lock(&m, NULL)); break;
	case 2: MUST(!ww_mutex_lock_interruptible(&m, &x)); break;
	case 3: MUST(!ww_mutex_lock_until(&m, &x, &at)); break;
	case 4: MUST(!ww_mutex_lock_until(&m, NULL, &at)); break;
	case 5: MUST(ww_mutex_trylock(&m, &x)); break;
	case 6: MUST(ww_mutex_trylock(&m, NULL)); break;
	case 7: MUST(ww_mutex_lock_all(&x, both, 2) == -EALREADY && !ww_mutex_lock_all(&x, both + 1, 1)); break;
	case 8: MUST(ww_mutex_trylock_checked(&m, &x) == 1); break;
	case 9: MUST(ww_mutex_trylock_checked(&m, NULL) == 1); break;
	case 10: MUST(ww_mutex_lock_slow_checked(&m, &x) == -EINVAL); break;
	}
	MUST(ww_mutex_is_locked(&m) == (by < 10));
	if (by < 10)
		ww_mutex_unlock(&m);
	ww_mutex_unlock(&held);
	ww_acquire_fini(&x);
	/* As C++ ends one: it is as WW_MUTEX_INIT made it. */
	MUST(!ww_mutex_end_(&m) && !m.pool && m.class_ == c && !ww_mutex_lock(&m, NULL));
	ww_mutex_unlock(&m);
	MUST(!ww_mutex_destroy(&m) && ww_mutex_destroy(&m) == -EINVAL && !ww_mutex_destroy(&held));
}

enum { THREADS = 4, STATIC = 6, ROUNDS = 2000 };
static struct ww_mutex shared[STATIC];
static unsigned counts[STATIC];
static pthread_barrier_t begin, finish;

static void lock_one(struct ww_mutex *m, struct ww_acquire_ctx *x, unsigned by)
{
	if (by == 0)
		MUST(!ww_mutex_lock(m, NULL));
	else if (by == 1)
		MUST(!ww_mutex_lock(m, x));
	else if (by == 2)
		MUST(!ww_mutex_lock_all(x, &m, 1));
	else
		while (!ww_mutex_trylock(m, x))
			sched_yield();
}

static void *locks_first(void *arg)
{
	unsigned me = (unsigned)(size_t)arg;

	for (unsigned round = 0; round < ROUNDS; round++) {
		pthread_barrier_wait(&begin);
		for (unsigned k = 0; k < STATIC; k++) {
			unsigned at = (k + me / 2) % STATIC;
			struct ww_acquire_ctx x;

			ww_acquire_init(&x, c);
			lock_one(&shared[at], &x, (me + round) % 4);
			counts[at]++;
			ww_mutex_unlock(&shared[at]);
			ww_acquire_fini(&x);
		}
		pthread_barrier_wait(&finish);
	}
	return NULL;
}

/* Several threads lock a mutex first, all at once: it gets one number, and there are no more of these than mutexes. */
static void locked_first_by_several(void)
{
	pthread_t threads[THREADS];

	MUST(!ww_class_limit(c, STATIC, 2 * THREADS));
	pthread_barrier_init(&begin, NULL, THREADS + 1);
	pthread_barrier_init(&finish, NULL, THREADS + 1);
	for (size_t k = 0; k < THREADS; k++)
		threads[k] = begin_thread(locks_first, (void *)k);
	for (unsigned round = 0; round < ROUNDS; round++) {
		for (unsigned k = 0; k < STATIC; k++) {
			shared[k] = (struct ww_mutex)WW_MUTEX_INIT(c);
			counts[k] = 0;
		}
		pthread_barrier_wait(&begin);
		pthread_barrier_wait(&finish);
		for (unsigned k = 0; k < STATIC; k++) {
			MUST(counts[k] == THREADS && shared[k].number < 16 * STATIC);
			for (unsigned j = 0; j < k; j++)
				MUST(shared[j].number != shared[k].number);
		}
		for (unsigned k = 0; k < STATIC; k++)
			MUST(!ww_mutex_destroy(&shared[k]));
	}
	for (unsigned k = 0; k < THREADS; k++)
		end_thread(threads[k]);
	pthread_barrier_destroy(&begin);
	pthread_barrier_destroy(&finish);
	MUST(!ww_class_free(c));
}

int __real_pthread_mutex_lock(pthread_mutex_t *m);
int __wrap_pthread_mutex_lock(pthread_mutex_t *m);
static void (*just_then)(void);

int __wrap_pthread_mutex_lock(pthread_mutex_t *m)
{
	void (*now)(void) = just_then;

	if (now) {
		just_then = NULL;
		now();
	}
	return __real_pthread_mutex_lock(m);
}

static uint32_t given;

static void locks_it_in_a_loop(void)
{
	struct ww_acquire_ctx x;

	ww_acquire_init(&x, c);
	ww_until_all_locked(&x)
		MUST(!ww_mutex_lock(&shared[0], &x) && !ww_mutex_lock(&shared[1], &x));
	given = shared[0].number;
	ww_mutex_unlock(&shared[0]);
	ww_mutex_unlock(&shared[1]);
	ww_acquire_fini(&x);
}

/* It got its number just after this lock found none. */
static void locked_first_just_then(void)
{
	struct ww_acquire_ctx x;

	ww_acquire_init(&x, c);
	for (unsigned k = 0; k < 2; k++) {
		shared[0] = shared[1] = (struct ww_mutex)WW_MUTEX_INIT(c);
		just_then = locks_it_in_a_loop;
		MUST(!ww_mutex_lock(&shared[0], k ? &x : NULL) && !just_then && shared[0].number == given);
		ww_mutex_unlock(&shared[0]);
		MUST(!ww_mutex_destroy(&shared[0]) && !ww_mutex_destroy(&shared[1]));
	}
	ww_acquire_fini(&x);
}

/* Where all numbers are given a lock says so, and may succeed later. */
static void no_number_is_left(void)
{
	struct ww_mutex only, m = WW_MUTEX_INIT(c);
	struct ww_acquire_ctx x;

	MUST(!ww_class_limit(c, 1, 2));
	ww_mutex_init(&only, c);
	ww_acquire_init(&x, c);
	MUST(ww_mutex_lock(&m, &x) == -ENOSPC && ww_mutex_trylock_checked(&m, NULL) == -ENOSPC && ww_mutex_lock_interruptible(&m, NULL) == -ENOSPC && !x.acquired);
	MUST(!ww_mutex_destroy(&only) && !ww_mutex_lock(&m, &x));
	ww_mutex_unlock(&m);
	ww_acquire_fini(&x);
	MUST(!ww_mutex_destroy(&m) && !ww_class_free(c));
}

/* By each way to lock it first, and it may be destroyed then. */
static void locked_anew(struct ww_mutex m[4])
{
	struct timespec past = in_ms(0);
	struct ww_acquire_ctx x;

	ww_acquire_init(&x, c);
	MUST(!ww_mutex_lock(&m[0], &x) && ww_mutex_trylock(&m[1], &x) == 1 && !ww_mutex_lock_until(&m[2], &x, &past));
	for (unsigned k = 0; k < 3; k++) {
		MUST(ww_mutex_is_held_by(&m[k], &x));
		ww_mutex_unlock(&m[k]);
	}
	ww_acquire_fini(&x);
	MUST(ww_mutex_trylock(&m[3], NULL) == 1 && ww_mutex_is_held_by(&m[3], NULL));
	ww_mutex_unlock(&m[3]);
	for (unsigned k = 0; k < 4; k++)
		MUST(!ww_mutex_destroy(&m[k]));
}

/* It had its number before the fork, and its class was opened anew: it has to be made anew. */
static void is_made_anew(struct ww_mutex *m)
{
	struct timespec past = in_ms(0);
	struct ww_acquire_ctx x;

	ww_acquire_init(&x, c);
	MUST(ww_mutex_lock(m, &x) == -EINVAL && ww_mutex_lock_until(m, &x, &past) == -EINVAL && ww_mutex_trylock_checked(m, &x) == -EINVAL);
	MUST(ww_mutex_lock_interruptible(m, NULL) == -EINVAL && ww_mutex_lock_until(m, NULL, &past) == -EINVAL && !ww_mutex_trylock(m, NULL));
	ww_acquire_fini(&x);
	MUST(!ww_mutex_destroy(m));
	*m = (struct ww_mutex)WW_MUTEX_INIT(c);
}

/* The one before the last has no number yet; the last one is held, and waited for. */
static void child_of(struct ww_mutex m[7], struct ww_acquire_ctx *x)
{
	MUST(ww_mutex_lock(&m[5], x) == -EINVAL && ww_mutex_lock_interruptible(&m[5], NULL) == -EINVAL);
	MUST(ww_mutex_lock_interruptible(&m[0], NULL) == -EINVAL && !ww_mutex_trylock(&m[0], NULL));
	MUST(!ww_class_free(c) && !ww_mutex_lock(&m[5], NULL));
	ww_mutex_unlock(&m[5]);
	for (unsigned k = 0; k < 7; k++)
		if (k != 5)
			is_made_anew(&m[k]);
	locked_anew(m);
	MUST(!ww_mutex_lock(&m[6], NULL));
	ww_mutex_unlock(&m[6]);
	for (unsigned k = 4; k < 7; k++)
		MUST(!ww_mutex_destroy(&m[k]));
	MUST(!ww_class_free(c));
	_exit(0);
}

static void *waits_for(void *m)
{
	MUST(!ww_mutex_lock(m, NULL));
	ww_mutex_unlock(m);
	return NULL;
}

/*
 * A class that was open before has nothing for the child of a fork, until it is opened anew; and a mutex that had its number
 * nothing until it is made anew, whether it was held, or waited for, or neither.
 */
static void in_a_child(void)
{
	struct ww_mutex of_class = WW_MUTEX_INIT(c), m[7] = { of_class, of_class, of_class, of_class, of_class, of_class, of_class };
	struct ww_acquire_ctx x;
	pthread_t thread;
	int status;
	pid_t child;

	MUST(!ww_class_limit(c, 7, 4));
	for (unsigned k = 0; k < 5; k++) {
		MUST(!ww_mutex_lock(&m[k], NULL));
		ww_mutex_unlock(&m[k]);
	}
	MUST(!ww_mutex_lock(&m[6], NULL));
	thread = begin_thread(waits_for, &m[6]);
	awaits_waiter(&m[6]);
	ww_acquire_init(&x, c);
	child = fork();
	MUST(child >= 0);
	if (!child)
		child_of(m, &x);
	MUST(waitpid(child, &status, 0) == child && !status);
	MUST(!ww_mutex_lock(&m[5], &x));
	ww_mutex_unlock(&m[5]);
	ww_mutex_unlock(&m[6]);
	end_thread(thread);
	ww_acquire_fini(&x);
	for (unsigned k = 0; k < 7; k++)
		MUST(!ww_mutex_destroy(&m[k]));
	MUST(!ww_class_free(c));
}

static void there_before_any_call(struct ww_mutex *m)
{
	MUST(!c->pool && !ww_mutex_lock(m, NULL) && c->pool && ww_class_free(c) == -EBUSY);
	ww_mutex_unlock(m);
	MUST(!ww_mutex_destroy(m) && !ww_class_free(c));
}

/* ---- who holds it ---- */

static struct ww_mutex asked;
static bool has_it, may_release;

static void *holds_it(void *arg)
{
	(void)arg;
	MUST(!ww_mutex_is_held_by(&asked, NULL) && !ww_mutex_lock(&asked, NULL) && ww_mutex_is_held_by(&asked, NULL));
	__atomic_store_n(&has_it, true, __ATOMIC_SEQ_CST);
	while (!__atomic_load_n(&may_release, __ATOMIC_SEQ_CST))
		usleep(100);
	ww_mutex_unlock(&asked);
	MUST(!ww_mutex_is_held_by(&asked, NULL));
	return NULL;
}

/* The only seat was handed to another thread, which is through with it: it is loose. */
static void held_by_another_first(bool tries)
{
	struct ww_acquire_ctx x;
	pthread_t thread;

	MUST(!ww_class_limit(c, 1, 1));
	ww_mutex_init(&asked, c);
	ww_acquire_init(&x, c);
	may_release = true;
	thread = begin_thread(holds_it, NULL);
	awaits_waiter(&asked);
	ww_acquire_fini(&x);
	end_thread(thread);
	MUST(tries ? ww_mutex_trylock(&asked, NULL) : !ww_mutex_lock(&asked, NULL));
	MUST(ww_mutex_is_held_by(&asked, NULL));
	ww_mutex_unlock(&asked);
	MUST(!ww_mutex_destroy(&asked) && !ww_class_free(c));
}

/* By a seat that its thread keeps, and by one that was handed over. */
static void held_by_a_thread(void)
{
	struct ww_acquire_ctx x, y;

	MUST(!ww_class_limit(c, 1, 2));
	ww_mutex_init(&asked, c);
	ww_acquire_init(&x, c);
	ww_acquire_fini(&x);
	for (unsigned k = 0; k < 4; k++) {
		pthread_t thread;

		MUST(!ww_mutex_lock(&asked, NULL) && ww_mutex_is_held_by(&asked, NULL));
		ww_mutex_unlock(&asked);
		has_it = may_release = false;
		ww_acquire_init(&x, c);
		if (k > 1)
			ww_acquire_init(&y, c);
		thread = begin_thread(holds_it, NULL);
		if (k > 1) {
			awaits_waiter(&asked);
			ww_acquire_fini(&y);
		}
		while (!__atomic_load_n(&has_it, __ATOMIC_SEQ_CST))
			usleep(100);
		MUST(!ww_mutex_is_held_by(&asked, NULL) && !ww_mutex_is_held_by(&asked, &x) && ww_mutex_is_locked(&asked));
		__atomic_store_n(&may_release, true, __ATOMIC_SEQ_CST);
		end_thread(thread);
		MUST(!ww_mutex_lock(&asked, &x) && ww_mutex_is_held_by(&asked, &x));
		MUST(!ww_mutex_is_held_by(&asked, &y) && !ww_mutex_is_held_by(&asked, NULL));
		ww_mutex_unlock(&asked);
		MUST(!ww_mutex_is_held_by(&asked, &x));
		ww_acquire_fini(&x);
	}
	MUST(!ww_mutex_destroy(&asked) && !ww_class_free(c));
}

static void *leaves_it_held(void *arg)
{
	(void)arg;
	MUST(!ww_mutex_lock(&asked, NULL));
	return NULL;
}

/* Though it may have the memory of the one that is over, and has taken nothing yet. */
static void *holds_nothing(void *arg)
{
	(void)arg;
	MUST(!ww_mutex_is_held_by(&asked, NULL));
	return NULL;
}

static void held_by_a_thread_that_is_over(void)
{
	ww_mutex_init(&asked, c);
	MUST(!ww_mutex_lock(&asked, NULL));
	end_thread(begin_thread(holds_nothing, NULL));
	ww_mutex_unlock(&asked);
	end_thread(begin_thread(leaves_it_held, NULL));
	end_thread(begin_thread(holds_nothing, NULL));
	ww_mutex_unlock(&asked);
	MUST(!ww_mutex_destroy(&asked) && !ww_class_free(c));
}

/* ---- marks ---- */

enum { LIST = 6 };
static struct ww_mutex list[LIST];
static uint32_t released[LIST];
static unsigned releases;
int32_t __real_ww_unlock_(ww_handle *seat, uint32_t lock);
int32_t __wrap_ww_unlock_(ww_handle *seat, uint32_t lock);

int32_t __wrap_ww_unlock_(ww_handle *seat, uint32_t lock)
{
	int32_t r = __real_ww_unlock_(seat, lock);

	if (r == 0 && releases < LIST)
		released[releases++] = lock;
	return r;
}

/* Whether these were released, in this order, as digits of a number, and no other. */
static bool were_released(const char *digits)
{
	size_t count = strlen(digits);
	bool so = releases == count;

	for (size_t k = 0; k < count && so; k++)
		so = released[k] == list[digits[k] - '0'].number;
	releases = 0;
	return so;
}

static void lock_those(struct ww_acquire_ctx *x, unsigned from, unsigned to)
{
	for (unsigned k = from; k < to; k++)
		MUST(!ww_mutex_lock(&list[k], x));
}

/* What was acquired since a mark is released, the newest first; what came before isn't. */
static void rolls_back(void)
{
	struct ww_acquire_ctx x;
	size_t mark, earlier;

	for (unsigned k = 0; k < LIST; k++)
		ww_mutex_init(&list[k], c);
	ww_acquire_init(&x, c);
	ww_until_all_locked(&x) {
		releases = 0;
		lock_those(&x, 0, 1);
		earlier = ww_acquire_mark(&x);
		lock_those(&x, 1, 3);
		mark = ww_acquire_mark(&x);
		MUST(earlier == 1 && mark == 3);
		lock_those(&x, 3, 6);
		ww_acquire_unlock_to(&x, mark);
		MUST(were_released("543") && x.acquired == 3 && ww_mutex_is_held_by(&list[2], &x));
		ww_acquire_unlock_to(&x, mark);
		MUST(were_released(""));
		/* One that came since the mark was released among the others, and then one from before it. */
		lock_those(&x, 3, 6);
		ww_mutex_unlock(&list[4]);
		ww_acquire_unlock_to(&x, mark);
		MUST(were_released("453") && x.acquired == 3);
		lock_those(&x, 3, 6);
		ww_mutex_unlock(&list[1]);
		ww_acquire_unlock_to(&x, mark);
		MUST(were_released("154") && x.acquired == 3 && ww_mutex_is_held_by(&list[3], &x));
		ww_acquire_unlock_to(&x, earlier);
		MUST(were_released("32") && x.acquired == 1 && ww_mutex_is_held_by(&list[0], &x));
	}
	ww_acquire_unlock_to(&x, 0);
	MUST(were_released("0") && !x.acquired);
	ww_acquire_fini(&x);
	/* Without a loop nothing tells what was acquired. */
	ww_acquire_init(&x, c);
	lock_those(&x, 0, 2);
	releases = 0;
	ww_acquire_unlock_to(&x, 0);
	MUST(were_released("") && x.acquired == 2);
	ww_mutex_unlock(&list[0]);
	ww_mutex_unlock(&list[1]);
	ww_acquire_fini(&x);
	for (unsigned k = 0; k < LIST; k++)
		MUST(!ww_mutex_destroy(&list[k]));
}

/* The same body does the same after a back-off, when it has waited for the mutex of index 1 before it asks for it. */
static void rolls_back_what_it_owed(void)
{
	struct ww_acquire_ctx older, x;
	unsigned bodies = 0;

	for (unsigned k = 0; k < LIST; k++)
		ww_mutex_init(&list[k], c);
	ww_acquire_init(&older, c);
	MUST(!ww_mutex_lock(&list[1], &older));
	ww_acquire_init(&x, c);
	ww_until_all_locked(&x) {
		if (bodies++)
			ww_mutex_unlock(&list[1]);
		lock_those(&x, 0, 1);
		MUST(ww_acquire_mark(&x) == 1);
		ww_acquire_unlock_to(&x, 1);
		MUST(x.acquired == bodies);
		int r = ww_mutex_lock(&list[1], &x);
		ww_retry_on_contention(&x);
		MUST(!r && ww_acquire_mark(&x) == 2);
		ww_acquire_unlock_to(&x, 1);
		MUST(ww_mutex_is_held_by(&list[0], &x) && !ww_mutex_is_locked(&list[1]));
	}
	MUST(bodies == 2);
	ww_acquire_unlock_all(&x);
	ww_acquire_fini(&x);
	ww_acquire_fini(&older);
	for (unsigned k = 0; k < LIST; k++)
		MUST(!ww_mutex_destroy(&list[k]));
}

/* In a loop that got -EDEADLK: the mutex that it waited for first is released with what came since the mark. */
static void rolls_back_after_a_wait(void)
{
	struct ww_acquire_ctx older, x;
	unsigned bodies = 0;
	int r;

	for (unsigned k = 0; k < LIST; k++)
		ww_mutex_init(&list[k], c);
	ww_acquire_init(&older, c);
	MUST(!ww_mutex_lock(&list[2], &older));
	ww_acquire_init(&x, c);
	ww_until_all_locked(&x) {
		if (bodies++)
			ww_mutex_unlock(&list[2]);
		MUST(!ww_acquire_mark(&x));
		lock_those(&x, 0, 1);
		r = bodies == 1 ? ww_mutex_lock(&list[2], &x) : 0;
		ww_retry_on_contention(&x);
		MUST(!r && x.acquired == 2 && ww_mutex_is_held_by(&list[2], &x));
		ww_acquire_unlock_to(&x, 0);
		MUST(!x.acquired && !ww_mutex_is_locked(&list[2]));
		lock_those(&x, 1, 3);
		MUST(x.acquired == 2);
	}
	MUST(bodies == 2);
	ww_acquire_unlock_all(&x);
	ww_acquire_fini(&x);
	ww_acquire_fini(&older);
	for (unsigned k = 0; k < LIST; k++)
		MUST(!ww_mutex_destroy(&list[k]));
}

/* ---- counts ---- */

static bool are_counted(uint64_t back_offs, uint64_t context_waits)
{
	struct ww_class_counts s;

	memset(&s, 255, sizeof s);
	ww_class_stats(c, &s);
	MUST(s.context_waiters <= context_waits);
	return s.back_offs == back_offs && s.context_waits == context_waits;
}

static uint64_t lock_waits(void)
{
	struct ww_class_counts s;

	ww_class_stats(c, &s);
	return s.lock_waits;
}

static struct ww_acquire_ctx waiting;

static void *waits_for_it(void *arg)
{
	(void)arg;
	MUST(!ww_mutex_lock(&asked, &waiting));
	ww_mutex_unlock(&asked);
	return NULL;
}

static void *waits_for_a_context(void *arg)
{
	struct ww_acquire_ctx x;

	(void)arg;
	ww_acquire_init(&x, c);
	ww_acquire_fini(&x);
	return NULL;
}

/* Nothing is counted where nobody waits. */
static void without_contention(void)
{
	struct ww_mutex *locks[] = { &list[0], &list[1] };
	struct ww_acquire_ctx x;

	for (unsigned k = 0; k < 3; k++) {
		ww_acquire_init(&x, c);
		MUST(!ww_mutex_lock_all(&x, locks, 2) && !ww_mutex_trylock(&list[0], NULL));
		MUST(ww_mutex_lock(&list[0], &x) == -EALREADY);
		ww_mutex_unlock(&list[0]);
		ww_mutex_unlock(&list[1]);
		ww_acquire_fini(&x);
		MUST(!ww_mutex_lock(&list[0], NULL));
		ww_mutex_unlock(&list[0]);
	}
	MUST(are_counted(0, 0) && !lock_waits());
}

/* One waits, for another that gets -EDEADLK; that may take it more than a step, too. */
static void with_contention(struct ww_acquire_ctx *younger)
{
	pthread_t thread;

	MUST(!ww_mutex_lock(&asked, younger) && !ww_mutex_lock(&list[0], &waiting));
	thread = begin_thread(waits_for_it, NULL);
	awaits_waiter(&asked);
	MUST(are_counted(0, 0) && lock_waits() == 1);
	MUST(ww_mutex_lock(&list[0], younger) == -EDEADLK && are_counted(1, 0));
	ww_mutex_unlock(&asked);
	end_thread(thread);
	ww_mutex_unlock(&list[0]);
	MUST(are_counted(1, 0) && lock_waits() - 1 <= 1);
}

static void are_right(void)
{
	struct ww_acquire_ctx younger, none;
	struct timespec past = in_ms(0);
	pthread_t thread;

	MUST(are_counted(0, 0) && !lock_waits() && !ww_class_limit(c, 3, 2));
	ww_mutex_init(&asked, c);
	ww_mutex_init(&list[0], c);
	ww_mutex_init(&list[1], c);
	without_contention();
	ww_acquire_init(&waiting, c);
	ww_acquire_init(&younger, c);
	with_contention(&younger);
	memset(&none, 0xff, sizeof none);
	MUST(ww_acquire_init_until(&none, c, &past) == -ETIMEDOUT && are_counted(1, 1));
	MUST(ww_acquire_fini_checked(&none) == -EINVAL && ww_mutex_lock(&asked, &none) == -EINVAL);
	thread = begin_thread(waits_for_a_context, NULL);
	while (are_counted(1, 1))
		usleep(100);
	ww_acquire_fini(&younger);
	end_thread(thread);
	MUST(are_counted(1, 2));
	ww_acquire_fini(&waiting);
	MUST(!ww_mutex_destroy(&asked) && !ww_mutex_destroy(&list[0]) && !ww_mutex_destroy(&list[1]));
	MUST(!ww_class_free(c) && are_counted(0, 0) && !lock_waits());
	MUST(!ww_class_open(c) && are_counted(0, 0) && !lock_waits() && !ww_class_free(c));
}

int main(void)
{
	struct ww_class *classes[] = { &wound_wait, &wait_die };

	for (unsigned kind = 0; kind < 2; kind++) {
		c = classes[kind];
		there_before_any_call(kind ? &of_wait_die : &of_wound_wait);
		base_has_an_address();
		for (unsigned by = 0; by < 11; by++)
			first_call(by);
		locked_first_just_then();
		rolls_back();
		if (c == &wait_die) {
			rolls_back_after_a_wait();
			rolls_back_what_it_owed();
		}
		MUST(!ww_class_free(c));
		held_by_another_first(false);
		held_by_another_first(true);
		held_by_a_thread();
		held_by_a_thread_that_is_over();
		are_right();
		no_number_is_left();
		in_a_child();
		locked_first_by_several();
	}
	puts("drivers: what the kernel's callers ask for");
	return 0;
}
