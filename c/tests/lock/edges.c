/*
 * Edges of ww_mutex.h: after a back-off, at a destroy, of times, in a child, of a class that isn't freed.
 *
 * What a context in a loop may do after a back-off, when a mutex may be destroyed and freed, times that are invalid, a
 * forked child, and a class that isn't freed.  The step that releases a lock comes by a wrapper (ld --wrap).
 */
#include "../mutex_test.h"
#include <signal.h>
#include <sys/wait.h>

static DEFINE_WD_CLASS(wait_die);
static struct ww_mutex a, b, d;
static struct ww_acquire_ctx older, x;

/* ---- a loop, told at `a` with `b` held, which has backed off ---- */

static void begins(void)
{
	ww_mutex_init(&a, &wait_die);
	ww_mutex_init(&b, &wait_die);
	ww_mutex_init(&d, &wait_die);
	ww_acquire_init(&older, &wait_die);
	ww_acquire_init(&x, &wait_die);
	MUST(!ww_mutex_lock(&a, &older));
}

static void ends(void)
{
	ww_acquire_unlock_all(&x);
	MUST(!x.acquired && !ww_is_contended(&x));
	ww_acquire_fini(&x);
	ww_acquire_fini(&older);
	MUST(!ww_mutex_destroy(&a) && !ww_mutex_destroy(&b) && !ww_mutex_destroy(&d));
}

/* In its second body, where nothing is held and the next lock call waits for `a` first. */
static void in_second_body(void (*what)(void))
{
	unsigned bodies = 0;

	begins();
	ww_until_all_locked(&x) {
		MUST(++bodies < 4);
		if (bodies == 2) {
			what();
			break;
		}
		MUST(!ww_mutex_lock(&b, &x) && ww_mutex_lock(&a, &x) == -EDEADLK && ww_is_contended(&x));
		ww_retry_on_contention(&x);
	}
	MUST(bodies == 2);
	ends();
}

static void tries_first(void)
{
	MUST(ww_mutex_trylock(&d, &x) && !ww_mutex_trylock(&a, &x));
	MUST(!ww_mutex_lock(&b, &x) && x.acquired == 2 && ww_mutex_lock(&b, &x) == -EALREADY);
	ww_mutex_unlock(&a);
	MUST(!ww_mutex_lock(&a, &x) && ww_mutex_lock(&a, &x) == -EALREADY);
}

static void tries_in_vain_first(void)
{
	MUST(!ww_mutex_trylock(&a, &x));
	ww_mutex_unlock(&a);
	MUST(!ww_mutex_lock(&b, &x) && x.acquired == 2);
	MUST(ww_mutex_trylock(&a, &x) && !ww_mutex_trylock(&a, &x) && x.acquired == 2);
}

static void locks_slowly_first(void)
{
	MUST(ww_mutex_lock_slow_checked(&b, &x) == -EINVAL);
	ww_mutex_unlock(&a);
	ww_mutex_lock_slow(&a, &x);
	MUST(x.acquired == 1 && ww_mutex_lock(&a, &x) == -EALREADY && !ww_mutex_lock(&b, &x));
}

static void locks_that_first(void)
{
	ww_mutex_unlock(&a);
	MUST(!ww_mutex_lock(&a, &x) && x.acquired == 1 && ww_mutex_lock(&a, &x) == -EALREADY);
}

/* What was waited for, and released before its own call came, is a mutex like others. */
static void releases_what_came_first(void)
{
	ww_mutex_unlock(&a);
	MUST(!ww_mutex_lock(&b, &x) && x.acquired == 2);
	ww_mutex_unlock(&a);
	MUST(!ww_mutex_lock(&a, &x) && ww_mutex_lock(&a, &x) == -EALREADY);
}

static void has_a_time(void)
{
	struct timespec soon = in_ms(5);

	MUST(ww_mutex_lock_until(&b, &x, &soon) == -ETIMEDOUT && !x.acquired);
	MUST(ww_mutex_lock_until(&a, &x, &soon) == -ETIMEDOUT && !x.acquired);
	MUST(!ww_acquire_cancel(&x) && ww_mutex_lock_interruptible(&b, &x) == -EINTR && !x.acquired);
	ww_mutex_unlock(&a);
	MUST(!ww_mutex_lock_interruptible(&b, &x) && x.acquired == 2);
}

/* A list is locked in a loop as by one call after another. */
static void locks_all(void)
{
	struct ww_mutex *list[] = { &b, &a, &d };

	ww_mutex_unlock(&a);
	MUST(!ww_mutex_lock_all(&x, list, 3) && x.acquired == 3);
}

/* As the kernel's documents write it, inside a loop: so the loop has nothing more to do. */
static void backs_off_by_hand(void)
{
	unsigned bodies = 0;

	begins();
	ww_until_all_locked(&x) {
		bodies++;
		MUST(!ww_mutex_lock(&b, &x) && ww_mutex_lock(&a, &x) == -EDEADLK);
		MUST(ww_mutex_lock(&d, &x) == -EINVAL && ww_is_contended(&x));
		ww_mutex_unlock(&b);
		ww_mutex_unlock(&a);
		ww_mutex_lock_slow(&a, &x);
		MUST(!ww_is_contended(&x) && !ww_mutex_lock(&b, &x));
		ww_retry_on_contention(&x);
	}
	MUST(bodies == 1 && x.acquired == 2);
	ends();
}

static void *lets_go(void *arg)
{
	(void)arg;
	usleep(20000);
	ww_mutex_unlock(&a);
	return NULL;
}

/* It backs off by itself where nothing was held, and else releases what it took. */
static void all_of_a_list(void)
{
	struct ww_mutex *list[] = { &b, &a };
	pthread_t thread;

	begins();
	MUST(!ww_mutex_lock(&d, &x));
	MUST(ww_mutex_lock_all(&x, list, 2) == -EDEADLK && x.acquired == 1 && !ww_mutex_is_locked(&b));
	ww_mutex_unlock(&d);
	thread = begin_thread(lets_go, NULL);
	MUST(!ww_mutex_lock_all(&x, list, 2) && x.acquired == 2);
	end_thread(thread);
	ww_mutex_unlock(&b);
	ww_mutex_unlock(&a);
	ends();
}

static void cleans(unsigned **live) { (**live)--; }

/* Where the body ends by `continue` it is tried again as well, and what it made is cleaned up. */
static void goes_on_by_continue(void)
{
	static unsigned live;
	unsigned bodies = 0;

	begins();
	ww_until_all_locked(&x) {
		__attribute__((cleanup(cleans))) unsigned *one = &live;

		(*one)++;
		if (++bodies == 2)
			ww_mutex_unlock(&a);
		MUST(live == 1 && !ww_mutex_lock(&b, &x));
		MUST(ww_mutex_lock(&a, &x) == (bodies == 1 ? -EDEADLK : 0));
		if (ww_is_contended(&x))
			continue;
		MUST(bodies == 2 && x.acquired == 2);
	}
	MUST(!live && bodies == 2);
	ends();
}

/* What is found under `b`. */
static struct child {
	struct ww_mutex lock;
	unsigned references;
} *child;

static void drop(struct child *it)
{
	if (--it->references)
		return;
	MUST(!ww_mutex_destroy(&it->lock));
	free(it);
}

static void takes_child_out(struct child *it)
{
	MUST(!ww_mutex_lock(&b, &older));
	child = NULL;
	ww_mutex_unlock(&b);
	ww_mutex_unlock(&it->lock);
	drop(it);
}

/* The contended mutex is taken out before the body begins again: it waits for that one all the same, which a reference keeps. */
static void waits_for_what_is_out(void)
{
	struct child *kept = NULL;
	int err = 0;

	begins();
	child = calloc(1, sizeof *child);
	MUST(child);
	child->references = 1;
	ww_mutex_init(&child->lock, &wait_die);
	MUST(!ww_mutex_lock(&child->lock, &older));
	ww_until_all_locked(&x) {
		if (kept)
			takes_child_out(kept);
		MUST(!ww_mutex_lock(&b, &x));
		if (child)
			err = ww_mutex_lock(&child->lock, &x);
		if (ww_is_contended(&x)) {
			kept = child;
			kept->references++;
		}
		ww_retry_on_contention(&x);
	}
	MUST(err == -EDEADLK && kept && !child && x.acquired == 2);
	ww_acquire_unlock_all(&x);
	drop(kept);
	ww_mutex_unlock(&a);
	ends();
}

/* ---- the end of a mutex ---- */

static DEFINE_WW_CLASS(few);
static DEFINE_WW_CLASS(one);
static struct ww_mutex *shared;
static bool holds, got;
static unsigned way;
enum { ROUNDS = 3000, WAYS = 3 };

static void *uses(void *arg)
{
	(void)arg;
	for (unsigned k = 0; k < ROUNDS; k++) {
		struct ww_acquire_ctx y;
		struct ww_mutex *m;

		while (!(m = __atomic_load_n(&shared, __ATOMIC_SEQ_CST)))
			sched_yield();
		if (way < 2)
			ww_acquire_init(&y, &few);
		if (way == 1) {
			ww_until_all_locked(&y)
				MUST(!ww_mutex_lock(m, &y));
		} else {
			MUST(!ww_mutex_lock(m, way == 0 ? &y : NULL));
		}
		__atomic_store_n(&holds, true, __ATOMIC_SEQ_CST);
		ww_mutex_unlock(m);
		if (way < 2)
			ww_acquire_fini(&y);
		while (__atomic_load_n(&holds, __ATOMIC_SEQ_CST))
			sched_yield();
	}
	return NULL;
}

/* Asked until nobody holds it, and then freed immediately: the thread that released it is through with it. */
static void is_freed_at_once(void)
{
	pthread_t thread = begin_thread(uses, NULL);

	for (unsigned k = 0; k < ROUNDS; k++) {
		struct ww_mutex *m = malloc(sizeof *m);

		MUST(m);
		ww_mutex_init(m, &few);
		__atomic_store_n(&shared, m, __ATOMIC_SEQ_CST);
		while (!__atomic_load_n(&holds, __ATOMIC_SEQ_CST))
			sched_yield();
		__atomic_store_n(&shared, NULL, __ATOMIC_SEQ_CST);
		while (ww_mutex_destroy(m) == -EBUSY)
			sched_yield();
		memset(m, 0xff, sizeof *m);
		free(m);
		__atomic_store_n(&holds, false, __ATOMIC_SEQ_CST);
	}
	end_thread(thread);
}

int32_t __real_ww_unlock_(ww_handle *seat, uint32_t lock);
int32_t __wrap_ww_unlock_(ww_handle *seat, uint32_t lock);
static __thread struct ww_mutex *freed_then;

/* Until the release nobody can destroy the mutex; right behind it another thread could, and free it. */
int32_t __wrap_ww_unlock_(ww_handle *seat, uint32_t lock)
{
	struct ww_mutex *m = freed_then;
	int32_t r;

	freed_then = NULL;
	if (m)
		MUST(ww_mutex_destroy(m) == -EBUSY);
	r = __real_ww_unlock_(seat, lock);
	if (m && r == 0) {
		MUST(!ww_mutex_destroy(m));
		memset(m, 0xff, sizeof *m);
		free(m);
	} else {
		freed_then = m;
	}
	return r;
}

enum unlock { BY_CONTEXT, BY_CONTEXT_CHECKED, IN_A_LOOP, OLDER_IN_A_LOOP, ALL_OF_A_LOOP, ALONE, UNLOCKS };

static void unlock_is_through(enum unlock how)
{
	struct ww_mutex *m = malloc(sizeof *m);

	MUST(m);
	ww_mutex_init(m, &few);
	ww_mutex_init(&a, &few);
	ww_acquire_init(&x, &few);
	if (how == BY_CONTEXT || how == BY_CONTEXT_CHECKED || how == ALONE)
		MUST(!ww_mutex_lock(m, how == ALONE ? NULL : &x));
	else
		ww_until_all_locked(&x) {
			MUST(!ww_mutex_lock(m, &x));
			if (how == OLDER_IN_A_LOOP)
				MUST(!ww_mutex_lock(&a, &x));
		}
	freed_then = m;
	if (how == BY_CONTEXT_CHECKED)
		MUST(!ww_mutex_unlock_checked(m));
	else if (how == ALL_OF_A_LOOP)
		ww_acquire_unlock_all(&x);
	else
		ww_mutex_unlock(m);
	MUST(!freed_then);
	ww_acquire_unlock_all(&x);
	ww_acquire_fini(&x);
	MUST(!ww_mutex_destroy(&a));
}

static void *gets(void *m)
{
	MUST(!ww_mutex_lock(m, NULL));
	__atomic_store_n(&got, true, __ATOMIC_SEQ_CST);
	ww_mutex_unlock(m);
	return NULL;
}

/* With the only context in use a thread waits for that first: it waits for the mutex all the same, until it has it. */
static void waits_for_a_context(void)
{
	for (unsigned k = 0; k < 300; k++) {
		struct ww_mutex m;
		pthread_t thread;

		got = false;
		ww_mutex_init(&m, &one);
		ww_acquire_init(&x, &one);
		thread = begin_thread(gets, &m);
		while (!__atomic_load_n(&m.waiters, __ATOMIC_SEQ_CST))
			sched_yield();
		MUST(ww_mutex_destroy(&m) == -EBUSY);
		ww_acquire_fini(&x);
		while (ww_mutex_destroy(&m) == -EBUSY)
			;
		MUST(__atomic_load_n(&got, __ATOMIC_SEQ_CST));
		end_thread(thread);
	}
}

/* ---- times ---- */

static void times(void)
{
	struct timespec now = in_ms(0);

	ww_mutex_init(&a, &few);
	MUST(!ww_mutex_lock(&a, NULL));
	for (unsigned k = 0; k < 3; k++) {
		struct timespec at = { now.tv_sec + 100, k == 0 ? -1 : k == 1 ? 1000000000 : (long)(~0ul >> 1) };

		MUST(ww_mutex_lock_until(&a, NULL, &at) == -EINVAL);
	}
	ww_mutex_unlock(&a);
	MUST(!ww_mutex_destroy(&a));
}

/* ---- a forked child ---- */

static pthread_barrier_t there;

static void *keeps(void *arg)
{
	struct ww_acquire_ctx y;

	(void)arg;
	ww_acquire_init(&y, &few);
	MUST(!ww_mutex_lock(&a, &y));
	pthread_barrier_wait(&there);
	pthread_barrier_wait(&there);
	ww_mutex_unlock(&a);
	ww_acquire_fini(&y);
	return NULL;
}

/*
 * What it would wait for isn't there, so its context acquires nothing more, and may release what it holds.  What the proved
 * library has of its seat nobody else writes.  And it gets no number of a mutex that it destroyed.
 */
static void in_child(void)
{
	struct ww_mutex *list[] = { &a };

	MUST(ww_mutex_lock(&a, &x) == -EINVAL && ww_mutex_lock(&a, &x) == -EINVAL && !ww_mutex_trylock(&d, &x));
	MUST(ww_mutex_lock_all(&x, list, 1) == -EINVAL && ww_mutex_lock_slow_checked(&a, &x) == -EINVAL);
	MUST(x.own->handle.at && ww_held_(&x.own->handle) == 1);
	ww_mutex_unlock(&b);
	ww_acquire_fini(&x);
	MUST(!ww_mutex_destroy(&d) && ww_mutex_init_checked(&d, &few) == -EINVAL);
	MUST(ww_acquire_init_checked(&x, &few) == -EINVAL && !ww_class_free(&few));
	ww_mutex_init(&d, &few);
	ww_acquire_init(&x, &few);
	MUST(!ww_mutex_lock(&d, &x));
	ww_mutex_unlock(&d);
	ww_acquire_fini(&x);
	MUST(!ww_mutex_destroy(&d) && !ww_class_free(&few));
	_exit(0);
}

static void forks(bool amid_a_loop)
{
	pthread_t thread;
	pid_t child;
	int status;

	MUST(!pthread_barrier_init(&there, NULL, 2));
	ww_mutex_init(&a, &few);
	ww_mutex_init(&b, &few);
	ww_mutex_init(&d, &few);
	ww_acquire_init(&x, &few);
	if (amid_a_loop) {
		ww_until_all_locked(&x)
			MUST(!ww_mutex_lock(&b, &x));
	} else {
		MUST(!ww_mutex_lock(&b, &x));
	}
	thread = begin_thread(keeps, NULL);
	pthread_barrier_wait(&there);
	MUST((child = fork()) >= 0);
	if (!child)
		in_child();
	MUST(waitpid(child, &status, 0) == child && !status);
	pthread_barrier_wait(&there);
	end_thread(thread);
	ww_mutex_unlock(&b);
	ww_acquire_fini(&x);
	MUST(!ww_mutex_destroy(&a) && !ww_mutex_destroy(&b) && !ww_mutex_destroy(&d));
}

/* Of a thread that had just ended a context, and would begin the next one by the same seat: the child can't if there is another. */
static void forks_with_a_seat_at_hand(bool has_another)
{
	struct ww_acquire_ctx y;
	pid_t child;
	int status;

	ww_acquire_init(&x, &few);
	if (has_another)
		ww_acquire_init(&y, &few);
	ww_acquire_fini(&x);
	MUST((child = fork()) >= 0);
	if (!child)
		_exit(ww_acquire_init_checked(&x, &few) != (has_another ? -EINVAL : 0));
	MUST(waitpid(child, &status, 0) == child && !status);
	if (has_another)
		ww_acquire_fini(&y);
}

/* ---- a class that isn't freed ---- */

static bool over;
static unsigned long begun;

static void *begins_and_ends(void *arg)
{
	(void)arg;
	while (!__atomic_load_n(&over, __ATOMIC_RELAXED)) {
		struct ww_acquire_ctx y;

		ww_acquire_init(&y, &few);
		ww_acquire_fini(&y);
		__atomic_fetch_add(&begun, 1, __ATOMIC_RELAXED);
	}
	return NULL;
}

/* While it asks whether nobody uses the class it has seats for a moment, for which others may wait. */
static void isnt_freed(void)
{
	pthread_t threads[2];

	ww_acquire_init(&x, &few);
	for (unsigned k = 0; k < 2; k++)
		threads[k] = begin_thread(begins_and_ends, NULL);
	for (unsigned k = 0; k < 20; k++) {
		unsigned long was;

		for (unsigned i = 0; i < 1000; i++)
			MUST(ww_class_free(&few) == -EBUSY);
		was = __atomic_load_n(&begun, __ATOMIC_RELAXED);
		for (unsigned i = 0; __atomic_load_n(&begun, __ATOMIC_RELAXED) == was; i++) {
			MUST(i < 10000);
			usleep(1000);
		}
	}
	__atomic_store_n(&over, true, __ATOMIC_RELAXED);
	for (unsigned k = 0; k < 2; k++)
		end_thread(threads[k]);
	ww_acquire_fini(&x);
}

/* ---- copies ---- */

static void is_overwritten(void)
{
	volatile char there[400];

	for (unsigned k = 0; k < sizeof there; k++)
		there[k] = 0x5a;
}

/* Which releases what the mutex itself still says is held, by a context that is gone then. */
static __attribute__((noinline)) void unlocks_a_copy(struct ww_mutex *m)
{
	struct ww_acquire_ctx x;
	struct ww_mutex copy;

	ww_acquire_init(&x, &few);
	MUST(!ww_mutex_lock(m, &x));
	copy = *m;
	ww_mutex_unlock(&copy);
	MUST(!ww_mutex_is_locked(m) && !ww_mutex_is_held_by(m, &x));
	ww_acquire_fini(&x);
}

/* No call that is right fails by it. */
static void a_copy_is_unlocked(void)
{
	struct ww_acquire_ctx y;
	struct ww_mutex m, copy;

	for (unsigned way = 0; way < 5; way++) {
		ww_mutex_init(&m, &few);
		unlocks_a_copy(&m);
		is_overwritten();
		MUST(!ww_mutex_is_locked(&m));
		ww_acquire_init(&y, &few);
		switch (way) {
		case 0: ww_mutex_lock(&m, NULL); ww_mutex_unlock(&m); break;
		case 1: MUST(ww_mutex_trylock(&m, NULL) && ww_mutex_is_held_by(&m, NULL)); ww_mutex_unlock(&m); break;
		case 2: MUST(!ww_mutex_lock(&m, &y)); ww_mutex_unlock(&m); break;
		case 3: MUST(ww_mutex_trylock(&m, &y)); ww_mutex_unlock(&m); break;
		default:;
		}
		ww_acquire_fini(&y);
		MUST(!ww_mutex_is_locked(&m) && !ww_mutex_destroy(&m));
	}
	ww_mutex_init(&m, &few);
	ww_mutex_lock(&m, NULL);
	copy = m;
	ww_mutex_unlock(&copy);
	MUST(!ww_mutex_is_locked(&m) && !ww_mutex_is_held_by(&m, NULL) && !ww_mutex_destroy(&m));
}

int main(void)
{
	void (*const firsts[])(void) = { tries_first, tries_in_vain_first, locks_slowly_first, locks_that_first,
					 releases_what_came_first, has_a_time, locks_all };

	MUST(ww_class_limit(&wait_die, 8, WW_MAX_SEATS) == -EINVAL && !ww_class_limit(&wait_die, 8, 2));
	MUST(!ww_class_limit(&few, 8, 3) && !ww_class_limit(&one, 2, 1));
	for (unsigned k = 0; k < sizeof firsts / sizeof *firsts; k++)
		in_second_body(firsts[k]);
	backs_off_by_hand();
	all_of_a_list();
	goes_on_by_continue();
	waits_for_what_is_out();
	for (way = 0; way < WAYS; way++)
		is_freed_at_once();
	for (unsigned how = 0; how < UNLOCKS; how++)
		unlock_is_through((enum unlock)how);
	waits_for_a_context();
	times();
	forks(false);
	forks(true);
	forks_with_a_seat_at_hand(true);
	forks_with_a_seat_at_hand(false);
	isnt_freed();
	a_copy_is_unlocked();
	MUST(!ww_class_free(&wait_die) && !ww_class_free(&few) && !ww_class_free(&one));
	puts("edges: loops, ends and children");
	return 0;
}
