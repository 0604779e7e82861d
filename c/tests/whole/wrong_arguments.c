/*
 * Each lock call of ww_mutex.h, ww_poll.h and ww_shared.h with each argument that is wrong.
 *
 * What it returns, that nothing has changed, and over the debug library that this says why.  A call that a wrong
 * argument isn't for succeeds.
 */
#include "../mutex_test.h"
#include "ww_shared.h"

static DEFINE_WD_CLASS(c);
static DEFINE_WW_CLASS(other);
static DEFINE_WW_CLASS(full);
static struct ww_shared_mutex all[6] = { [5] = WW_SHARED_MUTEX_INIT(&full) };
static struct ww_mutex *const a = &all[0].mutex_, *const b = &all[1].mutex_, *const its = &all[2].mutex_;
static struct ww_mutex *const destroyed = &all[3].mutex_, *const zeros = &all[4].mutex_, *const last = &all[5].mutex_;
static struct ww_acquire_ctx x, older;
static const struct timespec past;
static const struct timespec *until = &past;

/* ---- the calls ---- */

static void never(void *loop, void *task) { MUST(loop == task && !loop); }
static const struct ww_waker waker = { never, &x, NULL };

/* As they are compiled into callers, and the library's own. */
static __typeof__(ww_mutex_lock) *volatile lock_of = ww_mutex_lock;

static int locks(struct ww_mutex *m, struct ww_acquire_ctx *y) { return ww_mutex_lock(m, y); }
static int locks_by_call(struct ww_mutex *m, struct ww_acquire_ctx *y) { return lock_of(m, y); }
static int locks_until(struct ww_mutex *m, struct ww_acquire_ctx *y) { return ww_mutex_lock_until(m, y, until); }
static int slowly_until(struct ww_mutex *m, struct ww_acquire_ctx *y) { return ww_mutex_lock_slow_until(m, y, until); }
static int lists(struct ww_mutex *m, struct ww_acquire_ctx *y) { return ww_mutex_lock_all(y, &m, 1); }
static int polls(struct ww_mutex *m, struct ww_acquire_ctx *y) { return ww_mutex_lock_poll(m, y, &waker); }
static int ends_poll(struct ww_mutex *m, struct ww_acquire_ctx *y) { return ww_mutex_lock_poll(m, y, NULL); }

static struct ww_shared_mutex *shared(struct ww_mutex *m) { return (struct ww_shared_mutex *)(void *)m; }
static int reads(struct ww_mutex *m, struct ww_acquire_ctx *y) { return ww_shared_mutex_lock_shared(shared(m), y); }
static int reads_until(struct ww_mutex *m, struct ww_acquire_ctx *y) { return ww_shared_mutex_lock_shared_until(shared(m), y, until); }
static int tries_to_read(struct ww_mutex *m, struct ww_acquire_ctx *y) { return ww_shared_mutex_trylock_shared(shared(m), y); }
static int writes(struct ww_mutex *m, struct ww_acquire_ctx *y) { return ww_shared_mutex_lock(shared(m), y); }
static int writes_until(struct ww_mutex *m, struct ww_acquire_ctx *y) { return ww_shared_mutex_lock_until(shared(m), y, until); }
static int tries_to_write(struct ww_mutex *m, struct ww_acquire_ctx *y) { return ww_shared_mutex_trylock(shared(m), y); }
static int polls_to_read(struct ww_mutex *m, struct ww_acquire_ctx *y) { return ww_shared_mutex_lock_shared_poll(shared(m), y, &waker); }
static int polls_to_write(struct ww_mutex *m, struct ww_acquire_ctx *y) { return ww_shared_mutex_lock_poll(shared(m), y, &waker); }

enum { MAY_BE_ALONE = 1, HAS_TIME = 2, SLOW = 4, TRIES = 8, ENDS = 32, READS = 64, SAYS_NO = 128 };
static const struct call {
	const char *name;
	int (*make)(struct ww_mutex *m, struct ww_acquire_ctx *y);
	unsigned is; /* ENDS: by NULL it would end the program; SAYS_NO: it returns 0 for any error */
} calls[] = {
	{ "ww_mutex_lock", locks, ENDS },
	{ "ww_mutex_lock, by a call", locks_by_call, ENDS },
	{ "ww_mutex_lock_interruptible", ww_mutex_lock_interruptible, MAY_BE_ALONE },
	{ "ww_mutex_lock_until", locks_until, MAY_BE_ALONE | HAS_TIME },
	{ "ww_mutex_lock_slow_checked", ww_mutex_lock_slow_checked, SLOW },
	{ "ww_mutex_lock_slow_interruptible", ww_mutex_lock_slow_interruptible, SLOW },
	{ "ww_mutex_lock_slow_until", slowly_until, SLOW | HAS_TIME },
	{ "ww_mutex_trylock_checked", ww_mutex_trylock_checked, MAY_BE_ALONE | TRIES },
	{ "ww_mutex_lock_all", lists, 0 },
	{ "ww_mutex_lock_poll", polls, 0 },
	{ "ww_mutex_lock_poll without a waker", ends_poll, 0 },
	{ "ww_shared_mutex_lock_shared", reads, READS },
	{ "ww_shared_mutex_lock_shared_until", reads_until, READS | HAS_TIME },
	{ "ww_shared_mutex_trylock_shared", tries_to_read, READS | TRIES | SAYS_NO },
	{ "ww_shared_mutex_lock", writes, 0 },
	{ "ww_shared_mutex_lock_until", writes_until, HAS_TIME },
	{ "ww_shared_mutex_trylock", tries_to_write, TRIES | SAYS_NO },
	{ "ww_shared_mutex_lock_shared_poll", polls_to_read, READS },
	{ "ww_shared_mutex_lock_poll", polls_to_write, 0 },
};
enum { CALLS = sizeof calls / sizeof *calls };

/* ---- what they have to say ---- */

static const char *what;

static unsigned long told(void)
{
#ifdef WW_DEBUG
	return ww_debug_faults();
#else
	return 0;
#endif
}

/* It returns this, and as a misuse it is told, once. */
static void is(const struct call *call, struct ww_mutex *m, struct ww_acquire_ctx *y, int answer)
{
	unsigned acquired = y ? y->acquired : 0;
	bool was_locked = m && m != zeros && ww_mutex_is_locked(m);
	unsigned long before = told();
	int r = call->make(m, y);

	if (call->is & SAYS_NO && answer < 0)
		answer = 0;
	if (r != answer) {
		fprintf(stderr, "%s: %s: %d in place of %d\n", what, call->name, r, answer);
		exit(1);
	}
#ifdef WW_DEBUG
	if ((answer == -EINVAL || answer == -EBUSY) && told() != before + 1) {
		fprintf(stderr, "%s: %s: told %lu times\n", what, call->name, told() - before);
		exit(1);
	}
#endif
	MUST(r >= 0 || !y || y->acquired == acquired);
	MUST(r == (call->is & TRIES ? 1 : 0) || !m || m == zeros || ww_mutex_is_locked(m) == was_locked);
	(void)before;
}

/* What a call that may be made returns; and then its lock is released. */
static void may(const struct call *call, struct ww_mutex *m, struct ww_acquire_ctx *y)
{
	is(call, m, y, call->is & TRIES ? 1 : 0);
	if (call->is & READS) {
		MUST(ww_shared_mutex_is_read_by(shared(m), y) && !ww_shared_mutex_unlock_shared(shared(m), y));
		return;
	}
	MUST(ww_mutex_is_held_by(m, y) && ww_mutex_is_locked(m));
	ww_mutex_unlock(m);
	MUST(!ww_mutex_is_held_by(m, y) && !ww_mutex_is_locked(m));
}

/* ---- contexts that have ended ---- */

/* x got -EDEADLK at b, which the older one holds, in a loop or by hand. */
static void is_told(bool loops)
{
	ww_acquire_init(&older, &c);
	MUST(!ww_mutex_lock(b, &older));
	ww_acquire_init(&x, &c);
	x.deadlock_inject_countdown = ~0u;
	if (loops)
		ww_tries_begin_(&x);
	MUST(!ww_mutex_lock(a, &x) && ww_mutex_lock(b, &x) == -EDEADLK);
}
static void older_ends(void)
{
	ww_mutex_unlock(b);
	ww_acquire_fini(&older);
}

static void by_zeros(void) { memset(&x, 0, sizeof x); }
static void never_begun(void)
{
	struct ww_class few;

	memset(&x, 0xff, sizeof x);
	ww_class_init(&few, 0, "few");
	MUST(!ww_class_limit(&few, 4, 1));
	ww_acquire_init(&older, &few);
	MUST(ww_acquire_init_checked(&x, &few) == -EAGAIN);
	ww_acquire_fini(&older);
	MUST(!ww_class_free(&few));
}
static void ends_by_hand(void)
{
	ww_acquire_init(&x, &c);
	MUST(!ww_mutex_lock(a, &x));
	ww_mutex_unlock(a);
	ww_acquire_fini(&x);
}
static void ends_told(void)
{
	is_told(false);
	ww_mutex_unlock(a);
	ww_acquire_fini(&x);
	older_ends();
}
static void ends_at_ease(void)
{
	ww_acquire_init(&x, &c);
	ww_acquire_flags(&x, WW_INTERRUPTIBLE);
	ww_tries_begin_(&x);
	MUST(!ww_mutex_lock(a, &x));
	ww_acquire_unlock_all(&x);
	ww_acquire_fini(&x);
}
static void ends_told_in_loop(void)
{
	is_told(true);
	ww_mutex_unlock(a);
	ww_acquire_fini(&x);
	older_ends();
}
static void ends_waiting_first(void)
{
	is_told(true);
	ww_back_off_(&x);
	ww_acquire_fini(&x);
	older_ends();
}
static void ends_owing(void)
{
	is_told(true);
	ww_back_off_(&x);
	ww_mutex_unlock(b);
	ww_acquire_fini(&older);
	MUST(!ww_mutex_lock(a, &x) && x.acquired == 2);
	ww_mutex_unlock(a);
	ww_mutex_unlock(b);
	ww_acquire_fini(&x);
}
static void ends_behind_a_list(void)
{
	struct ww_mutex *both[] = { a, b };

	ww_acquire_init(&x, &c);
	MUST(!ww_mutex_lock_all(&x, both, 2));
	ww_mutex_unlock(a);
	ww_mutex_unlock(b);
	MUST(!ww_acquire_fini_checked(&x));
}

static const struct {
	const char *name;
	void (*make)(void);
} ends[] = {
	{ "zeros", by_zeros }, { "never begun", never_begun }, { "ended by hand", ends_by_hand }, { "ended, told", ends_told },
	{ "ended at ease", ends_at_ease }, { "ended in a loop, told", ends_told_in_loop },
	{ "ended, to wait first", ends_waiting_first }, { "ended, having owed", ends_owing }, { "ended behind a list", ends_behind_a_list },
};

/* No call of a context that has ended does anything, and the next one begins in its memory as anywhere. */
static void have_ended(void)
{
	for (unsigned k = 0; k < sizeof ends / sizeof *ends; k++) {
		what = ends[k].name;
		ends[k].make();
		for (unsigned n = 0; n < CALLS; n++) {
			is(&calls[n], a, &x, -EINVAL);
			is(&calls[n], its, &x, -EINVAL);
		}
		MUST(ww_acquire_fini_checked(&x) == -EINVAL && ww_acquire_done_checked(&x) == -EINVAL);
		MUST(ww_acquire_cancel(&x) == -EINVAL && !ww_mutex_is_held_by(a, &x) && !ww_acquire_mark(&x));
		ww_acquire_unlock_all(&x);
		ww_acquire_unlock_to(&x, 0);
		ww_acquire_unlock_to(&x, 1);
		ww_acquire_flags(&x, WW_INTERRUPTIBLE | WW_MAY_BE_OLDER);
		is(&calls[0], a, &x, -EINVAL);
		ww_acquire_init(&x, &c);
		x.deadlock_inject_countdown = ~0u;
		MUST(!ww_is_contended(&x) && !ww_mutex_lock(a, &x) && !ww_mutex_lock(b, &x) && x.acquired == 2);
		ww_mutex_unlock(a);
		ww_mutex_unlock(b);
		ww_acquire_fini(&x);
	}
}

/* ---- other arguments ---- */

static void no_context(void)
{
	what = "no context";
	for (unsigned n = 0; n < CALLS; n++)
		if (calls[n].is & MAY_BE_ALONE)
			may(&calls[n], a, NULL);
		else if (!(calls[n].is & ENDS))
			is(&calls[n], a, NULL, -EINVAL);
}

/* With a context, and without. */
static void of_mutex(const char *name, struct ww_mutex *m, int answer)
{
	what = name;
	for (unsigned n = 0; n < CALLS; n++) {
		is(&calls[n], m, &x, calls[n].is & SLOW ? -EINVAL : answer);
		if (calls[n].is & MAY_BE_ALONE && m != its)
			is(&calls[n], m, NULL, answer);
	}
}

static void no_mutex(void)
{
	struct ww_acquire_ctx y;
	struct ww_mutex first;

	ww_acquire_init(&x, &c);
	of_mutex("a mutex of another class", its, -EINVAL);
	of_mutex("zeros for a mutex", zeros, -EINVAL);
	of_mutex("a mutex that was destroyed", destroyed, -EINVAL);
	ww_acquire_fini(&x);
	MUST(!ww_class_limit(&full, 1, 2));
	ww_mutex_init(&first, &full);
	ww_acquire_init(&x, &full);
	of_mutex("a static mutex of a class that is full", last, -ENOSPC);
	MUST(!ww_mutex_destroy(&first) && !ww_mutex_lock(last, &x));
	ww_acquire_init(&y, &full);
	ww_mutex_unlock(last);
	ww_acquire_fini(&y);
	ww_acquire_fini(&x);
	MUST(!ww_mutex_destroy(last) && !ww_class_free(&full));
}

/* Also of a mutex that is free, and of one that can't be locked. */
static void no_time(void)
{
	static const struct timespec none[] = { { 1, -1 }, { 1, 1000000000 }, { -1, -1 } };

	what = "a time that is none";
	ww_acquire_init(&x, &c);
	for (unsigned k = 0; k < 3; k++)
		for (unsigned n = 0; n < CALLS; n++)
			if (calls[n].is & HAS_TIME) {
				until = &none[k];
				is(&calls[n], a, &x, -EINVAL);
				is(&calls[n], zeros, &x, -EINVAL);
				if (calls[n].is & MAY_BE_ALONE)
					is(&calls[n], a, NULL, -EINVAL);
			}
	until = &past;
	ww_acquire_fini(&x);
}

/* ---- phases ---- */

static void by_hand(void)
{
	what = "no -EDEADLK before";
	ww_acquire_init(&x, &c);
	for (unsigned n = 0; n < CALLS; n++)
		if (calls[n].is & SLOW)
			is(&calls[n], a, &x, -EINVAL);
		else
			may(&calls[n], a, &x);
	ww_acquire_fini(&x);
}

static void amid_a_poll(void)
{
	what = "a context that waits by a poll";
	ww_acquire_init(&older, &c);
	MUST(!ww_mutex_lock(b, &older));
	ww_acquire_init(&x, &c);
	MUST(ww_mutex_lock_poll(b, &x, &waker) == -EINPROGRESS);
	for (unsigned n = 0; n < CALLS; n++)
		is(&calls[n], a, &x, calls[n].is & TRIES ? 0 : -EBUSY);
	MUST(ww_acquire_done_checked(&x) == -EBUSY && ww_acquire_fini_checked(&x) == -EBUSY);
	MUST(!ww_mutex_is_held_by(b, &x) && ww_mutex_is_held_by(b, &older) && ww_poll_take_back(&x, NULL));
	ww_mutex_unlock(b); /* it is to have it, but its poll hasn't said so */
	MUST(!ww_mutex_is_held_by(b, &x) && ww_mutex_is_locked(b) && ww_mutex_destroy(b) == -EBUSY);
	MUST(!ww_mutex_lock_poll(b, &x, NULL) && ww_mutex_is_held_by(b, &x));
	ww_mutex_unlock(b);
	ww_acquire_fini(&x);
	ww_acquire_fini(&older);
}

static void in_a_loop(void)
{
	what = "a context in a loop";
	ww_acquire_init(&x, &c);
	ww_tries_begin_(&x);
	for (unsigned n = 0; n < CALLS; n++)
		if (calls[n].is & SLOW)
			is(&calls[n], a, &x, -EINVAL);
		else
			may(&calls[n], a, &x);
	ww_acquire_fini(&x);
}

/* Until it has released everything. */
static void told_by(bool loops)
{
	what = loops ? "a context that was told to back off, in a loop" : "a context that was told to back off";
	is_told(loops);
	for (unsigned n = 0; n < CALLS; n++) {
		is(&calls[n], b, &x, calls[n].is & TRIES ? 0 : -EINVAL);
		is(&calls[n], its, &x, -EINVAL);
	}
	ww_mutex_unlock(a);
	older_ends();
	MUST(!ww_mutex_lock_slow_checked(b, &x) && x.acquired == 1);
	ww_mutex_unlock(b);
	ww_acquire_fini(&x);
}

#ifdef WW_DEBUG
/* The debug library knows a context that has ended by a copy of it. */
static void copies(void)
{
	struct ww_acquire_ctx y;

	what = "a context that has ended by a copy of it";
	ww_acquire_init(&x, &c);
	y = x;
	ww_acquire_fini(&y);
	for (unsigned n = 0; n < CALLS; n++)
		if (!(calls[n].is & (SLOW | READS)))
			is(&calls[n], a, &x, -EINVAL);
	MUST(ww_acquire_fini_checked(&x) == -EINVAL);
}
#endif

int main(void)
{
	ww_mutex_init(a, &c);
	ww_mutex_init(b, &c);
	ww_mutex_init(its, &other);
	ww_mutex_init(destroyed, &c);
	MUST(!ww_mutex_destroy(destroyed));
	have_ended();
	no_context();
	no_mutex();
	no_time();
	by_hand();
	amid_a_poll();
	in_a_loop();
	told_by(false);
	told_by(true);
#ifdef WW_DEBUG
	copies();
#endif
	MUST(!ww_mutex_destroy(a) && !ww_mutex_destroy(b) && !ww_mutex_destroy(its) && !ww_class_free(&c) && !ww_class_free(&other));
	puts("wrong_arguments: each is refused by each call, and nothing changes");
	return 0;
}
