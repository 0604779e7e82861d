/*
 * mutex.c - the kernel's ww_mutex over numbered locks: how mutexes are made, locked and released.
 *
 * A *pool* is what an open class has: seats, and a number for each of its mutexes. A *seat* is what the proved library knows of a
 * thread: the seat's user makes steps by it, for a context or for one mutex without a context. A thread's own seat is at hand while
 * its class isn't in a crowd (seat.c). Which structure points to which:
 *
 *	struct ww_mutex: pool ---> struct ww_pool: seats[k]: handle ---> a seat of the proved library
 *	                 number -------------------------------------> a lock there: owner, guard, wait list
 *	struct ww_acquire_ctx: own ---> seats[k]
 *
 * A lock, of which the quick way is compiled into its callers (ww_mutex.h):
 *
 *	ww_mutex_lock --- the context's pool isn't the mutex's ---> _else_: the mutex gets its number, a misuse is reported,
 *	  |                                                         or the context is in a loop, and has more to do (loop.c)
 *	  +-- its first step --- 0 ---> the mutex is the context's
 *	  |                  \-- other ---> _further_: steps and sleeps until the call can return (ww_lock_on, ww_go_on)
 *	  \-- with NULL ---> _alone_: by the seat at hand, or any, or once there is one
 *
 * In the names `_else_` is what the quick way doesn't do; `_further_`, or inside the library `_on`, is all after the first step;
 * `_alone` is a lock without a context; and `_checked` is a call that returns an error where the call without that ending ends the
 * program.
 */
#define _GNU_SOURCE
/* This file has the functions that may be called instead of those that ww_mutex.h compiles into its callers. */
#define WW_NO_INLINE
#include "loop.h"
#include "mutex.h"

_Static_assert(sizeof(struct ww_mutex) == 32, "a mutex and 32 bytes of what it guards have room in one cache line");
_Static_assert(offsetof(struct ww_acquire_ctx, deadlock_inject_countdown) == 64 && offsetof(struct ww_acquire_ctx, words) == 72 &&
	       sizeof(struct ww_acquire_ctx) == 96, "as callers have them that were compiled before there were `span` and `words`");
/* A call by an empty handle returns -EINVAL, and changes nothing. */
_Static_assert(sizeof(((struct ww_acquire_ctx *)0)->empty_) == sizeof(ww_handle), "a context has room for one");

/* ---- mutexes ---- */

int ww_mutex_init_checked(struct ww_mutex *m, struct ww_class *c)
{
	struct ww_pool *p;
	uint32_t number;
	int r = open_pool_of(NEEDED(c), &p);

	if (!r)
		r = ww_take_number(&p->numbers, NEEDED(m), &number);
	if (r)
		return r;
	*m = (struct ww_mutex){ .pool = p, .number = number };
	lies_at(&p->numbers, number, m);
	return 0;
}

void ww_mutex_init(struct ww_mutex *m, struct ww_class *c)
{
	int r = ww_mutex_init_checked(NEEDED(m), NEEDED(c));

	if (UNLIKELY(r))
		end_of(c, "ww_mutex_init", reason_of(r));
}

bool ww_mutex_is_locked(struct ww_mutex *m)
{
	struct ww_pool *p = pool_at(NEEDED(m));

	return p && look_at(p, m);
}

static bool has_user(const struct ww_pool *p, const struct ww_mutex *m)
{
	return __atomic_load_n(&m->waiters, __ATOMIC_SEQ_CST) || look_at(p, m);
}

/*
 * Frees the mutex's number by `gives`, unless somebody uses the mutex. A thread that destroys the mutex, and sees no waiter, sees
 * the lock of the holder that a waiter became. If it sees neither, it comes after the last access of an unlock:
 *
 *	a waiter (ww_lock_on)		the holder			the thread that destroys
 *	its lock is acquired		ctx or alone = NULL		waiters?
 *	waiters--			ww_unlock_, the last access	look_at
 *
 * A resumed context that finds the mutex by its number (count_at_contended) counts itself as a waiter under the lock of numbers,
 * which this function also holds: so it is seen, or finds no mutex. In a forked child nobody uses the mutex any more, and its
 * number isn't freed.
 */
int ww_end_mutex(struct ww_mutex *m, void (*gives)(struct ww_numbers *n, uint32_t number))
{
	struct ww_pool *p = pool_at(m);
	bool is_used;

	if (!p)
		return 0;
	if (UNLIKELY(p->gone)) {
		*m = (struct ww_mutex){ .class_ = p->class_ };
		return 0;
	}
	is_used = has_user(p, m); /* without the lock, since a destroy of a mutex that is in use waits for nobody */
	if (!is_used) {
		pthread_mutex_lock(&p->numbers.lock);
		is_used = has_user(p, m); /* a resumed context may have counted itself before the lock was taken */
		if (!is_used) {
			lies_at(&p->numbers, m->number, NULL);
			m->class_ = p->class_;
			__atomic_store_n(&m->pool, NULL, __ATOMIC_RELEASE);
			count_put(&p->numbers, m->number);
			gives(&p->numbers, m->number); /* from then on only the lock keeps others from freeing the class */
		}
		pthread_mutex_unlock(&p->numbers.lock);
	}
	if (is_used)
		NOTE_MISUSE_OF(m, p->class_, "ww_mutex_destroy", "somebody holds the mutex, or waits for it");
	return is_used ? -EBUSY : 0;
}

int ww_mutex_end_(struct ww_mutex *m) { return ww_end_mutex(NEEDED(m), ww_give_locked); }

int ww_mutex_destroy(struct ww_mutex *m)
{
	int r = pool_at(NEEDED(m)) || m->class_ ? ww_mutex_end_(m) : -EINVAL;

	if (r == -EINVAL)
		NOTE_MISUSE_OF(m, NULL, "ww_mutex_destroy", "the mutex isn't initialized");
	if (!r)
		m->class_ = NULL;
	return r;
}

/* ---- what may be locked ---- */

static const char not_due[] = "no -EDEADLK of this mutex came before, or the context still holds a mutex";

/* Why the first lock of a mutex failed with r: the mutex got no number, or its class had no seat. */
static const char *reason_of_first(const struct ww_mutex *m, int r)
{
	return ww_find_class_of(m) ? reason_of(r) : "the mutex isn't initialized";
}

/*
 * What ww_admit asks: returns 0 or its error, and the reason in `*why`. A mutex that WW_MUTEX_INIT made gets its number here,
 * before its first lock.
 */
static int check_call(enum lock_call call, struct ww_mutex *m, const struct ww_acquire_ctx *x, const struct timespec *until,
		 const char **why)
{
	enum phase phase = x ? phase_of(x) : call == CALL_ALONE ? BY_HAND : HAS_ENDED;
	bool is_timely = is_time(until);
	int r;

	*why = !is_timely ? "the time is none" :
		phase == HAS_ENDED ? (x ? "the context has ended, or was never begun (ww_acquire_init)" : "there is no context") :
		phase == IN_POLL ? WAITS_BY_POLL :
		phase == LOOP_OWES && call == CALL_POLL ? "the context waited for a mutex that it has yet to lock" :
		call == CALL_SLOW && !(x->state & IS_TOLD) ? not_due : NULL;
	if (*why)
		return is_timely && phase == IN_POLL ? -EBUSY : -EINVAL;
	if (call == CALL_LIST || LIKELY(m && fits(m, x)))
		return 0;
	r = !m ? -EINVAL : pool_at(m) ? 0 : ww_number_at_first(m);
	*why = !m ? "there is no mutex" : r ? reason_of_first(m, r) : "the mutex is of another class, or isn't initialized";
	return r ? r : fits(m, x) ? 0 : -EINVAL;
}

int ww_admit(const char *name, enum lock_call call, struct ww_mutex *m, struct ww_acquire_ctx *x, const struct timespec *until)
{
	const char *why;
	int r;

	if (x && ww_debug_refuses(name, m, x))
		return -EINVAL;
	r = check_call(call, m, x, until, &why);
	if (x)
		note_used(x);
	if (r)
		NOTE_MISUSE_OF(m, r == -EINVAL || !m ? NULL : ww_find_class_of(m), name, why);
	else if (x && call != CALL_LIST)
		draw_age_by_hand(x);
	return r;
}

/* ---- locks by a context ---- */

static const struct ww_how waits_on, interruptible = { .is_interruptible = true }, tries_once = { .who = NOBODY };

int ww_lock_as(struct ww_mutex *m, struct ww_acquire_ctx *x, const struct ww_how *how)
{
	int r = ww_admit("ww_mutex_lock", CALL_LOCK, m, x, how->until);

	if (r)
		return r;
	r = is_loop(x) ? ww_lock_in_loop(m, x, how) : ww_lock_by(m, x, how);
	NOTE(LOCK_RETURNS, .mutex = m, .context = x, .r = r);
	return r;
}

int ww_mutex_lock_else_(struct ww_mutex *m, struct ww_acquire_ctx *x)
{
	return ww_lock_as(m, x, x->state & WW_INTERRUPTIBLE ? &interruptible : &waits_on);
}

/* If the context waits by a poll, the first step did nothing, and its error is the call's. */
int ww_mutex_lock_further_(struct ww_mutex *m, struct ww_acquire_ctx *x, int r)
{
	if (is_polled(x))
		return r;
	r = ww_lock_on(m, x, x->own, r, x->state & WW_INTERRUPTIBLE ? &interruptible : &waits_on);
	if (is_loop(x))
		r = ww_result_in_loop(m, x, r);
	NOTE(LOCK_RETURNS, .mutex = m, .context = x, .r = r);
	return r;
}

/*
 * In a loop a slow lock is the wait with which the loop's next lock call would begin, or it is misuse. The proved library doesn't
 * know of an -EDEADLK that the debug library made up, or that it forgot because a shared lock call failed (WAS_TOLD): after such a
 * one it is asked for a plain lock.
 */
int ww_lock_slowly(struct ww_mutex *m, struct ww_acquire_ctx *x, const struct ww_how *how)
{
	const char *why;
	int r = check_call(CALL_SLOW, m, x, how->until, &why);

	if (r)
		return r;
	r = ww_debug_has_injected(m, x) || (x->state & WAS_TOLD && m == x->contending_lock && !x->acquired) ?
		ww_try_(&x->own->handle, m->number) : ww_lock_slow_(&x->own->handle, m->number, false);
	r = ww_lock_on(m, x, x->own, r, how);
	return is_loop(x) ? ww_result_in_loop(m, x, r) : r;
}

static int slowly_or_report(struct ww_mutex *m, struct ww_acquire_ctx *x, const struct ww_how *how)
{
	int r = ww_lock_slowly(m, x, how);

	if (r == -EINVAL || r == -EBUSY)
		NOTE_MISUSE_OF(m, NULL, "ww_mutex_lock_slow", not_due);
	return r;
}

int ww_mutex_lock_slow_checked(struct ww_mutex *m, struct ww_acquire_ctx *x) { return slowly_or_report(m, x, &waits_on); }

void ww_mutex_lock_slow(struct ww_mutex *m, struct ww_acquire_ctx *x)
{
	if (UNLIKELY(ww_lock_slowly(m, x, &waits_on))) {
		NOTE(ABOUT, .mutex = m);
		end_of(ww_find_class_of(m), "ww_mutex_lock_slow", not_due);
	}
}

int ww_mutex_lock_slow_until(struct ww_mutex *m, struct ww_acquire_ctx *x, const struct timespec *until)
{
	return slowly_or_report(m, x, &(struct ww_how){ .is_interruptible = true, .until = until });
}

int ww_mutex_lock_slow_interruptible(struct ww_mutex *m, struct ww_acquire_ctx *x) { return ww_mutex_lock_slow_until(m, x, NULL); }

/* ---- locks without a context: each by a seat for its mutex alone, for which the thread may have to wait ---- */

COLD static int lock_alone_on(struct ww_mutex *m, ww_seat *s, int r, const struct ww_how *how)
{
	r = ww_lock_on(m, NULL, s, r, how);
	if (r)
		give_seat(s);
	return r;
}

static inline int lock_by_seat(struct ww_mutex *m, ww_seat *s, const struct ww_how *how)
{
	int r;

	stop_rest(s);
	r = ww_try_(&s->handle, m->number);
	if (UNLIKELY(r))
		return lock_alone_on(m, s, r, how);
	note_holder(m, NULL, s);
	return 0;
}

/*
 * Locks the mutex without a context if no seat is at hand. A thread that waits for a seat counts as a waiter of the mutex until it
 * holds the mutex.
 */
COLD static int lock_by_any(struct ww_mutex *m, const struct ww_how *how)
{
	ww_seat *s;
	int r = pool_at(m) ? 0 : ww_number_at_first(m);

	if (r)
		return r;
	s = ww_other_seat(m->pool);
	if (s) {
		note_user(s);
		return lock_by_seat(m, s, how);
	}
	__atomic_fetch_add(&m->waiters, 1, __ATOMIC_SEQ_CST);
	r = ww_seek_seat(m->pool, how->until, how->is_interruptible, &s);
	if (!r)
		r = lock_by_seat(m, s, how);
	__atomic_fetch_sub(&m->waiters, 1, __ATOMIC_SEQ_CST);
	return r;
}

static inline int lock_alone(struct ww_mutex *m, const struct ww_how *how)
{
	struct ww_pool *p = pool_at(m);
	ww_seat *s = LIKELY(p) ? seat_at_hand(p) : NULL;

	NOTE(LOCK_ALONE, .mutex = m, .until = how->until);
	return LIKELY(s) ? lock_by_seat(m, s, how) : lock_by_any(m, how);
}

/* Callers of ww_mutex_lock without a context look at no error, so an error ends the program. */
int ww_mutex_lock_alone_(struct ww_mutex *m)
{
	int r = lock_alone(m, &waits_on);

	if (UNLIKELY(r)) {
		NOTE(ABOUT, .mutex = m);
		end_of(ww_find_class_of(m), "ww_mutex_lock", reason_of_first(m, r));
	}
	return 0;
}

int ww_mutex_lock(struct ww_mutex *m, struct ww_acquire_ctx *x)
{
	return x ? ww_mutex_lock_else_(m, x) : ww_mutex_lock_alone_(NEEDED(m));
}

int ww_mutex_lock_until(struct ww_mutex *m, struct ww_acquire_ctx *x, const struct timespec *until)
{
	const struct ww_how how = { .is_interruptible = x || until, .until = until };
	int r = x ? 0 : ww_admit("ww_mutex_lock", CALL_ALONE, m, NULL, until);

	return r ? r : x ? ww_lock_as(m, x, &how) : lock_alone(m, &how);
}

int ww_mutex_lock_interruptible(struct ww_mutex *m, struct ww_acquire_ctx *x) { return ww_mutex_lock_until(m, x, NULL); }

/* ---- trylocks ---- */

/*
 * A trylock without a context waits for no seat, and uses none for a mutex that somebody holds, since seats may be few. The holder
 * that the mutex names is only a hint, since a copy of the mutex may have been unlocked; so a look at its lock follows.
 */
static int try_alone(struct ww_mutex *m)
{
	bool is_held = (holder_of(m) || seat_of(m)) && ww_mutex_is_locked(m);
	ww_seat *s = is_held ? NULL : seat_without_wait(m->pool);

	if (!s)
		return 0;
	note_user(s);
	return !lock_by_seat(m, s, &tries_once);
}

/* A context that got -EDEADLK may make a trylock once it holds nothing, and doesn't wait for the contended mutex first. */
int ww_try_by(struct ww_mutex *m, struct ww_acquire_ctx *x)
{
	int r;

	draw_age_by_hand(x);
	r = ww_debug_forbids(x, m->number) ? -EINVAL : ww_try_(&x->own->handle, m->number);
	if (r)
		return r == -EALREADY && ww_accept_held(x, m, false) ? 0 : r;
	note_holder(m, x, NULL);
	NOTE(LOCK_ENDS, .mutex = m, .context = x, .r = 0);
	return is_loop(x) ? ww_result_in_loop(m, x, 0) : 0;
}

/*
 * What a trylock returns if the checks before it returned r. A context that waits by a poll (-EBUSY) may acquire nothing, so its
 * trylock returns 0.
 */
static int try_admitted(struct ww_mutex *m, struct ww_acquire_ctx *x, int r)
{
	return r ? r == -EBUSY ? 0 : r : x ? !ww_try_by(m, x) : try_alone(m);
}

int ww_mutex_trylock_else_(struct ww_mutex *m, struct ww_acquire_ctx *x)
{
	const char *why;
	int r = try_admitted(m, x, check_call(x ? CALL_LOCK : CALL_ALONE, m, x, NULL, &why));

	if (UNLIKELY(r < 0)) {
		NOTE(ABOUT, .mutex = m);
		end_of(ww_find_class_of(m), "ww_mutex_trylock", why);
	}
	return r;
}

int ww_mutex_trylock(struct ww_mutex *m, struct ww_acquire_ctx *x) { return ww_mutex_trylock_else_(m, x); }

int ww_mutex_trylock_checked(struct ww_mutex *m, struct ww_acquire_ctx *x)
{
	return try_admitted(m, x, ww_admit("ww_mutex_trylock", x ? CALL_LOCK : CALL_ALONE, m, x, NULL));
}

/* ---- unlocks ---- */

COLD static int unlock_alone_on(ww_seat *s, int r)
{
	r = ww_release_on(s, r);
	if (!r) {
		s->ages = 0; /* ww_release_on has noted a meeting, but a seat without a context has no age */
		give_seat(s);
	}
	return r;
}

static inline int unlock_alone(struct ww_mutex *m)
{
	ww_seat *s = seat_of(m);
	uint32_t number = m->number;
	int r;

	if (UNLIKELY(!s))
		return -EINVAL;
	NOTE(LOCK_RELEASED, .mutex = m);
	__atomic_store_n(&m->alone, NULL, __ATOMIC_RELAXED);
	__tsan_release(m);
	r = ww_unlock_(&s->handle, number);
	if (UNLIKELY(r))
		return unlock_alone_on(s, r);
	give_seat(s);
	return 0;
}

int ww_mutex_unlock_checked(struct ww_mutex *m)
{
	struct ww_acquire_ctx *x = holder_of(NEEDED(m));

	if (!x)
		return unlock_alone(m);
	if (ww_debug_is_stale(m) || !x->own)
		return -EINVAL;
	return is_polled(x) ? -EBUSY : ww_unlock_of(m, x);
}

COLD static void end_unheld(const struct ww_mutex *m, int r)
{
	NOTE(LOCK_UNHELD, .mutex = m);
	end("ww_mutex_unlock", r == -EBUSY ? "its context waits by a poll, or is another one" :
		"nobody holds the mutex, or it is a copy of that which is held");
}

static inline void end_unless_unlocked(const struct ww_mutex *m, int r)
{
	if (UNLIKELY(r))
		end_unheld(m, r);
}

void ww_mutex_unlock(struct ww_mutex *m) { end_unless_unlocked(m, ww_mutex_unlock_checked(NEEDED(m))); }

void ww_mutex_unlock_else_(struct ww_mutex *m) { end_unless_unlocked(m, unlock_alone(m)); }

/* In a loop the first step was made by the empty handle, and so did nothing: the mutex is still held. */
void ww_mutex_unlock_further_(struct ww_mutex *m, struct ww_acquire_ctx *x, int r)
{
	if (LIKELY(is_loop(x))) {
		r = unlist(x, m) ? unlock_by(m, x->own) : -EINVAL;
	} else {
		x->newest = NULL;
		r = ww_release_on(x->own, r);
	}
	end_unless_unlocked(m, r);
}

uint32_t ww_version(void) { return 10000 * WW_VERSION_MAJOR + 100 * WW_VERSION_MINOR + WW_VERSION_PATCH; }
