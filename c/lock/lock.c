/*
 * lock.c - one lock by one seat: all that a lock call does after its first step, and an unlock. A seat is what the proved library
 * knows of a thread. The user of a seat makes steps by it, for a context or without one; then `x` is NULL in this file.
 *
 * A lock call that waits counts as a waiter in the mutex (`waiters`) until after it has the mutex's lock. So a thread that destroys
 * the mutex sees the count or the lock (ww_mutex_destroy).
 */
#define _GNU_SOURCE
#include "lock.h"

/* ---- how a lock call ends ---- */

static uint32_t counts_for(const struct ww_how *how) { return how->who == THREAD ? 1 : A_TASK; }

/*
 * Adds `by` to the number of waiters of the mutex for which the call waits, and of the mutex for which the call asks, if that is
 * another one: so nobody destroys either meanwhile.
 */
static void count_waiter(struct ww_mutex *m, const struct ww_how *how, uint32_t by)
{
	__atomic_fetch_add(&m->waiters, by, __ATOMIC_SEQ_CST);
	if (how->asks && how->asks != m)
		__atomic_fetch_add(&how->asks->waiters, by, __ATOMIC_SEQ_CST);
}

/*
 * Notes in the seat, for why.c, the mutex for which the call asks, and the lock to which the call has come: that mutex's, or a
 * slot's.
 */
static void note_asked(const struct ww_mutex *m, ww_seat *s, const struct ww_how *how)
{
	__atomic_store_n(&s->met.target, (how->asks ? how->asks : m)->number + 1, __ATOMIC_RELAXED);
	s->met.lock = m->number;
}

static void begin_wait(struct ww_mutex *m, struct ww_acquire_ctx *x, ww_seat *s, const struct ww_how *how)
{
	if (x)
		note_meeting(s);
	note_asked(m, s, how);
	__atomic_store_n(&s->awaits, m->number + 1, __ATOMIC_RELEASE);
	count(&s->waits);
	DTRACE_PROBE3(ww, contention_begin, m, x, s);
	NOTE(LOCK_WAITS, .seat = s, .mutex = m, .how = how);
	count_waiter(m, how, counts_for(how));
}

static void end_wait(struct ww_mutex *m, struct ww_acquire_ctx *x, ww_seat *s, const struct ww_wait *wait, int r)
{
	(void)x, (void)r; /* only a probe uses them */
	__atomic_store_n(&s->awaits, 0, __ATOMIC_RELAXED);
	DTRACE_PROBE5(ww, contention_end, m, x, s, r, wait->from);
	NOTE(LOCK_WAITED, .seat = s);
	count_waiter(m, wait->how, -counts_for(wait->how));
	if (wait->how->who == THREAD)
		ww_learn_from(s, wait);
	else
		ww_note_task_wait(s);
}

/* Ends a lock call whose last step returned r, and returns what the call returns. */
static int lock_ends(struct ww_mutex *m, struct ww_acquire_ctx *x, ww_seat *s, int r, const struct ww_how *how)
{
	if (r == 0 && how->visits)
		__tsan_acquire(m);
	else if (r == 0)
		note_holder(m, x, s);
	r = ww_debug_injects(m, x, r);
	NOTE(LOCK_ENDS, .mutex = m, .context = x, .r = r);
	if (r == -EDEADLK) {
		note_meeting(s);
		note_asked(m, s, how);
		count(&s->back_offs);
		DTRACE_PROBE3(ww, back_off, m, x, s);
		x->contending_lock = m;
		x->puts = puts_of(&s->pool->numbers, m->number);
		s->told = m->number; /* a resumed context finds the mutex by that, if it still exists (retry.c) */
		x->state = (x->state | IS_TOLD) & ~(unsigned)WAS_TOLD;
	}
	/* The seat's cancel has ended the wait. If neither the context nor the class was cancelled, the time limit had passed. */
	if (r == -EINTR && !(x && __atomic_exchange_n(&x->cancelled, 0, __ATOMIC_SEQ_CST)) && !ww_ends_waits(s->pool))
		r = -ETIMEDOUT;
	return is_orphaned_by_fork(s, r) ? -EINVAL : r;
}

/*
 * Makes the further steps of a wait after a step that returned r, and ends the wait. If a task has to sleep, it returns
 * -EINPROGRESS and accesses nothing more: once the task has left its waker, another thread may use the context.
 */
static int wait_on(struct ww_mutex *m, struct ww_acquire_ctx *x, ww_seat *s, int r, const struct ww_wait *wait)
{
	if (r > 0)
		r = ww_go_on(s, wait, r == WW_SLEEPS);
	if (r == -EINPROGRESS)
		return r;
	if (r == -EINTR)
		ww_make_cancel_pending(s);
	r = lock_ends(m, x, s, r, wait->how);
	end_wait(m, x, s, wait, r);
	return r;
}

COLD int ww_lock_on(struct ww_mutex *m, struct ww_acquire_ctx *x, ww_seat *s, int r, const struct ww_how *how)
{
	struct ww_wait wait;

	if (r <= 0 && (r != -EBUSY || how->who == NOBODY))
		return lock_ends(m, x, s, r, how);
	wait = ww_wait_of(s, x, how);
	if (r != WW_SLEEPS)
		begin_wait(m, x, s, how);
	if (r == -EBUSY)
		r = ww_try_awake(s, m->number, &wait);
	return wait_on(m, x, s, r, &wait);
}

int ww_lock_by(struct ww_mutex *m, struct ww_acquire_ctx *x, const struct ww_how *how)
{
	return ww_lock_on(m, x, x->own, ww_debug_forbids(x, m->number) ? -EINVAL : ww_try_(&x->own->handle, m->number), how);
}

/* ---- unlocks ---- */

/*
 * Makes the further steps of an unlock whose first step returned r. In a forked child nobody else uses the mutex, so the mutex
 * counts as released there even if these steps can't be made.
 */
COLD int ww_release_on(ww_seat *s, int r)
{
	note_meeting(s);
	if (r > 0)
		r = ww_go_on(s, NULL, false);
	return is_orphaned_by_fork(s, r) ? 0 : r;
}

/*
 * In a loop a mutex that isn't in the context's list is a copy of another mutex. In the phase BY_HAND an unlock cuts the list, as
 * ww_mutex_unlock does.
 */
int ww_unlock_of(struct ww_mutex *m, struct ww_acquire_ctx *x)
{
	if (!is_loop(x))
		x->newest = NULL;
	else if (!unlist(x, m))
		return -EINVAL;
	return unlock_unlisted(m, x);
}

/* ---- who has a lock ---- */

/*
 * While the seat's context waits by a poll, the proved library refuses the question, and the lock's owner word says whether the
 * seat has the lock. In a forked child a seat whose call can't end has nothing.
 */
bool ww_owns(ww_seat *s, uint32_t number)
{
	int32_t r = ww_has_(&s->handle, number);

	if (r == -EBUSY && !s->pool->gone)
		r = owner_in(ww_look_(&s->handle, number)) != place_among(s);
	return !r;
}
