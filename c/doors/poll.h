/* poll.h - how a poll begins and goes on: see poll.c.  It isn't installed. */
#ifndef WW_DOORS_POLL_H
#define WW_DOORS_POLL_H
#include "../lock/lock.h"

/* Whether a poll by `poller` that asks for `what` of the mutex may begin, or go on: 0, or the error that its call returns. */
WW_HIDDEN int ww_may_poll(const char *call, struct ww_mutex *m, struct ww_acquire_ctx *x, unsigned what, struct ww_poller *poller);
/*
 * Acquires a lock on the way of a poll that may begin or go on: 0, -EINPROGRESS if the context waits for the lock, or an error.
 * After 0 the poll goes on as a call that begins at this lock.
 */
WW_HIDDEN int ww_poll_on(struct ww_mutex *m, struct ww_acquire_ctx *x, struct ww_how how);
/*
 * Of what a context was told last: the mutex for which that call asked, by its number (`told` of the seat) and how often the number had
 * been put back (`puts`); and the lock at which the -EDEADLK came, that mutex's or a slot's. ww_told_lock is the lock's number, plus 1,
 * or 0 if there is nothing to wait for. ww_count_at_told finds the lock again later, and counts the caller as a waiter there. It returns
 * NULL if the mutex is gone, or isn't read by that slot any more.
 */
WW_HIDDEN uint32_t ww_told_lock(const struct ww_acquire_ctx *x);
WW_HIDDEN struct ww_mutex *ww_count_at_told(ww_seat *s, uint32_t lock, uint32_t puts);
static inline void ww_stop_counting(struct ww_mutex *m) { __atomic_fetch_sub(&m->waiters, 1, __ATOMIC_SEQ_CST); }

/* Notes that a call that asked for this mutex returns -EDEADLK, also one that came at a slot, by which other mutexes are read, too. */
static inline int note_told(struct ww_acquire_ctx *x, const struct ww_mutex *asked, int r)
{
	if (UNLIKELY(r == -EDEADLK)) {
		x->own->told = asked->number;
		x->puts = puts_of(&x->own->pool->numbers, asked->number);
	}
	return r;
}
/* Nothing is to be waited for first any more: the context has locked something since, or has given up that wait. */
static inline void forget_told(struct ww_acquire_ctx *x)
{
	if (LIKELY(!(x->state & IS_TOLD)))
		return;
	NOTE(LOCK_ENDS, .mutex = x->contending_lock, .context = x, .r = -EINTR); /* the debug library expects no wait any more */
	x->state &= ~(unsigned)(IS_TOLD | WAS_TOLD);
}

#endif
