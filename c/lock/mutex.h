/* mutex.h - what each lock call asks first, and the calls of mutex.c that other sources make. It isn't installed. */
#ifndef WW_LOCK_MUTEX_H
#define WW_LOCK_MUTEX_H
#include "lock.h"

/*
 * What each lock call asks before it makes a step that isn't quick: ww_admit returns 0, or what the call then returns, and the
 * debug library reports why. A quick lock call that finds NO_POOL or the empty handle comes here, too.
 *
 *	what is asked				of which calls			otherwise
 *	the time limit is valid			all				-EINVAL
 *	there is a context, and it hasn't ended	all but locks without a context	-EINVAL
 *	the context doesn't wait by a poll	all but locks without a context	-EBUSY, a trylock 0
 *	in a loop the context owes nothing	polls				-EINVAL
 *	the context got -EDEADLK		slow locks			-EINVAL
 *	there is a mutex, of the same class	all; each lock of a list asks	-EINVAL
 *	the mutex has its number, or gets it	all; each lock of a list asks	-ENOSPC, -ENOMEM, -EINVAL
 *
 * The proved library asks the rest: whether a context that got -EDEADLK has released all, and whether it already holds the mutex.
 */
enum lock_call { CALL_ALONE, CALL_LOCK, CALL_SLOW, CALL_LIST, CALL_POLL };
WW_HIDDEN int ww_admit(const char *name, enum lock_call call, struct ww_mutex *m, struct ww_acquire_ctx *x,
		       const struct timespec *until);
/*
 * Called before the first lock call of a context that acquires by hand, not in a loop, or before such a context is suspended or
 * labelled. If the context's seat rested (age.h), the context now draws an age of its own, unless it already holds a mutex, or has
 * met another context, by the quick calls of ww_number.h.
 */
static inline void draw_age_by_hand(struct ww_acquire_ctx *x)
{
	ww_seat *s = x->own;

	if (x->pool != NO_POOL || is_loop(x))
		return;
	x->pool = s->pool;
	if (!x->acquired && s->ages > MET) {
		stop_rest(s);
		(void)!ww_begin_(&s->handle);
	}
}
/* Locks the mutex by the context, unless ww_admit refuses that. */
WW_HIDDEN int ww_lock_as(struct ww_mutex *m, struct ww_acquire_ctx *x, const struct ww_how *how);
/* Locks the contended mutex by a context that got -EDEADLK and has released everything; or returns an error, which isn't reported. */
WW_HIDDEN int ww_lock_slowly(struct ww_mutex *m, struct ww_acquire_ctx *x, const struct ww_how *how);
/* Tries the mutex by the context: 0; -EBUSY, if the mutex is taken; or another error, if the context may acquire nothing. */
WW_HIDDEN int ww_try_by(struct ww_mutex *m, struct ww_acquire_ctx *x);
/*
 * Ends a mutex that nobody uses, as ww_mutex_end_ does, and frees its number by `gives`. If a context has read the mutex, and reads
 * on, that is ww_leave_number (used.c).
 */
WW_HIDDEN int ww_end_mutex(struct ww_mutex *m, void (*gives)(struct ww_numbers *n, uint32_t number));

#endif
