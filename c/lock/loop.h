/* loop.h - what a context has to do in a loop: see loop.c.  It isn't installed. */
#ifndef WW_LOOP_H
#define WW_LOOP_H
#include "lock.h"

/* Clears the bits `not` of a context's state, and sets the bits `now`; so opens or closes the quick way of the context's lock calls. */
WW_HIDDEN void ww_become(struct ww_acquire_ctx *x, unsigned int not, unsigned int now);
/* From now on the context lists what it acquires, and an unlock takes the mutex out of the list. */
static inline void begin_loop(struct ww_acquire_ctx *x)
{
	x->newest = NULL;
	x->empty_[0] = x->empty_[1] = NULL;
	x->gives = x->empty_;
}
/*
 * Releases the newest mutex of the context's list. The next one is read before the unlock, after which another thread may free the
 * mutex's memory.
 */
static inline int release_newest(struct ww_acquire_ctx *x)
{
	struct ww_mutex *m = x->newest;

	x->newest = m->older;
	return unlock_unlisted(m, x);
}
/* Lets the context share an age with others of its thread (age.h), since it retries by itself. */
static inline void let_be_older(struct ww_acquire_ctx *x)
{
	share_age(x->own);
	x->pool = x->own->pool;
}
/* Whether the number of a mutex by number was put back since it had been put back `puts` times. */
WW_HIDDEN bool ww_is_gone(const struct ww_pool *p, const struct ww_mutex *m, uint32_t puts);
/* Locks the mutex by a context in a loop, which first waits for the contended mutex, if it has to. */
WW_HIDDEN int ww_lock_in_loop(struct ww_mutex *m, struct ww_acquire_ctx *x, const struct ww_how *how);
/* Takes note of a lock call in a loop for which the proved library returned r, and returns what the call returns. */
WW_HIDDEN int ww_result_in_loop(struct ww_mutex *m, struct ww_acquire_ctx *x, int r);
/*
 * Whether a lock call succeeds because its context already holds the mutex. Either the context waited for the mutex before the body
 * of its loop asked for it, which this call does; or the body may lock a mutex that it holds (`may_repeat`).
 */
WW_HIDDEN bool ww_accept_held(struct ww_acquire_ctx *x, struct ww_mutex *m, bool may_repeat);

#endif
