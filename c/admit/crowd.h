/* crowd.h - what crowd.c, the admission of threads, has for contexts that begin and for locks that waited. It isn't installed. */
#ifndef WW_CROWD_H
#define WW_CROWD_H
#include "queue.h"

WW_HIDDEN void ww_reset_crowd(struct ww_pool *p);
/*
 * In a crowd, comes before a context begins, and waits for a permit, if the thread needs one. -ETIMEDOUT: the time limit came, if
 * `until` isn't NULL. -EINTR: the class was cancelled, if the wait heeds that. If `has_waited` becomes true, the thread still counts
 * as one that waits, so that nobody frees the class, until it calls stop_waiting.
 */
WW_HIDDEN int ww_await_permit(struct ww_pool *p, const struct timespec *until, bool heeds, bool *has_waited);
static inline void stop_waiting(struct ww_pool *p) { __atomic_fetch_sub(&p->crowd.waiting, 1, __ATOMIC_SEQ_CST); }
/* How many threads wait for a permit, or have got one and not yet a seat. */
static inline uint32_t waiting_threads(const struct ww_pool *p) { return __atomic_load_n(&p->crowd.waiting, __ATOMIC_SEQ_CST); }
/* Wakes the thread that has waited longest for a permit, or all threads that wait (`all`); each looks for a permit. The queue is locked. */
WW_HIDDEN void ww_call_waiting(struct ww_pool *p, bool all);
/* Notes that this thread has waited for a lock, for `took` nanoseconds until now. Many such waits begin a crowd. */
WW_HIDDEN void ww_note_wait(struct ww_pool *p, uint64_t now, uint64_t took);

/* Whether each thread that has seats of its own has a processor. If the class has no such seats, this isn't known, and it returns false. */
static inline bool has_processors(const struct ww_pool *p)
{
	return p->own_seats && __atomic_load_n(&ww_threads, __ATOMIC_RELAXED) <= processors_of(p);
}

/*
 * Begins or ends the crowd. The store is relaxed, since a thread that sees it late does no harm: it begins one more context without a
 * permit, or looks once more for a permit.
 */
static inline void set_crowded(struct ww_pool *p, bool crowded)
{
	__atomic_store_n(&p->is_crowded, crowded, __ATOMIC_RELAXED);
	ww_set_at_hand(p, !crowded);
}
static inline bool is_crowded(const struct ww_pool *p) { return __atomic_load_n(&p->is_crowded, __ATOMIC_RELAXED); }

/* Whether this thread may begin one more context with its permit, without a look at the clock; it counts that context. */
static inline bool use_permit(const struct ww_pool *p)
{
	if (ww_mine.permit.id != p->id || !ww_mine.permit.begins)
		return false;
	ww_mine.permit.begins--;
	ww_mine.permit.begun++;
	return true;
}

#endif
