/*
 * seat.h - how a seat that is at hand is used and given, and what seat.c, where all callers ask for seats, has for the library's
 * other sources. It isn't installed.
 */
#ifndef WW_SEAT_H
#define WW_SEAT_H
#include "class.h"
#include "crowd.h"
#include "../base/age.h"

/* The time limit of a begin that doesn't wait, but returns -EAGAIN. */
WW_HIDDEN extern const struct timespec ww_no_wait;

/*
 * The two steps of a begin that found no seat at hand. The first one doesn't wait: it claims the seat that this thread used last,
 * or in a crowd this thread's own seat if the thread has a permit; else NULL. The second one gets any seat, for which it may wait,
 * as ww_seek_seat does.
 */
WW_HIDDEN ww_seat *ww_seat_to_begin(struct ww_pool *p);
WW_HIDDEN int ww_await_seat_to_begin(struct ww_pool *p, const struct timespec *until, bool heeds, ww_seat **s);
/* Any seat that this thread may use now, if its own isn't at hand; or NULL. */
WW_HIDDEN ww_seat *ww_other_seat(struct ww_pool *p);
/* The same, but it misses no seat that is free all the time, though others come and go meanwhile. */
WW_HIDDEN ww_seat *ww_free_seat(struct ww_pool *p);
/*
 * For polls: claims a free seat, of as many as the limiter finds best, unless others wait; or NULL. A task that has a context of
 * this class already (`is_within`) gets any free seat.
 */
WW_HIDDEN ww_seat *ww_task_seat(struct ww_pool *p, bool is_within);
/* Releases a seat that is no thread's own. */
WW_HIDDEN void ww_return_seat(ww_seat *s);

static inline ww_seat *seat_at_hand(const struct ww_pool *p)
{
	return LIKELY(__atomic_load_n(&p->at_hand, __ATOMIC_RELAXED) == ww_this_copy) ? use_own(own_or_before(p)) : NULL;
}

static inline ww_seat *seat_without_wait(struct ww_pool *p)
{
	ww_seat *s = seat_at_hand(p);

	return LIKELY(s) ? s : ww_free_seat(p);
}

/*
 * Releases a seat. Until then nobody but its user may free the class. The bit IS_OWN never changes, so a plain load shows whether
 * the seat is a thread's own.
 */
static inline void give_seat(ww_seat *s)
{
	NOTE(SEAT_GIVEN, .seat = s);
	if (LIKELY(__atomic_load_n(&s->busy, __ATOMIC_RELAXED) & IS_OWN))
		__atomic_store_n(&s->busy, IS_OWN, __ATOMIC_RELEASE);
	else
		ww_return_seat(s);
}

#endif
