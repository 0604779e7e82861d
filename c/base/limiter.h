/* limiter.h - what limiter.c has for those that count contexts, and let so many of them run at a time. It isn't installed. */
#ifndef WW_LIMITER_H
#define WW_LIMITER_H
#include "inside.h"

#define NO_LIMIT UINT32_MAX
/* How many nanoseconds a permit lasts and a task's seat is lent: a change of threads costs at most a tenth of that. */
enum { LEASE = 1000000 };
struct ww_limiter {
	uint32_t width, kept;	     /* how many contexts may run now, and the best width so far */
	uint32_t least, most;	     /* the bounds of the width */
	uint32_t before;	     /* the width before this one */
	uint32_t widest;	     /* the width that is tried first when there is no limit */
	uint32_t many;		     /* a turn has at least so many contexts */
	uint32_t held, holds;	     /* for how many windows the best width was kept since the last try, and is kept at least */
	bool is_bounded;	     /* whether there is always a limit */
	bool tries, more;	     /* whether another width is tried; whether that one, or the next, has more contexts */
	bool climbs;		     /* no try was in vain yet */
	bool fell;		     /* the last window of the width that is kept was far worse than those before */
	bool settles;		     /* the width has just changed, so nothing is counted yet */
	uint64_t since, waited;	     /* when this window began, and what `waited` was then */
	uint32_t begun;		     /* how many contexts had begun by then; few begin in a window, so this may wrap */
	uint64_t rate;		     /* contexts a second, at the width that is kept */
};

/*
 * Opens the limiter: its width is `first`, and later from `least` to `most`, or NO_LIMIT; after NO_LIMIT it tries `widest` next.
 * The first try is wider if `first` is less than `widest`, and else narrower. A turn has at least `many` contexts.
 */
WW_HIDDEN void ww_limiter_open(struct ww_limiter *limiter, uint32_t least, uint32_t first, uint32_t widest, uint32_t most,
			    uint32_t many);
/*
 * Looks whether the window has ended, and decides on the next width. `begun` contexts have begun by now; `waited` changes if
 * somebody waits at the limiter. It returns false once the limiter is of no use.
 */
WW_HIDDEN bool ww_limiter_look(struct ww_limiter *limiter, uint64_t now, uint32_t begun, uint64_t waited);

#endif
