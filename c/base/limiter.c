/*
 * limiter.c - how many contexts of a class run at a time, found by measuring: those of threads that need permits (crowd.c), and
 * those of tasks (queue.c).
 *
 * Contexts that meet wait for one another, and each cache line that they share moves from processor to processor, which costs more
 * than a short context takes. So more contexts may end if fewer run at a time; or if more run, where they wait for something else,
 * such as a timer. No measure of waiting shows how many are best, since most of what a meeting costs isn't waiting. So widths are
 * tried: the limiter has a width, and counts contexts, window by window. The table has each width, how many contexts began in a
 * window of it, and what is next:
 *
 *	width		a window began			then
 *	kept		any number			the same again; after some windows, half of it or twice as many
 *							is tried, by turns
 *			a half less, twice		the load isn't what it was: half of it is tried at once, and
 *							soon twice as many
 *	tried, fewer	an eighth more			kept, and half of it is tried
 *	tried, more	at most a sixteenth less	kept, and twice as many are tried; four times as many until a
 *							try was in vain
 *	either		at most a quarter less else	half of it, or twice as many, is tried, but it isn't kept
 *			less				back, and the next try comes later
 *	tried, fewer, and nobody waits at the limiter	half of it is tried at once: that many are no limit
 *	kept, and nobody waits at the limiter		there is no use of a limiter, unless a window began a half less
 *
 * Each window is compared with the last window of the width that is kept: a smaller width has to gain something, and a larger one
 * needn't. Twice as many as there may be are no limit, which a bounded limiter never tries. For threads a limiter is of no use once
 * no limit is best; for tasks fewer are still tried from time to time. The first width is kept for a window, whoever waits.
 *
 * For threads the first width is 1: the way from many to few leads through widths at which threads fall asleep one after another,
 * so a window takes long, and the way up leads through widths that run well. If a larger width is far worse, the contexts that it
 * began still run for a while at the width before; so one window that is far worse isn't believed.
 */
#define _GNU_SOURCE
#include "limiter.h"

/* A window has at least so many nanoseconds, as all times here, so that a preemption or two don't decide. */
enum { WINDOW = 2000000 };
/* A width is kept for so many windows at first, and at most. So tries that fail take a sixty-fourth of the time. */
enum { FIRST_HOLDS = 8, MOST_HOLDS = 64 };

/* Lets so many contexts run from now on. While those of another width before may still run, nothing is counted (`settles`). */
static void set_width(struct ww_limiter *limiter, uint32_t width)
{
	limiter->settles = limiter->width != width;
	limiter->before = limiter->width;
	limiter->width = width;
}

/*
 * A turn: after so many contexts each one that runs now has ended, also those of the width before. A window has two turns, against
 * chance.
 */
static uint32_t turn(const struct ww_limiter *limiter)
{
	uint32_t width = limiter->settles && limiter->before > limiter->width ? limiter->before : limiter->width;

	width = width < limiter->most ? width : limiter->most;
	return width > limiter->many ? width : limiter->many;
}

void ww_limiter_open(struct ww_limiter *limiter, uint32_t least, uint32_t first, uint32_t widest, uint32_t most, uint32_t many)
{
	*limiter = (struct ww_limiter){ .width = first, .kept = first, .least = least, .widest = widest, .most = most,
				  .many = many, .holds = 1, .more = first >= widest, .climbs = true, .settles = true };
}

/* The width to try next: half of the present one, or twice or four times as many; or the present one, where there is no such width. */
static uint32_t other_width(const struct ww_limiter *limiter)
{
	uint32_t times = limiter->climbs ? 4 : 2;

	if (limiter->more && limiter->width <= limiter->most / times)
		return times * limiter->width;
	if (limiter->more)
		return limiter->width == limiter->kept && !limiter->is_bounded ? NO_LIMIT : limiter->width;
	if (limiter->width == NO_LIMIT)
		return limiter->widest;
	return limiter->width / 2 < limiter->least ? limiter->width : limiter->width / 2;
}

static void go_back(struct ww_limiter *limiter)
{
	limiter->tries = limiter->climbs = false;
	limiter->held = 0;
	limiter->holds = limiter->holds < MOST_HOLDS / 2 ? 2 * limiter->holds : MOST_HOLDS;
	set_width(limiter, limiter->kept);
}

static void try_on(struct ww_limiter *limiter)
{
	uint32_t width = other_width(limiter);

	if (width == limiter->width) {
		go_back(limiter);
		return;
	}
	limiter->tries = true;
	set_width(limiter, width);
}

static void keep_width(struct ww_limiter *limiter, uint64_t rate)
{
	limiter->kept = limiter->width;
	limiter->rate = rate;
}

/* Decides what comes after a window, in which so many contexts began a second; `is_no_limit`: nobody waited at the limiter. */
static void decide(struct ww_limiter *limiter, uint64_t rate, bool is_no_limit)
{
	bool pays = limiter->more ? rate > limiter->rate - limiter->rate / 16 : rate > limiter->rate + limiter->rate / 8;
	bool fell = rate < limiter->rate / 2, again = fell && limiter->fell;

	if (!limiter->tries) {
		limiter->fell = fell;
		if (fell && !again)
			return;
		keep_width(limiter, rate);
		if (is_no_limit && !fell) {
			limiter->kept = NO_LIMIT;
			return;
		}
		if (again)
			limiter->holds = 1;
		else if (++limiter->held < limiter->holds)
			return;
		limiter->more = !again && (!limiter->more || limiter->width / 2 < limiter->least);
	} else if (pays) {
		keep_width(limiter, rate);
		limiter->holds = FIRST_HOLDS / 2;
	} else if (rate < limiter->rate - limiter->rate / 4) {
		go_back(limiter);
		return;
	}
	try_on(limiter);
}

/*
 * Whether the window has had so many turns of contexts, or would have had at the rate that is kept. So a width that is far worse is
 * soon known, and, after eight windows, also that the load has changed. If next to nothing begins for that long, it is enough, too.
 */
static bool is_enough(const struct ww_limiter *limiter, uint64_t took, uint64_t count, uint64_t turns)
{
	uint64_t enough = turns * turn(limiter);
	bool is_long = took >= 8 * WINDOW;

	return count >= enough || ((limiter->tries || is_long) && took / 1000 * limiter->rate / 1000000 >= enough) ||
	       (is_long && count < limiter->many / 8);
}

/* A caller has read the clock before it comes here, so one may come with an earlier time than the last one had. */
bool ww_limiter_look(struct ww_limiter *limiter, uint64_t now, uint32_t begun, uint64_t waited)
{
	uint64_t took = now < limiter->since ? 0 : now - limiter->since, count = begun - limiter->begun; /* of 32 bits, as `begun` wraps */
	bool is_no_limit = limiter->width != NO_LIMIT && waited == limiter->waited;

	/* contexts of the width before may have yet to end */
	if (limiter->since && (took < WINDOW / 8 || !is_enough(limiter, took, count, 1)))
		return true;
	if (limiter->settles || !limiter->since)
		limiter->settles = false;
	else if (is_no_limit && limiter->tries && !limiter->more)
		try_on(limiter);
	else if (took < WINDOW || !is_enough(limiter, took, count, 2))
		return true;
	else
		decide(limiter, count * 1000000000 / took, is_no_limit && limiter->rate);
	limiter->since = now;
	limiter->begun = begun;
	limiter->waited = waited;
	return limiter->tries || !limiter->rate || limiter->kept != NO_LIMIT;
}
