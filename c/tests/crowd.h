/* What tests of crowds share: one that is set by hand. */
#ifndef CROWD_H
#define CROWD_H
#include "mutex_test.h"
#include "../admit/crowd.h"
#include "../base/sleep.h"

/* From now on the class has so many permits, for ever: its limiter doesn't look, and no context is long. */
static inline void crowds(struct ww_class *of, uint32_t permits)
{
	struct ww_crowd *crowd = &of->pool->crowd;
	struct ww_limiter *limiter = &of->pool->crowd.limiter;

	pthread_mutex_lock(&of->pool->queue);
	ww_limiter_open(limiter, permits, permits, permits, permits, 64);
	limiter->since = UINT64_MAX;
	limiter->kept = permits + 1; /* whose waits are many or few */
	crowd->since = UINT64_MAX - LEASE;
	crowd->is_long = false;
	crowd->sleepers = 0;
	set_crowded(of->pool, true);
	pthread_mutex_unlock(&of->pool->queue);
}

/* As if this thread had never slept, else it might pass without a permit; and as if it mostly waited, else its contexts might be long. */
static inline void is_awake(void) { ww_mine.awake = 0, ww_mine.elsewhere = 0, ww_mine.permit.waited = (uint64_t)1 << 50; }

static inline uint64_t permit_waits(struct ww_class *of)
{
	struct ww_class_counts counts;

	ww_class_stats(of, &counts);
	return counts.permit_waits;
}
#endif
