/*
 * The compiler warns of one of these calls, where WW_CHECK_LOCKS or WW_DEBUG is defined.
 *
 * tests.mk counts its warnings.
 */
#include "ww_mutex.h"

int looks_and_ignores(struct ww_mutex *lock, struct ww_acquire_ctx *ctx);
int looks_and_ignores(struct ww_mutex *lock, struct ww_acquire_ctx *ctx)
{
	int r = ww_mutex_lock(lock, ctx);

	ww_mutex_lock(lock, NULL);
	(void)!ww_mutex_lock(lock, ctx);
	ww_mutex_lock(lock, ctx); /* this one */
	return r;
}
