/*
 * ww_retry.h - a context that outlives its struct ww_acquire_ctx, and so keeps its age: for a framework's retries
 *
 * A framework that retries begins a new context, which would be the youngest.  So after -EDEADLK, once nothing is held, the context is
 * suspended into a value of 16 bytes, from which it goes on later, in any thread and any memory.  A value of zeros begins a new
 * context, so there is one call for both:
 *
 *	struct ww_retry retry = { 0 };
 *
 *	do {
 *		err = ww_acquire_resume(&ctx, &boxes, &retry, NULL);
 *		if (err)
 *			return err;
 *		err = transfer(&ctx);
 *		unlock what was locked;
 *	} while (err == -EDEADLK && !ww_acquire_suspend(&ctx, &retry));
 *	ww_acquire_fini(&ctx);
 *
 * A suspended context holds nothing, and nobody waits for it.  It uses one of the contexts of its class, of which half may be
 * suspended at a time, and none counts where the library limits how many run.  Each value is resumed or dropped in the end.  In a
 * child of a fork suspended contexts go on, as in its parent.
 */
#ifndef WW_RETRY_H
#define WW_RETRY_H
#include "ww_poll.h"

#ifdef __cplusplus
extern "C" {
#endif

/*
 * The fields are the library's.  Zeros name no context.  The value may be copied and moved, and of its copies one is resumed or dropped.
 * While its context is suspended, ww_class_free returns -EBUSY.
 */
struct ww_retry {
	uint64_t ticket_;
	uint32_t seat_, awaits_;
};

/*
 * Suspends the context, which has ended then for all other calls; what was in `retry` before is dropped.  0; or an error, and the context
 * is as it was: -EINVAL: it has ended, or holds a mutex; -EBUSY: it waits by a poll; -EAGAIN: half of the contexts of the class are
 * suspended, so end it, and its age is lost.
 */
WW_MUST_CHECK int ww_acquire_suspend(struct ww_acquire_ctx *ctx, struct ww_retry *retry) WW_NONNULL_(1, 2);
/*
 * Resumes the context in `ctx`, once it has waited for the contended mutex, which it doesn't hold then; if that was destroyed or put
 * back, it doesn't wait.  Zeros begin a context of the class, as ww_acquire_init_until does.  The context isn't in a loop, and has no
 * flags.  0: the value is zeros.  An error: `ctx` has ended, and the value still names what is suspended: -ETIMEDOUT; -EINTR:
 * ww_class_cancel, or ww_acquire_cancel; -EINVAL: the time is invalid, or the value is of another class, or a copy of it was resumed or
 * dropped, or its class was in use at a fork.
 */
WW_MUST_CHECK int ww_acquire_resume(struct ww_acquire_ctx *ctx, struct ww_class *ww_class, struct ww_retry *retry,
				    const struct timespec *monotonic) WW_NONNULL_(1, 2, 3);
/*
 * As ww_acquire_resume, by a poll of ww_poll.h. Zeros begin a context as ww_acquire_init_poll does. Without a waker, or without a seek,
 * it doesn't wait, or ends its wait. After -EINPROGRESS the value is zeros: the context goes on in `ctx`, where it waits.
 * ww_acquire_end_wait gives up that wait, and the context may lock anything, or be suspended again; ww_acquire_end ends the context.
 * -EINTR, or -ETIMEDOUT without a waker: the value names what is suspended, as after any error.
 */
WW_MUST_CHECK int ww_acquire_resume_poll(struct ww_acquire_ctx *ctx, struct ww_class *ww_class, struct ww_retry *retry,
					 struct ww_seek *seek, const struct ww_waker *waker) WW_NONNULL_(1, 2, 3);
/* The next resume doesn't wait for the contended mutex: for tasks, and for callers that waited in vain and lock other mutexes first. */
static inline __attribute__((unused)) void ww_retry_at_once(struct ww_retry *retry) { retry->awaits_ = 0; }
/* Ends the suspended context; zeros name none. -EINVAL: a copy was resumed or dropped. */
int ww_retry_drop(struct ww_retry *retry) WW_NONNULL_(1);

#if defined(WW_DEBUG) && !defined(WW_CLASS_H)
#define ww_acquire_suspend(...) (WW_HERE_, ww_acquire_suspend(__VA_ARGS__))
#define ww_acquire_resume(...) (WW_HERE_, ww_acquire_resume(__VA_ARGS__))
#define ww_acquire_resume_poll(...) (WW_HERE_, ww_acquire_resume_poll(__VA_ARGS__))
#define ww_retry_drop(...) (WW_HERE_, ww_retry_drop(__VA_ARGS__))
#endif

#ifdef __cplusplus
}
#endif
#endif
