/*
 * ww_shared.h - shared mutexes: held by any number of readers, or by one writer
 *
 * A struct ww_shared_mutex is for an object that is read much more often than written.  A context reads it (lock_shared) or
 * writes it (lock), in any order with its other mutexes of the class, of each kind, in ww_until_all_locked or without it:
 *
 *	ww_acquire_init(&ctx, &boxes);
 *	ww_until_all_locked(&ctx) {
 *		err = ww_shared_mutex_lock_shared(&box->lock, &ctx);
 *		ww_retry_on_contention(&ctx);
 *		if (!err && box->is_stale)
 *			err = ww_shared_mutex_lock(&box->lock, &ctx);
 *		ww_retry_on_contention(&ctx);
 *	}
 *	..
 *	ww_acquire_unlock_all(&ctx);
 *	ww_acquire_fini(&ctx);
 *
 * Reads end together, except by ww_shared_mutex_end_read: an object that a context reads stays protected until the context has ended
 * all its reads.  Each call needs a
 * context, since all waits are those of contexts, and so every deadlock among readers and writers ends by -EDEADLK.
 *
 * Return values are those of ww_mutex.h.  -EDEADLK of any of these calls, also of a context's first: release everything, then
 * ww_shared_mutex_await, and begin again; a loop does so by itself.  Readers take none of the class's mutexes.
 */
#ifndef WW_SHARED_H
#define WW_SHARED_H
#include "ww_number.h"

#ifdef __cplusplus
extern "C" {
#endif

/* The fields are the library's. */
struct ww_shared_mutex {
	struct ww_mutex mutex_;	/* a writer holds it */
	uint64_t readers_;	/* the bits of its readers' slots */
};

/* As WW_MUTEX_INIT. */
#define WW_SHARED_MUTEX_INIT(of_class) { WW_MUTEX_INIT(of_class), 0 }
/* As ww_mutex_init, and ww_mutex_init_checked. */
void ww_shared_mutex_init(struct ww_shared_mutex *lock, struct ww_class *ww_class) WW_NONNULL_(1, 2);
WW_MUST_CHECK int ww_shared_mutex_init_checked(struct ww_shared_mutex *lock, struct ww_class *ww_class) WW_NONNULL_(1, 2);
/*
 * As ww_mutex_destroy: -EBUSY also while a context reads the mutex.  While it looks, it has the mutex, so a trylock may return 0, and a
 * lock call waits.
 */
int ww_shared_mutex_destroy(struct ww_shared_mutex *lock) WW_NONNULL_(1);

/*
 * Reads the mutex: waits while somebody writes it, or waits to write it; but an older context goes ahead of a younger one that waits, as
 * in any wait list.  It returns 0 also if the context reads or writes the mutex already; but -EALREADY outside loops if the context
 * writes it and it is a number's (ww_number_at).  -ENOMEM: the context's first read found no memory.
 */
WW_MUST_CHECK int ww_shared_mutex_lock_shared(struct ww_shared_mutex *lock, struct ww_acquire_ctx *ctx) WW_NONNULL_(1);
/*
 * As ww_shared_mutex_lock_shared, but at most until a time of the monotonic clock, if that isn't NULL: -ETIMEDOUT; or ww_acquire_cancel:
 * -EINTR.
 */
WW_MUST_CHECK int ww_shared_mutex_lock_shared_until(struct ww_shared_mutex *lock, struct ww_acquire_ctx *ctx,
						    const struct timespec *monotonic) WW_NONNULL_(1);
/* Returns 1 if the context reads the mutex now, else 0. */
WW_MUST_CHECK int ww_shared_mutex_trylock_shared(struct ww_shared_mutex *lock, struct ww_acquire_ctx *ctx) WW_NONNULL_(1);

/*
 * Writes the mutex: waits until nobody else reads or writes it.  If the context reads it, that is an upgrade: nobody writes it in
 * between.  Of two contexts that upgrade it at the same time one gets -EDEADLK.  -EALREADY: the context writes it; in a loop this is 0
 * with WW_IGNORE_DUPLICATES.  After an error the context holds what it held before.
 */
WW_MUST_CHECK int ww_shared_mutex_lock(struct ww_shared_mutex *lock, struct ww_acquire_ctx *ctx) WW_NONNULL_(1);
/* As ww_shared_mutex_lock, with the limits of ww_shared_mutex_lock_shared_until. */
WW_MUST_CHECK int ww_shared_mutex_lock_until(struct ww_shared_mutex *lock, struct ww_acquire_ctx *ctx,
					     const struct timespec *monotonic) WW_NONNULL_(1);
/* Returns 1 if the context writes the mutex now, else 0. */
WW_MUST_CHECK int ww_shared_mutex_trylock(struct ww_shared_mutex *lock, struct ww_acquire_ctx *ctx) WW_NONNULL_(1);
/*
 * For a context that writes the mutex: from now on it reads it, and others may.  This can't fail, and nobody writes the mutex in between;
 * but a context that got -EDEADLK, or would get -ENOMEM for its first read, goes on writing it; so does one that reads nothing yet, while
 * a task that waited for its former reads, or those of an earlier context, hasn't polled again.
 */
void ww_shared_mutex_downgrade(struct ww_shared_mutex *lock, struct ww_acquire_ctx *ctx) WW_NONNULL_(1);

/*
 * Ends the context's write, and no read.  -EINVAL: the context doesn't write the mutex.  Each call to write that succeeded, also one
 * that upgraded, needs one unlock; or in a loop ww_acquire_unlock_all ends all.  With WW_IGNORE_DUPLICATES a lock call of what the
 * context writes returns 0 and acquires nothing, so it needs none.
 */
int ww_shared_mutex_unlock(struct ww_shared_mutex *lock, struct ww_acquire_ctx *ctx) WW_NONNULL_(1, 2);
/* Ends one of the context's reads, and no write.  -EINVAL: it doesn't read the mutex. Each call to read that succeeded needs one. */
int ww_shared_mutex_unlock_shared(struct ww_shared_mutex *lock, struct ww_acquire_ctx *ctx) WW_NONNULL_(1, 2);
/*
 * Ends the one read of this mutex, of a context that reads it once, as after a rollback or in read committed: a writer that comes from
 * then on doesn't wait for this context, whatever else it reads.  A writer that waits by then waits for all of the context's reads.  If
 * the context has read the mutex twice, nothing protects its other read any more, of which the unlock returns -EINVAL.  -EINVAL: the
 * context doesn't read the mutex; -EBUSY: it waits by a poll.
 */
int ww_shared_mutex_end_read(struct ww_shared_mutex *lock, struct ww_acquire_ctx *ctx) WW_NONNULL_(1, 2);
/* Ends all reads of the context. */
void ww_acquire_end_reads(struct ww_acquire_ctx *ctx) WW_NONNULL_(1);
/*
 * Without a loop, after -EDEADLK, with nothing held: waits for the mutex with which the context collided, which has to exist still, and
 * holds nothing then.  The call has the limits, and returns the errors, of ww_mutex_lock_slow_until: after -ETIMEDOUT the age stays, and
 * any lock may come next.
 */
WW_MUST_CHECK int ww_shared_mutex_await(struct ww_acquire_ctx *ctx, const struct timespec *monotonic);
/*
 * Whether anybody reads or writes the mutex, or waits for it, which may be out of date when this returns.  If its class was in use at a
 * fork, nobody does in the child.  To wait until nobody does, call ww_shared_mutex_lock and ww_shared_mutex_unlock.
 */
bool ww_shared_mutex_is_locked(const struct ww_shared_mutex *lock) WW_NONNULL_(1);
/* Whether the context writes the mutex; and whether it reads it, for the thread that uses the context. */
bool ww_shared_mutex_is_written_by(const struct ww_shared_mutex *lock, const struct ww_acquire_ctx *ctx) WW_NONNULL_(1, 2);
bool ww_shared_mutex_is_read_by(const struct ww_shared_mutex *lock, const struct ww_acquire_ctx *ctx) WW_NONNULL_(1, 2);
/*
 * For event loops and coroutines: these calls as polls of ww_poll.h, like ww_mutex_lock_poll.  A further call goes on only if it is the
 * same one.  Without a waker (NULL) a call ends the wait: it returns 0 if the context then reads or writes; else what it has acquired on
 * its way is released again, and what was read and written before still is.  After -EDEADLK release everything, and poll
 * ww_shared_mutex_await_poll, which holds nothing once it returns 0; then begin again.
 */
struct ww_waker;
WW_MUST_CHECK int ww_shared_mutex_lock_shared_poll(struct ww_shared_mutex *lock, struct ww_acquire_ctx *ctx,
						   const struct ww_waker *waker);
WW_MUST_CHECK int ww_shared_mutex_lock_poll(struct ww_shared_mutex *lock, struct ww_acquire_ctx *ctx, const struct ww_waker *waker);
WW_MUST_CHECK int ww_shared_mutex_await_poll(struct ww_acquire_ctx *ctx, const struct ww_waker *waker);
/* For C++, as ww_mutex_end_. */
int ww_shared_mutex_end_(struct ww_shared_mutex *lock) WW_NONNULL_(1);

#if defined(WW_DEBUG) && !defined(WW_CLASS_H)
#define ww_shared_mutex_init(...) (WW_HERE_, ww_shared_mutex_init(__VA_ARGS__))
#define ww_shared_mutex_destroy(...) (WW_HERE_, ww_shared_mutex_destroy(__VA_ARGS__))
#define ww_shared_mutex_end_(...) (WW_HERE_, ww_shared_mutex_end_(__VA_ARGS__))
#define ww_shared_mutex_lock_shared(...) (WW_HERE_, ww_shared_mutex_lock_shared(__VA_ARGS__))
#define ww_shared_mutex_lock_shared_until(...) (WW_HERE_, ww_shared_mutex_lock_shared_until(__VA_ARGS__))
#define ww_shared_mutex_trylock_shared(...) (WW_HERE_, ww_shared_mutex_trylock_shared(__VA_ARGS__))
#define ww_shared_mutex_lock(...) (WW_HERE_, ww_shared_mutex_lock(__VA_ARGS__))
#define ww_shared_mutex_lock_until(...) (WW_HERE_, ww_shared_mutex_lock_until(__VA_ARGS__))
#define ww_shared_mutex_trylock(...) (WW_HERE_, ww_shared_mutex_trylock(__VA_ARGS__))
#define ww_shared_mutex_downgrade(...) (WW_HERE_, ww_shared_mutex_downgrade(__VA_ARGS__))
#define ww_shared_mutex_unlock(...) (WW_HERE_, ww_shared_mutex_unlock(__VA_ARGS__))
#define ww_shared_mutex_unlock_shared(...) (WW_HERE_, ww_shared_mutex_unlock_shared(__VA_ARGS__))
#define ww_shared_mutex_end_read(...) (WW_HERE_, ww_shared_mutex_end_read(__VA_ARGS__))
#define ww_shared_mutex_await(...) (WW_HERE_, ww_shared_mutex_await(__VA_ARGS__))
#define ww_shared_mutex_lock_shared_poll(...) (WW_HERE_, ww_shared_mutex_lock_shared_poll(__VA_ARGS__))
#define ww_shared_mutex_lock_poll(...) (WW_HERE_, ww_shared_mutex_lock_poll(__VA_ARGS__))
#define ww_shared_mutex_await_poll(...) (WW_HERE_, ww_shared_mutex_await_poll(__VA_ARGS__))
#endif

#ifdef __cplusplus
}
#endif
#endif
