/*
 * ww_number.h - mutexes of a class by number, for objects that move or have no room for a struct ww_mutex.
 *
 * Such a mutex is a number, which the program keeps beside the data that it protects, and may copy and move: the library
 * keeps no address of it.  Contexts, with their time limits, cancels and loops, are those of ww_mutex.h; one context may hold
 * mutexes of both kinds.  Each number is one of the mutexes that its class has.  The library can't tell whose a number is, and
 * of which class: the program must know.
 */
#ifndef WW_NUMBER_H
#define WW_NUMBER_H
#include "ww_mutex.h"

#ifdef __cplusplus
extern "C" {
#endif

/*
 * Takes a mutex that nobody else has.  Its number may be up to four times as great as the class has mutexes, and up to 67 in any class.
 * -ENOSPC, -ENOMEM and -EINVAL as ww_mutex_init_checked: the class's first call allocates memory for all numbers.
 */
WW_MUST_CHECK int ww_number_take(uint32_t *number, struct ww_class *ww_class) WW_NONNULL_(1, 2);
/*
 * Frees a number that was taken.  -EBUSY: somebody holds the mutex or waits for it, or a context that has read it (ww_shared.h) hasn't
 * ended its reads, and nothing has changed; -EINVAL: the number isn't taken.  Once this returns 0, no other thread accesses the mutex any
 * more.  A context that backed off at the number waits neither for it nor for the next mutex that has it.
 */
int ww_number_put(uint32_t number, struct ww_class *ww_class) WW_NONNULL_(2);

/*
 * Frees a number for a caller that can't wait, as a destructor: the number comes free by itself once nobody holds it, waits for it or
 * reads it.  Nobody may begin to.
 */
void ww_number_leave(uint32_t number, struct ww_class *ww_class) WW_NONNULL_(2);
/*
 * The library's mutex of a number: for the calls of ww_shared.h, as
 *	ww_shared_mutex_trylock_shared(ww_number_at(number, &boxes), &ctx)
 * and by its member mutex_ for those of ww_mutex.h, also without a context (NULL).  A context that writes what others read calls
 * ww_shared_mutex_lock, since ww_number_lock waits for no reader.  What a context writes is unlocked by its number, or by
 * ww_shared_mutex_unlock, and what it reads by ww_shared_mutex_unlock_shared.  A struct ww_acquire_ctx may move in memory only outside
 * loops and tries, and only if it makes no ww_mutex_lock and no ww_mutex_trylock, which leave its address in the mutex.  The mutex stays
 * where it is until the class is freed, also while nobody has its number.  NULL: the number was never taken.
 */
struct ww_shared_mutex;
struct ww_shared_mutex *ww_number_at(uint32_t number, struct ww_class *ww_class) WW_NONNULL_(2);

/*
 * As ww_mutex_lock with a context, in ww_until_all_locked too.  -EDEADLK: release everything that the context holds, then acquire this
 * mutex first, with any call except a trylock; a context that holds nothing never gets -EDEADLK.  Of a number that was never taken the
 * call may acquire the lock, as if it were taken, or return -EINVAL.
 */
WW_MUST_CHECK int ww_number_lock(uint32_t number, struct ww_acquire_ctx *ctx) WW_NONNULL_(2);
/* Returns 1 if it acquired the mutex, else 0: somebody holds it or waits for it, or the context may acquire nothing now. */
WW_MUST_CHECK int ww_number_trylock(uint32_t number, struct ww_acquire_ctx *ctx) WW_NONNULL_(2);
/* Releases the mutex. -EINVAL: the context doesn't hold it. */
int ww_number_unlock(uint32_t number, struct ww_acquire_ctx *ctx) WW_NONNULL_(2);

#if defined(WW_DEBUG) && !defined(WW_CLASS_H)
#define ww_number_take(...) (WW_HERE_, ww_number_take(__VA_ARGS__))
#define ww_number_put(...) (WW_HERE_, ww_number_put(__VA_ARGS__))
#define ww_number_leave(...) (WW_HERE_, ww_number_leave(__VA_ARGS__))
#define ww_number_lock(...) (WW_HERE_, ww_number_lock(__VA_ARGS__))
#define ww_number_trylock(...) (WW_HERE_, ww_number_trylock(__VA_ARGS__))
#define ww_number_unlock(...) (WW_HERE_, ww_number_unlock(__VA_ARGS__))
#endif

/* The first steps are compiled into the callers, as those of ww_mutex.h; where one step isn't enough, the library begins anew. */
int ww_number_unlock_further_(uint32_t number, struct ww_acquire_ctx *ctx, int r);
#if !defined(WW_NO_INLINE) && !defined(WW_DEBUG)
int ww_number_lock_else_(uint32_t number, struct ww_acquire_ctx *ctx) __asm__("ww_number_lock");
int ww_number_trylock_else_(uint32_t number, struct ww_acquire_ctx *ctx) __asm__("ww_number_trylock");
#define WW_INLINE_ extern __inline __attribute__((__gnu_inline__))

WW_INLINE_ int ww_number_lock(uint32_t number, struct ww_acquire_ctx *ctx)
{
	if (__builtin_expect(!ctx->own || ww_only_of_try_(ctx->gives, number), 0))
		return ww_number_lock_else_(number, ctx);
	ctx->acquired++;
	return 0;
}

WW_INLINE_ int ww_number_trylock(uint32_t number, struct ww_acquire_ctx *ctx)
{
	if (__builtin_expect(!ctx->own || ww_only_of_try_(ctx->gives, number), 0))
		return ww_number_trylock_else_(number, ctx);
	ctx->acquired++;
	return 1;
}

WW_INLINE_ int ww_number_unlock(uint32_t number, struct ww_acquire_ctx *ctx)
{
	int r = __builtin_expect(!ctx->own, 0) ? -EINVAL : ww_first_of_unlock_(ctx->gives, number);

	if (__builtin_expect(r != 0, 0))
		return ww_number_unlock_further_(number, ctx, r);
	ctx->acquired--;
	WW_LISTS_NOTHING_(ctx); /* the list may name the mutex, which ww_mutex_lock or ww_mutex_trylock of ww_number_at acquired */
	return 0;
}
#undef WW_INLINE_
#endif

#ifdef __cplusplus
}
#endif
#endif
