/* ww_mutex_inline.h - what of ww_mutex.h is compiled into its callers; ww_mutex.h includes this. */
#ifndef WW_MUTEX_INLINE_H
#define WW_MUTEX_INLINE_H
#include "ww_mutex.h"
#ifdef __cplusplus
extern "C" {
#endif

/*
 * A label that the program names comes before the default one.  The compiler sees that the body runs at least once, so what the body sets
 * is set after it; the goto that is never taken is for a body that has none.  (A computed goto would need no names, but clang++ refuses
 * two of them.)  The body is a loop of one round, so that `break` and `continue` in it end the round, and the outer loop looks whether
 * there has to be another one.
 */
#define WW_UNTIL_ALL_LOCKED_(ctx, again, ...)                                                          \
	for (struct ww_acquire_ctx *again##_of_ = ww_tries_begin_(ctx); again##_of_;                   \
	     again##_of_ = ww_is_contended(again##_of_) ? again##_of_ : NULL)                          \
	again:                                                                                         \
		if (ww_is_contended(again##_of_) && (ww_back_off_(again##_of_), 0))                     \
			goto again;                                                                    \
		else                                                                                   \
			for (int again##_once_ = 1; again##_once_; again##_once_ = 0)
#define WW_RETRY_ON_CONTENTION_(ctx, again, ...)                                                       \
	do {                                                                                           \
		if (ww_is_contended(ctx))                                                              \
			goto again;                                                                    \
	} while (0)
struct ww_acquire_ctx *ww_tries_begin_(struct ww_acquire_ctx *ctx) __attribute__((__returns_nonnull__)) WW_NONNULL_(1);
/* Backs off, if the context has to. */
void ww_back_off_(struct ww_acquire_ctx *ctx) WW_NONNULL_(1);
__attribute__((__unused__)) static inline void ww_acquire_begin_tries(struct ww_acquire_ctx *ctx) { ww_tries_begin_(ctx); }
enum { WW_HAS_TO_BACK_OFF_ = 4, WW_WAITS_FIRST_ = 8 }; /* bits of a context's state, beside its flags */
__attribute__((__unused__)) static inline bool ww_acquire_end_try(struct ww_acquire_ctx *ctx)
{
	bool again = ww_is_contended(ctx) || ctx->state & WW_WAITS_FIRST_;

	if (again)
		ww_back_off_(ctx);
	else
		ww_acquire_unlock_all(ctx);
	return again;
}
/* For C++: as ww_mutex_destroy, but afterwards the mutex is as WW_MUTEX_INIT makes one of its class. */
int ww_mutex_end_(struct ww_mutex *lock) WW_NONNULL_(1);

/*
 * The uncontended calls are compiled into their callers: each makes its first step by the
 * proved library, and the library does the rest.  Under the thread sanitizer, and wherever
 * WW_NO_INLINE is defined, the library's own functions of the same names are called instead,
 * which tell the sanitizer what a lock orders.
 */
#if defined(__SANITIZE_THREAD__) && !defined(WW_NO_INLINE)
#define WW_NO_INLINE
#endif
#ifdef __has_feature /* headers of the sanitizers have it for gcc too, where it is 0 */
#if __has_feature(thread_sanitizer) && !defined(WW_NO_INLINE)
#define WW_NO_INLINE
#endif
#endif
int ww_mutex_lock_alone_(struct ww_mutex *lock);
int ww_mutex_lock_else_(struct ww_mutex *lock, struct ww_acquire_ctx *ctx);
int ww_mutex_lock_further_(struct ww_mutex *lock, struct ww_acquire_ctx *ctx, int r);
int ww_mutex_trylock_else_(struct ww_mutex *lock, struct ww_acquire_ctx *ctx);
void ww_mutex_unlock_else_(struct ww_mutex *lock);
void ww_mutex_unlock_further_(struct ww_mutex *lock, struct ww_acquire_ctx *ctx, int r);
/* Not C99's `inline`, of which each plain declaration emits another copy: Python and unoptimized code call the library's own. */
#define WW_INLINE_ extern __inline __attribute__((__gnu_inline__))

/*
 * How many bytes behind the first word of its class a mutex at this address most likely has its words; only its number says it for
 * certain (numbers.c).  So a lock call fetches both lines at the same time.  The factor was searched for: of mutexes in an array, at 21
 * distances of 16 to 4,096 bytes, on average 2 in a hundred have their words elsewhere where a class has lines to spare, and 10 where all
 * its numbers are taken (one distance 36).  The lower half of `span` adds less than a byte.
 */
__extension__ typedef unsigned __int128 ww_product_;
WW_INLINE_ __attribute__((__always_inline__)) uint64_t ww_likely_(const void *lock, uint64_t span)
{
	union {
		const void *lock;
		uint32_t lower;
	} address = { lock };
	ww_product_ product = address.lower * 0xBD12CF57u;

	return product * span >> 64 & UINT64_MAX;
}

#if !defined(WW_NO_INLINE) && !defined(WW_DEBUG)
/* By a seat, which begins with its handle. */
int32_t ww_only_of_try_(void *seat, uint32_t lock) __asm__("ww_try_");
int32_t ww_first_of_unlock_(void *seat, uint32_t lock) __asm__("ww_unlock_");

/*
 * Only the mutex's holder makes the relaxed stores here and below: the lock orders them from holder to holder.  The pool is loaded with
 * acquire order, since another thread may just have given the mutex its number, and then its pool.
 */
#define WW_HOLDS_(ctx_, lock) \
	do { \
		__atomic_store_n(&(lock)->older, (ctx_)->newest, __ATOMIC_RELAXED); \
		(ctx_)->newest = (lock); \
		(ctx_)->acquired++; \
		__atomic_store_n(&(lock)->ctx, (ctx_), __ATOMIC_RELAXED); \
	} while (0)

/*
 * Fetches a line to write it: the mutex is read first, and then written, so its line would come twice if another processor had it last.
 * (Without a flag of its own __builtin_prefetch is one for reads on x86-64, where processors that don't know this one ignore it.)
 */
#ifdef __x86_64__
#define WW_WILL_WRITE_(at) __asm__("prefetchw (%0)" : : "r"(at))
#else
#define WW_WILL_WRITE_(at) __asm__("prfm pstl1keep, [%0]" : : "r"(at))
#endif

/* Macros, since clang warns of NULL in C++ (-Wzero-as-null-pointer-constant) outside of one. */
#define WW_HOLDS_NO_MORE_(lock) __atomic_store_n(&(lock)->ctx, NULL, __ATOMIC_RELAXED)
#define WW_LISTS_NOTHING_(ctx_) ((ctx_)->newest = NULL)

WW_INLINE_ int ww_mutex_lock(struct ww_mutex *lock, struct ww_acquire_ctx *ctx)
{
	int r;

	WW_WILL_WRITE_(lock);
	if (__builtin_expect(!ctx, 0))
		return ww_mutex_lock_alone_(lock);
	WW_WILL_WRITE_(ctx->words + ww_likely_(lock, ctx->span));
	if (__builtin_expect(__atomic_load_n(&lock->pool, __ATOMIC_ACQUIRE) != ctx->pool, 0))
		return ww_mutex_lock_else_(lock, ctx);
	r = ww_only_of_try_(ctx->own, lock->number);
	if (__builtin_expect(r != 0, 0))
		return ww_mutex_lock_further_(lock, ctx, r);
	WW_HOLDS_(ctx, lock);
	return 0;
}

WW_INLINE_ int ww_mutex_trylock(struct ww_mutex *lock, struct ww_acquire_ctx *ctx)
{
	if (__builtin_expect(!ctx, 0))
		return ww_mutex_trylock_else_(lock, ctx);
	WW_WILL_WRITE_(ctx->words + ww_likely_(lock, ctx->span));
	if (__builtin_expect(__atomic_load_n(&lock->pool, __ATOMIC_ACQUIRE) != ctx->pool, 0))
		return ww_mutex_trylock_else_(lock, ctx);
	if (ww_only_of_try_(ctx->own, lock->number))
		return 0;
	WW_HOLDS_(ctx, lock);
	return 1;
}

/* After the first step another thread may own the mutex, and destroy it, unless that step did nothing. */
WW_INLINE_ void ww_mutex_unlock(struct ww_mutex *lock)
{
	struct ww_acquire_ctx *ctx = __atomic_load_n(&lock->ctx, __ATOMIC_RELAXED);
	uint32_t number = lock->number;
	int r;

	if (__builtin_expect(!ctx, 0)) {
		ww_mutex_unlock_else_(lock);
		return;
	}
	ctx->acquired--;
	WW_HOLDS_NO_MORE_(lock);
	r = ww_first_of_unlock_(ctx->gives, number);
	if (__builtin_expect(r != 0, 0))
		ww_mutex_unlock_further_(lock, ctx, r);
	else
		WW_LISTS_NOTHING_(ctx); /* outside a loop, where the list would name a mutex that isn't held */
}

WW_INLINE_ bool ww_is_contended(const struct ww_acquire_ctx *ctx)
{
	return __builtin_expect(ctx->state & WW_HAS_TO_BACK_OFF_, 0);
}

#undef WW_HOLDS_
#undef WW_HOLDS_NO_MORE_
#undef WW_INLINE_
#endif

__attribute__((__unused__)) static inline int ww_mutex_lock_by(struct ww_acquire_ctx *ctx,
								int (*locks)(struct ww_acquire_ctx *ctx, void *data), void *data)
{
	int r = 0;

	ww_until_all_locked(ctx)
		r = locks(ctx, data);
	if (r)
		ww_acquire_unlock_all(ctx);
	return r;
}

/* Warns as ww_mutex_lock says. */
#if (defined(WW_DEBUG) || defined(WW_CHECK_LOCKS)) && !defined(WW_CLASS_H)
WW_MUST_CHECK static inline int ww_mutex_lock_by_context_(struct ww_mutex *lock, struct ww_acquire_ctx *ctx)
{
	return (ww_mutex_lock)(lock, ctx);
}
#ifdef __cplusplus
#define WW_LOCK_(lock, ctx) (__builtin_constant_p(ctx) ? (ww_mutex_lock)(lock, ctx) : ww_mutex_lock_by_context_(lock, ctx))
#else
#define WW_LOCK_(lock, ctx) \
	__builtin_choose_expr(__builtin_constant_p(ctx), (ww_mutex_lock), ww_mutex_lock_by_context_)(lock, ctx)
#endif
#ifndef WW_DEBUG
#define ww_mutex_lock(lock, ctx) WW_LOCK_(lock, ctx)
#endif
#endif

#ifdef __cplusplus
}
#endif
#endif
