/*
 * ww_steps.h - the steps of the proved locks, for callers with a scheduler of their own.
 *
 * ww_mutex.h and ww_number.h wait by themselves; here each call is one step, which waits for nobody, and its caller does
 * the waiting.  A world has locks, numbered from 0, and seats; each seat has a handle, which one caller uses at a time.  With
 * it a context begins, acquires locks in any order, and releases them.  When two contexts collide, the younger one gets
 * -EDEADLK, releases everything that it holds, and tries again.  Without a context a seat holds at most one lock.  Locks whose
 * numbers differ by less than 4 may share a cache line.  No pointer may be NULL.
 */
#ifndef WW_STEPS_H
#define WW_STEPS_H
#include <errno.h>
#include <stdbool.h>
#include <stddef.h>
#include <stdint.h>

/* The version of the headers. ww_version() returns that of the library; the same first number is the same binary interface. */
#define WW_VERSION_MAJOR 7
#define WW_VERSION_MINOR 0
#define WW_VERSION_PATCH 0

/* The compiler warns where a return value is ignored that says whether a lock is held, or a context begun. */
#if defined(__cplusplus) && __cplusplus >= 201703L
#define WW_MUST_CHECK [[nodiscard]]
#else
#define WW_MUST_CHECK __attribute__((warn_unused_result))
#endif
/* These arguments may not be NULL: the compiler warns if one is.  The library itself may compare them with NULL. */
#ifndef WW_CLASS_H
#define WW_NONNULL_(...) __attribute__((__nonnull__(__VA_ARGS__)))
#else
#define WW_NONNULL_(...)
#endif

#ifdef __cplusplus
extern "C" {
#endif

enum ww_kind { WW_WOUND_WAIT = 0, WW_WAIT_DIE = 1 };
enum { WW_MAX_LOCKS = 1 << 24, WW_MAX_SEATS = 4095 };

/* Returns 10000 times the first number, plus 100 times the second one, plus the third one. */
uint32_t ww_version(void);

/* Only the steps write it, and nobody copies it; ww_swap_ moves it.  { 0 } is an empty one. */
typedef struct {
	void *at;
	uint32_t mode, below;
} ww_handle;

/*
 * What a step returns besides 0 and a negative errno: its call needs another step, by ww_go_on_.  Until the call has ended,
 * any other call with the handle but ww_heed_, ww_look_ and ww_is_wounded_ returns -EBUSY.  With an empty handle each call returns
 * -EINVAL, except ww_idle_, ww_close_ and ww_held_, which return 0.
 */
enum {
	WW_AGAIN = 1,	/* of ww_go_on_, immediately: the seat is inside a guard, where it holds up everybody else */
	WW_SLEEPS = 3,	/* once somebody has woken the seat, to whom ww_next_wake_ named it */
	WW_AWAITS = 5,	/* once the seat that is inside has left: after a pause, and after a short sleep if that lasts */
};

/* What makes the seats of a world.  Only the steps write it, one call at a time.  { 0 } is an empty one. */
typedef struct {
	void *at;
	uint32_t is_open;
} ww_world;
/*
 * Opens a world with this many locks, but at least 65, and with this many seats, none of which is made yet, and puts it into an
 * empty ww_world.  left: how many contexts may begin by each seat, at most 2^52 - 1, and with more than 16 seats 2^49 - 1.  -EINVAL:
 * another kind, no lock or no seat, or too many, or `world` isn't empty; -ENOMEM: `world` stays empty.
 */
WW_MUST_CHECK int32_t ww_open_world_(uint32_t kind, uint32_t locks, uint64_t left, uint16_t seats, ww_world *world);
/*
 * Makes the seat with this number, counted from 0, and puts it into an empty handle.  -EINVAL: `world` is empty, it has no such
 * seat, or the handle isn't empty; -EALREADY: the seat was made before; -ENOMEM: it isn't made, and may be asked for again.
 */
WW_MUST_CHECK int32_t ww_open_seat_(ww_world *world, uint16_t number, ww_handle *seat);
/* Leaves it empty, so that it makes no more seats.  Those that it made go on. */
void ww_close_world_(ww_world *world);
/* Exchanges what two handles have. */
void ww_swap_(ww_handle *one, ww_handle *other);
/* Whether a seat may be closed: -EBUSY while it holds a lock, has a context or waits. */
int32_t ww_idle_(ww_handle *seat);
/*
 * Closes one seat, whose handle is empty then.  The world's memory is freed with its last seat, or by ww_close_world_ after that.
 * -EBUSY as ww_idle_.
 */
int32_t ww_close_(ww_handle *seat);

/* Begins a context. -EINVAL: there is one, or a lock is held; -ENOSPC: as many as were allowed have begun. */
WW_MUST_CHECK int32_t ww_begin_(ww_handle *seat);
/* Says that the context has all its locks: it acquires no other. -EINVAL: there is none, or it was said before. */
int32_t ww_done_(ww_handle *seat);
/* Ends it. -EINVAL: there is none, or a lock is held. */
int32_t ww_end_(ww_handle *seat);

/*
 * Acquires a lock; if it heeds cancels, ww_cancel_ may end the wait: -EINTR, and what was held still is.  -EDEADLK: release
 * everything, then ww_lock_slow_ with this lock; -EALREADY: it is held; -EINVAL: no such lock, or none may be acquired now: the
 * context is done, it got -EDEADLK and still holds a lock, or it would be a second lock without a context.
 */
WW_MUST_CHECK int32_t ww_lock_(ww_handle *seat, uint32_t lock, bool heeds);
/* The same after -EDEADLK of this lock, with nothing held. -EINVAL in all other cases. */
WW_MUST_CHECK int32_t ww_lock_slow_(ww_handle *seat, uint32_t lock, bool heeds);
/* Acquires it if nobody has it or waits for it, else returns -EBUSY. This is its only step. */
WW_MUST_CHECK int32_t ww_try_(ww_handle *seat, uint32_t lock);
/* Releases it. -EINVAL: it isn't held. */
WW_MUST_CHECK int32_t ww_unlock_(ww_handle *seat, uint32_t lock);
enum { WW_KEPT_ = 9 }; /* the length of the array */
/*
 * Releases the first `count` locks of an array, the last one first, each with the first step of ww_unlock_, up to one for
 * which that isn't enough, or that isn't held.  Returns how many are left: all of them during another call, or with an empty
 * handle.
 */
WW_MUST_CHECK size_t ww_unlock_each_(ww_handle *seat, const uint32_t locks[WW_KEPT_], size_t count);
/*
 * Returns 0 if nobody has the lock or waits for it, else -EBUSY, as one look at the lock's word tells; it acquires nothing, and
 * tells nothing of later.  -EINVAL: no such lock.
 */
WW_MUST_CHECK int32_t ww_is_free_(ww_handle *seat, uint32_t lock);
/* What ww_look_ returns of a lock that nobody owns, and somebody waits for; and what it adds by the age of the owner's context. */
enum { WW_NOBODY_ = 32768, WW_OLDER_ = 8192, WW_YOUNGER_ = 16384 };
/*
 * Returns 0 if nobody owns the lock or waits for it, or else 1 more than the number of its owner's seat, as one look at the lock's
 * word tells; it acquires nothing, and tells nothing of later.  If both seats have contexts, WW_OLDER_ or WW_YOUNGER_ is added: what
 * the owner's is beside this seat's.  It is possible also while a call is on its way.  -EINVAL: no such lock; -EBUSY: the seat is
 * inside a guard, after WW_AGAIN of ww_go_on_.
 */
WW_MUST_CHECK int32_t ww_look_(ww_handle *seat, uint32_t lock);
/*
 * Returns 1 if the seat holds a lock and an older context has wounded its own: so a lock call returns -EDEADLK once it waits, unless
 * its lock is released first.  Else 0.  It is possible when ww_look_ is.
 */
WW_MUST_CHECK int32_t ww_is_wounded_(ww_handle *seat);
/* Returns 0 if the seat holds the lock, else -EINVAL. */
WW_MUST_CHECK int32_t ww_has_(ww_handle *seat, uint32_t lock);
/* Returns how many it holds. */
size_t ww_held_(ww_handle *seat);

/* Makes another step of the call that hasn't ended. -EINVAL: there is none. */
WW_MUST_CHECK int32_t ww_go_on_(ww_handle *seat);
/*
 * After WW_SLEEPS, 0, an error, and ww_cancel_: returns the number of a seat that has to be woken, each once, and no other;
 * -EINVAL: there are no more.
 */
int32_t ww_next_wake_(ww_handle *seat);
/*
 * Ends the wait of the seat with this number, its current one or the next one that heeds cancels.  -EALREADY: a cancel is
 * pending; -EINVAL: the world has no such seat.
 */
int32_t ww_cancel_(ww_handle *seat, uint16_t victim);
/*
 * From now on the wait of the call that hasn't ended heeds cancels, as if that had begun so: one that is pending ends it, by
 * the next steps.  So a seat ends its own wait: before the call ww_cancel_ cancels its own number, which stays pending while
 * the wait heeds none; then ww_heed_.  -EINVAL: no call is on its way; -EBUSY: the seat is inside a guard, as it is after
 * WW_AGAIN of ww_go_on_ and after no other answer to a lock call; or the call releases a lock.
 */
int32_t ww_heed_(ww_handle *seat);

/* A handle's `mode` when it may begin a context, and once that has released everything that it held. */
enum { WW_READY_ = 2, WW_BARE_ = 4 };
#ifdef __cplusplus
}
#endif
#endif
