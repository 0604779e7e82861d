/* sleep.h - the clock, sleeps on a futex, and the token on which the user of a seat sleeps: see sleep.c. It isn't installed. */
#ifndef WW_SLEEP_H
#define WW_SLEEP_H
#include "inside.h"

/*
 * The states of a seat's token; the table in sleep.c has the steps between them. A token of ARMED or more means that the seat's
 * user sleeps, and that the thread that wakes the seat has to call the user's waker. The bits above the lowest two are the number
 * of that wait.
 */
enum { NOTHING, TOKEN, ARMED };

/* The time by the monotonic clock, in nanoseconds; and whether the clock has reached a time. */
WW_HIDDEN uint64_t ww_now(void);
WW_HIDDEN bool ww_has_come(const struct timespec *until);
static inline struct timespec timespec_of(uint64_t at)
{
	return (struct timespec){ .tv_sec = (time_t)(at / 1000000000), .tv_nsec = (long)(at % 1000000000) };
}

/* Sleeps while the word has the value `is`, or until the monotonic clock reaches a time, if that isn't NULL. */
WW_HIDDEN void ww_futex_wait(uint32_t *word, uint32_t is, const struct timespec *until);
/* Wakes a thread that sleeps on the word. It returns false if no thread does. */
WW_HIDDEN bool ww_futex_wake(uint32_t *word);

WW_HIDDEN void ww_pause(unsigned count);
/* Pauses between two looks at a word; each pause is longer than the last one. It returns false once the clock has reached `until`. */
WW_HIDDEN bool ww_stays_awake(unsigned *looks, uint64_t until);
/*
 * Pauses before another try to enter a guard, or to get something that another thread has for a moment only. Both counters are 0
 * before the first call. A thread calls this only after it has made all wake-ups that it owed, so that nobody waits for it meanwhile.
 */
WW_HIDDEN void ww_await_guard(unsigned *looks, uint64_t *until);

/* Leaves a waker for the thread that wakes the seat. It returns false if the seat was woken before, and then takes that token. */
WW_HIDDEN bool ww_arm(ww_seat *s, const struct ww_waker *waker);
/* Takes back the waker that the seat's user left. It returns false if another thread has called that waker, or is about to. */
WW_HIDDEN bool ww_disarm(ww_seat *s);
/* Waits until the seat is woken, or until a time, if that isn't NULL. The thread looks until `awake`, and sleeps from then on. */
WW_HIDDEN void ww_park(ww_seat *s, uint64_t awake, const struct timespec *until);
/* Leaves the seat a token, and returns the waker of the user that sleeps. The caller calls it once it holds no lock of the library. */
WW_HIDDEN struct ww_waker ww_leave_token(ww_seat *s);
/* Leaves the seat a token, and calls the waker of the user that sleeps. */
WW_HIDDEN void ww_unpark(ww_seat *s);
static inline void call_waker(struct ww_waker waker)
{
	if (waker.wake)
		waker.wake(waker.loop, waker.task);
}

#ifdef WW_DEBUG
/* Checks this thread's wait before the thread sleeps until a time, or NULL, and returns the time until which it may sleep. */
WW_HIDDEN const struct timespec *ww_debug_sleeps(const struct timespec *until);
#else
static inline const struct timespec *ww_debug_sleeps(const struct timespec *until) { return until; }
#endif

#endif
