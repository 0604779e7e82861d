/* wait.h - how a lock call waits, and the steps of a wait: see wait.c.  It isn't installed. */
#ifndef WW_WAIT_H
#define WW_WAIT_H
#include "../admit/seat.h"
#include "../base/sleep.h"

/*
 * Who waits in a call: a thread; nobody, since the call tries once; a task, by a poll; or a task whose wait this poll ends, without
 * a sleep.
 */
enum ww_waiter { THREAD, NOBODY, TASK, ENDS_TASK };

/* What a lock call asks for, and by what its wait may end early. */
struct ww_how {
	enum ww_waiter who;
	bool visits;			/* the call releases the lock at once, so the mutex never says who holds it */
	bool is_interruptible;		/* a cancel of the call's context, or of the class, may end the wait */
	const struct timespec *until;	/* the time of the monotonic clock that ends the wait, or NULL */
	const struct ww_waker *waker;	/* the waker that a task leaves */
	struct ww_mutex *asks;		/* the mutex for which the call asks, if it may wait for a reader slot on the way; or NULL */
	struct ww_poller *poller;	/* who makes the poll, if that has something which ends with the poll's wait; or NULL */
};

/* The number of the seat that owns a lock, plus 1, in what ww_look_ returned of the lock; or 0, if nobody owns the lock. */
static inline uint32_t owner_in(int32_t seen) { return (uint32_t)seen & (WW_OLDER_ - 1); }

struct ww_wait {
	const struct ww_how *how;
	uint64_t from, awake;		/* when the wait began, and until when the thread stays awake */
	const uint32_t *cancelled;	/* the context's `cancelled`, which isn't 0 once somebody has cancelled it; or NULL */
};

/*
 * Begins a wait by the seat, for a context or NULL; and learns from a wait that has ended for how long the thread's next one may
 * stay awake.
 */
WW_HIDDEN struct ww_wait ww_wait_of(const ww_seat *s, const struct ww_acquire_ctx *x, const struct ww_how *how);
WW_HIDDEN void ww_learn_from(ww_seat *s, const struct ww_wait *wait);
/*
 * Tries a lock again, awake, after a first try failed, and enters the lock's wait list once it is time for that. Returns what the
 * last step returned.
 */
WW_HIDDEN int ww_try_awake(ww_seat *s, uint32_t lock, const struct ww_wait *wait);
/*
 * Makes the further steps of a call after its first step, or, if `sleeps`, after a step that returned WW_SLEEPS. If a task has to
 * sleep, it leaves its waker, and this returns -EINPROGRESS. An unlock, whose `wait` is NULL, never sleeps. In a forked child the
 * threads for which a call by a seat from before the fork would wait don't exist: so this makes no step, and returns -EBUSY. The
 * call by that seat never ends there, and any other call by it changes nothing.
 */
WW_HIDDEN int ww_go_on(ww_seat *s, const struct ww_wait *wait, bool sleeps);
/*
 * Releases a lock that the seat has without a context, and returns the waker of the waiter that is woken. The caller calls the
 * waker once it holds no lock of the library.
 */
WW_HIDDEN struct ww_waker ww_give_back(ww_seat *s, uint32_t lock);

#endif
