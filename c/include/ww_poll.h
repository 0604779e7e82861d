/*
 * ww_poll.h - contexts of ww_mutex.h and ww_number.h that wait without a thread: for event loops and coroutines.
 *
 * A poll is a call that does what it can without blocking.  -EINPROGRESS: it waits, and the thread that ends the wait calls the
 * waker.  Then the program makes the same call again, with the same arguments and this waker or another one, until it returns
 * something else.  Threads that block, and tasks that poll, may lock the same mutexes.
 *
 * What a waker may do, and when it is called:
 *
 *	by whom		any thread, in a call that locks or releases a mutex, begins or ends a context or a wait, or cancels; a poll too
 *	when		as soon as the poll begins, also before it has returned; so a caller that got -EINPROGRESS accesses neither
 *			the context nor the task any more, unless it knows that no other thread goes on with it
 *	how often	at most once for each -EINPROGRESS; maybe late, behind a poll that returned something else: only a
 *			ww_poll_take_back that returned true excludes it, so the task stays until the one or the other
 *	with what	no lock of this library held, so it may use other contexts and mutexes
 *	what for	it makes a loop run the task, and doesn't block.  A poll without need does no harm: it waits again
 *	not		it may call nothing by the context that waits, nor by the one whose unlock or end calls it
 *
 * From -EINPROGRESS until a poll returns something else, any other call that locks, unlocks, suspends or ends the context, another poll
 * too, returns -EBUSY, or 0 if it is a trylock; an unlock that returns nothing ends the program.  But ww_acquire_end_wait ends the wait,
 * and ww_acquire_end the context.  Polls and other calls of a context may come from any thread, one at a time, which the program orders as
 * it orders its tasks: the context may be unlocked, and end, in another thread than it began in.  A poll blocks its thread only while
 * another thread is in the middle of a step: for some instructions, unless that thread is preempted there.
 */
#ifndef WW_POLL_H
#define WW_POLL_H
#include "ww_mutex.h"

#ifdef __cplusplus
extern "C" {
#endif

/* A callback of the program: the library calls wake(loop, task). */
struct ww_waker {
	void (*wake)(void *loop, void *task);
	void *loop, *task;
};

/*
 * One wait for a context: { 0 } before, and the library's while polls return -EINPROGRESS; it doesn't move then.  A task that begins a
 * context within another one of the class sets is_within before: it gets any context that is free, since it would otherwise wait for
 * tasks that may wait for it.
 */
struct ww_seek {
	struct ww_seek *next_;
	struct ww_seats *of_;
	struct ww_seat *seat_;
	struct ww_waker waker_;
	uint32_t served_;
	uint16_t heeds_, is_within;
};

/*
 * Begins a context, as ww_acquire_init_checked, but waits for one.  The library adapts how many tasks may have one at a time to the
 * number with the highest throughput, which it measures while a task waits: it begins with two for each processor, and lets tasks have at
 * most 896 of the 1,024 that aren't a thread's own.  While tasks wait, each context that comes free wakes one more of them.  Only the
 * next task of the thread that ended the context may begin it before, for a millisecond; then the woken task waits on, before all others,
 * and is woken again.  No context is kept for a woken task that hasn't polled for a millisecond, since its loop is busy: another one that
 * waits is woken instead, and the busy one waits behind all.  If ww_class_limit set how many contexts the class has, tasks and threads
 * share these, and wait in one queue, in which only is_within passes others.  Without a waker (NULL) it ends the wait, or doesn't wait,
 * and then seek may be NULL: 0 if a context was begun, else -ETIMEDOUT.
 */
WW_MUST_CHECK int ww_acquire_init_poll(struct ww_acquire_ctx *ctx, struct ww_class *ww_class, struct ww_seek *seek,
				       const struct ww_waker *waker) WW_NONNULL_(1, 2);
/* Ends a wait for a context, if one goes on, and begins none: for programs that drop a task, which may be in such a wait. */
void ww_seek_end(struct ww_seek *seek) WW_NONNULL_(1);
/*
 * As ww_mutex_lock_interruptible, with any context.  In a loop a poll doesn't wait for the contended mutex first, and returns -EINVAL if
 * another call has waited for a mutex that the body has yet to lock.  After -EDEADLK release everything, and poll the same mutex first.
 * Without a waker (NULL) the call ends the wait: 0 if the mutex was acquired first, -EDEADLK or -EINTR if that came first, else
 * -ETIMEDOUT; what was held stays held.
 */
WW_MUST_CHECK int ww_mutex_lock_poll(struct ww_mutex *lock, struct ww_acquire_ctx *ctx, const struct ww_waker *waker);
/*
 * Ends whatever wait a poll has begun for this context, to lock, to read or to write, a mutex or a key.  What the poll acquired on its
 * way is released, also what it asked for if that came first; what was held before stays held.  It returns 0; -EDEADLK or -EINTR if that
 * came first, as the poll would have returned it; -EINVAL: the context has ended.
 */
int ww_acquire_end_wait(struct ww_acquire_ctx *ctx) WW_NONNULL_(1);
/*
 * After -EINPROGRESS: true if the waker wasn't called and won't be; a poll must follow nevertheless.  False: the waker was called, or is
 * about to be.  So a waker can own a reference.  seek is that of a wait for a context, else NULL.
 */
bool ww_poll_take_back(struct ww_acquire_ctx *ctx, struct ww_seek *seek);

/*
 * For loops that watch a descriptor of eventfd(2): ww_event_wake is the function of such a waker, its `loop` the event, and
 * its `task` a struct ww_woken that only this wait uses, and that doesn't move until it is taken, or the waker was taken back.
 * ww_event_take returns all that were woken since, the last one first.  Each such batch comes with one write to the descriptor,
 * which may come later than the batch: so the loop takes only after a read of the descriptor that succeeded.  Before it closes
 * the descriptor, or frees the event, it waits for the descriptor as long as first_ isn't NULL, reads, and takes.
 */
struct ww_woken {
	struct ww_woken *next;
};
struct ww_event {
	struct ww_woken *first_; /* NULL at first */
	int descriptor;
};
void ww_event_wake(void *event, void *woken) WW_NONNULL_(1, 2);
struct ww_woken *ww_event_take(struct ww_event *event) WW_NONNULL_(1);

#if defined(WW_DEBUG) && !defined(WW_CLASS_H)
#define ww_acquire_init_poll(...) (WW_HERE_, ww_acquire_init_poll(__VA_ARGS__))
#define ww_mutex_lock_poll(...) (WW_HERE_, ww_mutex_lock_poll(__VA_ARGS__))
#define ww_acquire_end_wait(...) (WW_HERE_, ww_acquire_end_wait(__VA_ARGS__))
#endif

#ifdef __cplusplus
}
#endif
#endif
