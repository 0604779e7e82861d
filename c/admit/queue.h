/* queue.h - what queue.c, where threads and tasks wait for seats, has for the library's other sources. It isn't installed. */
#ifndef WW_QUEUE_H
#define WW_QUEUE_H
#include "claim.h"

/*
 * Puts the waiter behind all that wait already. It returns true if the waiter was served at once, with a seat, or with NULL since
 * its wait is to end; and false if it waits from now on.
 */
WW_HIDDEN bool ww_queue_up(struct ww_seek *me);
/*
 * A poll of a waiting task: whether its wait is over, with a seat or NULL. A task that was called looks for a seat. A task that
 * wasn't called passes on a call that another task hasn't answered for a lease. If the wait goes on, `otherwise` is the task's
 * waker from now on.
 */
WW_HIDDEN bool ww_poll_seat(struct ww_seek *me, const struct ww_waker *otherwise);
/* Takes the waiter out of the queue. False: it was served before, so it has a seat, or its wait has ended. */
WW_HIDDEN bool ww_leave_queue(struct ww_seek *me);
/*
 * Waits for a seat, behind all that wait already. -ETIMEDOUT: the time limit came, if `until` isn't NULL. -EINTR: the class was
 * cancelled, if the wait heeds that. -EINVAL: the class was in use at a fork, of which this is the child.
 */
WW_HIDDEN int ww_seek_seat(struct ww_pool *p, const struct timespec *until, bool heeds, ww_seat **s);
/* Ends each wait in the queue of this array that something may end. */
WW_HIDDEN void ww_end_seeking(struct ww_seats *of);

/* Forgets what was measured of how many contexts of tasks are best. */
WW_HIDDEN void ww_reset_task_limiter(struct ww_seats *of);
/*
 * Serves a waiter of this array, since a seat was given: a thread that waits is handed the seat, and a task is called for it. `id`
 * is that of the seat's class; `now` is read only for a seat of tasks.
 */
COLD WW_HIDDEN void ww_serve(struct ww_seats *of, uint64_t id, ww_seat *s, uint64_t now);
/* Hands a seat of tasks, whose user is through, to a task that waits, if the seat's lease is over at this time; false if it doesn't. */
WW_HIDDEN bool ww_hands_over(struct ww_seats *of, ww_seat *s, uint64_t now);
/* So many more contexts are suspended by seats of tasks: UINT32_MAX is one less. */
WW_HIDDEN void ww_note_suspended(struct ww_seats *of, uint32_t more);
/* The task that uses this seat has waited for a lock. */
WW_HIDDEN void ww_note_task_wait(const ww_seat *s);

#endif
