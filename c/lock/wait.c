/*
 * wait.c - the waiting that the proved library leaves to its caller: a thread tries again while it is awake (ww_try_awake), makes
 * the further steps of a call (ww_go_on), and sleeps; a task leaves its waker instead of sleeping. Each step is made by a seat,
 * which is what the proved library knows of a thread. A guard is the proved library's lock of one mutex's wait list; the seat that
 * is inside a guard leaves it after a few steps.
 */
#define _GNU_SOURCE
#include "wait.h"

/*
 * For how long a thread stays awake in a wait, in nanoseconds. If it stays awake for as long as a sleep and a wake-up take, and
 * then sleeps, its wait costs at most twice what the better choice would have cost. A_SLEEP is about that long where threads
 * outnumber processors, so that processors don't sleep deeply; ALONE is about that long where each thread has a processor of its
 * own, which sleeps while its thread does. If most of a thread's last waits took longer than that, the thread stays awake only for
 * SHORTEST, since more would mostly be in vain. In the search of schedules there is no time for a second try.
 */
#ifndef WW_AWAKE
#define WW_AWAKE 20000
#endif
enum { A_SLEEP = WW_AWAKE, ALONE = 5 * A_SLEEP, SHORTEST = A_SLEEP / 40 };
/*
 * A thread remembers of about its last REMEMBERS waits which share took too long to stay awake. The share is a number from 0 to
 * ONE_WAIT, which means all of these waits.
 */
enum { REMEMBERS = 8, ONE_WAIT = 256 };
/* A thread that is awake looks for cycles of up to so many waits. A longer cycle is found once the thread is in the wait list. */
enum { LONGEST_CYCLE = 8 };

/* ---- trying again, awake ---- */

/* How long a thread may stay awake in a wait. */
static uint64_t most_awake(const struct ww_pool *p) { return has_processors(p) ? ALONE : A_SLEEP; }

struct ww_wait ww_wait_of(const ww_seat *s, const struct ww_acquire_ctx *x, const struct ww_how *how)
{
	uint64_t now = ww_now();

	return (struct ww_wait){
		.how = how, .from = now,
		.awake = how->who == THREAD ? now + (ww_mine.too_long > ONE_WAIT / 2 ? SHORTEST : most_awake(s->pool)) : 0,
		.cancelled = x && how->is_interruptible ? &x->cancelled : NULL,
	};
}

void ww_learn_from(ww_seat *s, const struct ww_wait *wait)
{
	uint64_t now = ww_now(), took = now - wait->from;

	s->met.waited += took;
	ww_mine.too_long += (took < most_awake(s->pool) ? 0 : ONE_WAIT / REMEMBERS) - ww_mine.too_long / REMEMBERS;
	ww_note_wait(s->pool, now, took);
}

static ww_seat *seat_in(const ww_seat *s, int32_t seen) { return &s->pool->seats[owner_in(seen) - 1]; }

/*
 * Whether a wait of this seat for the owner that was seen would close a cycle: that owner waits for a lock, whose owner waits for
 * another one, and so on, and this seat owns the last of these locks.
 */
static bool is_in_cycle(ww_seat *s, int32_t seen)
{
	for (unsigned k = 0; k < LONGEST_CYCLE && owner_in(seen); k++) {
		const ww_seat *owner = seat_in(s, seen);
		uint32_t awaits = __atomic_load_n(&owner->awaits, __ATOMIC_RELAXED);

		if (owner == s || !awaits)
			return owner == s;
		seen = ww_look_(&s->handle, awaits - 1);
	}
	return false;
}

/*
 * Whether the seat has to enter the lock's wait list, since it would look in vain for longer: `seen` is what its last look saw.
 *
 * If nobody owns the lock, but somebody waits for it (WW_NOBODY_), a waiter was woken that may have no processor yet. In the wait
 * list this seat takes the lock instead. Where each thread is known to have a processor, the waiter takes the lock in a moment.
 *
 * If somebody owns the lock, this context may have been wounded, and backs off once it is in the wait list. Or this wait closes a
 * cycle: in the wait list this context dies, or wounds the owner.
 */
static bool has_to_queue(ww_seat *s, int32_t seen)
{
	int32_t ends = s->pool->class_->is_wait_die ? WW_OLDER_ : WW_YOUNGER_;

	if (seen == WW_NOBODY_)
		return !has_processors(s->pool);
	return owner_in(seen) && (ww_is_wounded_(&s->handle) || (seen & ends && is_in_cycle(s, seen)));
}

/*
 * Each round looks before it tries: a try of a lock that somebody owns would be in vain, and would take the cache line of the lock's
 * word from its owner. Only a thread goes on to a second round.
 */
int ww_try_awake(ww_seat *s, uint32_t lock, const struct ww_wait *wait)
{
	unsigned looks = 0;

	for (;;) {
		int32_t seen = ww_look_(&s->handle, lock);
		int r = seen ? -EBUSY : ww_try_(&s->handle, lock);

		if (r != -EBUSY)
			return r;
		if (has_to_queue(s, seen) || wait->how->who != THREAD || !ww_stays_awake(&looks, wait->awake))
			break;
	}
	return ww_lock_(&s->handle, lock, false);
}

/* ---- further steps ---- */

/*
 * Wakes the seats that the proved library names. Of the six moves that crates/ww_callers asks of a driver, which is the caller of
 * the proved library, this makes `names`, and right after each of these `wakes`.
 */
static void wake(ww_seat *s)
{
	for (int32_t k; (k = ww_next_wake_(&s->handle)) >= 0;)
		ww_unpark(&s->pool->seats[k]);
}

/*
 * If the wait is to end now, by a poll, a cancel of the context, the time limit, or a cancel of the class, lets the next steps of
 * the wait end it. An unlock has no wait, which is NULL then. The seat isn't inside a guard.
 */
static void stop_if_due(ww_seat *s, const struct ww_wait *wait)
{
	const struct ww_how *how = wait ? wait->how : NULL;

	if (how && (how->who == ENDS_TASK || (wait->cancelled && __atomic_load_n(wait->cancelled, __ATOMIC_SEQ_CST)) ||
		    (how->until && ww_has_come(how->until)) || (how->is_interruptible && ww_ends_waits(s->pool))))
		(void)!ww_heed_(&s->handle);
}

/*
 * Makes steps until the call ends, or has to sleep. After WW_AGAIN the next step comes immediately, and nothing else: the seat may
 * be inside a guard, where it holds up all others. A cancel that comes during these steps ends the sleep to which they lead.
 *
 * Which seats are to be woken is asked only after these steps. While the call pauses between them, no seat can be due to be woken
 * by it: the call wasn't inside a guard before, and a seat that is shut out of a guard has learned nothing.
 */
static int go_on_awake(ww_seat *s, const struct ww_wait *wait)
{
	uint64_t until = 0;
	unsigned looks = 0;

	for (;;) {
		int r = ww_go_on_(&s->handle); /* the move `calls` of a driver, as each first step is */

		if (r == WW_AGAIN)
			continue;
		if (r != WW_AWAITS)
			return r;
		ww_await_guard(&looks, &until);
		stop_if_due(s, wait);
	}
}

/*
 * A thread sleeps until another seat's step wakes it. A task leaves its waker instead, and goes on only if it was woken meanwhile. A
 * poll that ends the wait of its task (ENDS_TASK) doesn't sleep, since the end is due.
 */
COLD int ww_go_on(ww_seat *s, const struct ww_wait *wait, bool sleeps)
{
	int r;

	if (s->pool->gone)
		return -EBUSY;
	do {
		if (sleeps && wait->how->who == THREAD)
			ww_park(s, wait->awake, wait->how->until);
		if (sleeps && wait->how->who == TASK && ww_arm(s, wait->how->waker))
			return -EINPROGRESS;
		stop_if_due(s, wait);
		r = go_on_awake(s, wait);
		wake(s);
		sleeps = r == WW_SLEEPS;
	} while (sleeps);
	return r;
}

struct ww_waker ww_give_back(ww_seat *s, uint32_t lock)
{
	int32_t k;

	if (ww_unlock_(&s->handle, lock))
		(void)go_on_awake(s, NULL);
	k = ww_next_wake_(&s->handle);
	return k < 0 ? (struct ww_waker){ 0 } : ww_leave_token(&s->pool->seats[k]);
}
