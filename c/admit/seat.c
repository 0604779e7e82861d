/*
 * seat.c - seats: each thread's own, and those that anybody may use. Whoever finds no seat free waits in a queue (queue.c). The
 * table says who asks for a seat, and where it looks, from left to right:
 *
 *	who asks			its own		its last one	any				waits
 *	a begin				seat_at_hand	claim_last	ww_own_or_any			ww_seek_seat
 *		in a crowd		use_own		-		ww_own_or_any, by a permit	ww_await_permit, ww_seek_seat
 *		with a time limit	-		-		ww_own_or_any			ww_seek_seat
 *	a lock without a context	seat_at_hand	claim_last	any_seat			ww_seek_seat
 *	a trylock without one		seat_at_hand	claim_last	any_seat			-
 *	a begin by a poll		-		claim_last	ww_task_seat			ww_queue_up
 *		within another context	-		-		ww_task_seat, all		ww_queue_up
 *
 * ww_own_or_any and any_seat come first to the thread's own seat, and to other seats only if no thread waits. ww_task_seat comes to
 * other seats than the thread's last one only if no thread waits, and no task that wasn't called. All these look once, without the
 * lock of the queue; a thread or task that comes to wait looks once more under that lock. A begin that doesn't wait, and a trylock,
 * enter the queue and leave it at once. In a crowd no seat is at hand and claim_last finds none, so each begin asks for a permit. A
 * thread that waits while its own seat is in use looks at that seat from time to time, since nobody hands a thread's own seat on.
 *
 * Seats are made when they are first needed (claim.c): a thread's own seat before ww_own_or_any first looks for it, and the next
 * seat for anybody when no seat that was made is free. So whoever waits has found all seats made and in use, unless memory was
 * refused.
 *
 * A seat is its user's while it is BUSY. In each class MANY_OWN seats are threads' own. These have the bit IS_OWN from the first
 * on: only its thread comes to use such a seat, and does so without a read-modify-write. The states of `busy`, with the names of
 * crates/ww_protocols in brackets:
 *
 *	busy		whose		its next value, and what makes it
 *	0		nobody's	BUSY: any thread comes to use it, by an exchange that finds 0 (claims)
 *	BUSY		its user's	0: the user is through, by an exchange (gives), and then looks who waits
 *					BUSY: a task that waits is handed it, under the lock (goes_over; ww_hands_over)
 *	IS_OWN		its thread's	BUSY, IS_OWN: its thread comes to use it, by a load and a store (finds_own_free, uses_own)
 *	BUSY, IS_OWN	its user's	IS_OWN: the user is through, in whichever thread, by a store (returns_own)
 *
 * So two threads never use one seat. Of a thread's own seat: only the thread sets BUSY, and only the user clears it, so nothing
 * changes between the thread's load that finds IS_OWN alone and its store. The seat is one thread's at a time, under a lock
 * (takes_own, by ww_take_own; leaves_own, when the thread ends). Of any other seat: of all exchanges that might find it free, one
 * is the first. That exchange may be made for another thread, which it takes out of the queue (ww_serve).
 *
 * Threads get seats in turn: while one waits, nobody else begins, and a seat that is given is handed to the thread that has waited
 * longest. Tasks have a part of the seats, of which as many may be claimed as limiter.c finds best. If the program sets how many
 * contexts the class has, tasks wait in the one queue with threads. If each seat that a task gives were handed on, each context
 * would cost a change of tasks. So while tasks wait, the lease of a seat decides what comes next when its user is through:
 *
 *	its lease is over	the seat is handed to a task that waits, and has another lease (ww_hands_over)
 *	else			the seat is given: the loop that gave it may use it again; and a task is called for it, unless one is
 *
 * The table of what becomes of a waiter is at the head of queue.c.
 *
 * So if nobody is in a call, none of the seats that may be claimed is free while a thread waits. While a task waits that wasn't
 * called, another task is called for each seat that is free: a task that gives up its call has looked at that seat, and a task that
 * leaves passes its call on. tests/admit/seats_model.py tries all that tasks may do by these tables, and the search of schedules
 * asks that of the sources.
 *
 * crates/ww_protocols proves, of such steps in any order, that two never use one seat, and that none is free where the paragraph
 * above excludes it. In the search each access of a `busy` has to be one of these steps (tests/search/seats.c).
 *
 * The next user of a seat sees what the one before wrote in it. Of a thread's own seat: the store of IS_OWN releases; the thread's
 * load (use_own) acquires, and so does the load of the thread that frees the class. Of any other seat: all accesses are
 * sequentially consistent, so one of these two sees the other:
 *
 *	a user that is through (ww_return_seat)	one that seeks a seat (ww_queue_up, look_for_seat)
 *	busy = 0				seekers++, or the seat's called = 0
 *	seekers, called of the seat?		busy of each seat?
 */
#define _GNU_SOURCE
#include "seat.h"
#include "../base/sleep.h"

const struct timespec ww_no_wait;

/* ---- who asks for a seat ---- */

/*
 * Comes before this thread asks for a seat of the class: another copy of the library may have opened the class, which ends the
 * program, and the thread needs a number.
 */
static void prepare_thread(struct ww_pool *p)
{
	of_this_copy_alone(p);
	ww_number_thread();
}

/*
 * Comes before this thread asks for a seat that may be its own: gives the thread seats of its own, if it may have them, and makes
 * the one in this class. If memory for that seat is refused, this call goes on to any seat, and the thread's next call tries again.
 */
static void prepare_thread_with_own(struct ww_pool *p)
{
	ww_seat *own;

	prepare_thread(p);
	if (p->own_seats)
		ww_take_own();
	own = own_seat(p);
	if (own && !is_made(own) && !p->gone) {
		pthread_mutex_lock(&p->queue);
		(void)ww_make_seat(p, own);
		pthread_mutex_unlock(&p->queue);
	}
}

/* Claims this thread's own seat, or any. In a child of a fork a class that was in use gives none. */
COLD static ww_seat *any_seat(struct ww_pool *p)
{
	prepare_thread_with_own(p);
	return p->gone ? NULL : ww_own_or_any(p);
}

ww_seat *ww_other_seat(struct ww_pool *p)
{
	ww_seat *s = claim_last(&p->threads, p);

	return LIKELY(s) ? s : any_seat(p);
}

/*
 * While a thread looks at one seat after another, the seat that is free may be each time one at which it has just looked, or has yet
 * to look. So this thread enters the queue, where whoever gives a seat serves it, looks once more, and leaves the queue.
 */
ww_seat *ww_free_seat(struct ww_pool *p)
{
	struct ww_seek me = { .of_ = &p->threads };
	ww_seat *s = ww_other_seat(p);

	return LIKELY(s) || p->gone ? s : ww_queue_up(&me) || !ww_leave_queue(&me) ? me.seat_ : NULL;
}

/* In a crowd a thread with a seat of its own begins by that seat alone, and only by a permit. */
ww_seat *ww_seat_to_begin(struct ww_pool *p)
{
	ww_seat *own = is_crowded(p) ? own_seat(p) : NULL;

	return UNLIKELY(own) ? use_permit(p) ? use_own(own) : NULL : claim_last(&p->threads, p);
}

/*
 * A thread that has waited for a permit may have to wait for a seat, too. It counts as one that waits until it has the seat, so that
 * nobody frees the class between the two waits.
 */
int ww_await_seat_to_begin(struct ww_pool *p, const struct timespec *until, bool heeds, ww_seat **s)
{
	bool has_waited = false, waits = until != &ww_no_wait;
	int r;

	prepare_thread_with_own(p);
	r = UNLIKELY(is_crowded(p)) ? ww_await_permit(p, until, heeds, &has_waited) : 0;
	if (!r)
		*s = waits ? ww_own_or_any(p) : ww_free_seat(p);
	if (!r && !*s)
		r = waits ? ww_seek_seat(p, until, heeds, s) : -ETIMEDOUT;
	if (has_waited)
		stop_waiting(p);
	return r == -ETIMEDOUT && !waits ? -EAGAIN : r;
}

/*
 * A task has no seat of its own. While others wait, a task comes back only to the seat that this thread gave last, if that is free: so
 * the tasks of one loop use its seats one after another, without a change of loops. A task that has a context already (`is_within`)
 * gets any seat, since the waiters may wait for what that context holds.
 */
ww_seat *ww_task_seat(struct ww_pool *p, bool is_within)
{
	struct ww_seats *of = of_tasks(p);
	ww_seat *s;

	prepare_thread(p);
	s = of == &p->threads ? any_seat(p) : claim_last(of, p);
	if (!s && of != &p->threads && !is_barred(p) && !has_seekers(of)) {
		s = ww_claim_any(of);
		s = s ? s : ww_claim_new(of, open_seats(of));
	}
	for (uint32_t k = 0; is_within && !s && k < made_seats(of); k++)
		s = claim(&of->seats[k]) ? &of->seats[k] : NULL;
	return !s && is_within ? ww_claim_new(of, of->count) : s;
}

/* ---- seats that are given ---- */

/* Whether a task is to be called for a seat: no task is called for it, or the one that was called hasn't come for the time of a lease. */
static bool needs_call(const uint64_t *called, uint64_t now)
{
	return now >= __atomic_load_n(called, __ATOMIC_SEQ_CST);
}

/*
 * Gives a seat of tasks, or a seat whose contexts share an age. Only a thread's own seat may rest between two contexts, so the rest
 * of this seat ends.
 */
static __attribute__((noinline)) void return_otherwise(ww_seat *s)
{
	struct ww_seats *of = s->of, *threads = &s->pool->threads;
	uint64_t id = s->pool->id, *called = &s->pool->called[of != threads ? s - of->seats : 0], now = 0;

	stop_rest(s);
	if (of != threads) {
		__atomic_store_n(&s->given, s->given + 1, __ATOMIC_RELAXED);
		note_last(of, s);
	}
	if (of != threads && UNLIKELY(waiters_of(of)) && ww_hands_over(of, s, now = ww_now()))
		return;
	__atomic_exchange_n(&s->busy, 0, __ATOMIC_SEQ_CST);
	if (UNLIKELY(has_seekers(threads)))
		ww_serve(threads, id, s, 0);
	if (of != threads && UNLIKELY(has_seekers(of)) && needs_call(called, now ? now : (now = ww_now())))
		ww_serve(of, id, s, now);
}

/* Once `busy` is 0, other threads may free the class, so its id is read before. */
void ww_return_seat(ww_seat *s)
{
	struct ww_seats *of = s->of;
	uint64_t id = s->pool->id;

	if (UNLIKELY(s->ages || of != &s->pool->threads)) {
		return_otherwise(s);
		return;
	}
	__atomic_exchange_n(&s->busy, 0, __ATOMIC_SEQ_CST);
	if (UNLIKELY(has_seekers(of)))
		ww_serve(of, id, s, 0);
}
