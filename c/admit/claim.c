/*
 * claim.c - a thread's own seat, and any seat that is free: in which order a thread looks, and how seats are made. The table of
 * whose a seat is stands in seat.c.
 *
 * A class opens with three seats: the spare one, one for threads, and one for tasks. Every other seat is made when it is first
 * needed. A thread's own seat is made when the thread first asks for it (seat.c). A seat for anybody is made when a thread or a
 * task finds that no seat that was made is free. Seats for anybody are made in an order: tasks begin with the first seat of tasks;
 * threads begin with the seats that tasks may not have, and then come those of tasks, the last one first. If memory is refused, the
 * class has fewer contexts until memory can be had, and a caller that finds no seat waits in the queue.
 *
 * Making a seat is no step of the seat's `busy`, since nobody looks at that word before. A claim looks at a seat for anybody only
 * if the seat is among the first `made` of that order; the claim acquires `made`, which the maker released once the seat was ready.
 * A task that was called for a seat looks at it under the lock of the queue, which the maker had, too. At a thread's own seat only
 * that thread looks: it made the seat itself, or came to the seat's place after the thread that did. So each user of a seat sees what
 * the maker wrote.
 */
#define _GNU_SOURCE
#include "claim.h"

/* ---- seats that are made ---- */

/* How many seats of the array come first in the order of claims: of `threads` those that tasks don't have, and of `tasks` all. */
static uint32_t near_seats(const struct ww_seats *of) { return of->count - (of == &of->pool->threads ? of->pool->tasks.count : 0); }

/* The seat at this place in the order of claims: the near seats, and behind these the others, of which the last one comes first. */
static ww_seat *seat_at(const struct ww_seats *of, uint32_t place)
{
	uint32_t near = near_seats(of);

	return &of->seats[place < near ? place : of->count - 1 - (place - near)];
}

/*
 * The store of `pool` is sequentially consistent. A thread that cancels the class stores `ends_waits`, and then looks which seats
 * were made. The thread that makes a seat stores `pool`, and looks at `ends_waits` later, when it waits by the seat. So one of the
 * two sees what the other stored.
 */
bool ww_make_seat(struct ww_pool *p, ww_seat *s)
{
	uint32_t number = (uint32_t)(s - p->seats);

	if (is_made(s))
		return true;
	if (ww_open_seat_(&p->world, (uint16_t)number, &s->handle))
		return false;
	s->of = s >= p->tasks.seats && number < p->threads.count ? &p->tasks : &p->threads;
	__atomic_store_n(&s->pool, p, __ATOMIC_SEQ_CST);
	ww_make_cancel_pending(s);
	if (number >= p->threads.count && s != spare_of(p))
		__atomic_store_n(&s->busy, IS_OWN, __ATOMIC_RELEASE);
	return true;
}

static ww_seat *claim_and_note(const struct ww_seats *of, ww_seat *s)
{
	if (!claim(s))
		return NULL;
	note_last(of, s);
	return s;
}

/*
 * Another thread may claim a seat right after this thread made it. Then this thread makes the next one. If memory is refused, this
 * thread tries all seats that were made, since some were made out of this order: ww_serve makes the seat for which it calls a task.
 */
ww_seat *ww_claim_next(struct ww_seats *of, uint32_t most)
{
	uint32_t made = made_seats(of);
	ww_seat *s = NULL;

	while (!s && made < most && ww_make_seat(of->pool, seat_at(of, made))) {
		s = seat_at(of, made++);
		__atomic_store_n(&of->made, made, __ATOMIC_RELEASE);
		s = claim_and_note(of, s);
	}
	for (uint32_t k = 0; !s && k < most && made < most; k++)
		s = is_made(&of->seats[k]) ? claim_and_note(of, &of->seats[k]) : NULL;
	return s;
}

ww_seat *ww_claim_new(struct ww_seats *of, uint32_t most)
{
	ww_seat *s;

	if (LIKELY(made_seats(of) >= most))
		return NULL;
	pthread_mutex_lock(&of->pool->queue);
	s = ww_claim_next(of, most);
	pthread_mutex_unlock(&of->pool->queue);
	return s;
}

/* ---- seats that are free ---- */

/*
 * Looks at all seats of the array that were made and may be claimed, first at the near ones. The search begins at the seat that
 * this thread used last, so that the thread finds its own cache lines. Where threads have seats of their own, the search begins at a
 * place by this thread's number, at which other threads don't begin.
 */
ww_seat *ww_claim_any(const struct ww_seats *of)
{
	uint32_t open = open_seats(of), made = made_seats(of), there = made < open ? made : open;
	uint32_t near = near_seats(of) < there ? near_seats(of) : there;
	bool is_last = ww_mine.last.id == __atomic_load_n(&of->id, __ATOMIC_RELAXED);
	bool spreads = of->pool->own_seats && of == &of->pool->threads;
	uint32_t from = is_last ? (uint32_t)(ww_mine.last.seat - of->seats) : spreads ? (uint32_t)ww_mine.thread : 0;
	ww_seat *s = NULL;

	for (uint32_t k = 0; k < there && !s; k++)
		s = claim_and_note(of, k < near ? &of->seats[(from + k) % near] : seat_at(of, k));
	return s;
}

ww_seat *ww_own_or_any(struct ww_pool *p)
{
	ww_seat *own = own_seat(p), *s = own ? use_own(own) : NULL;

	if (s || is_barred(p))
		return s;
	s = ww_claim_any(&p->threads);
	return LIKELY(s) ? s : ww_claim_new(&p->threads, p->threads.count);
}

void ww_set_at_hand(struct ww_pool *p, bool is)
{
	__atomic_store_n(&p->at_hand, is && p->own_seats ? p->copy : 0, __ATOMIC_RELAXED);
	__atomic_store_n(&p->threads.id, is && !p->own_seats ? p->id : NO_ID, __ATOMIC_RELAXED);
}
