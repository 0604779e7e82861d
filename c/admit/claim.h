/* claim.h - the bits that say whose a seat is, and how a seat is made and claimed: see claim.c. It isn't installed. */
#ifndef WW_CLAIM_H
#define WW_CLAIM_H
#include "pool.h"

/* The bits of a seat's `busy`: the table is in seat.c. */
#define BUSY 1u
#define IS_OWN 2u
/* The id of an array of seats while no thread is to come back to the seat that it used last. */
#define NO_ID UINT64_MAX

/*
 * Makes the seat, unless it was made before. It returns false if memory is refused. The queue is locked, or no other thread sees
 * the class yet.
 */
COLD WW_HIDDEN bool ww_make_seat(struct ww_pool *p, ww_seat *s);
/* Whether the seat was made. Until then it is memory of zeros, which only the thread that makes the seat writes. */
static inline bool is_made(const ww_seat *s) { return __atomic_load_n(&s->pool, __ATOMIC_SEQ_CST); }

/* Claims a seat of this array that was made, is free, and may be claimed now. NULL: there is none. */
WW_HIDDEN ww_seat *ww_claim_any(const struct ww_seats *of);
/*
 * For callers that found no free seat: makes the next seat of this array and claims it, unless `most` seats of the array were made
 * already. NULL: there is none. ww_claim_next is called while the queue is locked, and ww_claim_new locks the queue.
 */
COLD WW_HIDDEN ww_seat *ww_claim_next(struct ww_seats *of, uint32_t most);
WW_HIDDEN ww_seat *ww_claim_new(struct ww_seats *of, uint32_t most);
/* Claims this thread's own seat, or else any free one, unless threads wait in the queue. NULL: there is none. */
WW_HIDDEN ww_seat *ww_own_or_any(struct ww_pool *p);
/* From now on threads find their own seats at hand, or not: a begin of a context that finds no seat at hand asks further (seat.c). */
WW_HIDDEN void ww_set_at_hand(struct ww_pool *p, bool is);

/* ---- a thread's own seat ---- */

/*
 * Notes that this thread uses the seat, which anybody may use. Each lock without a context calls it, and each thread that has
 * waited for a seat. Other threads read the note only through a mutex that is held by the seat, so they read it later.
 */
static inline void note_user(ww_seat *s) { __atomic_store_n(&s->user, this_thread(), __ATOMIC_RELAXED); }

/* This thread's own seat; or, if the thread has none, the seat before all own seats, which is nobody's own. */
static inline ww_seat *own_or_before(const struct ww_pool *p) { return (ww_seat *)((char *)p->before_own + ww_mine.own_at); }

/* This thread's own seat, or NULL if it has none. */
static inline ww_seat *own_seat(const struct ww_pool *p)
{
	return p->own_seats && p->copy == ww_this_copy && ww_mine.own_at ? own_or_before(p) : NULL;
}

/* Whether the seat is this thread's own, or this thread was the last one that locked by it without a context. */
static inline bool is_used_here(const ww_seat *s)
{
	return s == own_seat(s->pool) || __atomic_load_n(&s->user, __ATOMIC_RELAXED) == this_thread();
}

static inline bool is_in_use(const ww_seat *s) { return s && __atomic_load_n(&s->busy, __ATOMIC_RELAXED) & BUSY; }
/* Whether the seat's context is suspended; and whether a context runs by the seat, which a suspended one doesn't. */
static inline bool is_suspended(const ww_seat *s) { return __atomic_load_n(&s->ticket, __ATOMIC_RELAXED); }
static inline bool runs_by(const ww_seat *s) { return is_in_use(s) && !is_suspended(s); }

/*
 * Begins to use this thread's own seat. NULL: the seat is in use, since a context that was begun here may go on in another thread.
 * The load acquires what that thread wrote in the seat before it stored `busy` (give_seat). The store is relaxed, since no other
 * thread sets BUSY in this seat.
 */
static inline ww_seat *use_own(ww_seat *s)
{
	if (UNLIKELY(__atomic_load_n(&s->busy, __ATOMIC_ACQUIRE) != IS_OWN))
		return NULL;
	__atomic_store_n(&s->busy, IS_OWN | BUSY, __ATOMIC_RELAXED);
	NEVER(!s);
	return s;
}

/* ---- a seat that anybody may use ---- */

static inline bool has_seekers(const struct ww_seats *of) { return __atomic_load_n(&of->lines[WAITS].seekers, __ATOMIC_SEQ_CST); }

/* Begins to use the seat, if it is neither in use nor a thread's own; false if it is. */
static inline bool claim(ww_seat *s)
{
	uint32_t was = 0;

	NEVER(!s);
	return !__atomic_load_n(&s->busy, __ATOMIC_SEQ_CST) &&
	       __atomic_compare_exchange_n(&s->busy, &was, BUSY, false, __ATOMIC_SEQ_CST, __ATOMIC_SEQ_CST);
}

/* Whether whoever comes now has to wait, even if a seat is free: threads get seats in turn, and a thread waits. */
static inline bool is_barred(const struct ww_pool *p) { return has_seekers(&p->threads); }

/* How many seats of the array may be claimed now. */
static inline uint32_t open_seats(const struct ww_seats *of) { return __atomic_load_n(&of->open, __ATOMIC_SEQ_CST); }
/* How many seats of the array were made, in the order of claims. The load acquires what the maker wrote in them. */
static inline uint32_t made_seats(const struct ww_seats *of) { return __atomic_load_n(&of->made, __ATOMIC_ACQUIRE); }

/* Notes that this thread used this seat of the array last. Without an id nothing is noted: the id NO_ID would fit any class. */
static inline void note_last(const struct ww_seats *of, ww_seat *s)
{
	uint64_t id = __atomic_load_n(&of->id, __ATOMIC_RELAXED);

	if (id != NO_ID)
		ww_mine.last = (struct ww_known){ .id = id, .seat = s };
}

/*
 * Claims the seat that this thread used last, if it belongs to this array and is free; else NULL. While a thread waits in the queue
 * nothing is claimed.
 */
static inline ww_seat *claim_last(const struct ww_seats *of, const struct ww_pool *p)
{
	ww_seat *s = ww_mine.last.seat;
	bool may = LIKELY(ww_mine.last.id == __atomic_load_n(&of->id, __ATOMIC_RELAXED)) && LIKELY(!is_barred(p)) &&
		   (of == &p->threads || LIKELY(s < &of->seats[open_seats(of)]));

	return may && LIKELY(claim(s)) ? s : NULL;
}

#endif
