/*
 * check.c - holds seats and contexts to the tables of their states: of `busy` at the head of seat.c, of `ages` in
 * age.h, of tokens in sleep.c, and of phases in context.h.  A state that a table doesn't have ends the program.
 */
#define _GNU_SOURCE
#include "parts.h"
#ifdef WW_DEBUG
#define NO_STATE " is in a state that none has, by an internal error, or since the program overwrote memory: "

/* In the debug library each context has an age of its own, so no seat rests between two contexts (age.h). */
static bool is_seat_right(const ww_seat *s, uint32_t busy, uint32_t token, enum use use)
{
	const struct ww_pool *p = s->pool;
	bool is_own = s > p->before_own && s < spare_of(p), is_of_tasks = s >= p->tasks.seats && s <= p->before_own;

	return s->of == (is_of_tasks ? &p->tasks : &p->threads) &&
	       busy == ((use == UNUSED ? 0 : BUSY) | (is_own ? IS_OWN : 0)) && token < ARMED && s->ages <= (use == IN_USE ? MET : 0) &&
	       (!s->slot || s->slot->seat + 1 == place_among(s));
}

void ww_debug_check_seat(const ww_seat *s, enum use use)
{
	uint32_t busy = READ_ONCE(s->busy), token = READ_ONCE(s->token);

	if (is_seat_right(s, busy, token, use))
		return;
	ww_warn(NULL, "libww_debug", NULL,
		"a seat" NO_STATE "%s, busy %u, ages %u, token %u, at %p, of %p, pool %p, slot %p",
		use == UNUSED ? "unused" : use == IN_USE ? "in use" : "about to be given", busy, s->ages, token,
		(const void *)s, (void *)s->of, (void *)s->pool, (void *)s->slot);
	abort();
}

/*
 * Whether the context's state and pool fit its phase: which bits say what comes next, and whether its lock calls may take the quick
 * way.
 */
static bool is_phase_right(const struct ww_acquire_ctx *x)
{
	unsigned owed = x->state & (TRIES | IS_PRELOCKED | IS_POLLED);
	bool is_closed = x->pool == NO_POOL;

	switch (phase_of(x)) {
	case BY_HAND: return !owed;
	case IN_POLL: return owed == IS_POLLED || (is_loop(x) && !(owed & IS_PRELOCKED));
	case LOOP_EASE: return !owed && !is_closed;
	case LOOP_OWES: return owed == IS_PRELOCKED && is_closed;
	case LOOP_FIRST: return owed == WAITS_FIRST && is_closed;
	case LOOP_TOLD: return (owed & ~(unsigned)IS_PRELOCKED) == HAS_TO_BACK_OFF && is_closed;
	default: return false;
	}
}

void ww_debug_check_context(const struct ww_acquire_ctx *x)
{
	const unsigned any = FLAGS | TRIES | IS_DONE | IS_POLLED | IS_PRELOCKED | IS_TOLD | WAS_TOLD | HAD_KEYS;

	if (x->own && (x->gives == x->own || is_loop(x)) && (x->pool == x->own->pool || x->pool == NO_POOL) &&
	    !(x->state & ~any) && (x->state & HAD_KEYS || !x->own->keys) && is_phase_right(x))
		return;
	ww_warn(NULL, "libww_debug", NULL,
		  "a context" NO_STATE "state %u, at %p, own %p, of pool %p, pool %p, gives %p", x->state,
		  (const void *)x, (void *)x->own, x->own ? (void *)x->own->pool : NULL, (void *)x->pool, x->gives);
	abort();
}
#endif
