/*
 * context.h - how contexts begin, end and are cancelled, and whether they hold a mutex.
 *
 * source: lock/context.c
 * proves: ww_begin_by begin ww_acquire_init_checked ww_acquire_init_until ww_acquire_init ww_acquire_done_checked ww_acquire_done
 *	ww_acquire_fini_checked ww_acquire_fini ww_acquire_cancel ww_mutex_is_held_by
 * inlines: is_orphaned_by_fork is_polled phase_of holder_of pool_at open_pool_of stop_rest forget_age leave_age place_among
 *	is_used_here own_seat own_or_before is_of_number look_at owner_word owner_of_word is_handed seats_of this_thread of_seat no_more
 */
#define WP_UNPARKS
#include "mutex.h"

/*@ ghost
  struct ww_acquire_ctx *the_context; // that which the call is of
  ww_seat *unparked;		      // who was woken last
*/
/*@ predicate is_no_pool(struct ww_pool *p) = p == (struct ww_pool *)1;
    // a seat has an age of its own, or the proved library a context: so it is between two contexts
    predicate ages_fit(ww_seat *s) = core_context == (s->ages == 0 ? 0 : 1);
    predicate is_apart(ww_seat *s) = the_context != \null ==> \separated(the_context, s, s->pool);
    predicate holds_nothing(struct ww_acquire_ctx *x) = x->acquired == 0 && x->state == 0 && x->newest == \null && x->cancelled == 0;
    predicate is_quick_or_rests(struct ww_acquire_ctx *x, ww_seat *s) = x->pool == s->pool || (is_no_pool(x->pool) && s->ages != 0);
    predicate has_no_seat(struct ww_acquire_ctx *x) = x->own == \null && is_no_pool(x->pool) && seat_taken == 0;
    // all that a context that ended says: with it only a begin does anything
    predicate never_began(struct ww_acquire_ctx *x) = has_no_seat(x) && x->gives == \null && x->acquired == 0 && x->state == 0;
    // what an earlier context says is of no matter
    predicate is_memory(struct ww_acquire_ctx *x) = \valid(x) && x == the_context;
    // an open context, which nobody else uses
    predicate is_open(struct ww_acquire_ctx *x) = is_memory(x) && (x->own != \null ==> is_seat(x->own) && is_apart(x->own) && seat_taken == 1 &&
	is_at_mode(x->own->handle.mode) && (x->own->ages != 0 ==> core_context == 1));
    predicate is_free_but_begun(ww_seat *s) = is_seat(s) && seat_taken == 1 && core_context == 1 && core_holds == 0 && core_has == 0 && rests;
    predicate stays{A, B}(struct ww_acquire_ctx *x) = \at(*x, A) == \at(*x, B);
*/

/* ---- of others, beside what mutex.h says ---- */

#define COMES_FREE(s, p) is_apart(s) && ages_fit(s) && s->pool == p
/*@ ensures \result != \null ==> COMES_FREE(\result, p); */
static inline ww_seat *seat_at_hand(const struct ww_pool *p);
/*@ assigns COMES; exits \false;
    ensures \result != \null ==> is_free_seat(\result) && COMES_FREE(\result, p); ensures \result == \null ==> no_seat; */
ww_seat *ww_seat_to_begin(struct ww_pool *p);
/*@ assigns *s, COMES; exits \false;
    ensures \result == 0 ==> is_free_seat(*s) && COMES_FREE((*s), p);
    ensures \result != 0 ==> no_seat && (*s == \null || *s == \old(*s));
    ensures \result == 0 || \result == -EAGAIN || \result == -EINTR || \result == -ETIMEDOUT || \result == -EINVAL; */
int ww_await_seat_to_begin(struct ww_pool *p, const struct timespec *until, bool heeds, ww_seat **s);
/* A class that is open stays so, of which nothing else is spoken here. */
/*@ assigns c->pool; exits \false;
    ensures \result == 0 ==> c->pool != \null && \valid_read(c->pool);
    ensures \result == 0 || \result == -EINVAL || \result == -ENOMEM; */
int ww_class_open(struct ww_class *c);
/* A seat that is given holds nothing, and has a context in the proved library only where it rests: but in a forked child. */
/*@ requires given: s->pool->gone || (rests && core_holds == 0 && ages_fit(s)); */
static inline void give_seat(ww_seat *s);
/*@ assigns unparked; ensures unparked == s; */
void ww_unpark(ww_seat *s);

/* By which seat, if it began. */
#define BEGAN(began, x, s) \
	ensures own: began ==> x->own == s; \
	ensures gives: began ==> x->gives == (void *)s; \
	ensures empty: began ==> holds_nothing(x); \
	ensures pool: began ==> is_quick_or_rests(x, s)

/* ---- begins: with 0 the context has the seat that came, and else none ---- */

/*@ requires r <= 0 && is_memory(x) && (r == 0 ==> is_free_seat(s) && COMES_FREE(s, s->pool)) && (r != 0 ==> s == \null && no_seat);
    assigns *x, s->handle.mode, s->handle.below, s->busy, seat_taken, core_context, core_told;
    ensures exact: r != 0 ==> \result == r;
    ensures begins: \result == 0 ==> r == 0 && is_free_but_begun(s);
    BEGAN(\result == 0, x, s);
    ensures none: \result != 0 ==> never_began(x) && rests && core_has == 0;
    ensures answers: \result == r || \result == -ENOSPC; */
int ww_begin_by(struct ww_acquire_ctx *x, ww_seat *s, int r);
#define BEGINS(x, c) \
	requires is_memory(x) && \valid(c) && (c->pool != \null ==> \valid_read(c->pool)) && seat_taken == 0 && rests && core_has == 0; \
	requires \separated(x, c, c->pool); \
	ensures begins: \result == 0 ==> is_free_but_begun(x->own); \
	ensures class: \result == 0 ==> x->own->pool == c->pool; \
	BEGAN(\result == 0, x, x->own); \
	ensures none: \result != 0 ==> never_began(x)
/*@ BEGINS(x, c);
    ensures answers: \result <= 0; */
int ww_acquire_init_checked(struct ww_acquire_ctx *x, struct ww_class *c);
/*@ requires is_when(until);
    BEGINS(x, c);
    ensures answers: \result <= 0; */
static int begin(struct ww_acquire_ctx *x, struct ww_class *c, const struct timespec *until, bool heeds);
/*@ requires is_when(until);
    BEGINS(x, c); */
int ww_acquire_init_until(struct ww_acquire_ctx *x, struct ww_class *c, const struct timespec *until);
/* Once a class has begun as many as it may, the context has a seat, but the proved library none. */
/*@ requires is_memory(x) && \valid(c) && (c->pool != \null ==> \valid_read(c->pool)) && seat_taken == 0 && rests && core_has == 0;
    requires \separated(x, c, c->pool);
    ensures begins: is_seat(x->own) && seat_taken == 1 && core_holds == 0 && rests;
    BEGAN(\true, x, x->own); */
void ww_acquire_init(struct ww_acquire_ctx *x, struct ww_class *c);

/* ---- done ---- */

/*@ requires is_open(x);
    assigns x->state;
    ensures busy: \result == -EBUSY ==> x->own != \null && (\old(x->state) & IS_POLLED) != 0;
    ensures done: \result == 0 <==> x->own != \null && (\old(x->state) & (IS_DONE | IS_POLLED)) == 0;
    ensures none: \result == 0 || \result == -EBUSY || \result == -EINVAL;
    ensures state: x->state == (\result == 0 ? \old(x->state) | IS_DONE : \old(x->state)); */
int ww_acquire_done_checked(struct ww_acquire_ctx *x);
/*@ requires is_open(x);
    assigns x->state;
    ensures done: x->own != \null && (\old(x->state) & (IS_DONE | IS_POLLED)) == 0 && x->state == (\old(x->state) | IS_DONE); */
void ww_acquire_done(struct ww_acquire_ctx *x);

/* ---- ends: with 0 the context has no seat, and held nothing, or this is a forked child; and else it has what it had ---- */

/*@ requires is_open(x);
    ensures ended: \result == 0 ==> has_no_seat(x) && \old(x->own) != \null;
    ensures empty: \result == 0 ==> (core_holds == 0 && core_context == 0 && \old(core_context) == 1) || \old(x->own)->pool->gone;
    ensures stays: \result != 0 ==> stays{Old, Here}(x) && seat_taken == \old(seat_taken) && same{Old, Here};
    ensures holds: rests{Old} && \old(core_holds) > 0 ==> \result == -EINVAL;
    ensures again: \old(x->own) == \null ==> \result == -EINVAL;
    ensures ends: \old(x->own) != \null && rests{Old} && \old(core_holds) == 0 && \old(core_context) == 1 ==> \result == 0;
    ensures answers: \result == 0 || \result == -EBUSY || \result == -EINVAL; */
int ww_acquire_fini_checked(struct ww_acquire_ctx *x);
/*@ requires is_open(x);
    ensures ended: has_no_seat(x) && \old(x->own) != \null;
    ensures empty: core_holds == 0 || \old(x->own)->pool->gone; */
void ww_acquire_fini(struct ww_acquire_ctx *x);
/*@ assigns \nothing; */
static const char *why_unended(struct ww_acquire_ctx *x);

/* ---- cancels: the context's thread is woken, unless somebody else has done that ---- */

/*@ requires \valid(x);
    assigns x->cancelled, unparked;
    ensures ended: x->own == \null <==> \result == -EINVAL;
    ensures answers: \result == 0 || \result == -EALREADY || \result == -EINVAL;
    ensures cancels: \result != -EINVAL ==> x->cancelled == 1;
    ensures wakes: \result == 0 ==> unparked == x->own;
    ensures stays: \result == -EINVAL ==> x->cancelled == \old(x->cancelled) && unparked == \old(unparked); */
int ww_acquire_cancel(struct ww_acquire_ctx *x);

/*@ requires \valid_read(m) && (x != \null ==> \valid_read(x) && (x->own != \null ==> is_seat(x->own)));
    assigns ww_mine.thread;
    ensures says: \result && x != \null ==> x->own != \null && m->pool == x->own->pool && (m->ctx == x || (m->waiters & IS_OF_NUMBER) != 0);
    ensures alone: \result && x == \null ==> m->alone != \null; */
bool ww_mutex_is_held_by(const struct ww_mutex *m, const struct ww_acquire_ctx *x);
