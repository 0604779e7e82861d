/*
 * loop.h - contexts in loops: the list of what they acquired, and what releases all of it.
 *
 * source: lock/loop.c
 * proves: ww_become unlist release_newest release_newest_first unlocks_no_more ww_acquire_unlock_all ww_back_off_ ww_accept_held
 *	ww_result_in_loop ww_is_gone note_waited wait_first lock_and_note ww_lock_in_loop
 * inlines: is_orphaned_by_fork is_loop owes_it enlist unlock_unlisted ww_is_contended is_polled holds_slot holder_of note_used
 *	is_slot is_of_number puts_of
 */
#include "mutex.h"

/*@
    // The same list by its members, of which the_mutex may be one: is_ahead tells whether that lies there, or behind it.
    axiomatic Members {
	predicate is_member(struct ww_mutex *m) reads \nothing;
	predicate is_ahead(struct ww_mutex *m) reads \nothing;
	logic integer behind(struct ww_mutex *m) reads \nothing; // how many the list has from there on
	logic integer word(void *at) reads \nothing; // which word of a member lies there
    }
    axiomatic Bits { // where two bits are 0 together, each is: CVC4 isn't told what a bit is
	axiom both: \forall integer state; ((state & (WAITS_FIRST | IS_PRELOCKED)) == 0 ==> (state & WAITS_FIRST) == 0 &&
		(state & IS_PRELOCKED) == 0) && ((state & (WAITS_FIRST | IS_PRELOCKED | IS_POLLED | HAD_KEYS)) == 0 ==>
		(state & (WAITS_FIRST | IS_PRELOCKED)) == 0 && (state & IS_POLLED) == 0);
    }
    predicate are_apart(struct ww_acquire_ctx *x, ww_seat *s, struct ww_pool *p) = \forall struct ww_mutex *m; is_member(m) ==>
	m != \null && \separated(m, x, s, p) && word(&m->ctx) == 1 && word(&m->older) == 2;
    predicate goes_on = \forall struct ww_mutex *m; is_member(m) ==> (m->older == \null || is_member(m->older)) &&
	behind(m) == (m->older == \null ? 1 : behind(m->older) + 1) && behind(m) > 0 &&
	(is_ahead(m) ==> m == the_mutex || (m->older != \null && is_ahead(m->older)));
    predicate has_ahead(struct ww_acquire_ctx *x) = x->newest != \null && is_ahead(x->newest);
    predicate has_members(struct ww_acquire_ctx *x) = (x->newest == \null || is_member(x->newest)) && goes_on &&
	are_apart(x, x->own, x->own->pool) && is_member(the_mutex) && the_mutex->number == the_lock &&
	\separated(the_mutex, x, x->own, x->own->pool);
    // its own slot, by which it reads, is no part of anything else
    predicate has_slot(ww_seat *s, struct ww_acquire_ctx *x) = s->slot != \null ==> \valid(&s->slot->mutex) &&
	\separated(&s->slot->mutex, x, s, s->pool) && (&s->slot->mutex == the_mutex || \separated(&s->slot->mutex, the_mutex));
    // the list has all that the context acquired
    predicate is_whole(struct ww_acquire_ctx *x) = x->acquired == (x->newest == \null ? 0 : behind(x->newest));
    predicate older_stays{A, B} = \forall struct ww_mutex *m; is_member(m) ==> \at(m->older, A) == \at(m->older, B);
*/

#define RELEASES(x) \
	requires is_user_of(x) && has_members(x) && (rests || GONE(x)); \
	ensures empty: x->newest == \null; \
	ensures released: has_ahead{Old}(x) ==> core_has == 0 || GONE(x); \
	ensures says: has_ahead{Old}(x) ==> the_mutex->ctx == \null; \
	ensures rests: GONE(x) || rests; \
	ensures fixed: the_mutex == \old(the_mutex) && the_lock == \old(the_lock) && the_seat == \old(the_seat); \
	ensures others: GONE(x) || core_has == 0 || \old(core_has) == core_has; \
	ensures seat: x->own == \old(x->own) && x->own->pool == \old(x->own->pool)
/* Of the newest, whichever that is. */
/*@ requires is_user_of(x) && x->newest != \null && apart(x->newest, x, x->own);
    assigns x->newest, x->acquired, x->newest->ctx, OF_SEAT(x->own), CORE;
    ensures newest: x->newest == \old(x->newest->older);
    ensures says: \old(x->newest)->ctx == \null;
    ensures older: \old(has_members(x)) ==> older_stays{Old, Here};
    ensures user: is_user_of(x);
    ensures counts: x->acquired == (unsigned)(\old(x->acquired) - 1);
    ensures released: \result == 0 ==> GONE(x) || (less_held{Old, Here}(\old(x->newest->number)) && rests);
    ensures kept: \result != 0 ==> same{Old, Here};
    ensures held: \old(x->newest->number) == the_lock && \old(core_has) == 1 && rests{Old} ==> \result == 0; */
static inline int release_newest(struct ww_acquire_ctx *x);
/*@ RELEASES(x);
    ensures state: x->state == \old(x->state);
    ensures user: is_user_of(x) && x->gives == \old(x->gives);
    ensures whole: is_whole{Old}(x) ==> x->acquired == 0;
    ensures slot: has_slot{Old}(x->own, x) ==> has_slot(x->own, x); */
static inline void release_newest_first(struct ww_acquire_ctx *x);
/*
 * What the tables do of which the context has keys (doors/table.c): by hand they release what no list has, and forget the list.
 */
/*@ requires is_user_of(x);
    assigns x->acquired, x->newest, x->own->keys, OF_SEAT(x->own), CORE;
    ensures forgets: x->newest == \old(x->newest) || x->newest == \null;
    ensures less: x->acquired <= \old(x->acquired);
    ensures in_a_list: loops{Old}(x) ==> x->acquired == \old(x->acquired);
    ensures only_less: core_has == \old(core_has) || core_has == 0;
    ensures quiet: rests{Old} ==> rests;
    ensures fixed: the_mutex == \old(the_mutex) && the_lock == \old(the_lock) && the_seat == \old(the_seat);
    ensures user: is_user_of(x);
    ensures slot: has_slot{Old}(x->own, x) ==> has_slot(x->own, x); */
void ww_release_keys(struct ww_acquire_ctx *x);
/* The rest of ww_acquire_unlock_all, whose list is released by then. */
/*@ requires is_user_of(x) && has_slot(x->own, x) && x->newest == \null && (rests || GONE(x)) && \separated(the_mutex, x, x->own, x->own->pool);
    ensures empty: x->newest == \null;
    ensures only_less: GONE(x) || core_has == \old(core_has) || core_has == 0;
    ensures says: \old(the_mutex->ctx) == \null ==> the_mutex->ctx == \null;
    ensures rests: GONE(x) || rests;
    ensures fixed: the_mutex == \old(the_mutex) && the_lock == \old(the_lock) && the_seat == \old(the_seat);
    ensures seat: x->own == \old(x->own) && x->own->pool == \old(x->own->pool) && GONE(x) == \old(GONE(x));
    ensures listed: loops{Old}(x) ==> x->acquired == \old(x->acquired);
    ensures all: !loops{Old}(x) ==> x->acquired == 0;
    ensures polled: (x->state & IS_POLLED) == 0;
    ensures eased: (x->state & WAITS_FIRST) == 0 && (x->state & IS_PRELOCKED) == 0;
    ensures state: x->state == \old(x->state) || becomes{Old, Here}(x, (unsigned)~(WAITS_FIRST | IS_PRELOCKED), 0); */
static void unlocks_no_more(struct ww_acquire_ctx *x);
/*
 * By hand, too, what is listed is released: there that is what the context acquired since its last unlock, and not by number.  Who comes
 * back has released all that it acquired.  In a loop that is all, but for what the context had by hand when a list of locks began.
 */
/*@ requires has_slot(x->own, x);
    RELEASES(x);
    ensures all: (loops{Old}(x) ==> is_whole{Old}(x)) ==> x->acquired == 0;
    ensures polled: (x->state & IS_POLLED) == 0;
    ensures eased: (x->state & WAITS_FIRST) == 0 && (x->state & IS_PRELOCKED) == 0;
    ensures state: (x->state & ~(WAITS_FIRST | IS_PRELOCKED)) == (\old(x->state) & ~(WAITS_FIRST | IS_PRELOCKED)); */
void ww_acquire_unlock_all(struct ww_acquire_ctx *x);
/*@ requires (x->state & HAS_TO_BACK_OFF) != 0;
    RELEASES(x);
    ensures state: becomes{Old, Here}(x, (unsigned)~(HAS_TO_BACK_OFF | IS_PRELOCKED), WAITS_FIRST);
    ensures owes: (x->state & IS_PRELOCKED) == 0; */
void ww_back_off_(struct ww_acquire_ctx *x);

/* ---- the wait with which a lock call in a loop may begin: by a context that holds nothing, for any mutex ---- */

/*@ requires \valid_read(p) && \valid_read(m); assigns \nothing; */
bool ww_is_gone(const struct ww_pool *p, const struct ww_mutex *m, uint32_t puts);
/* The context doesn't wait for it any more, and either owes, has and lists it, or doesn't have it. */
#define HAS_FIRST(came, x, m) \
	ensures owes: came && (x->state & IS_PRELOCKED) != 0 ==> x->prelocked == m; \
	ensures lists: came && (x->state & IS_PRELOCKED) != 0 ==> x->newest == m && m->older == \null; \
	ensures has: came && (x->state & IS_PRELOCKED) != 0 && m->number == the_lock ==> core_has == 1; \
	ensures released: came && (x->state & IS_PRELOCKED) == 0 ==> lacks(m->number) || GONE(x); \
	ensures others: core_has == \old(core_has) || m->number == the_lock || GONE(x); \
	ensures rests: came ==> rests || GONE(x); \
	ensures eased: came ==> (x->state & WAITS_FIRST) == 0 && (x->state & HAS_TO_BACK_OFF) == 0
/*@ requires user: is_user_of(x);
    requires loops: loops(x);
    requires rests: rests || GONE(x);
    requires mutex: \valid(m) && m != \null;
    requires apart: apart(m, x, x->own);
    requires has: m->number == the_lock ==> core_has == 1;
    requires listed: !visits ==> x->newest == m && m->older == \null;
    assigns x->state, x->pool, x->prelocked, x->newest, x->acquired, m->ctx, OF_SEAT(x->own), CORE;
    HAS_FIRST(\true, x, m);
    ensures empty: !visits && (x->state & IS_PRELOCKED) == 0 ==> x->newest == \null;
    ensures counts: !visits && (x->state & IS_PRELOCKED) == 0 ==> x->acquired == (unsigned)(\old(x->acquired) - 1);
    ensures keeps: visits || (x->state & IS_PRELOCKED) != 0 ==> x->newest == \old(x->newest) && x->acquired == \old(x->acquired);
    ensures says: (x->state & IS_PRELOCKED) != 0 ==> m->ctx == \old(m->ctx); */
static void note_waited(struct ww_acquire_ctx *x, struct ww_mutex *m, bool visits);
/*@ requires is_user_of(x) && loops(x) && rests && waits_for(x, x->contending_lock) && how.asks == \null;
    assigns OF_LOCK(x->contending_lock, x, x->own), x->pool, x->prelocked;
    HAS_FIRST(\result == 0, x, \old(x->contending_lock));
    ensures user: is_user_of(x) && loops(x) && x->own == \old(x->own) && x->own->pool == \old(x->own->pool);
    ensures child: GONE(x) == \old(GONE(x));
    ensures number: \old(x->contending_lock)->number == \old(x->contending_lock->number);
    ensures says: \result == 0 && (x->state & IS_PRELOCKED) != 0 ==> \old(x->contending_lock)->ctx == x;
    ensures empty: \result == 0 && (x->state & IS_PRELOCKED) == 0 ==> x->newest == \null;
    ensures fails: \result != 0 ==> same_held{Old, Here} && x->newest == \null && x->acquired == \old(x->acquired);
    ensures state: \result != 0 ==> x->state == \old(x->state);
    ensures never_told: \result != -EDEADLK; */
static int wait_first(struct ww_acquire_ctx *x, struct ww_how how);

/* ---- a lock call in a loop, once it has waited for the contended mutex, or if it needn't ---- */

/*@ OF_LOOP_LOCK(m, x, how);
    assigns OF_LOCK(m, x, x->own), OF_OWED(\true, x, m), how->asks->waiters;
    TOOK_IN_LOOP(m, x);
    LOOP_LOCK(\true, m, x); */
static int lock_and_note(struct ww_mutex *m, struct ww_acquire_ctx *x, const struct ww_how *how);
