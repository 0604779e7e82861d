/*
 * lock.h - all that a lock call does after its first step, and an unlock.
 *
 * source: lock/lock.c
 * proves: note_holder counts_for count_waiter begin_wait end_wait lock_ends wait_on ww_lock_on ww_lock_by
 *	ww_release_on unlock_by unlock_unlisted ww_unlock_of ww_owns
 * inlines: is_orphaned_by_fork enlist count note_meeting note_asked is_loop is_of_number owner_in puts_of
 */
#include "wait.h"

#define OF_SEAT(s) s->ages, s->met, s->waits, s->back_offs, s->awaits, s->told, s->handle.mode, s->handle.below, s->token, s->armed, s->waker
#define OF_LOCK(m, x, s) m->ctx, m->older, m->alone, m->waiters, x->newest, x->acquired, x->contending_lock, x->puts, x->cancelled, \
	x->state, OF_SEAT(s), ww_mine, CORE

/*@ predicate is_mutex(struct ww_mutex *m) = \valid(m) && m->number == the_lock;
    predicate is_context(struct ww_acquire_ctx *x, ww_seat *s) = \valid(x) && x->own == s;
    // who calls: a context, or a seat without one
    predicate is_caller(struct ww_acquire_ctx *x, ww_seat *s) = is_seat(s) && (x == \null ? core_context == 0 : is_context(x, s));
    predicate apart(struct ww_mutex *m, struct ww_acquire_ctx *x, ww_seat *s) = \separated(m, s, s->pool) &&
	(x != \null ==> \separated(x, m, s, s->pool));
    predicate how_apart(struct ww_how *how, struct ww_mutex *m, struct ww_acquire_ctx *x, ww_seat *s) = \valid_read(how) &&
	\separated(how, m, s, s->pool) && (x != \null ==> \separated(how, x)) &&
	(how->asks != \null && how->asks != m ==> \valid(how->asks) && \separated(how->asks, m, s, how, s->pool) &&
	(x != \null ==> \separated(how->asks, x)));

    // in ww_until_all_locked, in a list, or behind these
    predicate loops(struct ww_acquire_ctx *x) = x->gives == (void *)x->empty_;
    // outside of these a mutex by number doesn't say its context, and no list has it
    predicate is_noted{A, B}(struct ww_mutex *m, struct ww_acquire_ctx *x) = loops{B}(x) || (\at(m->waiters, A) & (1 << 29)) == 0;
    // any other says that it is the context's, whose list has it; or that it is the seat's
    predicate says{A, B}(struct ww_mutex *m, struct ww_acquire_ctx *x) = is_noted{A, B}(m, x) ==> \at(m->ctx, B) == x;
    predicate newest{A, B}(struct ww_mutex *m, struct ww_acquire_ctx *x) = is_noted{A, B}(m, x) ? \at(x->newest, B) == m :
	\at(x->newest, B) == \at(x->newest, A);
    predicate older{A, B}(struct ww_mutex *m, struct ww_acquire_ctx *x) = is_noted{A, B}(m, x) ==> \at(m->older, B) == \at(x->newest, A);
    predicate listed{A, B}(struct ww_mutex *m, struct ww_acquire_ctx *x) = \at(x->acquired, B) == (unsigned)(\at(x->acquired, A) + 1) &&
	newest{A, B}(m, x) && older{A, B}(m, x);
    predicate says_seat(struct ww_mutex *m, ww_seat *s) = m->ctx == \null && m->alone == (void *)((char *)s + 1);
    predicate unlisted{A, B}(struct ww_acquire_ctx *x) = \at(x->acquired, A) == \at(x->acquired, B) && \at(x->newest, A) == \at(x->newest, B);

    // what each lock call promises of its result r, by the states before and after: it succeeds only if the core said that the seat
    // has this lock, and then the mutex says whose it is; ..
    predicate took{B}(integer r) = r == 0 ==> \at(core_has, B) == 1;
    predicate has_it(struct ww_mutex *m) = m->number == the_lock ==> core_has == 1;
    predicate others{A, B}(struct ww_mutex *m) = \at(m->number == the_lock, B) || \at(core_has, A) == \at(core_has, B);
    predicate said{A, B}(struct ww_mutex *m, struct ww_acquire_ctx *x, ww_seat *s, integer r, integer visits) = r == 0 && visits == 0 ==>
	(x == \null ? says_seat{B}(m, s) : says{A, B}(m, x) && listed{A, B}(m, x));
    // .. it tells of a deadlock only if the core did, at this lock; ..
    predicate told{A, B}(struct ww_mutex *m, struct ww_acquire_ctx *x, integer r) =
	r == -EDEADLK ==> \at(core_told, B) == 1 && \at(core_told_of, B) == \at(m->number, B) && \at(core_holds, B) > 0 &&
		x != \null && \at(x->contending_lock, B) == m && \at(x->state, B) == ((\at(x->state, A) | IS_TOLD) & (unsigned)~WAS_TOLD);
    // .. it fails only if the seat has what it had, and the context's list says so; ..
    predicate refused{A, B}(struct ww_acquire_ctx *x, integer r) = r != 0 ==> same_held{A, B} && (x != \null ==> unlisted{A, B}(x));
    // .. and no call is on its way, unless that is what it returns, or an earlier one was
    predicate ended{A, B}(ww_seat *s, integer r) = r == -EINPROGRESS ? \at(core_call, B) == LOCKS :
	\at(core_call, B) == NO_CALL || r == -EBUSY || \at(s->pool->gone, B);
    predicate is_answer(integer r) = r == 0 || r == -EDEADLK || r == -EALREADY || r == -EINVAL || r == -EINTR || r == -ETIMEDOUT ||
	r == -EINPROGRESS || r == -EBUSY;
    predicate lock_result{A, B}(struct ww_mutex *m, struct ww_acquire_ctx *x, ww_seat *s, integer r, integer visits) =
	(r == 0 || r == -EALREADY ==> has_it{B}(m)) && others{A, B}(m) && said{A, B}(m, x, s, r, visits) && told{A, B}(m, x, r) &&
	refused{A, B}(x, r) && ended{A, B}(s, r) && is_answer(r);
*/

/*@ requires \valid(m) && (x == \null ? \valid(s) && \separated(m, s) : \valid(x) && \separated(m, x));
    requires has: has_it(m);
    assigns m->ctx, m->older, m->alone, x->newest, x->acquired;
    ensures says: x == \null ? says_seat(m, s) : says{Old, Here}(m, x) && listed{Old, Here}(m, x);
    ensures x != \null ==> m->alone == \old(m->alone);
    ensures x == \null ==> m->older == \old(m->older); */
static inline void note_holder(struct ww_mutex *m, struct ww_acquire_ctx *x, ww_seat *s);

/*@ requires how_apart(how, m, x, s) && is_caller(x, s) && \valid(m) && apart(m, x, s);
    assigns m->waiters, how->asks->waiters, s->awaits, s->waits, s->ages, s->met;
    ensures how_apart(how, m, x, s);
    ensures (m->waiters & (1 << 29)) == (\old(m->waiters) & (1 << 29)); */
static void begin_wait(struct ww_mutex *m, struct ww_acquire_ctx *x, ww_seat *s, const struct ww_how *how);
/*@ requires is_wait(wait) && how_apart(wait->how, m, x, s) && is_caller(x, s) && \valid(m) && apart(m, x, s) && away(wait, s);
    assigns m->waiters, wait->how->asks->waiters, s->awaits, s->met, ww_mine;
    ensures (m->waiters & (1 << 29)) == (\old(m->waiters) & (1 << 29)); */
static void end_wait(struct ww_mutex *m, struct ww_acquire_ctx *x, ww_seat *s, const struct ww_wait *wait, int r);
/*@ requires \valid_read(how); assigns \nothing; */
static uint32_t counts_for(const struct ww_how *how);
/*@ requires \valid(m) && \valid_read(how) && (how->asks != \null && how->asks != m ==> \valid(how->asks) && \separated(how->asks, how, m)) && \separated(m, how);
    assigns m->waiters, how->asks->waiters;
    ensures (m->waiters & (1 << 29)) == (\old(m->waiters) & (1 << 29)); */
static void count_waiter(struct ww_mutex *m, const struct ww_how *how, uint32_t by);

/* In each phase of a loop in which it has something to do, no mutex has the context's pool.  Bits are said one by one, too. */
/*@ predicate becomes{A, B}(struct ww_acquire_ctx *x, integer keeps, integer now) = \at(x->state, B) == ((\at(x->state, A) & keeps) | now); */
#define BECOMES(bit) \
	ensures (x->state & bit) != 0 <==> ((now & bit) != 0 || ((not & bit) == 0 && (\old(x->state) & bit) != 0))
/*@ assigns x->state, x->pool;
    ensures state: becomes{Old, Here}(x, (unsigned)~not, now);
    BECOMES(HAS_TO_BACK_OFF);
    BECOMES(WAITS_FIRST);
    BECOMES(IS_PRELOCKED);
    ensures told: now == HAS_TO_BACK_OFF ==> (x->state & HAS_TO_BACK_OFF) != 0;
    ensures pool: loops(x) && (x->state & (TRIES | IS_PRELOCKED)) != 0 ? x->pool == NO_POOL : x->pool == x->own->pool; */
void ww_become(struct ww_acquire_ctx *x, unsigned int not, unsigned int now);

/* ---- of others ---- */
/*@ assigns \nothing; */
static inline void __tsan_acquire(void *at);
/*@ assigns \nothing; */
static inline void __tsan_release(void *at);
/*@ assigns \nothing; ensures \result.how == how; */
struct ww_wait ww_wait_of(const ww_seat *s, const struct ww_acquire_ctx *x, const struct ww_how *how);
/*@ assigns ww_mine, s->met; */
void ww_learn_from(ww_seat *s, const struct ww_wait *wait);
/*@ assigns \nothing; */
void ww_note_task_wait(const ww_seat *s);
/*@ requires is_seat(s); assigns s->handle.mode, s->handle.below; */
static inline void ww_make_cancel_pending(ww_seat *s);

/* What a lock call leaves: a list in which the mutex is, if it fails, and what the context has to do, unless it is told of a deadlock. */
#define STAYS(m, x) \
	ensures older_stays: \result != 0 ==> m->older == \old(m->older); \
	ensures state: x != \null && \result != -EDEADLK ==> x->state == \old(x->state)
/*@ requires \valid(m) && is_caller(x, s) && apart(m, x, s) && how_apart(how, m, x, s);
    requires has: r == 0 ==> has_it(m);
    requires r == -EDEADLK ==> core_context == 1 && core_told == 1 && core_told_of == m->number && core_holds > 0;
    requires r <= 0;
    assigns m->ctx, m->older, m->alone, x->newest, x->acquired, x->contending_lock, x->puts, x->cancelled, x->state, s->back_offs, s->told, s->ages, s->met;
    ensures took: \result == 0 ==> has_it(m);
    ensures says: x != \null && \result == 0 && !how->visits ==> says{Old, Here}(m, x);
    ensures counts: x != \null && \result == 0 && !how->visits ==> x->acquired == (unsigned)(\old(x->acquired) + 1);
    ensures newest: x != \null && \result == 0 && !how->visits ==> newest{Old, Here}(m, x);
    ensures older: x != \null && \result == 0 && !how->visits ==> older{Old, Here}(m, x);
    ensures says_seat: x == \null && \result == 0 && !how->visits ==> says_seat(m, s);
    ensures told: told{Old, Here}(m, x, \result);
    ensures refused: refused{Old, Here}(x, \result);
    ensures visits: how->visits ==> refused{Old, Here}(x, 1);
    ensures exact: \result == r || (r == -EINTR && \result == -ETIMEDOUT) || (r == -EBUSY && s->pool->gone && \result == -EINVAL);
    ensures child: r == -EBUSY && s->pool->gone ==> \result == -EINVAL;
    STAYS(m, x); */
static int lock_ends(struct ww_mutex *m, struct ww_acquire_ctx *x, ww_seat *s, int r, const struct ww_how *how);

/*@ predicate lock_goes(struct ww_mutex *m) = core_call == LOCKS && core_of == m->number && lacks(m->number); */
/* A poll that has to wait leaves a task's call on its way, for the same lock. */
#define LEAVES_CALL(m, how) \
	ensures polls: \result == -EINPROGRESS ==> lock_goes(m) && how->who == TASK; \
	ensures on_its_way: r > 0 ==> \result != -EBUSY
/*@ requires \valid(m) && is_caller(x, s) && apart(m, x, s) && is_wait(wait) && away(wait, s) && how_apart(wait->how, m, x, s);
    requires \separated(wait, m, wait->how) && (x != \null ==> \separated(wait, x));
    requires wait->how->asks != \null && wait->how->asks != m ==> \separated(wait, wait->how->asks);
    requires first: r == 0 || r == -EALREADY || r == -EINVAL || r == -EBUSY || r == WW_AGAIN || r == WW_SLEEPS;
    requires goes: r > 0 ==> lock_goes(m);
    requires has: r == 0 ==> has_it(m);
    requires r == -EBUSY || rests || r > 0;
    requires r == -EALREADY ==> has_it(m);
    assigns OF_LOCK(m, x, s), wait->how->asks->waiters;
    ensures exact: r <= 0 ==> \result == r || (r == -EBUSY && \result == -EINVAL && s->pool->gone);
    ensures others: others{Old, Here}(m);
    ensures answers: is_answer(\result) && (\result == -EALREADY ==> r == -EALREADY);
    ensures took: \result == 0 ==> has_it(m);
    ensures says: x != \null && \result == 0 && !wait->how->visits ==> says{Old, Here}(m, x);
    ensures counts: x != \null && \result == 0 && !wait->how->visits ==> x->acquired == (unsigned)(\old(x->acquired) + 1);
    ensures newest: x != \null && \result == 0 && !wait->how->visits ==> newest{Old, Here}(m, x);
    ensures older: x != \null && \result == 0 && !wait->how->visits ==> older{Old, Here}(m, x);
    ensures says_seat: x == \null && \result == 0 && !wait->how->visits ==> says_seat(m, s);
    ensures told: told{Old, Here}(m, x, \result);
    ensures keeps: \result != 0 ==> same_held{Old, Here};
    ensures keeps_list: x != \null && (\result != 0 || wait->how->visits) ==> unlisted{Old, Here}(x);
    ensures ended: ended{Old, Here}(s, \result);
    LEAVES_CALL(m, wait->how);
    STAYS(m, x); */
static int wait_on(struct ww_mutex *m, struct ww_acquire_ctx *x, ww_seat *s, int r, const struct ww_wait *wait);

/*@ requires \valid(m) && is_caller(x, s) && apart(m, x, s) && how_apart(how, m, x, s);
    // WW_SLEEPS: it goes on with a task's wait
    requires first: r == 0 || r == -EALREADY || r == -EINVAL || r == -EBUSY || r == WW_AGAIN || r == WW_SLEEPS;
    requires goes: r > 0 ==> lock_goes(m);
    requires has: r == 0 ==> has_it(m);
    requires r == -EBUSY || rests || r > 0;
    requires r == -EALREADY ==> has_it(m);
    assigns OF_LOCK(m, x, s), how->asks->waiters;
    ensures exact: r <= 0 && r != -EBUSY ==> \result == r;
    ensures others: others{Old, Here}(m);
    ensures answers: is_answer(\result) && (\result == -EALREADY ==> has_it(m));
    ensures took: \result == 0 ==> has_it(m);
    ensures says: x != \null && \result == 0 && !how->visits ==> says{Old, Here}(m, x);
    ensures counts: x != \null && \result == 0 && !how->visits ==> x->acquired == (unsigned)(\old(x->acquired) + 1);
    ensures newest: x != \null && \result == 0 && !how->visits ==> newest{Old, Here}(m, x);
    ensures older: x != \null && \result == 0 && !how->visits ==> older{Old, Here}(m, x);
    ensures says_seat: x == \null && \result == 0 && !how->visits ==> says_seat(m, s);
    ensures told: told{Old, Here}(m, x, \result);
    ensures keeps: \result != 0 ==> same_held{Old, Here};
    ensures keeps_list: x != \null && (\result != 0 || how->visits) ==> unlisted{Old, Here}(x);
    ensures ended: ended{Old, Here}(s, \result);
    LEAVES_CALL(m, how);
    ensures busy: r == -EBUSY && !rests{Old} ==> \result == -EBUSY || \result == -EINVAL;
    STAYS(m, x); */
int ww_lock_on(struct ww_mutex *m, struct ww_acquire_ctx *x, ww_seat *s, int r, const struct ww_how *how);

/*@ requires \valid(m) && x != \null && is_caller(x, x->own) && apart(m, x, x->own) && how_apart(how, m, x, x->own);
    assigns OF_LOCK(m, x, x->own), how->asks->waiters;
    ensures result: lock_result{Old, Here}(m, x, x->own, \result, how->visits);
    ensures visits: how->visits ==> unlisted{Old, Here}(x);
    STAYS(m, x); */
int ww_lock_by(struct ww_mutex *m, struct ww_acquire_ctx *x, const struct ww_how *how);

/* ---- the list of what a context acquired ---- */

/*@ predicate is_node(integer k) = 0 <= k < nodes;
    predicate is_list(struct ww_acquire_ctx *x) = nodes >= 0 && node(nodes) == \null && place(\null) == nodes && x->newest == node(0) &&
	(\forall integer k; is_node(k) ==> place(node(k)) == k && \valid(node(k)) && node(k) != \null && \separated(node(k), x) &&
		node(k)->older == node(k + 1)); */
#define NODES(field) { node(k)->field | integer k; 0 <= k < nodes }

/*@ requires \valid(x) && is_list(x) && m != \null;
    assigns x->newest, NODES(older);
    ensures found: \result <==> (\exists integer k; is_node(k) && node(k) == m);
    ensures place: \result ==> is_node(place(m)) && node(place(m)) == m;
    ensures first: \result && place(m) == 0 ==> x->newest == node(1);
    ensures later: \result && place(m) > 0 ==> x->newest == node(0) && node(place(m) - 1)->older == node(place(m) + 1);
    ensures others: \result ==> \forall integer k; is_node(k) && k != place(m) - 1 ==> node(k)->older == node(k + 1);
    ensures stays: !\result ==> is_list(x);
    ensures user: x->own == \old(x->own) && x->gives == \old(x->gives); */
static inline bool unlist(struct ww_acquire_ctx *x, const struct ww_mutex *m);

/* ---- unlocks: each returns 0 only if the core said that the seat has the lock no more, or in a forked child ---- */

/*@ requires is_seat(s);
    requires first: r == WW_AGAIN || r == -EBUSY || r == -EINVAL;
    requires r > 0 ==> core_call == UNLOCKS && holds(core_of);
    assigns OF_SEAT(s), CORE;
    ensures released: \result == 0 ==> s->pool->gone || (less_held{Old, Here}(\old(core_of)) && rests);
    ensures exact: \result == (r > 0 || (r == -EBUSY && s->pool->gone) ? 0 : r);
    ensures kept: \result != 0 ==> same{Old, Here} && \result == r; */
int ww_release_on(ww_seat *s, int r);

/* Of any mutex. */
/*@ requires \valid(m) && is_seat(s) && \separated(m, s, s->pool);
    assigns OF_SEAT(s), CORE;
    ensures released: \result == 0 ==> s->pool->gone || (less_held{Old, Here}(m->number) && rests);
    ensures kept: \result != 0 ==> same{Old, Here};
    ensures held: m->number == the_lock && \old(core_has) == 1 && rests{Old} ==> \result == 0;
    ensures exact: \result == 0 || (\result == -EINVAL && lacks(m->number)) || (\result == -EBUSY && !rests); */
static inline int unlock_by(struct ww_mutex *m, ww_seat *s);

/* Of any mutex, by a context whose list doesn't have it, or has it no more. */
#define UNLOCKS(m, x) \
	ensures released: \result == 0 ==> x->own->pool->gone || (less_held{Old, Here}(m->number) && rests); \
	ensures kept: \result != 0 ==> same{Old, Here}; \
	ensures user: x->own == \old(x->own) && x->gives == \old(x->gives) && x->own->pool == \old(x->own->pool); \
	ensures state: x->state == \old(x->state)
/*@ requires \valid(x) && is_context(x, x->own) && is_seat(x->own) && apart(m, x, x->own);
    assigns m->ctx, x->acquired, OF_SEAT(x->own), CORE;
    UNLOCKS(m, x);
    ensures newest: x->newest == \old(x->newest);
    ensures held: m->number == the_lock && \old(core_has) == 1 && rests{Old} ==> \result == 0;
    ensures says: m->ctx == \null && x->acquired == (unsigned)(\old(x->acquired) - 1);
    ensures child: !rests{Old} && x->own->pool->gone ==> \result == 0; */
static inline int unlock_unlisted(struct ww_mutex *m, struct ww_acquire_ctx *x);
/* Of any mutex: in a loop only one that the context's list has, which then has it no more; by hand it cuts the list. */
/*@ predicate lies_there(struct ww_mutex *m) = is_node(place(m)) && node(place(m)) == m;
    // the list's mutexes lie apart from the seat and its class, and from this mutex
    predicate lies_apart(struct ww_acquire_ctx *x, struct ww_mutex *m) = \forall integer k; is_node(k) ==>
	\separated(node(k), x->own, x->own->pool) && (node(k) == m || \separated(node(k), m)); */
#define IS_LISTED(x, m) (loops{Old}(x) ==> lies_there(m))
/*@ requires \valid(m) && m != \null && x != \null && is_caller(x, x->own) && apart(m, x, x->own) && (loops(x) ==> is_list(x) && lies_apart(x, m));
    assigns m->ctx, x->acquired, x->newest, { node(k)->older | integer k; loops(x) && 0 <= k < nodes }, OF_SEAT(x->own), CORE;
    UNLOCKS(m, x);
    ensures held: IS_LISTED(x, m) && m->number == the_lock && \old(core_has) == 1 && rests{Old} ==> \result == 0;
    ensures says: IS_LISTED(x, m) ==> m->ctx == \null && x->acquired == (unsigned)(\old(x->acquired) - 1);
    ensures absent: !IS_LISTED(x, m) ==> \result == -EINVAL && is_list(x) && x->acquired == \old(x->acquired);
    ensures first: loops{Old}(x) && lies_there(m) ==> x->newest == (place(m) == 0 ? node(1) : node(0));
    ensures later: loops{Old}(x) && lies_there(m) && place(m) > 0 ==> node(place(m) - 1)->older == node(place(m) + 1);
    ensures others: loops{Old}(x) && lies_there(m) ==> \forall integer k; is_node(k) && k != place(m) - 1 ==> node(k)->older == node(k + 1);
    ensures cuts: !loops{Old}(x) ==> x->newest == \null;
    ensures child: IS_LISTED(x, m) && !rests{Old} && x->own->pool->gone ==> \result == 0; */
int ww_unlock_of(struct ww_mutex *m, struct ww_acquire_ctx *x);

/* Of any lock; in a forked child, too, whose seat may have a call that can't end. */
/*@ requires is_seat(s);
    assigns \nothing;
    ensures owns: \result && (rests || s->pool->gone) ==> holds(number) && rests;
    ensures lacks: !\result && rests ==> lacks(number); */
bool ww_owns(ww_seat *s, uint32_t number);
/*@ requires is_seat(s); assigns \nothing; */
static inline uint32_t place_among(const ww_seat *s);
