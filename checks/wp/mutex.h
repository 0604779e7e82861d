/*
 * mutex.h - the calls of ww_mutex.h that lock and unlock, by a context outside of loops, and by none.
 *
 * source: lock/mutex.c
 * proves: phase_of ww_mutex_is_locked check_call draw_age_by_hand ww_admit ww_lock_as ww_mutex_lock_else_ ww_mutex_lock_further_ ww_lock_slowly
 *	slowly_or_report ww_mutex_lock_slow_checked ww_mutex_lock_slow ww_mutex_lock_slow_until ww_mutex_lock_slow_interruptible
 *	lock_by_seat lock_alone_on lock_by_any lock_alone ww_mutex_lock_alone_ ww_mutex_lock ww_mutex_lock_until
 *	ww_mutex_lock_interruptible try_alone ww_try_by try_admitted ww_mutex_trylock_else_ ww_mutex_trylock ww_mutex_trylock_checked
 *	unlock_alone_on unlock_alone ww_mutex_unlock_checked ww_mutex_unlock ww_mutex_unlock_else_ ww_mutex_unlock_further_
 * inlines: is_orphaned_by_fork holder_of pool_at is_polled fits stop_rest forget_age end_unless_unlocked is_loop note_user
 *	look_at owner_word owner_of_word seats_of this_thread note_used
 */
#include "lock.h"
#include "../lock/loop.h"
#include "../lock/mutex.h"

/*@ ghost
  struct ww_mutex *the_mutex; // that which the call is of
  int seat_taken;             // whether a caller without a context has the_seat to use
  struct ww_how *the_how;     // how a call without a context locks
  ww_seat *comer;	      // the seat that comes to the call, if one does
*/
/*@ // the_lock is a mutex's; or one that the seat hasn't, until the mutex has its number
    predicate is_called(struct ww_mutex *m) = m == the_mutex && (m != \null ==> \valid(m) && (m->pool != \null ? m->number == the_lock : core_has == 0));
    predicate is_any_context(struct ww_acquire_ctx *x, struct ww_mutex *m) = \valid(x) && (m != \null ==> \separated(x, m)) &&
	(x->own != \null ==> is_seat(x->own) && \separated(x, x->own, x->own->pool) && (m != \null ==> apart(m, x, x->own)));
    predicate is_user_of(struct ww_acquire_ctx *x) = \valid(x) && x->own != \null && is_seat(x->own) && \separated(x, x->own, x->own->pool);
    predicate is_free_seat(ww_seat *s) = s == comer && is_seat(s) && rests && core_has == 0 && core_holds == 0 && (s->ages == 0 ==> core_context == 0) &&
	(the_mutex != \null ==> \separated(the_mutex, s, s->pool)) && seat_taken == 1 &&
	(the_how != \null ==> \separated(the_how, s, s->pool));
    predicate no_seat = seat_taken == 0 && core_has == 0 && rests;
    // a call on its way goes on by the same poll alone: to any other lock call its context is busy
    predicate is_amid_poll(struct ww_acquire_ctx *x) = x != \null && x->own != \null && (x->state & IS_POLLED) != 0;
    predicate is_when(struct timespec *until) = until != \null ==> \valid_read(until);
*/

/* ---- of others: what a mutex's first lock gives, seats, ends of the program, and what a loop has to do ---- */

/*@ requires \valid(m) && m->pool == \null && m == the_mutex;
    assigns m->pool, m->class_, m->number, the_lock; exits \false;
    ensures is_called(m) && (\result == 0 ==> m->pool != \null);
    ensures \result == 0 || \result == -EINVAL || \result == -ENOSPC || \result == -ENOMEM; */
int ww_number_at_first(struct ww_mutex *m);
/*@ assigns ww_mine.thread; exits \false; */
void ww_number_thread(void);
/*@ assigns \nothing; exits \false; */
struct ww_class *ww_find_class_of(const struct ww_mutex *m);
/*@ assigns \nothing; exits \false; */
static inline const char *reason_of(int r);
/*@ assigns \nothing; exits \false; */
static const char *reason_of_first(const struct ww_mutex *m, int r);
/*@ assigns \nothing; exits \false; */
static inline bool is_time(const struct timespec *at);
/*@ assigns \nothing; ensures \false; */
static inline void end_of(const struct ww_class *c, const char *call, const char *why);
/*@ assigns \nothing; ensures \false; */
static inline void end(const char *call, const char *why);
/*@ assigns \nothing; ensures \false; */
static void end_unheld(const struct ww_mutex *m, int r);

/* A seat that comes is the one of which is spoken from then on. */
#define COMES the_seat, seat_taken, core_context, CORE
/* What a lock call changes: by a context, and by the seat that comes. */
#define CHANGES(m, x) *m, *x, OF_SEAT(x->own), ww_mine, the_lock, COMES
#define CHANGES_BY(s) OF_SEAT(s), s->user, s->busy
#define CHANGES_ALONE(m) *m, CHANGES_BY(comer), ww_mine, the_lock, COMES
/*@ assigns COMES; ensures \result != \null ==> is_free_seat(\result); ensures \result == \null ==> no_seat; */
static inline ww_seat *seat_at_hand(const struct ww_pool *p);
/*@ assigns COMES; ensures \result != \null ==> is_free_seat(\result); ensures \result == \null ==> no_seat; */
static inline ww_seat *seat_without_wait(struct ww_pool *p);
/*@ assigns COMES; ensures \result != \null ==> is_free_seat(\result); ensures \result == \null ==> no_seat; */
ww_seat *ww_other_seat(struct ww_pool *p);
/*@ assigns *s, COMES;
    ensures \result == 0 ==> is_free_seat(*s);
    ensures \result != 0 ==> no_seat;
    ensures \result == 0 || \result == -EINTR || \result == -ETIMEDOUT || \result == -EINVAL; */
int ww_seek_seat(struct ww_pool *p, const struct timespec *until, bool heeds, ww_seat **s);
/*@ requires is_seat(s) && seat_taken == 1; assigns s->busy, seat_taken; ensures seat_taken == 0; */
static inline void give_seat(ww_seat *s);
/* Nothing else there is odd: see seat_of. */
/*@ requires \valid_read(m);
    assigns \nothing;
    ensures \result != \null ==> m->alone == (void *)((char *)\result + 1) && is_seat(\result) && \separated(m, \result, \result->pool); */
static inline ww_seat *seat_of(const struct ww_mutex *m);
/*@ requires \valid_read(m); assigns \nothing; */
bool ww_mutex_is_locked(struct ww_mutex *m);

/* ---- lock calls that succeed without a step, and what a loop has to do then ---- */

#define OWES(x, m) ((x->state & IS_PRELOCKED) != 0 && x->prelocked == m)
#define GONE(x) x->own->pool->gone
#define OWED(x, m) \old(OWES(x, m))
/* Of any mutex; in a forked child the seat may have a call that can't end. */
#define IN_LOOP(x, m) is_user_of(x) && \valid(m) && m != \null && \separated(m, x, x->own, x->own->pool)
#define MAY_BE_OWED(x, m) (rests || x->own->pool->gone) && (loops(x) && OWES(x, m) ==> is_list(x))
/* What becomes of the list, if the mutex is one that is owed. */
#define OF_OWED(asks, x, m) x->pool, x->state, x->newest, m->older, \
	{ node(k)->older | integer k; asks && loops(x) && OWES(x, m) && 0 <= k < nodes }
/*@ requires IN_LOOP(x, m) && MAY_BE_OWED(x, m);
    assigns OF_OWED(\true, x, m);
    ensures outside: !loops{Old}(x) ==> !\result && x->pool == \old(x->pool) && m->older == \old(m->older);
    ensures has: \result ==> holds(m->number) && loops{Old}(x);
    ensures none: rests && !\result && loops{Old}(x) && OWED(x, m) ==> lacks(m->number);
    ensures asked: \result ==> may_repeat || OWED(x, m);
    ensures state: \result && OWED(x, m) ==> x->state == (\old(x->state) & ~IS_PRELOCKED);
    ensures fails: !\result || !OWED(x, m) ==> x->state == \old(x->state) && x->newest == \old(x->newest);
    ensures newest: \result && OWED(x, m) ==> x->newest == m;
    ensures owes: \result ==> !OWES(x, m);
    ensures waits: (x->state & WAITS_FIRST) != 0 ==> \old((x->state & WAITS_FIRST) != 0);
    ensures list: !\result && is_list{Old}(x) ==> is_list(x);
    ensures nothing: !\result ==> x->own->pool == \old(x->own->pool) && GONE(x) == \old(GONE(x)) && x->gives == \old(x->gives) &&
	m->older == \old(m->older) && (x->newest != \null ==> x->newest->older == \old(x->newest->older));
    ensures stays: same{Old, Here} && x->acquired == \old(x->acquired) && x->own == \old(x->own); */
bool ww_accept_held(struct ww_acquire_ctx *x, struct ww_mutex *m, bool may_repeat);

/*@ requires IN_LOOP(x, m) && (r == -EALREADY ==> MAY_BE_OWED(x, m));
    assigns OF_OWED(r == -EALREADY, x, m);
    ensures took: \result == 0 && (r == 0 ==> holds{Old}(m->number)) ==> holds(m->number);
    ensures exact: \result == r || (r == -EALREADY && \result == 0);
    ensures told: r == -EDEADLK ==> (x->state & HAS_TO_BACK_OFF) != 0;
    ensures asked: r == 0 && OWED(x, m) ==> x->state == (\old(x->state) & ~(TRIES | IS_PRELOCKED));
    ensures eased: r == 0 ==> (x->state & WAITS_FIRST) == 0 && (x->state & HAS_TO_BACK_OFF) == 0;
    ensures owes: \result == 0 ==> !OWES(x, m);
    ensures lists: r != -EALREADY ==> x->newest == \old(x->newest) && m->older == \old(m->older);
    ensures fails: \result != 0 && r != -EDEADLK ==> x->state == \old(x->state) && x->newest == \old(x->newest);
    ensures stays: same{Old, Here} && x->acquired == \old(x->acquired); */
int ww_result_in_loop(struct ww_mutex *m, struct ww_acquire_ctx *x, int r);

/* ---- what is asked first ---- */

/*@ requires \valid_read(x);
    assigns \nothing; exits \false;
    ensures x->own == \null <==> \result == HAS_ENDED;
    ensures polled: x->own != \null && (x->state & IS_POLLED) != 0 <==> \result == IN_POLL;
    ensures hand: x->own != \null && (x->state & IS_POLLED) == 0 && x->gives == (void *)x->own <==> \result == BY_HAND;
    ensures owes: \result == LOOP_OWES ==> (x->state & IS_PRELOCKED) != 0; */
static inline enum phase phase_of(const struct ww_acquire_ctx *x);

/*@ requires is_called(m) && (x != \null ==> is_any_context(x, m)) && is_when(until) && \valid(why) && (m != \null ==> \separated(why, m));
    requires x != \null ==> \separated(why, x, x->own);
    assigns *why, m->pool, m->class_, m->number, the_lock;
    ensures is_called(m);
    ensures number: m != \null && \old(m->pool) != \null ==> m->number == \old(m->number) && the_lock == \old(the_lock);
    ensures mutex: \result == 0 && call != CALL_LIST ==> m != \null && m->pool != \null;
    ensures context: \result == 0 && x != \null ==> x->own != \null && (x->state & IS_POLLED) == 0;
    ensures alone: \result == 0 && x == \null ==> call == CALL_ALONE;
    ensures fails: \result <= 0 && \result != -EDEADLK && \result != -EINPROGRESS; */
static int check_call(enum lock_call call, struct ww_mutex *m, const struct ww_acquire_ctx *x, const struct timespec *until, const char **why);

/*@ requires \valid(x) && is_seat(x->own) && \separated(x, x->own, x->own->pool) && rests;
    assigns x->pool, x->own->ages, x->own->met, x->own->handle.mode, x->own->handle.below, core_context, core_told;
    ensures loops(x) ==> x->pool == \old(x->pool); */
static inline void draw_age_by_hand(struct ww_acquire_ctx *x);

/* ---- lock calls by a context: of one in a loop only ww_lock_in_loop and ww_result_in_loop speak (loop.h) ---- */

/*@ requires is_called(m) && (x != \null ==> is_any_context(x, m)) && is_when(until) && (rests || is_amid_poll(x));
    assigns m->pool, m->class_, m->number, the_lock, x->pool, x->own->ages, x->own->met, x->own->handle.mode, x->own->handle.below, core_context, core_told;
    ensures is_called(m);
    ensures number: m != \null && \old(m->pool) != \null ==> m->number == \old(m->number) && the_lock == \old(the_lock);
    ensures mutex: \result == 0 && call != CALL_LIST ==> m != \null && m->pool != \null && m->number == the_lock;
    ensures context: \result == 0 && x != \null ==> x->own != \null && (x->state & IS_POLLED) == 0;
    ensures alone: \result == 0 && x == \null ==> call == CALL_ALONE;
    ensures fails: \result <= 0 && \result != -EDEADLK && \result != -EINPROGRESS; */
int ww_admit(const char *name, enum lock_call call, struct ww_mutex *m, struct ww_acquire_ctx *x, const struct timespec *until);

/*@ predicate is_how_for(struct ww_how *how, struct ww_mutex *m, struct ww_acquire_ctx *x) = \valid_read(how) && is_when(how->until) &&
	how->visits == 0 && how->asks == \null && (m != \null ==> \separated(how, m)) &&
	(x != \null ==> \separated(how, x) && (x->own != \null ==> \separated(how, x->own, x->own->pool)));
    // a mutex that has a number keeps it
    predicate numbered{A, B}(struct ww_mutex *m) = m != \null && \at(m->pool, A) != \null ==> \at(m->number, B) == \at(m->number, A) &&
	\at(the_lock, B) == \at(the_lock, A);
    // as lock_result, of a call that may have given the mutex its number
    predicate lock_result_at_first{A, B}(struct ww_mutex *m, struct ww_acquire_ctx *x, integer r) =
	took{B}(r) && (r == 0 ==> m != \null && \at(m->number, B) == \at(the_lock, B) && x != \null && says{A, B}(m, x) && listed{A, B}(m, x)) &&
	told{A, B}(m, x, r) && refused{A, B}(x, r); */
/* The same part by part, which is easier to prove, and says more exactly what isn't so. */
#define LOCK_RESULT_AT_FIRST(m, x) \
	ensures took: took(\result); \
	ensures mutex: \result == 0 ==> m != \null && x != \null && m->number == the_lock; \
	ensures says: \result == 0 ==> says{Old, Here}(m, x); \
	ensures counts: \result == 0 ==> x->acquired == (unsigned)(\old(x->acquired) + 1); \
	ensures newest: \result == 0 ==> newest{Old, Here}(m, x); \
	ensures older: \result == 0 ==> older{Old, Here}(m, x); \
	ensures told: told{Old, Here}(m, x, \result); \
	ensures keeps: \result != 0 ==> same_held{Old, Here}; \
	ensures keeps_list: \result != 0 && x != \null ==> unlisted{Old, Here}(x)
/* In a loop, by a context that waits for no mutex first, or has done so. */
#define OF_LOOP_LOCK(m, x, how) \
	requires user: is_user_of(x) && loops(x); \
	requires mutex: is_mutex(m) && m != \null && apart(m, x, x->own) && is_how_for(how, m, x); \
	requires listed: OWES(x, m) ==> is_list(x) && lies_apart(x, m)
#define TOOK_IN_LOOP(m, x) \
	ensures took: \result == 0 ==> core_has == 1; \
	ensures told: \result == -EDEADLK ==> core_told == 1 && core_told_of == m->number && core_holds > 0 && x->contending_lock == m; \
	ensures backs_off: \result == -EDEADLK ==> (x->state & HAS_TO_BACK_OFF) != 0; \
	ensures owes: \result == 0 ==> !OWES(x, m)
/* If it waits for no mutex first. */
#define LOOP_LOCK(goes, m, x) \
	ensures keeps: goes && \result != 0 ==> same_held{Old, Here}; \
	ensures keeps_list: goes && \result != 0 ==> unlisted{Old, Here}(x); \
	ensures state: goes && \result != 0 && \result != -EDEADLK ==> x->state == \old(x->state); \
	ensures says: goes && \result == 0 && \old(core_has) == 0 ==> m->ctx == x; \
	ensures counts: goes && \result == 0 && \old(core_has) == 0 ==> x->acquired == (unsigned)(\old(x->acquired) + 1); \
	ensures newest: goes && \result == 0 && \old(core_has) == 0 ==> x->newest == m; \
	ensures older: goes && \result == 0 && \old(core_has) == 0 ==> m->older == \old(x->newest); \
	ensures eased: goes && \result == 0 && \old(core_has) == 0 ==> (x->state & WAITS_FIRST) == 0
/*
 * Of a context that waits for a mutex c first, which holds nothing: the list that it then has is of c.  Where c is another mutex with
 * the same number, a copy, or in a forked child, it is said only what a success and a deadlock mean.
 */
#define WAITS(x) ((x->state & WAITS_FIRST) != 0)
#define FIRST(m, x) (WAITS(x) ? x->contending_lock : m)
#define IS_ANOTHER(m, x, c) ((c == m || c->number != the_lock) && !GONE(x))
/*@ predicate waits_for(struct ww_acquire_ctx *x, struct ww_mutex *c) = x->newest == \null && core_holds == 0 && core_has == 0 && \valid(c) &&
	c != \null && apart(c, x, x->own) && (x->state & IS_PRELOCKED) == 0;
    predicate will_list(struct ww_mutex *c) = nodes == 1 && node(0) == c && node(1) == \null && place(\null) == 1 && place(c) == 0; */
#define LOOP_LOCK_AFTER(waited, c, m, x) \
	ensures first_keeps: waited && \result != 0 && \old(IS_ANOTHER(m, x, x->contending_lock)) ==> core_has == 0; \
	ensures first_waits: waited && \result != 0 && \result != -EDEADLK && WAITS(x) ==> x->state == \old(x->state) && x->newest == \null && same_held{Old, Here}; \
	ensures first_eased: waited && \result == 0 && \old(IS_ANOTHER(m, x, x->contending_lock)) ==> !WAITS(x)
/*@ requires waits: WAITS(x) ==> rests && waits_for(x, x->contending_lock) && will_list(x->contending_lock) && \separated(how, x->contending_lock) &&
	(x->contending_lock == m || \separated(x->contending_lock, m));
    OF_LOOP_LOCK(m, x, how);
    assigns OF_LOCK(m, x, x->own), OF_OWED(\true, x, m), how->asks->waiters, x->prelocked, FIRST(m, x)->ctx, FIRST(m, x)->older, FIRST(m, x)->alone,
	FIRST(m, x)->waiters;
    TOOK_IN_LOOP(m, x);
    LOOP_LOCK(!\old(WAITS(x)), m, x);
    LOOP_LOCK_AFTER(\old(WAITS(x)), \old(x->contending_lock), m, x);
    ensures owed: !\old(WAITS(x)) ==> x->prelocked == \old(x->prelocked); */
int ww_lock_in_loop(struct ww_mutex *m, struct ww_acquire_ctx *x, const struct ww_how *how);
/*@ requires is_called(m) && x != \null && is_any_context(x, m) && is_how_for(how, m, x) && rests && !loops(x);
    assigns CHANGES(m, x), how->asks->waiters;
    LOCK_RESULT_AT_FIRST(m, x);
    ensures number: numbered{Old, Here}(m); */
int ww_lock_as(struct ww_mutex *m, struct ww_acquire_ctx *x, const struct ww_how *how);
/*@ requires is_called(m) && x != \null && is_any_context(x, m) && rests && !loops(x);
    assigns CHANGES(m, x);
    ensures result: lock_result_at_first{Old, Here}(m, x, \result);
    ensures number: numbered{Old, Here}(m); */
int ww_mutex_lock_else_(struct ww_mutex *m, struct ww_acquire_ctx *x);
/* After the first step, which returned r. */
/*@ requires is_mutex(m) && x != \null && is_caller(x, x->own) && apart(m, x, x->own) && !loops(x);
    requires first: r == -EALREADY || r == -EINVAL || r == -EBUSY;
    requires r == -EBUSY || rests;
    requires r == -EALREADY ==> core_has == 1;
    requires (x->state & IS_POLLED) != 0 ==> r == -EBUSY;
    assigns CHANGES(m, x);
    ensures took: took(\result);
    ensures result: lock_result{Old, Here}(m, x, x->own, \result, 0); */
int ww_mutex_lock_further_(struct ww_mutex *m, struct ww_acquire_ctx *x, int r);

/*@ requires is_called(m) && (x != \null ==> is_any_context(x, m)) && is_how_for(how, m, x) && rests && (x != \null ==> !loops(x));
    LOCK_RESULT_AT_FIRST(m, x); */
int ww_lock_slowly(struct ww_mutex *m, struct ww_acquire_ctx *x, const struct ww_how *how);
/*@ requires is_called(m) && (x != \null ==> is_any_context(x, m)) && is_how_for(how, m, x) && rests && (x != \null ==> !loops(x));
    ensures result: lock_result_at_first{Old, Here}(m, x, \result); */
static int slowly_or_report(struct ww_mutex *m, struct ww_acquire_ctx *x, const struct ww_how *how);
/*@ requires is_called(m) && (x != \null ==> is_any_context(x, m)) && rests && (x != \null ==> !loops(x));
    ensures result: lock_result_at_first{Old, Here}(m, x, \result); */
int ww_mutex_lock_slow_checked(struct ww_mutex *m, struct ww_acquire_ctx *x);
/*@ requires is_called(m) && (x != \null ==> is_any_context(x, m)) && rests && (x != \null ==> !loops(x));
    ensures result: lock_result_at_first{Old, Here}(m, x, 0); */
void ww_mutex_lock_slow(struct ww_mutex *m, struct ww_acquire_ctx *x);
/*@ requires is_called(m) && (x != \null ==> is_any_context(x, m)) && is_when(until) && rests && (x != \null ==> !loops(x));
    ensures result: lock_result_at_first{Old, Here}(m, x, \result); */
int ww_mutex_lock_slow_until(struct ww_mutex *m, struct ww_acquire_ctx *x, const struct timespec *until);
/*@ requires is_called(m) && (x != \null ==> is_any_context(x, m)) && rests && (x != \null ==> !loops(x));
    ensures result: lock_result_at_first{Old, Here}(m, x, \result); */
int ww_mutex_lock_slow_interruptible(struct ww_mutex *m, struct ww_acquire_ctx *x);

/* ---- trylocks by one: 0 only if the core said so ---- */

/*@ requires is_mutex(m) && is_called(m) && x != \null && is_any_context(x, m) && x->own != \null && rests && !loops(x);
    assigns m->ctx, m->older, m->alone, x->newest, x->acquired, x->pool, x->state, x->own->ages, x->own->met, x->own->handle.mode, x->own->handle.below,
	core_has, core_holds, core_told, core_context;
    ensures took: took(\result);
    ensures says: \result == 0 ==> says{Old, Here}(m, x) && listed{Old, Here}(m, x);
    ensures refused: refused{Old, Here}(x, \result);
    ensures \result <= 0; */
int ww_try_by(struct ww_mutex *m, struct ww_acquire_ctx *x);

/* ---- locks without a context: one that fails has given its seat back, and one that succeeds keeps it ---- */

/*@ predicate is_how_alone(struct ww_how *how, struct ww_mutex *m) = how == the_how && \valid_read(how) && is_when(how->until) &&
	how->visits == 0 && how->asks == \null && (m != \null ==> \separated(how, m)); */
/*@ requires is_mutex(m) && m == the_mutex && is_free_seat(s) && is_how_alone(how, m) && \separated(how, s, s->pool);
    assigns *m, CHANGES_BY(s), ww_mine, seat_taken, core_context, CORE;
    ensures took: took(\result);
    ensures says: \result == 0 ==> says_seat(m, s);
    ensures seat: seat_taken == (\result == 0 ? 1 : 0); */
static inline int lock_by_seat(struct ww_mutex *m, ww_seat *s, const struct ww_how *how);
/*@ requires is_mutex(m) && is_seat(s) && apart(m, \null, s) && is_how_alone(how, m) && \separated(how, s, s->pool) && core_context == 0 &&
	core_has == 0 && rests && seat_taken == 1;
    requires r == -EBUSY || r == -EINVAL;
    assigns *m, CHANGES_BY(s), ww_mine, seat_taken, CORE;
    ensures took: took(\result);
    ensures says: \result == 0 ==> says_seat(m, s);
    ensures seat: seat_taken == (\result == 0 ? 1 : 0); */
static int lock_alone_on(struct ww_mutex *m, ww_seat *s, int r, const struct ww_how *how);
/*@ requires is_called(m) && m != \null && is_how_alone(how, m) && seat_taken == 0;
    assigns CHANGES_ALONE(m);
    ensures took: took(\result) && (\result == 0 ==> m->ctx == \null);
    ensures seat: seat_taken == (\result == 0 ? 1 : 0); */
static int lock_by_any(struct ww_mutex *m, const struct ww_how *how);
/*@ requires is_called(m) && m != \null && is_how_alone(how, m) && seat_taken == 0;
    assigns CHANGES_ALONE(m);
    ensures took: took(\result) && (\result == 0 ==> m->ctx == \null);
    ensures seat: seat_taken == (\result == 0 ? 1 : 0); */
static inline int lock_alone(struct ww_mutex *m, const struct ww_how *how);
/*@ requires is_called(m) && m != \null && seat_taken == 0;
    assigns CHANGES_ALONE(m), the_how;
    ensures took: core_has == 1 && \result == 0 && m->ctx == \null && seat_taken == 1; */
int ww_mutex_lock_alone_(struct ww_mutex *m);
/* Of the quick ways (context.h): a context that has ended, or rests, has no mutex's pool. */
/*@ predicate may_be_quick(struct ww_mutex *m, struct ww_acquire_ctx *x) = m->pool == x->pool ==>
	x->own != \null && m->pool != \null && (x->state & IS_POLLED) == 0; */
/*@ requires quick: x != \null ==> may_be_quick(m, x);
    requires is_called(m) && m != \null && (x != \null ? is_any_context(x, m) && !loops(x) : seat_taken == 0) && rests;
    assigns CHANGES(m, x), CHANGES_BY(comer), the_how;
    ensures took: x != \null ==> took(\result);
    ensures says: x != \null && \result == 0 ==> says{Old, Here}(m, x);
    ensures counts: x != \null && \result == 0 ==> x->acquired == (unsigned)(\old(x->acquired) + 1);
    ensures newest: x != \null && \result == 0 && is_noted{Old, Here}(m, x) ==> x->newest == m;
    ensures older: x != \null && \result == 0 ==> older{Old, Here}(m, x);
    ensures told: x != \null ==> told{Old, Here}(m, x, \result);
    ensures keeps: x != \null && \result != 0 ==> same_held{Old, Here};
    ensures keeps_list: x != \null && \result != 0 ==> unlisted{Old, Here}(x);
    ensures alone: x == \null ==> core_has == 1 && \result == 0 && m->ctx == \null && seat_taken == 1; */
int ww_mutex_lock(struct ww_mutex *m, struct ww_acquire_ctx *x);
/*@ requires is_called(m) && m != \null && (x != \null ? is_any_context(x, m) && !loops(x) : seat_taken == 0) && rests && is_when(until);
    ensures by_context: x != \null ==> lock_result_at_first{Old, Here}(m, x, \result);
    ensures alone: x == \null ==> took(\result) && (\result == 0 ==> m->ctx == \null && seat_taken == 1); */
int ww_mutex_lock_until(struct ww_mutex *m, struct ww_acquire_ctx *x, const struct timespec *until);
/*@ requires is_called(m) && m != \null && (x != \null ? is_any_context(x, m) && !loops(x) : seat_taken == 0) && rests;
    ensures by_context: x != \null ==> lock_result_at_first{Old, Here}(m, x, \result);
    ensures alone: x == \null ==> took(\result) && (\result == 0 ==> m->ctx == \null && seat_taken == 1); */
int ww_mutex_lock_interruptible(struct ww_mutex *m, struct ww_acquire_ctx *x);

/* ---- trylocks: 1 only if the core said so ---- */

/*@ requires is_mutex(m) && is_called(m);
    assigns CHANGES_ALONE(m), the_how;
    ensures took: \result == 1 ==> core_has == 1 && m->ctx == \null && seat_taken == 1;
    ensures \result == 0 || \result == 1; */
static int try_alone(struct ww_mutex *m);
/*@ requires r == 0 ==> is_mutex(m) && is_called(m) && (x != \null ==> is_any_context(x, m) && x->own != \null && rests && !loops(x));
    requires r <= 0;
    assigns CHANGES(m, x), CHANGES_BY(comer), the_how;
    ensures took: \result == 1 ==> core_has == 1;
    ensures says: \result == 1 && x != \null ==> says{Old, Here}(m, x) && listed{Old, Here}(m, x);
    ensures refused: \result != 1 && x != \null ==> same_held{Old, Here} && unlisted{Old, Here}(x);
    ensures number: x != \null ==> m->number == \old(m->number) && the_lock == \old(the_lock);
    ensures answers: \result <= 1 && (r == 0 ==> \result >= 0); */
static int try_admitted(struct ww_mutex *m, struct ww_acquire_ctx *x, int r);
#define TRIES(m, x) \
	requires is_called(m) && m != \null && (x != \null ? is_any_context(x, m) && !loops(x) : seat_taken == 0) && rests; \
	ensures took: \result == 1 ==> core_has == 1; \
	ensures says: \result == 1 && x != \null ==> says{Old, Here}(m, x) && older{Old, Here}(m, x); \
	ensures counts: \result == 1 && x != \null ==> x->acquired == (unsigned)(\old(x->acquired) + 1); \
	ensures newest: \result == 1 && x != \null && is_noted{Old, Here}(m, x) ==> x->newest == m; \
	ensures answers: \result <= 1
/*@ TRIES(m, x);
    assigns CHANGES(m, x), CHANGES_BY(comer), the_how;
    ensures \result == 0 || \result == 1;
    ensures listed: \result == 1 && x != \null ==> listed{Old, Here}(m, x);
    ensures refused: \result == 0 && x != \null ==> same_held{Old, Here} && unlisted{Old, Here}(x);
    ensures number: x != \null ==> numbered{Old, Here}(m); */
int ww_mutex_trylock_else_(struct ww_mutex *m, struct ww_acquire_ctx *x);
/*@ requires quick: x != \null ==> may_be_quick(m, x);
    TRIES(m, x);
    ensures \result == 0 || \result == 1; */
int ww_mutex_trylock(struct ww_mutex *m, struct ww_acquire_ctx *x);
/*@ TRIES(m, x); */
int ww_mutex_trylock_checked(struct ww_mutex *m, struct ww_acquire_ctx *x);

/* ---- unlocks: 0, or a return, only if the core said that the seat has the lock no more, or in a forked child ---- */

/*@ requires is_seat(s) && seat_taken == 1;
    requires first: r == WW_AGAIN || r == -EBUSY || r == -EINVAL;
    requires r > 0 ==> core_call == UNLOCKS && core_of == the_lock && holds(the_lock);
    requires r == -EINVAL ==> lacks(the_lock) && rests;
    assigns OF_SEAT(s), s->busy, seat_taken, CORE;
    ensures exact: \result == 0 || (\result == r && r < 0);
    ensures released: \result == 0 ==> s->pool->gone || core_has == 0;
    ensures seat: seat_taken == (\result == 0 ? 0 : 1);
    ensures kept: \result != 0 ==> same{Old, Here}; */
static int unlock_alone_on(ww_seat *s, int r);
/*@ predicate in_child = ((ww_seat *)the_seat)->pool->gone != 0; */
#define CHANGES_TO_UNLOCK(m) m->alone, CHANGES_BY(((ww_seat *)the_seat)), seat_taken, CORE
/*@ requires is_mutex(m) && seat_taken == 1;
    assigns CHANGES_TO_UNLOCK(m);
    ensures released: \result == 0 ==> core_has == 0 || in_child;
    ensures alone: \result == 0 ==> m->alone == \null && seat_taken == 0;
    ensures kept: \result != 0 ==> same{Old, Here} && seat_taken == 1;
    ensures held: \result == -EINVAL || \result == 0 || \result == -EBUSY; */
static inline int unlock_alone(struct ww_mutex *m);
/*@ requires is_mutex(m) && (m->ctx == \null ? seat_taken == 1 : \valid(m->ctx) && \separated(m, m->ctx) && (m->ctx->own != \null ==>
	is_seat(m->ctx->own) && apart(m, m->ctx, m->ctx->own) && (loops(m->ctx) ==> is_list(m->ctx) && lies_apart(m->ctx, m))));
    ensures released: \result == 0 && \old(m->ctx) != \null ==> core_has == 0 || \old(m->ctx)->own->pool->gone;
    ensures cuts: \result == 0 && \old(m->ctx) != \null && !\old(loops(m->ctx)) ==> \old(m->ctx)->newest == \null;
    ensures unlists: \result == 0 && \old(m->ctx) != \null && \old(loops(m->ctx)) ==> lies_there(m) &&
	(place(m) == 0 ? \old(m->ctx)->newest == node(1) : node(place(m) - 1)->older == node(place(m) + 1));
    ensures released_alone: \result == 0 && \old(m->ctx) == \null ==> core_has == 0 || in_child;
    ensures alone: \result == 0 && \old(m->ctx) == \null ==> m->alone == \null && seat_taken == 0;
    ensures kept: \result != 0 ==> same{Old, Here}; */
int ww_mutex_unlock_checked(struct ww_mutex *m);
/*@ requires is_mutex(m) && (m->ctx == \null ? seat_taken == 1 : \valid(m->ctx) && \separated(m, m->ctx) && !loops(m->ctx) &&
	is_seat(m->ctx->own) && apart(m, m->ctx, m->ctx->own) && m->ctx->gives == (void *)m->ctx->own);
    ensures released: \old(m->ctx) != \null ==> core_has == 0 || \old(m->ctx)->own->pool->gone;
    ensures cuts: \old(m->ctx) != \null ==> \old(m->ctx)->newest == \null;
    ensures released_alone: \old(m->ctx) == \null ==> core_has == 0 || in_child;
    ensures alone: \old(m->ctx) == \null ==> m->alone == \null && seat_taken == 0; */
void ww_mutex_unlock(struct ww_mutex *m);
/*@ requires is_mutex(m) && seat_taken == 1;
    assigns CHANGES_TO_UNLOCK(m);
    ensures released: core_has == 0 || in_child;
    ensures alone: m->alone == \null && seat_taken == 0; */
void ww_mutex_unlock_else_(struct ww_mutex *m);
/* After the first step, which returned r: the context has let the mutex go already. */
/*@ requires is_mutex(m) && is_context(x, x->own) && is_seat(x->own) && apart(m, x, x->own) && !loops(x);
    requires first: r == WW_AGAIN || r == -EBUSY || r == -EINVAL;
    requires r > 0 ==> core_call == UNLOCKS && core_of == the_lock && holds(the_lock);
    requires r == -EINVAL ==> lacks(the_lock) && rests;
    assigns CHANGES(m, x);
    ensures released: core_has == 0 || x->own->pool->gone;
    ensures cuts: x->newest == \null; */
void ww_mutex_unlock_further_(struct ww_mutex *m, struct ww_acquire_ctx *x, int r);
