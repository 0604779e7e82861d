/*
 * wait.h - the steps of a wait.
 *
 * source: lock/wait.c
 * proves: ww_try_awake stop_if_due go_on_awake wake ww_go_on ww_give_back
 */
#include "core.h"

/*@ predicate is_seat(ww_seat *s) = \valid(s) && &s->handle == the_seat && \valid_read(s->pool) && \separated(s, s->pool);
    predicate is_how(struct ww_how *how) = \valid_read(how);
    predicate is_wait(struct ww_wait *wait) = \valid_read(wait) && \valid_read(wait->how);
    predicate away(struct ww_wait *wait, ww_seat *s) = \separated(wait, s) && \separated(wait->how, s); */

/* ---- of sleep.c, which is assumed ---- */

/*@ assigns s->token, s->armed, s->waker; */
bool ww_arm(ww_seat *s, const struct ww_waker *waker);
/*@ assigns s->token, s->armed, s->waker; */
void ww_park(ww_seat *s, uint64_t awake, const struct timespec *until);
/*@ assigns *looks; */
bool ww_stays_awake(unsigned *looks, uint64_t until);
/*@ assigns *looks, *until; */
void ww_await_guard(unsigned *looks, uint64_t *until);
/*@ assigns \nothing; */
bool ww_has_come(const struct timespec *until);
/* Others' seats, whose words nothing here speaks of; and what their wakers do. */
#ifndef WP_UNPARKS
/*@ assigns \nothing; */
void ww_unpark(ww_seat *s);
#endif
/*@ assigns \nothing; */
struct ww_waker ww_leave_token(ww_seat *s);
/* ---- of pool.h ---- */
/*@ assigns \nothing; */
static inline bool ww_ends_waits(const struct ww_pool *p);

/* ---- of wait.c ---- */

/*@ assigns \nothing; */
static bool has_to_queue(ww_seat *s, int32_t seen);
/*@ requires is_seat(s) && (wait != \null ==> is_wait(wait)); assigns s->handle.mode, s->handle.below; */
static void stop_if_due(ww_seat *s, const struct ww_wait *wait);
/*@ requires is_seat(s); assigns s->handle.mode, s->handle.below; */
static void wake(ww_seat *s);

/* What a call that is on its way comes to, made by further steps. */
/*@ predicate ends{A, B}(int r) =
	\at(core_call, B) == NO_CALL &&
	(\at(core_call, A) == LOCKS ==>
		(r == 0 && more_held{A, B}(\at(core_of, A)) && \at(core_told, B) == 0) ||
		(r == -EDEADLK && same_held{A, B} && \at(core_holds, A) > 0 && \at(core_context, A) == 1 && \at(core_told, B) == 1 &&
			\at(core_told_of, B) == \at(core_of, A)) ||
		(r == -EINTR && same_held{A, B} && same_told{A, B})) &&
	(\at(core_call, A) == UNLOCKS ==> r == 0 && less_held{A, B}(\at(core_of, A)) && same_told{A, B}); */

/*@ requires is_seat(s) && (wait != \null ==> is_wait(wait) && away(wait, s)) && goes;
    assigns s->handle.mode, s->handle.below, core_has, core_holds, core_told, core_told_of, core_call;
    ensures sleeps: \result > 0 ==> \result == WW_SLEEPS && core_call == LOCKS && same{Old, Here};
    ensures ends: \result <= 0 ==> ends{Old, Here}(\result); */
static int go_on_awake(ww_seat *s, const struct ww_wait *wait);

/*@ requires is_seat(s) && (wait != \null ==> is_wait(wait) && away(wait, s)) && goes;
    requires sleeps ==> core_call == LOCKS;
    requires core_call == LOCKS ==> wait != \null;
    assigns s->handle.mode, s->handle.below, s->token, s->armed, s->waker, core_has, core_holds, core_told, core_told_of, core_call;
    ensures child: s->pool->gone ==> \result == -EBUSY && same{Old, Here};
    ensures polls: \result == -EINPROGRESS ==> wait->how->who == TASK && core_call == LOCKS && same{Old, Here};
    ensures ends: !s->pool->gone && \result != -EINPROGRESS ==> ends{Old, Here}(\result); */
int ww_go_on(ww_seat *s, const struct ww_wait *wait, bool sleeps);

/*@ requires is_seat(s) && is_wait(wait) && away(wait, s);
    assigns s->handle.mode, s->handle.below, core_has, core_holds, core_told, core_call, core_of;
    ensures takes: \result == 0 ==> rests && lacks{Old}(lock) && has_lock{Old, Here}(lock);
    ensures waits: \result == WW_AGAIN ==> rests{Old} && lacks{Old}(lock) && core_call == LOCKS && core_of == lock &&
	same_held{Old, Here} && same_told{Old, Here};
    ensures refused: \result < 0 ==> same{Old, Here};
    ensures busy: \result == -EBUSY ==> !rests;
    ensures already: \result == -EALREADY ==> rests && holds(lock);
    ensures invalid: \result == -EINVAL ==> rests && lacks(lock);
    ensures answers: \result == 0 || \result == WW_AGAIN || \result == -EBUSY || \result == -EALREADY || \result == -EINVAL; */
int ww_try_awake(ww_seat *s, uint32_t lock, const struct ww_wait *wait);

/*@ requires is_seat(s) && rests && lock == the_lock && holds(lock);
    assigns s->handle.mode, s->handle.below, core_has, core_holds, core_told, core_told_of, core_call, core_of;
    ensures less_held{Old, Here}(lock) && rests; */
struct ww_waker ww_give_back(ww_seat *s, uint32_t lock);
