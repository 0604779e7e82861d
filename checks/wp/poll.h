/*
 * poll.h - lock calls of tasks, outside of loops: a call that has to wait leaves its waker and returns -EINPROGRESS, and a further one goes
 * on with the wait.
 *
 * source: doors/poll.c
 * proves: ww_may_poll ww_poll_on ww_mutex_lock_poll ww_acquire_end_wait
 * inlines: phase_of is_polled is_loop note_told puts_of
 */
#include "mutex.h"
#include "../doors/poll.h"

/*@ assigns s->token; */
bool ww_disarm(ww_seat *s);

#define POLLS(x) ((x->state & IS_POLLED) != 0)
/* What the seat keeps of a poll: only the same call goes on with its wait. */
#define ASKS(s, m, what, by) s->asked == m && s->asks == what && s->poller == by
/*@ // a poll that waits is a call on its way, for the lock of the mutex `polled`
    predicate awaits(struct ww_acquire_ctx *x, struct ww_mutex *m) = POLLS(x) ==> x->polled == m && lock_goes(m);
    // and one of ww_mutex_lock_poll waits for the mutex for which it asks
    predicate lock_awaits(struct ww_acquire_ctx *x) = POLLS(x) && x->own->asks == TO_LOCK ==> x->own->asked != \null &&
	x->own->asked->pool != \null && awaits(x, x->own->asked);
*/

/*@ requires is_called(m) && (x != \null ==> is_any_context(x, m)) && (rests || is_amid_poll(x));
    assigns m->pool, m->class_, m->number, the_lock, x->pool, x->own->ages, x->own->met, x->own->handle.mode, x->own->handle.below, core_context, core_told,
	x->own->asked, x->own->asks, x->own->poller;
    ensures called: is_called(m);
    ensures number: m != \null && \old(m->pool) != \null ==> m->number == \old(m->number) && the_lock == \old(the_lock);
    ensures mutex: \result == 0 && !(\old(is_amid_poll(x))) ==> m != \null && m->pool != \null && m->number == the_lock && rests && !POLLS(x);
    ensures context: \result == 0 ==> x != \null && x->own != \null;
    ensures asks: \result == 0 ==> x->own->asked == m && x->own->asks == (uint8_t)what && x->own->poller == poller;
    ensures goes_on: \result == 0 && \old(is_amid_poll(x)) ==> \old(ASKS(x->own, m, what, poller)) && m->pool == \old(m->pool);
    ensures stays: x != \null ==> x->own == \old(x->own) && x->state == \old(x->state) && unlisted{Old, Here}(x);
    ensures fails: \result != 0 && x != \null && x->own != \null ==> ASKS(x->own, \old(x->own->asked), \old(x->own->asks), \old(x->own->poller));
    ensures answers: \result <= 0 && \result != -EDEADLK && \result != -EINPROGRESS; */
int ww_may_poll(const char *call, struct ww_mutex *m, struct ww_acquire_ctx *x, unsigned what, struct ww_poller *poller);

#define POLL_TOLD(m, x) core_told == 1 && core_told_of == m->number && core_holds > 0 && x->contending_lock == m
/* The wait of an earlier call goes on for the same mutex, or a new one begins: it ends as a lock call of a thread. */
/*@ requires user: is_user_of(x) && is_mutex(m) && m != \null && apart(m, x, x->own) && !loops(x);
    requires asks: how.asks != \null && how.asks != m ==> \valid(how.asks) && \separated(how.asks, m, x, x->own) && \separated(how.asks, x->own->pool);
    requires awaits: awaits(x, m);
    assigns OF_LOCK(m, x, x->own), x->polled, how.asks->waiters;
    ensures mutex: is_mutex(m);
    ensures took: took(\result);
    ensures says: \result == 0 && !how.visits ==> says{Old, Here}(m, x);
    ensures counts: \result == 0 && !how.visits ==> x->acquired == (unsigned)(\old(x->acquired) + 1);
    ensures newest: \result == 0 && !how.visits ==> newest{Old, Here}(m, x);
    ensures older: \result == 0 && !how.visits ==> older{Old, Here}(m, x);
    ensures told: \result == -EDEADLK ==> POLL_TOLD(m, x);
    ensures keeps: \result != 0 ==> same_held{Old, Here};
    ensures keeps_list: \result != 0 ==> unlisted{Old, Here}(x) && m->older == \old(m->older);
    ensures waits: \result == -EINPROGRESS ==> x->polled == m && lock_goes(m) && how.waker != \null;
    ensures polls: \result == -EINPROGRESS ==> POLLS(x);
    ensures no_more: \result != -EINPROGRESS ==> !POLLS(x);
    ensures goes_on: \old(POLLS(x)) ==> \result != -EBUSY;
    ensures ended: ended{Old, Here}(x->own, \result);
    ensures asked: ASKS(x->own, \old(x->own->asked), \old(x->own->asks), \old(x->own->poller));
    ensures answers: is_answer(\result); */
int ww_poll_on(struct ww_mutex *m, struct ww_acquire_ctx *x, struct ww_how how);

/* What this leaves when it returns -EINPROGRESS is what it requires when it is asked again. */
/*@ requires is_called(m) && (x != \null ==> is_any_context(x, m) && (x->own != \null ==> !loops(x))) && (rests || is_amid_poll(x));
    requires awaits: x != \null && x->own != \null ==> lock_awaits(x);
    ensures took: took(\result);
    ensures mutex: \result == 0 ==> m != \null && x != \null && m->number == the_lock;
    ensures number: \result == -EINPROGRESS ==> m->number == the_lock;
    ensures says: \result == 0 ==> says{Old, Here}(m, x);
    ensures counts: \result == 0 ==> x->acquired == (unsigned)(\old(x->acquired) + 1);
    ensures newest: \result == 0 ==> newest{Old, Here}(m, x);
    ensures older: \result == 0 ==> older{Old, Here}(m, x);
    ensures told: \result == -EDEADLK ==> POLL_TOLD(m, x);
    ensures keeps: \result != 0 ==> same_held{Old, Here};
    ensures keeps_list: \result != 0 && x != \null ==> unlisted{Old, Here}(x);
    ensures waits: \result == -EINPROGRESS ==> POLLS(x) && ASKS(x->own, m, TO_LOCK, \null) && waker != \null;
    ensures awaits: \result == -EINPROGRESS ==> m->pool != \null && x->polled == m && lock_goes(m);
    ensures ends: x != \null && x->own != \null && POLLS(x) && \result != -EINPROGRESS ==> \old(POLLS(x)) && same_turn{Old, Here}; */
int ww_mutex_lock_poll(struct ww_mutex *m, struct ww_acquire_ctx *x, const struct ww_waker *waker);

/* Of a poll of ww_mutex_lock_poll: afterwards the seat has what it had, and no call is on its way, or this is a forked child. */
/*@ requires \valid(x) && (x->own != \null ==> is_user_of(x) && !loops(x));
    requires locks: x->own != \null && POLLS(x) ==> ASKS(x->own, x->polled, TO_LOCK, \null) && x->polled != \null && is_mutex(x->polled) &&
	apart(x->polled, x, x->own) && lock_goes(x->polled);
    ensures none: \old(x->own) == \null ==> \result == -EINVAL;
    ensures quiet: \old(x->own) != \null && !\old(POLLS(x)) ==> \result == 0 && same{Old, Here};
    ensures ends: \old(x->own) != \null ==> !POLLS(x);
    ensures rests: \old(x->own) != \null && \old(POLLS(x)) ==> rests || x->own->pool->gone;
    ensures lacks: \old(x->own) != \null && \old(POLLS(x)) ==> core_has == 0 || x->own->pool->gone;
    ensures counts: \old(x->own) != \null && \old(x->acquired) < 0xFFFFFFFF ==> x->acquired == \old(x->acquired);
    ensures told: \result == -EDEADLK ==> POLL_TOLD(\old(x->polled), x); */
int ww_acquire_end_wait(struct ww_acquire_ctx *x);
