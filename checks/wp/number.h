/*
 * number.h - mutexes by their numbers: the calls of ww_number.h by contexts outside of loops.
 *
 * source: doors/number.c
 * proves: mutex_at ww_number_at ww_number_take mutex_asked ww_number_lock ww_number_trylock ww_number_unlock ww_number_unlock_further_
 * inlines: is_orphaned_by_fork is_polled pool_at open_pool_of is_loop note_used
 */
#include "mutex.h"
#include "../lock/used.h"

#define __atomic_fetch_and(p, v, order) wp_add(p, v)
/*@ // of all the class's mutexes that have numbers: the_mutex is that which has the_lock, once that was taken
    predicate is_numbered(struct ww_pool *p) = p->numbered != \null && the_lock < p->numbers.locks ==> the_mutex == &p->numbered[the_lock].mutex_ &&
	\valid(the_mutex) && (the_mutex->pool != \null ==> the_mutex->number == the_lock && the_mutex->pool == p);
*/

/*@ requires \valid_read(p) && number == the_lock && is_numbered(p);
    assigns \nothing;
    ensures mutex: \result != \null ==> \result == &p->numbered[number] && &\result->mutex_ == the_mutex && the_mutex->number == number &&
	the_mutex->pool == p && \valid(the_mutex);
    ensures none: \result == \null ==> number >= p->numbers.locks || p->numbered == \null || p->numbered[number].mutex_.pool == \null; */
static struct ww_shared_mutex *mutex_at(const struct ww_pool *p, uint32_t number);
/*@ requires \valid_read(c) && (c->pool != \null ==> \valid_read(c->pool) && is_numbered(c->pool)) && number == the_lock;
    assigns \nothing;
    ensures mutex: \result != \null ==> &\result->mutex_ == the_mutex && the_mutex->number == number && the_mutex->pool == c->pool; */
struct ww_shared_mutex *ww_number_at(uint32_t number, struct ww_class *c);

/* ---- a number that is taken has its mutex: memory, which numbers are free, and where mutexes lie, are assumed ---- */

/*@ ghost
  uint32_t *the_place;	      // where the number goes,
  struct ww_class *the_class; // and of which class it is
*/
/*@ assigns c->pool; exits \false;
    ensures \result == 0 ==> c->pool != \null && \valid(c->pool) && \separated(c->pool, the_place, the_class);
    ensures \result == 0 || \result == -EINVAL || \result == -ENOMEM; */
int ww_class_open(struct ww_class *c);
/*@ assigns p->numbered, the_mutex; exits \false;
    ensures \result == p->numbered;
    ensures \result != \null ==> is_numbered(p) && \valid(p->numbered + (0 .. p->numbers.locks - 1)) &&
	\separated(p->numbered + (0 .. p->numbers.locks - 1), p, the_place, the_class); */
static struct ww_shared_mutex *mutexes_of(struct ww_pool *p);
/*@ assigns *number; exits \false;
    ensures \result == 0 ==> *number < n->locks;
    ensures \result == 0 || \result == -ENOSPC || \result == -ENOMEM; */
int ww_take_number(struct ww_numbers *n, const struct ww_mutex *m, uint32_t *number);
/*@ assigns \nothing; */
static inline void lies_at(struct ww_numbers *n, uint32_t number, struct ww_mutex *m);

/*@ requires \valid(number) && \valid(c) && number == the_place && c == the_class && \separated(number, c) &&
	(c->pool != \null ==> \valid(c->pool) && \separated(c->pool, number, c));
    ensures taken: \result == 0 ==> c->pool != \null && *number < c->pool->numbers.locks;
    ensures mutex: \result == 0 && *number == the_lock ==> is_numbered(c->pool) && the_mutex->pool == c->pool && the_mutex->number == *number;
    ensures answers: \result == 0 || \result == -ENOSPC || \result == -ENOMEM || \result == -EINVAL; */
int ww_number_take(uint32_t *number, struct ww_class *c);

/* ---- lock calls: as those of mutex.h of the number's mutex ---- */

#define BY_NUMBER_TO_UNLOCK(number, x) \
	requires number == the_lock && (x != \null ==> is_any_context(x, the_mutex) && !loops(x) && \
		(x->own != \null ==> x->gives == (void *)x->own && is_numbered(x->own->pool)))
#define BY_NUMBER(number, x) BY_NUMBER_TO_UNLOCK(number, x); requires rests
#define NUMBER_LOCK(number, x) \
	ensures took: \result == 0 ==> the_lock == number && core_has == 1; \
	ensures counts: \result == 0 ==> x->acquired == (unsigned)(\old(x->acquired) + 1); \
	ensures told: \result == -EDEADLK ==> core_told == 1 && core_told_of == number && core_holds > 0; \
	ensures keeps: \result != 0 ==> same_held{Old, Here} && (x != \null ==> x->acquired == \old(x->acquired))
#define NUMBER_TRYLOCK(number, x) \
	ensures took: \result == 1 ==> the_lock == number && core_has == 1; \
	ensures counts: \result == 1 ==> x->acquired == (unsigned)(\old(x->acquired) + 1); \
	ensures keeps: \result != 1 ==> same_held{Old, Here} && (x != \null ==> x->acquired == \old(x->acquired)); \
	ensures answers: \result == 0 || \result == 1
/* 0 only if the seat hasn't the lock any more, or in a forked child; and -EINVAL, if it has it not. */
#define NUMBER_UNLOCK(number, x) \
	ensures released: \result == 0 ==> core_has == 0 || x->own->pool->gone; \
	ensures counts: x != \null ==> x->acquired == (unsigned)(\old(x->acquired) - (\result == 0 ? 1 : 0)); \
	ensures kept: \result != 0 ==> same{Old, Here}

/*@ BY_NUMBER_TO_UNLOCK(number, x);
    assigns \nothing;
    ensures mutex: \result != \null ==> \result == the_mutex && x != \null && x->own != \null && the_mutex->pool == x->own->pool && is_mutex(\result);
    ensures none: \result == \null && x != \null && x->own != \null ==> number >= x->own->pool->numbers.locks || x->own->pool->numbered == \null ||
	the_mutex->pool == \null; */
static struct ww_mutex *mutex_asked(const char *call, uint32_t number, const struct ww_acquire_ctx *x);
/*@ BY_NUMBER(number, x);
    assigns CHANGES(the_mutex, x);
    NUMBER_LOCK(number, x); */
int ww_number_lock(uint32_t number, struct ww_acquire_ctx *x);
/*@ BY_NUMBER(number, x);
    assigns CHANGES(the_mutex, x), CHANGES_BY(comer), the_how;
    NUMBER_TRYLOCK(number, x); */
int ww_number_trylock(uint32_t number, struct ww_acquire_ctx *x);
/*@ BY_NUMBER_TO_UNLOCK(number, x);
    assigns CHANGES(the_mutex, x);
    NUMBER_UNLOCK(number, x);
    ensures answers: \result == 0 || \result == -EINVAL || \result == -EBUSY; */
int ww_number_unlock(uint32_t number, struct ww_acquire_ctx *x);
/* After the first step, which returned r: an error, with which it did nothing, or by another step it ends. */
/*@ BY_NUMBER_TO_UNLOCK(number, x);
    requires x != \null && (x->own != \null ? r == WW_AGAIN || r == -EBUSY || r == -EINVAL : r == -EINVAL);
    requires r > 0 ==> core_call == UNLOCKS && core_of == number && holds(number);
    assigns CHANGES(the_mutex, x);
    ensures exact: (r > 0 ==> \result == 0) && (\result == 0 || \result == -EINVAL || \result == -EBUSY);
    ensures released: \result == 0 ==> core_has == 0 || x->own->pool->gone;
    ensures counts: x->acquired == (unsigned)(\old(x->acquired) - (\result == 0 ? 1 : 0));
    ensures kept: \result != 0 ==> same{Old, Here}; */
int ww_number_unlock_further_(uint32_t number, struct ww_acquire_ctx *x, int r);
