/*
 * What the contracts of mutex.h ask for can be so: each predicate, and all that each function requires together.  At each end stands \false,
 * which must not be proved.
 */
#include "objects.h"

static void w_alone(int taken)
{
	/*@ ghost comer = &w_seat; */
	w_seat_is(0);
	w_mutex_is();
	w_how_is();
	/*@ ghost seat_taken = taken; */
	/*@ ghost the_how = &w_how; */
	/*@ ghost the_mutex = &w_mutex; */
}

static void w_by_context(void)
{
	w_seat_is(1);
	w_mutex_is();
	w_context_is();
	w_how_is();
	/*@ ghost the_mutex = &w_mutex; */
}

void witness_of_mutex_h(void)
{
	w_alone(1);
	/*@ assert has_is_called: is_called(&w_mutex); */
	/*@ assert has_is_free_seat: is_free_seat(&w_seat); */
	/*@ assert has_is_how_alone: is_how_alone(&w_how, &w_mutex); */
	/*@ assert has_is_when: is_when(w_how.until); */
	/*@ check never: \false; */
}
void witness_no_seat(void)
{
	w_alone(0);
	/*@ assert has_no_seat: no_seat; */
	w_pool.gone = 1;
	/*@ assert has_in_child: in_child; */
	/*@ check never: \false; */
}
/*@ requires NO_BITS(state); */
void witness_by_context(unsigned state)
{
	w_by_context();
	w_context.state = state;
	/*@ assert has_is_any_context: is_any_context(&w_context, &w_mutex); */
	/*@ assert has_is_how_for: is_how_for(&w_how, &w_mutex, &w_context); */
	/*@ assert pool: w_mutex.pool == &w_pool && \valid(&w_pool); */
	/*@ assert open: &w_pool != \null; */
	/*@ assert own: w_context.own != \null; */
	/*@ assert has_may_be_quick: may_be_quick(&w_mutex, &w_context); */
	/*@ assert has_loops: !loops(&w_context); */
	/*@ check never: \false; */
}
/*@ requires (waiters & (1 << 29)) == 0; // likewise from outside */
void witness_numbered(unsigned waiters)
{
	w_by_context();
	w_mutex.waiters = waiters;
	/*@ assert has_numbered: numbered{Pre, Here}(&w_mutex) || \at(w_mutex.pool, Pre) != \null; */
L:	w_core(NO_CALL, 1, 1, 0);
	w_mutex.older = w_context.newest;
	w_mutex.ctx = &w_context;
	w_context.newest = &w_mutex;
	w_context.acquired++;
	/*@ assert is_noted: is_noted{L, Here}(&w_mutex, &w_context); */
	/*@ assert says: says{L, Here}(&w_mutex, &w_context); */
	/*@ assert newest: newest{L, Here}(&w_mutex, &w_context); */
	/*@ assert older: older{L, Here}(&w_mutex, &w_context); */
	/*@ assert lists: listed{L, Here}(&w_mutex, &w_context); */
	/*@ assert has_lock_result_at_first: lock_result_at_first{L, Here}(&w_mutex, &w_context, 0) && numbered{L, Here}(&w_mutex); */
	/*@ check never: \false; */
}

/* ---- all that each function requires ---- */

void witness_lock_by_seat(void) { w_alone(1); /*@ check never: \false; */ lock_by_seat(&w_mutex, &w_seat, &w_how); }
void witness_lock_by_any(void) { w_alone(0); /*@ check never: \false; */ lock_by_any(&w_mutex, &w_how); }
void witness_lock_alone(void) { w_alone(0); /*@ check never: \false; */ lock_alone(&w_mutex, &w_how); }
void witness_lock_alone_ends(void) { w_alone(0); /*@ check never: \false; */ ww_mutex_lock_alone_(&w_mutex); }
void witness_lock_alone_on(void) { w_alone(1); /*@ check never: \false; */ lock_alone_on(&w_mutex, &w_seat, -EBUSY, &w_how); }
void witness_try_alone(void) { w_alone(0); /*@ check never: \false; */ try_alone(&w_mutex); }
void witness_lock_null(void) { w_alone(0); /*@ check never: \false; */ ww_mutex_lock(&w_mutex, NULL); }
void witness_until_null(void) { w_alone(0); /*@ check never: \false; */ ww_mutex_lock_until(&w_mutex, NULL, NULL); }
void witness_interruptible(void) { w_alone(0); /*@ check never: \false; */ ww_mutex_lock_interruptible(&w_mutex, NULL); }
void witness_trylock_null(void) { w_alone(0); /*@ check never: \false; */ ww_mutex_trylock(&w_mutex, NULL); }
void witness_trylock_checked(void) { w_alone(0); /*@ check never: \false; */ ww_mutex_trylock_checked(&w_mutex, NULL); }
void witness_trylock_else(void) { w_by_context(); /*@ check never: \false; */ ww_mutex_trylock_else_(&w_mutex, &w_context); }
void witness_try_admitted(void) { w_by_context(); /*@ check never: \false; */ try_admitted(&w_mutex, &w_context, 0); }
void witness_try_by(void) { w_by_context(); /*@ check never: \false; */ ww_try_by(&w_mutex, &w_context); }
void witness_phase_of(void) { w_by_context(); /*@ check never: \false; */ phase_of(&w_context); }
void witness_is_locked(void) { w_by_context(); /*@ check never: \false; */ ww_mutex_is_locked(&w_mutex); }
void witness_check_call(void) { const char *why; w_by_context(); /*@ check never: \false; */ check_call(CALL_LOCK, &w_mutex, &w_context, NULL, &why); }
void witness_draw_age(void) { w_by_context(); /*@ check never: \false; */ draw_age_by_hand(&w_context); }
void witness_admit(void) { w_by_context(); /*@ check never: \false; */ ww_admit("", CALL_LOCK, &w_mutex, &w_context, NULL); }
void witness_lock_as(void) { w_by_context(); /*@ check never: \false; */ ww_lock_as(&w_mutex, &w_context, &w_how); }
void witness_lock_else(void) { w_by_context(); /*@ check never: \false; */ ww_mutex_lock_else_(&w_mutex, &w_context); }
void witness_lock_further(void) { w_by_context(); w_core(NO_CALL, 1, 1, 0); /*@ check never: \false; */ ww_mutex_lock_further_(&w_mutex, &w_context, -EALREADY); }
void witness_lock_slowly(void) { w_by_context(); /*@ check never: \false; */ ww_lock_slowly(&w_mutex, &w_context, &w_how); }
void witness_slowly_or(void) { w_by_context(); /*@ check never: \false; */ slowly_or_report(&w_mutex, &w_context, &w_how); }
void witness_slow_checked(void) { w_by_context(); /*@ check never: \false; */ ww_mutex_lock_slow_checked(&w_mutex, &w_context); }
void witness_slow(void) { w_by_context(); /*@ check never: \false; */ ww_mutex_lock_slow(&w_mutex, &w_context); }
void witness_slow_until(void) { w_by_context(); /*@ check never: \false; */ ww_mutex_lock_slow_until(&w_mutex, &w_context, NULL); }
void witness_slow_int(void) { w_by_context(); /*@ check never: \false; */ ww_mutex_lock_slow_interruptible(&w_mutex, &w_context); }
void witness_unlock_alone_on(void) { w_alone(1); w_core(UNLOCKS, 1, 1, 0); /*@ check never: \false; */ unlock_alone_on(&w_seat, WW_AGAIN); }
void witness_unlock_alone(void) { w_alone(1); /*@ check never: \false; */ unlock_alone(&w_mutex); }
void witness_unlock_checked(void) { w_by_context(); w_mutex.ctx = &w_context; /*@ check never: \false; */ ww_mutex_unlock_checked(&w_mutex); }
void witness_unlock(void) { w_by_context(); w_mutex.ctx = &w_context; /*@ check never: \false; */ ww_mutex_unlock(&w_mutex); }
void witness_unlock_else(void) { w_alone(1); /*@ check never: \false; */ ww_mutex_unlock_else_(&w_mutex); }
void witness_unlock_further(void) { w_by_context(); w_core(UNLOCKS, 1, 1, 0); /*@ check never: \false; */ ww_mutex_unlock_further_(&w_mutex, &w_context, WW_AGAIN); }
