/* What the contracts of lock.h ask for can be so: see mutex.c. */
#include "objects.h"

static struct ww_wait w_wait;

static void w_locks(int call, int has)
{
	w_seat_is(1);
	w_mutex_is();
	w_context_is();
	w_how_is();
	w_wait.how = &w_how;
	w_core(call, has, 1, 0);
}
void witness_of_lock_h(void)
{
	w_locks(LOCKS, 0);
	/*@ assert has_is_mutex: is_mutex(&w_mutex); */
	/*@ assert has_is_context: is_context(&w_context, &w_seat); */
	/*@ assert has_is_caller: is_caller(&w_context, &w_seat); */
	/*@ assert has_apart: apart(&w_mutex, &w_context, &w_seat); */
	/*@ assert has_how_apart: how_apart(&w_how, &w_mutex, &w_context, &w_seat); */
	/*@ assert has_lock_goes: lock_goes(&w_mutex); */
	/*@ check never: \false; */
}
/*@ requires (waiters & (1 << 29)) == 0; // from outside, as witness_zero has it */
void witness_results(unsigned waiters)
{
	w_locks(NO_CALL, 0);
	w_mutex.waiters = waiters;
	/*@ assert has_is_answer: is_answer(-EDEADLK); */
L:	w_core(NO_CALL, 1, 2, 0);
	w_mutex.older = w_context.newest;
	w_mutex.ctx = &w_context;
	w_context.newest = &w_mutex;
	w_context.acquired++;
	/*@ assert has_took: took(0); */
	/*@ assert has_has_it: has_it(&w_mutex); */
	/*@ assert has_others: others{L, Here}(&w_mutex); */
	/*@ assert has_is_noted: is_noted{L, Here}(&w_mutex, &w_context); */
	/*@ assert has_says: says{L, Here}(&w_mutex, &w_context); */
	/*@ assert has_newest: newest{L, Here}(&w_mutex, &w_context); */
	/*@ assert has_older: older{L, Here}(&w_mutex, &w_context); */
	/*@ assert has_listed: listed{L, Here}(&w_mutex, &w_context); */
	/*@ assert has_said: said{L, Here}(&w_mutex, &w_context, &w_seat, 0, 0); */
	/*@ assert has_ended: ended{L, Here}(&w_seat, 0); */
	/*@ assert has_lock_result: lock_result{L, Here}(&w_mutex, &w_context, &w_seat, 0, 0); */
	/*@ check never: \false; */
}
void witness_refusals(unsigned state)
{
	w_locks(NO_CALL, 0);
	w_context.state = state;
L:	w_core(NO_CALL, 0, 1, 1);
	w_context.contending_lock = &w_mutex;
	w_context.state = (w_context.state | IS_TOLD) & ~(unsigned)WAS_TOLD;
	/*@ assert has_unlisted: unlisted{L, Here}(&w_context); */
	/*@ assert has_refused: refused{L, Here}(&w_context, -EDEADLK); */
	/*@ assert has_told: told{L, Here}(&w_mutex, &w_context, -EDEADLK); */
	/*@ assert tells: lock_result{L, Here}(&w_mutex, &w_context, &w_seat, -EDEADLK, 0); */
	/*@ check never: \false; */
}
void witness_others(void)
{
	w_locks(NO_CALL, 0);
	w_mutex.alone = (char *)&w_seat + 1;
	/*@ assert has_says_seat: says_seat(&w_mutex, &w_seat); */
	w_context.gives = w_context.empty_;
	/*@ assert has_loops: loops(&w_context); */
	/*@ assert has_becomes: becomes{Here, Here}(&w_context, -1, 0); */
	/*@ check never: \false; */
}
void witness_note_holder(void) { w_locks(NO_CALL, 1); /*@ check never: \false; */ note_holder(&w_mutex, &w_context, &w_seat); }
void witness_counts_for(void) { w_locks(NO_CALL, 1); /*@ check never: \false; */ counts_for(&w_how); }
void witness_count_waiter(void) { w_locks(NO_CALL, 1); /*@ check never: \false; */ count_waiter(&w_mutex, &w_how, 1); }
void witness_begin_wait(void) { w_locks(NO_CALL, 0); /*@ check never: \false; */ begin_wait(&w_mutex, &w_context, &w_seat, &w_how); }
void witness_end_wait(void) { w_locks(NO_CALL, 0); /*@ check never: \false; */ end_wait(&w_mutex, &w_context, &w_seat, &w_wait, 0); }
void witness_lock_ends(void) { w_locks(NO_CALL, 1); /*@ check never: \false; */ lock_ends(&w_mutex, &w_context, &w_seat, 0, &w_how); }
void witness_wait_on(void) { w_locks(LOCKS, 0); /*@ check never: \false; */ wait_on(&w_mutex, &w_context, &w_seat, WW_AGAIN, &w_wait); }
void witness_lock_on(void) { w_locks(LOCKS, 0); /*@ check never: \false; */ ww_lock_on(&w_mutex, &w_context, &w_seat, WW_AGAIN, &w_how); }
void witness_lock_by(void) { w_locks(NO_CALL, 0); /*@ check never: \false; */ ww_lock_by(&w_mutex, &w_context, &w_how); }
void witness_release_on(void) { w_locks(UNLOCKS, 1); /*@ check never: \false; */ ww_release_on(&w_seat, WW_AGAIN); }
void witness_unlock_by(void) { w_locks(NO_CALL, 1); /*@ check never: \false; */ unlock_by(&w_mutex, &w_seat); }
void witness_unlock_of(void) { w_locks(NO_CALL, 1); /*@ check never: \false; */ ww_unlock_of(&w_mutex, &w_context); }
void witness_unlock_unlisted(void) { w_locks(NO_CALL, 1); /*@ check never: \false; */ unlock_unlisted(&w_mutex, &w_context); }
/*@ requires ONE_NODE; */
void witness_listed(void)
{
	w_locks(NO_CALL, 1);
	w_context.gives = w_context.empty_;
	w_context.newest = &w_mutex;
	w_mutex.older = NULL;
	/*@ assert has_lies_there: lies_there(&w_mutex); */
	/*@ assert here: \valid(node(0)) && \separated(node(0), &w_context) && node(0)->older == node(1); */
	/*@ assert has_lies_apart: lies_apart(&w_context, &w_mutex); */
	/*@ check never: \false; */
}
void witness_owns(void) { w_locks(NO_CALL, 1); /*@ check never: \false; */ ww_owns(&w_seat, 7); }
