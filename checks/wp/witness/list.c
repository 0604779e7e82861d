/* What the contracts of list.h ask for can be so, of a list of one mutex: see mutex.c. */
#include "objects.h"

static struct ww_mutex *w_locks[1];

static void w_list(unsigned state)
{
	w_seat_is(1);
	w_mutex_is();
	w_context_is();
	w_context.gives = w_context.empty_;
	w_context.state = state;
	w_context.acquired = 1;
	w_context.newest = &w_mutex;
	w_context.contending_lock = &w_mutex;
	w_context.prelocked = &w_mutex;
	w_core(NO_CALL, 1, 1, 0);
	w_locks[0] = &w_mutex;
	/*@ ghost the_mutex = &w_mutex; */
	/*@ ghost the_index = 0; */
	/*@ ghost had_lock = 0; */
	/*@ ghost listed = 1; */
	/*@ ghost level = 1; */
	/*@ ghost lists_owed = 0; */
	/*@ ghost held_before = 0; */
	/*@ ghost unlisted = 0; */
	/*@ ghost was_owed = &w_mutex; */
}

/*@ requires NO_BITS(state); */
void witness_list(unsigned state)
{
	w_list(state);
	/*@ assert has_is_user_of: is_user_of(&w_context); */
	/*@ assert has_is_counted: is_counted(&w_context); */
	/*@ assert has_is_asked: is_asked(&w_locks[0], 1); */
	/*@ assert has_is_known: is_known(&w_context); */
	/*@ assert has_are_locks: are_locks(&w_locks[0], (size_t)1, &w_context); */
	/*@ assert has_waits_with_none: waits_with_none(&w_context); */
	/*@ assert has_goes_on: goes_on(&w_context); */
	/*@ check never: \false; */
}
/*@ requires (state & IS_PRELOCKED) != 0; */
void witness_kept(unsigned state)
{
	w_list(state);
	/*@ ghost lists_owed = 1; */
	/*@ assert has_is_kept: is_kept(&w_context); */
	/*@ check never: \false; */
}
/*@ requires NO_BITS(state); */
void witness_retry(unsigned state) { w_list(state); /*@ check never: \false; */ retry(&w_context, w_locks, 1, 0, -EINTR); }
/*@ requires NO_BITS(state); */
void witness_lock_further(unsigned state) { w_list(state); /*@ ghost had_lock = 1; */ /*@ check never: \false; */ lock_further(&w_context, w_locks, 1); }
/*@ requires NO_BITS(state); */
void witness_begin_list(unsigned state) { w_list(state); /*@ check never: \false; */ begin_list(&w_context, w_locks, 1); }
/*@ requires NO_BITS(state); */
void witness_ends_by_hand(unsigned state) { w_list(state); /*@ check never: \false; */ ends_by_hand(&w_context, &w_mutex, 0); }
