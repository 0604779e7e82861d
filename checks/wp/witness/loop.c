/* What the contracts of loop.h ask for can be so, of a list with one mutex: see mutex.c.  What node and is_member mean is given here. */
#include "objects.h"

static void w_loops(int state)
{
	w_seat_is(1);
	w_mutex_is();
	w_context_is();
	w_context.gives = w_context.empty_;
	w_context.state = state;
	w_context.newest = &w_mutex;
	w_mutex.older = NULL;
	w_core(NO_CALL, 1, 1, 0);
	/*@ ghost the_mutex = &w_mutex; */
}

#define ONE_MEMBER (\forall struct ww_mutex *m; is_member(m) <==> m == &w_mutex) && (\forall struct ww_mutex *m; is_ahead(m) <==> m == &w_mutex) && \
	behind(&w_mutex) == 1 && word(&w_mutex.ctx) == 1 && word(&w_mutex.older) == 2

/*@ requires ONE_NODE; */
void witness_list(void)
{
	w_loops(0);
	/*@ assert has_is_node: is_node(0); */
	/*@ assert here: \valid(node(0)) && \separated(node(0), &w_context) && node(0)->older == node(1); */
	/*@ assert has_is_list: is_list(&w_context); */
	/*@ assert has_is_user_of: is_user_of(&w_context); */
	/*@ check never: \false; */
}
/*@ requires ONE_MEMBER; */
void witness_members(void)
{
	w_loops(0);
	/*@ assert has_are_apart: are_apart(&w_context, &w_seat, &w_pool); */
	/*@ assert has_goes_on: goes_on; */
	/*@ assert has_has_ahead: has_ahead(&w_context); */
	/*@ assert has_has_members: has_members(&w_context); */
	/*@ assert has_older_stays: older_stays{Here, Here}; */
	/*@ check never: \false; */
}
void witness_become(void) { w_loops(0); /*@ check never: \false; */ ww_become(&w_context, 0, HAS_TO_BACK_OFF); }
/*@ requires ONE_NODE; */
void witness_unlist(void) { w_loops(0); /*@ assert here: node(0)->older == node(1); */ /*@ check never: \false; */ unlist(&w_context, &w_mutex); }
/*@ requires ONE_NODE; */
void witness_accept_held(void) { w_loops(0); /*@ assert here: node(0)->older == node(1); */ /*@ check never: \false; */ ww_accept_held(&w_context, &w_mutex, true); }
/*@ requires ONE_NODE; */
void witness_result(void) { w_loops(0); /*@ assert here: node(0)->older == node(1); */ /*@ check never: \false; */ ww_result_in_loop(&w_mutex, &w_context, 0); }
/*@ requires ONE_MEMBER; */
void witness_newest(void) { w_loops(0); /*@ check never: \false; */ release_newest(&w_context); }
/*@ requires ONE_MEMBER; */
void witness_release(void) { w_loops(0); /*@ check never: \false; */ release_newest_first(&w_context); }
/*@ requires ONE_MEMBER; */
void witness_unlock_all(void) { w_loops(0); w_context.acquired = 1; /*@ assert has_is_whole: is_whole(&w_context); */ /*@ assert has_has_slot: has_slot(&w_seat, &w_context); */ /*@ check never: \false; */ ww_acquire_unlock_all(&w_context); }
void witness_rest(void) { w_loops(0); w_context.newest = NULL; /*@ assert slot: has_slot(&w_seat, &w_context); */ /*@ check never: \false; */ unlocks_no_more(&w_context); }
/*@ requires ONE_MEMBER; */
void witness_back_off(void) { w_loops(HAS_TO_BACK_OFF); /*@ assert bit: (w_context.state & HAS_TO_BACK_OFF) != 0; */ /*@ check never: \false; */ ww_back_off_(&w_context); }
/* A context that holds nothing, and waits for the mutex first; and one that has just waited. */
static void w_waits_for(unsigned state, struct ww_mutex *newest, int has)
{
	w_loops(0);
	w_how_is();
	w_context.state = state;
	w_context.newest = newest;
	w_context.contending_lock = &w_mutex;
	w_core(NO_CALL, has, has, 0);
}
/*@ requires (state & WAITS_FIRST) != 0 && (state & IS_PRELOCKED) == 0; */
void witness_wait_first(unsigned state)
{
	w_waits_for(state, NULL, 0);
	/*@ assert has_waits_for: waits_for(&w_context, &w_mutex); */
	/*@ check never: \false; */
	wait_first(&w_context, w_how);
}
/*@ requires (state & WAITS_FIRST) != 0 && (state & IS_PRELOCKED) == 0; */
void witness_note_waited(unsigned state)
{
	w_waits_for(state, &w_mutex, 1);
	/*@ check never: \false; */
	note_waited(&w_context, &w_mutex, false);
}
void witness_is_gone(void) { w_loops(0); /*@ check never: \false; */ ww_is_gone(&w_pool, &w_mutex, 0); }
/* A lock call in a loop of a mutex that is listed. */
/*@ requires ONE_NODE && (state & WAITS_FIRST) == 0; */
void witness_lock_in_loop(unsigned state)
{
	w_waits_for(state, &w_mutex, 1);
	/*@ assert here: \valid(node(0)) && \separated(node(0), &w_context, &w_seat, &w_pool) && node(0)->older == node(1); */
	/*@ check never: \false; */
	ww_lock_in_loop(&w_mutex, &w_context, &w_how);
}
/* A lock call in a loop by a context that waits first: for the call's own mutex, and for another one. */
/*@ requires ONE_NODE && (state & WAITS_FIRST) != 0 && (state & IS_PRELOCKED) == 0; */
void witness_lock_in_loop_own(unsigned state)
{
	w_waits_for(state, NULL, 0);
	/*@ assert has_will_list: will_list(&w_mutex); */
	/*@ check never: \false; */
	ww_lock_in_loop(&w_mutex, &w_context, &w_how);
}
static struct ww_mutex w_other;
/*@ requires will_list(&w_other) && (state & WAITS_FIRST) != 0 && (state & IS_PRELOCKED) == 0; */
void witness_lock_in_loop_another(unsigned state)
{
	w_waits_for(state, NULL, 0);
	w_other.number = 8;
	w_context.contending_lock = &w_other;
	/*@ assert other: waits_for(&w_context, &w_other); */
	/*@ check never: \false; */
	ww_lock_in_loop(&w_mutex, &w_context, &w_how);
}
/*@ requires ONE_NODE; */
void witness_lock_and_note(unsigned state)
{
	w_waits_for(state, &w_mutex, 1);
	/*@ assert here: \valid(node(0)) && \separated(node(0), &w_context, &w_seat, &w_pool) && node(0)->older == node(1); */
	/*@ check never: \false; */
	lock_and_note(&w_mutex, &w_context, &w_how);
}
