/* What the contracts of core.h and wait.h ask for can be so: see mutex.c. */
#include "objects.h"

static struct ww_wait w_wait;

static void w_waits(int call)
{
	w_seat_is(1);
	w_how_is();
	w_wait.how = &w_how;
	w_core(call, 0, 1, 0);
}
void witness_core(void)
{
	w_waits(LOCKS);
	/*@ ghost the_lock = 7; */
	/*@ assert has_goes: goes; */
	/*@ assert has_same: same{Here, Here}; */
	/*@ assert has_same_turn: same_turn{Here, Here}; */
	/*@ assert has_same_told: same_told{Here, Here}; */
	/*@ assert has_same_held: same_held{Here, Here}; */
	/*@ assert has_lacks: lacks((uint32_t)7); */
	/*@ assert has_is_seat: is_seat(&w_seat); */
	/*@ assert has_is_how: is_how(&w_how); */
	/*@ assert has_is_wait: is_wait(&w_wait); */
	/*@ assert has_away: away(&w_wait, &w_seat); */
L:	w_core(NO_CALL, 1, 2, 0);
	/*@ assert has_rests: rests; */
	/*@ assert has_holds: holds((uint32_t)7); */
	/*@ assert has_more_held: more_held{L, Here}((uint32_t)7); */
	/*@ assert has_ends: ends{L, Here}((int)0); */
	/*@ check never: \false; */
}
void witness_held(void)
{
	w_waits(NO_CALL);
	/*@ ghost the_lock = 7; */
L:	w_core(NO_CALL, 1, 2, 0);
	/*@ assert has_has_lock: has_lock{L, Here}((uint32_t)7); */
M:	w_core(NO_CALL, 0, 1, 0);
	/*@ assert has_less_held: less_held{M, Here}((uint32_t)7); */
	/*@ assert has_has_given_back: has_given_back{M, Here}((uint32_t)7); */
	w_core(NO_CALL, 0, 0, 0);
	/*@ assert has_is_at_mode: is_at_mode(WW_BARE_); */
	/*@ check never: \false; */
}
void witness_try_awake(void) { w_waits(NO_CALL); /*@ check never: \false; */ ww_try_awake(&w_seat, 7, &w_wait); }
void witness_stop_if_due(void) { w_waits(LOCKS); /*@ check never: \false; */ stop_if_due(&w_seat, &w_wait); }
void witness_go_on_awake(void) { w_waits(LOCKS); /*@ check never: \false; */ go_on_awake(&w_seat, &w_wait); }
void witness_wake(void) { w_waits(LOCKS); /*@ check never: \false; */ wake(&w_seat); }
void witness_go_on(void) { w_waits(LOCKS); /*@ check never: \false; */ ww_go_on(&w_seat, &w_wait, true); }
void witness_give_back(void) { w_waits(NO_CALL); w_core(NO_CALL, 1, 1, 0); /*@ ghost the_lock = 7; */ /*@ check never: \false; */ ww_give_back(&w_seat, 7); }
