/* What the contracts of number.h ask for can be so: see mutex.c. */
#include "objects.h"

static struct ww_shared_mutex w_numbered[8];
static struct ww_class w_class;
static uint32_t w_place;

static void w_numbers(int call, int has)
{
	w_seat_is(1);
	w_context_is();
	w_class.pool = &w_pool;
	w_pool.numbered = w_numbered;
	w_pool.numbers.locks = 8;
	w_numbered[7].mutex_.pool = &w_pool;
	w_numbered[7].mutex_.number = 7;
	w_core(call, has, has, 0);
	/*@ ghost the_lock = 7; */
	/*@ ghost the_mutex = &w_numbered[7].mutex_; */
	/*@ ghost the_place = &w_place; */
	/*@ ghost the_class = &w_class; */
}
void witness_numbered(void)
{
	w_numbers(NO_CALL, 0);
	/*@ assert has_is_numbered: is_numbered(&w_pool); */
	/*@ check never: \false; */
}
void witness_mutex_at(void) { w_numbers(NO_CALL, 0); /*@ check never: \false; */ mutex_at(&w_pool, 7); }
void witness_number_at(void) { w_numbers(NO_CALL, 0); /*@ check never: \false; */ ww_number_at(7, &w_class); }
void witness_number_take(void) { w_numbers(NO_CALL, 0); /*@ check never: \false; */ ww_number_take(&w_place, &w_class); }
void witness_mutex_asked(void) { w_numbers(NO_CALL, 0); /*@ check never: \false; */ mutex_asked("", 7, &w_context); }
void witness_number_lock(void) { w_numbers(NO_CALL, 0); /*@ check never: \false; */ ww_number_lock(7, &w_context); }
void witness_number_trylock(void) { w_numbers(NO_CALL, 0); /*@ check never: \false; */ ww_number_trylock(7, &w_context); }
void witness_number_unlock(void) { w_numbers(NO_CALL, 0); /*@ check never: \false; */ ww_number_unlock(7, &w_context); }
void witness_further(void) { w_numbers(UNLOCKS, 1); /*@ check never: \false; */ ww_number_unlock_further_(7, &w_context, WW_AGAIN); }
