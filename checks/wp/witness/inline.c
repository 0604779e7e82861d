/* What the contracts of inline.h ask for can be so: see mutex.c and number.c. */
#include "objects.h"

static struct ww_shared_mutex w_numbered[8];
static struct ww_class w_class;
static uint32_t w_place;

static void w_numbers(int call, int has)
{
	w_seat_is(1);
	w_context_is();
	w_class.pool = &w_pool;
	w_pool.numbered = w_numbered;
	w_pool.numbers.locks = 8;
	w_numbered[7].mutex_.pool = &w_pool;
	w_numbered[7].mutex_.number = 7;
	w_core(call, has, has, 0);
	/*@ ghost the_lock = 7; */
	/*@ ghost the_mutex = &w_numbered[7].mutex_; */
	/*@ ghost the_place = &w_place; */
	/*@ ghost the_class = &w_class; */
}
static void w_calls(void)
{
	w_seat_is(1);
	w_mutex_is();
	w_context_is();
	/*@ ghost the_mutex = &w_mutex; */
}
/*@ requires NO_BITS(state); */
void witness_lock(unsigned state) { w_calls(); w_context.state = state; /*@ assert own: &w_seat != \null && &w_pool != \null; */ /*@ assert pool: w_mutex.pool == &w_pool && \valid(&w_pool); */ /*@ check never: \false; */ ww_mutex_lock(&w_mutex, &w_context); }
/*@ requires NO_BITS(state); */
void witness_trylock(unsigned state) { w_calls(); w_context.state = state; /*@ assert own: &w_seat != \null && &w_pool != \null; */ /*@ assert pool: w_mutex.pool == &w_pool && \valid(&w_pool); */ /*@ check never: \false; */ ww_mutex_trylock(&w_mutex, &w_context); }
void witness_unlock(void) { w_calls(); w_mutex.ctx = &w_context; /*@ check never: \false; */ ww_mutex_unlock(&w_mutex); }
void witness_number_lock(void) { w_numbers(NO_CALL, 0); /*@ check never: \false; */ ww_number_lock(7, &w_context); }
void witness_number_trylock(void) { w_numbers(NO_CALL, 0); /*@ check never: \false; */ ww_number_trylock(7, &w_context); }
void witness_number_unlock(void) { w_numbers(NO_CALL, 0); /*@ check never: \false; */ ww_number_unlock(7, &w_context); }
