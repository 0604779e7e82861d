/* What the contracts of poll.h ask for can be so: of a context that waits by no poll, and of one that waits for the mutex. */
#include "objects.h"

static struct ww_waker w_waker;

static void w_polls(unsigned state, int call)
{
	w_seat_is(1);
	w_mutex_is();
	w_context_is();
	w_how_is();
	w_context.state = state;
	w_context.polled = &w_mutex;
	w_seat.asked = &w_mutex;
	w_seat.asks = TO_LOCK;
	w_seat.poller = NULL;
	w_core(call, 0, 1, 0);
	/*@ ghost the_mutex = &w_mutex; */
}
/* CVC4 isn't told which bits a number has: see objects.h. */
#define WAITS(state) (state & IS_POLLED) != 0
/*@ requires WAITS(state); */
void witness_of_poll_h(unsigned state)
{
	w_polls(state, LOCKS);
	/*@ assert pool: &w_pool != \null && &w_mutex != \null && &w_seat != \null; */
	/*@ assert has_is_amid_poll: is_amid_poll(&w_context); */
	/*@ assert has_awaits: awaits(&w_context, &w_mutex); */
	/*@ assert has_lock_awaits: lock_awaits(&w_context); */
	/*@ check never: \false; */
}
/*@ requires NO_BITS(state); */
void witness_may_poll(unsigned state) { w_polls(state, NO_CALL); /*@ check never: \false; */ ww_may_poll("", &w_mutex, &w_context, TO_LOCK, NULL); }
/*@ requires WAITS(state); */
void witness_may_go_on(unsigned state)
{
	w_polls(state, LOCKS);
	/*@ assert amid: is_amid_poll(&w_context); */
	/*@ check never: \false; */
	ww_may_poll("", &w_mutex, &w_context, TO_LOCK, NULL);
}
/*@ requires NO_BITS(state); */
void witness_poll_on(unsigned state) { w_polls(state, NO_CALL); /*@ check never: \false; */ ww_poll_on(&w_mutex, &w_context, w_how); }
/*@ requires WAITS(state); */
void witness_poll_goes_on(unsigned state) { w_polls(state, LOCKS); /*@ check never: \false; */ ww_poll_on(&w_mutex, &w_context, w_how); }
/*@ requires WAITS(state); */
void witness_lock_poll(unsigned state)
{
	w_polls(state, LOCKS);
	/*@ assert pool: &w_pool != \null && &w_mutex != \null && &w_seat != \null; */
	/*@ assert amid: is_amid_poll(&w_context); */
	/*@ check never: \false; */
	ww_mutex_lock_poll(&w_mutex, &w_context, &w_waker);
}
/*@ requires WAITS(state); */
void witness_end_wait(unsigned state)
{
	w_polls(state, LOCKS);
	/*@ assert there: &w_mutex != \null; */
	/*@ check never: \false; */
	ww_acquire_end_wait(&w_context);
}
