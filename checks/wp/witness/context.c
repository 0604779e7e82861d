/* What the contracts of context.h ask for can be so: see mutex.c. */
#include "objects.h"

static struct ww_class w_class;

static void w_between(void)
{
	/*@ ghost comer = &w_seat; */
	w_seat_is(0);
	w_context_is();
	w_class.pool = &w_pool;
	/*@ ghost seat_taken = 1; */
	/*@ ghost the_context = &w_context; */
	/*@ ghost the_mutex = (struct ww_mutex *)0; */
	/*@ ghost the_how = (struct ww_how *)0; */
}
static void w_begun(void)
{
	w_seat_is(1);
	w_context_is();
	w_context.cancelled = 0;
	w_seat.handle.mode = 0;
	/*@ ghost seat_taken = 1; */
	/*@ ghost the_context = &w_context; */
}

void witness_before(void)
{
	w_between();
	/*@ assert has_ages_fit: ages_fit(&w_seat); */
	/*@ assert has_is_apart: is_apart(&w_seat); */
	/*@ assert has_is_memory: is_memory(&w_context); */
	/*@ assert comes_free: is_free_seat(&w_seat); */
	/*@ check never: \false; */
}
void witness_open(void)
{
	w_begun();
	/*@ assert has_is_free_but_begun: is_free_but_begun(&w_seat); */
	/*@ assert has_is_open: is_open(&w_context); */
	/*@ assert has_holds_nothing: holds_nothing(&w_context); */
	/*@ assert has_is_quick_or_rests: is_quick_or_rests(&w_context, &w_seat); */
	/*@ assert has_stays: stays{Here, Here}(&w_context); */
	/*@ check never: \false; */
}
void witness_never_began(void)
{
	w_begun();
	w_context.own = NULL;
	w_context.gives = NULL;
	w_context.pool = (struct ww_pool *)1;
	/*@ ghost seat_taken = 0; */
	/*@ assert has_is_no_pool: is_no_pool(w_context.pool); */
	/*@ assert has_has_no_seat: has_no_seat(&w_context); */
	/*@ assert has_never_began: never_began(&w_context); */
	/*@ check never: \false; */
}
void witness_begin_by(void) { w_between(); /*@ check never: \false; */ ww_begin_by(&w_context, &w_seat, 0); }
void witness_begin_by_none(void) { w_between(); /*@ ghost seat_taken = 0; */ /*@ check never: \false; */ ww_begin_by(&w_context, NULL, -EAGAIN); }
void witness_begin(void) { w_between(); /*@ ghost seat_taken = 0; */ /*@ check never: \false; */ begin(&w_context, &w_class, NULL, false); }
void witness_init_checked(void) { w_between(); /*@ ghost seat_taken = 0; */ /*@ check never: \false; */ ww_acquire_init_checked(&w_context, &w_class); }
void witness_init_until(void) { w_between(); /*@ ghost seat_taken = 0; */ /*@ check never: \false; */ ww_acquire_init_until(&w_context, &w_class, NULL); }
void witness_init(void) { w_between(); /*@ ghost seat_taken = 0; */ /*@ check never: \false; */ ww_acquire_init(&w_context, &w_class); }
void witness_done_checked(void) { w_begun(); /*@ check never: \false; */ ww_acquire_done_checked(&w_context); }
void witness_done(void) { w_begun(); /*@ check never: \false; */ ww_acquire_done(&w_context); }
void witness_fini_checked(void) { w_begun(); /*@ check never: \false; */ ww_acquire_fini_checked(&w_context); }
void witness_fini(void) { w_begun(); /*@ check never: \false; */ ww_acquire_fini(&w_context); }
void witness_cancel(void) { w_begun(); /*@ check never: \false; */ ww_acquire_cancel(&w_context); }
void witness_is_held_by(void) { w_begun(); w_mutex_is(); /*@ check never: \false; */ ww_mutex_is_held_by(&w_mutex, &w_context); }
