/*
 * A program that is linked with libww.a, and a library that needs libww.so: each calls its own copy.
 *
 * Compiled with -DLIBRARY it is that library.
 */
#include "../test.h"
#include "ww_number.h"
#include "ww_shared.h"

/* Calls of each header, which lock by a class of their own. */
static void uses_a_class(struct ww_class *c)
{
	struct ww_shared_mutex read;
	struct ww_acquire_ctx x;
	struct ww_mutex m;
	uint32_t number;

	ww_mutex_init(&m, c);
	ww_shared_mutex_init(&read, c);
	MUST(!ww_number_take(&number, c));
	ww_acquire_init(&x, c);
	MUST(!ww_mutex_lock(&m, &x) && ww_mutex_is_held_by(&m, &x) && !ww_number_lock(number, &x) && !ww_shared_mutex_lock_shared(&read, &x));
	ww_mutex_unlock(&m);
	MUST(!ww_number_unlock(number, &x));
	ww_acquire_end_reads(&x);
	MUST(!ww_shared_mutex_lock(&read, &x) && !ww_number_unlock(read.mutex_.number, &x));
	ww_acquire_fini(&x);
	MUST(!ww_number_put(number, c) && !ww_shared_mutex_destroy(&read) && !ww_mutex_destroy(&m) && !ww_class_free(c));
}

/* Returns the function by which it begins contexts. */
typedef __typeof__(ww_acquire_init) begins;
begins *library_locks(void);

#ifdef LIBRARY
begins *library_locks(void)
{
	static DEFINE_WW_CLASS(of_library);

	uses_a_class(&of_library);
	return ww_acquire_init;
}
#else
int main(void)
{
	static DEFINE_WW_CLASS(of_program);

	for (unsigned k = 0; k < 2; k++) {
		MUST(library_locks() != ww_acquire_init);
		uses_a_class(&of_program);
	}
	puts("beside: the program and the library each use their own copy");
	return 0;
}
#endif
