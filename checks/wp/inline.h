/*
 * inline.h - the quick ways, which are compiled into their callers (include/ww_mutex_inline.h and ww_number.h): by the contracts of the
 * library's own functions of these names.
 *
 * source: lock/wait.c
 * proves: ww_mutex_lock ww_mutex_trylock ww_mutex_unlock ww_number_lock ww_number_trylock ww_number_unlock
 * inlines: ww_only_of_try_ ww_first_of_unlock_
 */
#define WP_INLINE
#include "number.h"

/* As their names for the assembler say. */
int32_t ww_only_of_try_(void *seat, uint32_t lock) { return ww_try_(seat, lock); }
int32_t ww_first_of_unlock_(void *seat, uint32_t lock) { return ww_unlock_(seat, lock); }
/*@ assigns \nothing; */
uint64_t ww_likely_(const void *lock, uint64_t span);

/* The quick ways by number read a context that there is.  Below, the library's own, by their other names. */
/*@ requires x != \null; */
int ww_number_lock(uint32_t number, struct ww_acquire_ctx *x);
/*@ requires x != \null; */
int ww_number_trylock(uint32_t number, struct ww_acquire_ctx *x);
/*@ requires x != \null; */
int ww_number_unlock(uint32_t number, struct ww_acquire_ctx *x);
/*@ BY_NUMBER(number, x);
    assigns CHANGES(the_mutex, x);
    NUMBER_LOCK(number, x); */
int ww_number_lock_else_(uint32_t number, struct ww_acquire_ctx *x);
/*@ BY_NUMBER(number, x);
    assigns CHANGES(the_mutex, x);
    NUMBER_TRYLOCK(number, x); */
int ww_number_trylock_else_(uint32_t number, struct ww_acquire_ctx *x);
