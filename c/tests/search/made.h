/* made.h - all seats of the class that a program uses are there before it runs, so that none is made amid it. */
#ifndef MADE_H
#define MADE_H
#include "interleave.h"
#include "../../admit/seat.h"
#include "../../base/sleep.h"

static inline void make_seats(struct ww_pool *of)
{
	for (uint32_t k = 0; k < seats_of(of); k++)
		MUST(ww_make_seat(of, &of->seats[k]));
	__atomic_store_n(&of->threads.made, of->threads.count, __ATOMIC_RELEASE);
	__atomic_store_n(&of->tasks.made, of->tasks.count, __ATOMIC_RELEASE);
}
#endif
