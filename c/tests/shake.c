/* shake.c - the pauses of shake.h: most are none, most others let another thread run, and few last. */
#define _GNU_SOURCE
#include "shake.h"
#include <sched.h>
#include <stdint.h>
#include <time.h>

/* One access in so many has a pause; of these one in SPINS spins, and of those one in NAPS sleeps. */
enum { ONE_IN = 16, SPINS = 4, NAPS = 16 };

static uint64_t draw(void)
{
	static __thread uint64_t x;

	if (!x)
		x = (uint64_t)(uintptr_t)&x * 0x9e3779b97f4a7c15u | 1;
	x ^= x << 13;
	x ^= x >> 7;
	x ^= x << 17;
	return x >> 20;
}

void shake(void)
{
	if (draw() % ONE_IN)
		return;
	if (draw() % SPINS)
		sched_yield();
	else if (draw() % NAPS)
		for (volatile uint64_t left = draw() % 3000; left; left--)
			;
	else
		nanosleep(&(struct timespec){ .tv_nsec = 50000 }, NULL);
}
