/* What the tests share. */
#ifndef TEST_H
#define TEST_H
#define _GNU_SOURCE
#include "../base/inside.h"
#include <errno.h>
#include <pthread.h>
#include <sched.h>
#include <stdio.h>
#include <stdlib.h>

#define MUST(fact)                                                                                     \
	do {                                                                                           \
		if (!(fact)) {                                                                         \
			fprintf(stderr, "%s:%d: not so: %s\n", __FILE__, __LINE__, #fact);             \
			exit(1);                                                                       \
		}                                                                                      \
	} while (0)

static inline unsigned next(unsigned *x) { return (*x = *x * 1664525u + 1013904223u) >> 8; }

/* A world with all its seats, each in a handle that was empty; or the first error, after which all of these are empty. */
static inline int open_all(uint32_t kind, uint32_t locks, uint64_t left, ww_handle *seats, uint16_t count)
{
	ww_world world = { 0 };
	int r = ww_open_world_(kind, locks, left, count, &world);
	uint16_t made = 0;

	while (!r && made < count && !(r = ww_open_seat_(&world, made, &seats[made])))
		made++;
	ww_close_world_(&world);
	while (r && made)
		MUST(!ww_close_(&seats[--made]));
	return r;
}

/* The next step of a call, which wakes nobody. */
static inline int turn(ww_handle *h)
{
	int r = ww_go_on_(h);

	while (ww_next_wake_(h) >= 0)
		;
	return r;
}

/* Runs this in so many threads, each with its number. */
static inline void in_threads(unsigned count, void *(*work)(void *))
{
	pthread_t threads[16];

	for (size_t k = 0; k < count; k++)
		MUST(!pthread_create(&threads[k], NULL, work, (void *)k));
	for (size_t k = 0; k < count; k++)
		MUST(!pthread_join(threads[k], NULL));
}
#endif
