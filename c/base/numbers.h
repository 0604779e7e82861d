/* numbers.h - the numbers of a class's mutexes: see numbers.c. It isn't installed. */
#ifndef WW_NUMBERS_H
#define WW_NUMBERS_H
#include "inside.h"
#include <pthread.h>

/* How many mutexes a class has if the program sets no number. */
enum { MANY_MUTEXES = 65536 };

/* How many levels the bits of numbers have: see free_from. */
enum { LEVELS = 5 };

struct ww_numbers;
/* Whether a context or a thread uses this number. It is that of the mutex at the address m, or of a mutex that was destroyed. */
typedef bool ww_is_used(struct ww_numbers *n, uint32_t number, const void *m);

struct ww_numbers {
	pthread_mutex_t lock; /* held by a thread that changes one of the following fields */
	uint32_t mutexes;     /* how many mutexes there may be */
	uint32_t lines;	      /* how many cache lines the words of their locks have */
	uint32_t locks;	      /* how many locks of the proved library these lines have */
	uint32_t taken;	      /* how many numbers mutexes have */
	uint32_t of_slots;    /* how many numbers reader slots have, besides those of mutexes */
	bool is_large;	      /* at some time there were too many mutexes for a processor's cache */
	uint64_t span;	      /* the factor by which an address gives its line: see ww_likely_ */
	/*
	 * The first level has a bit for each number, set while that is taken; each further one has a bit for each word of the level
	 * before, set while all bits of that word are.
	 */
	uint64_t *used[LEVELS];
	uint64_t *left;	      /* a bit for each number, set if it comes free once nobody uses it */
	uint64_t leaves;      /* how often a number was left, in all */
	ww_is_used *is_used;  /* says whether a number that was left is still used: see used.c */
	struct ww_mutex **lies_at; /* the address of the mutex that has each number, or had it last */
	uint32_t *puts;	      /* how often each number was put back, or its mutex destroyed: this tells earlier users from later ones */
};

/* Makes the numbers for so many mutexes, or for 65,536 if that is 0, and for so many slots. It returns false if there is no memory. */
WW_HIDDEN bool ww_open_numbers(struct ww_numbers *n, uint32_t mutexes, uint32_t slots);
WW_HIDDEN void ww_close_numbers(struct ww_numbers *n);
/* How many bytes all numbers take. */
WW_HIDDEN size_t ww_bytes_of_numbers(const struct ww_numbers *n);
/* Takes a free number for the mutex at this address, or for none. It returns -ENOSPC if the mutexes have as many as there may be. */
WW_HIDDEN int ww_take_number(struct ww_numbers *n, const struct ww_mutex *m, uint32_t *number);
/* Takes a free number, and doesn't count it among those of the mutexes. The caller knows that one is free. The numbers are locked. */
WW_HIDDEN uint32_t ww_take_locked(struct ww_numbers *n, const struct ww_mutex *m);
WW_HIDDEN void ww_give_number(struct ww_numbers *n, uint32_t number);
/* The same as ww_give_number, for a caller that has locked the numbers. */
WW_HIDDEN void ww_give_locked(struct ww_numbers *n, uint32_t number);
/* Leaves a number by which nobody begins anything any more. ww_reclaim_numbers frees it once nobody uses it. */
WW_HIDDEN void ww_leave_used(struct ww_numbers *n, uint32_t number, ww_is_used *is_used);
WW_HIDDEN void ww_reclaim_numbers(struct ww_numbers *n);

/* Notes the mutex that has the number, or NULL; and returns the one that was noted. Relaxed: nobody holds a mutex before it is noted. */
static inline void lies_at(struct ww_numbers *n, uint32_t number, struct ww_mutex *m)
{
	__atomic_store_n(&n->lies_at[number], m, __ATOMIC_RELAXED);
}
static inline struct ww_mutex *mutex_with(const struct ww_numbers *n, uint32_t number)
{
	return __atomic_load_n(&n->lies_at[number], __ATOMIC_RELAXED);
}

/* How often the number was put back. The thread that puts a number back counts that before another thread can take the number. */
static inline uint32_t puts_of(const struct ww_numbers *n, uint32_t number) { return __atomic_load_n(&n->puts[number], __ATOMIC_RELAXED); }
static inline void count_put(struct ww_numbers *n, uint32_t number)
{
	__atomic_store_n(&n->puts[number], puts_of(n, number) + 1, __ATOMIC_RELAXED);
}

/* How many numbers are in use. A thread that puts a number back accesses nothing but the lock after it has changed this count. */
static inline uint32_t taken_numbers(const struct ww_numbers *n) { return __atomic_load_n(&n->taken, __ATOMIC_ACQUIRE); }

#endif
