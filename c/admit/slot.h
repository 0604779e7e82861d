/* slot.h - the slots by which contexts read shared mutexes, and the bits of a mutex's `waiters`. It isn't installed. */
#ifndef WW_SLOT_H
#define WW_SLOT_H
#include "../base/inside.h"

/*
 * The slot of a seat, by which the seat's context reads shared mutexes: see shared.c. What only the seat's user writes has a cache
 * line apart from what other threads read.
 */
struct ww_slot {
	struct ww_mutex mutex; /* its `ctx` isn't NULL while the seat's context reads anything */
	uint64_t reads;
	uint32_t nonzero_count;
	struct ww_slot *next __attribute__((aligned(64))); /* the next slot with the same bit */
	uint64_t bit;
	uint32_t seat; /* the number of its seat */
	uint32_t *nonzero; /* the places of the words of `marks` that aren't 0 */
	size_t size; /* the size of its memory */
	uint64_t marks[] __attribute__((aligned(64))); /* a bit for each number of the class, of which one word has so many: */
};
enum { MANY_BITS = 64, MARKS_IN_A_WORD = 64 };

/* The bit of a number in its word of `marks`; that word; and whether the slot has the mark of the number. */
static inline uint64_t mark_of(uint32_t number) { return (uint64_t)1 << number % MARKS_IN_A_WORD; }
static inline uint64_t *marks_at(struct ww_slot *slot, uint32_t number) { return &slot->marks[number / MARKS_IN_A_WORD]; }
static inline bool has_mark(const struct ww_slot *slot, uint32_t number)
{
	return __atomic_load_n(&slot->marks[number / MARKS_IN_A_WORD], __ATOMIC_RELAXED) & mark_of(number);
}

/*
 * The bits of a mutex's `waiters` above the count of waiters: the mutex is used by number, it is the mutex of a slot, and its
 * number is taken. A task that waits counts as A_TASK threads, since more threads than that never wait for a slot.
 */
#define IS_OF_NUMBER ((uint32_t)1 << 29)
#define IS_SLOT ((uint32_t)1 << 30)
#define IS_TAKEN ((uint32_t)1 << 31)
#define A_TASK ((uint32_t)1 << 16)
static inline bool is_slot(const struct ww_mutex *m) { return __atomic_load_n(&m->waiters, __ATOMIC_RELAXED) & IS_SLOT; }
static inline bool is_of_number(const struct ww_mutex *m) { return __atomic_load_n(&m->waiters, __ATOMIC_RELAXED) & IS_OF_NUMBER; }

#endif
