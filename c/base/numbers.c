/*
 * numbers.c - the numbers of mutexes: which lock of the proved library belongs to which mutex.
 *
 * A mutex takes a number of its class when it is made, or at its first lock if WW_MUTEX_INIT made it, and puts the number back when
 * it is destroyed. The words of four numbers share a cache line. If the line that the mutex's address gives (ww_likely_) has a free
 * number, the mutex takes that, and else one of the next line that has. So a thread that locks the mutex can mostly fetch the line
 * by the address alone, while it still waits for the mutex's number.
 */
#define _GNU_SOURCE
#include "numbers.h"

/* IN_A_LINE locks have their words in one cache line, of LINE bytes. The first APART mutexes of a class have a line each to themselves. */
enum { IN_A_LINE = 4, LINE = 64, APART = 1024 };
/* A class with so many mutexes is large. A program of the search of schedules sets 1. */
#ifndef WW_LARGE
#define WW_LARGE 16384
#endif
/*
 * Each mutex with a line to itself gets SPARE_LINES lines: if it got one, half of the mutexes at random addresses would find their
 * line taken, and with four it is an eighth. LEAST_LINES are enough for the 65 locks that a world has at least.
 */
enum { SPARE_LINES = 4, LEAST_LINES = 17 };
/*
 * FULL has the bits of all numbers of a line; the bits of IN_A_WORD lines are in one word of the first level of `used`. A word has
 * 2^SIX bits.
 */
enum { FULL = (1 << IN_A_LINE) - 1, IN_A_WORD = 64 / IN_A_LINE, SIX = 6 };

/* How many mutexes have a line to themselves. */
static uint32_t apart(uint32_t mutexes) { return mutexes < APART ? mutexes : APART; }

/* How many lines so many mutexes and slots have: a quarter of their number, or more if there are few mutexes. */
static uint32_t lines_for(uint32_t mutexes, uint32_t slots)
{
	uint32_t quarter = (mutexes + slots + IN_A_LINE - 1) / IN_A_LINE, sparse = SPARE_LINES * apart(mutexes);

	return quarter < LEAST_LINES && sparse < LEAST_LINES ? LEAST_LINES : quarter > sparse ? quarter : sparse;
}

/* How many words a level of bits has: one more than it fills, so that its last word is never full. */
static size_t words_at(const struct ww_numbers *n, unsigned level) { return (n->locks >> SIX * (level + 1)) + 1; }

/* The bytes of all arrays of bits, and those of the two other arrays. */
static size_t bytes_of_bits(const struct ww_numbers *n)
{
	size_t words = words_at(n, 0); /* of `left` */

	for (unsigned level = 0; level < LEVELS; level++)
		words += words_at(n, level);
	return words * sizeof *n->left;
}
static size_t bytes_of_others(const struct ww_numbers *n) { return n->locks * (sizeof *n->lies_at + sizeof *n->puts); }

bool ww_open_numbers(struct ww_numbers *n, uint32_t mutexes, uint32_t slots)
{
	size_t before;

	n->mutexes = mutexes ? mutexes : MANY_MUTEXES;
	n->lines = lines_for(n->mutexes, slots);
	n->span = (uint64_t)n->lines * LINE << 32;
	n->locks = n->lines * IN_A_LINE;
	n->of_slots = 0;
	__atomic_store_n(&n->is_large, false, __ATOMIC_RELAXED);
	n->left = ww_take_zeros(bytes_of_bits(n));
	n->lies_at = ww_take_zeros(bytes_of_others(n));
	if (!n->left || !n->lies_at)
		return false;
	before = words_at(n, 0);
	for (unsigned level = 0; level < LEVELS; before += words_at(n, level++))
		n->used[level] = n->left + before;
	n->puts = (uint32_t *)(n->lies_at + n->locks);
	return true;
}

size_t ww_bytes_of_numbers(const struct ww_numbers *n)
{
	return bytes_of_bits(n) + bytes_of_others(n);
}

void ww_close_numbers(struct ww_numbers *n)
{
	ww_return_zeros(n->left, bytes_of_bits(n));
	ww_return_zeros(n->lies_at, bytes_of_others(n));
}

static uint64_t bit_of(uint32_t number) { return (uint64_t)1 << number % 64; }

static void note_taken(struct ww_numbers *n, uint32_t number)
{
	for (unsigned level = 0; level < LEVELS; level++, number >>= SIX) {
		uint64_t *word = &n->used[level][number / 64];

		*word |= bit_of(number);
		if (*word != UINT64_MAX)
			return;
	}
}

static void note_free(struct ww_numbers *n, uint32_t number)
{
	for (unsigned level = 0; level < LEVELS; level++, number >>= SIX) {
		uint64_t *word = &n->used[level][number / 64], was = *word;

		*word = was & ~bit_of(number);
		if (was != UINT64_MAX)
			return;
	}
}

/*
 * The first free number from number k on; or, if there is none, a number behind all. As long as a word has no free bit from its place
 * on, the search goes on in the next level, behind that word; then it comes down again, in words that aren't full. So it takes a few
 * steps, whatever is taken.
 */
static uint32_t free_from(const struct ww_numbers *n, uint32_t k)
{
	unsigned level = 0, shift = 0;
	uint64_t bits = ~n->used[0][k / 64] >> k % 64;
	uint32_t at;

	while (!bits && level < LEVELS - 1) {
		k = ((k >> shift >> SIX) + 1) << shift << SIX;
		level++;
		shift += SIX;
		bits = ~n->used[level][k >> shift >> SIX] >> (k >> shift) % 64;
	}
	at = (uint32_t)__builtin_ctzll(bits);
	k += at << shift;
	while (level--) {
		shift -= SIX;
		at = (uint32_t)__builtin_ctzll(~n->used[level][k >> shift >> SIX]);
		k += at << shift;
	}
	return k;
}

/* The bits of the line's numbers that are taken. */
static uint32_t used_of(const struct ww_numbers *n, uint32_t line)
{
	return n->used[0][line / IN_A_WORD] >> line % IN_A_WORD * IN_A_LINE & FULL;
}

/* The first line from this one on of which no number is taken. The caller knows that there is one. */
static uint32_t empty_line_from(const struct ww_numbers *n, uint32_t line)
{
	while (used_of(n, line)) {
		line++;
		if (line >= n->lines)
			line = 0;
	}
	return line;
}

uint32_t ww_take_locked(struct ww_numbers *n, const struct ww_mutex *m)
{
	uint32_t line = m ? (uint32_t)ww_likely_(m, n->span) / LINE : 0, before = n->taken + n->of_slots;
	uint32_t number = before < apart(n->mutexes) ? empty_line_from(n, line) * IN_A_LINE : free_from(n, line * IN_A_LINE);

	if (number >= n->locks)
		number = free_from(n, 0);
	note_taken(n, number);
	return number;
}

/* Takes a number, unless the mutexes have as many as there may be. */
static bool find_number(struct ww_numbers *n, const struct ww_mutex *m, uint32_t *number)
{
	bool is_there;

	pthread_mutex_lock(&n->lock);
	is_there = n->taken < n->mutexes;
	if (is_there) {
		*number = ww_take_locked(n, m);
		if (__atomic_fetch_add(&n->taken, 1, __ATOMIC_RELAXED) + 1 == WW_LARGE)
			__atomic_store_n(&n->is_large, true, __ATOMIC_RELAXED);
	}
	pthread_mutex_unlock(&n->lock);
	return is_there;
}

void ww_leave_used(struct ww_numbers *n, uint32_t number, ww_is_used *is_used)
{
	__atomic_store_n(&n->is_used, is_used, __ATOMIC_RELAXED);
	__atomic_fetch_add(&n->leaves, 1, __ATOMIC_RELEASE);
	__atomic_fetch_or(&n->left[number / 64], bit_of(number), __ATOMIC_RELEASE);
}

/* Marks a number as free. The numbers are locked. */
void ww_give_locked(struct ww_numbers *n, uint32_t number)
{
	note_free(n, number);
	__atomic_fetch_sub(&n->taken, 1, __ATOMIC_RELEASE);
}

void ww_give_number(struct ww_numbers *n, uint32_t number)
{
	pthread_mutex_lock(&n->lock);
	ww_give_locked(n, number);
	pthread_mutex_unlock(&n->lock);
}

/*
 * Frees a number that was left and that nobody uses, unless another thread has freed it. It returns false if any number has been left
 * since `leaves` was read: that may be this number, which another mutex has taken and left meanwhile.
 */
static bool give_left(struct ww_numbers *n, uint32_t number, uint64_t leaves)
{
	bool is_same;

	pthread_mutex_lock(&n->lock);
	is_same = __atomic_load_n(&n->leaves, __ATOMIC_ACQUIRE) == leaves;
	if (is_same && __atomic_fetch_and(&n->left[number / 64], ~bit_of(number), __ATOMIC_RELAXED) & bit_of(number))
		ww_give_locked(n, number);
	pthread_mutex_unlock(&n->lock);
	return is_same;
}

/* Frees the numbers that were left and that nobody uses. While a thread looks at a number, other threads still find it there. */
void ww_reclaim_numbers(struct ww_numbers *n)
{
	ww_is_used *is_used = __atomic_load_n(&n->is_used, __ATOMIC_RELAXED);
	uint64_t leaves;

	for (uint32_t k = 0; is_used && k < n->locks; k += 64)
		for (uint64_t bits = __atomic_load_n(&n->left[k / 64], __ATOMIC_ACQUIRE); bits; bits &= bits - 1) {
			uint32_t number = k + (uint32_t)__builtin_ctzll(bits);

			do
				leaves = __atomic_load_n(&n->leaves, __ATOMIC_ACQUIRE);
			while (!is_used(n, number, mutex_with(n, number)) && !give_left(n, number, leaves));
		}
}

/* All numbers are taken if none is free, if each that was left is still used, and if none was left since the last look at these. */
int ww_take_number(struct ww_numbers *n, const struct ww_mutex *m, uint32_t *number)
{
	uint64_t leaves = UINT64_MAX, by_now;

#ifdef WW_DEBUG
	m = NULL; /* the debug library's messages name the lowest numbers */
#endif
	while (!find_number(n, m, number)) {
		by_now = __atomic_load_n(&n->leaves, __ATOMIC_ACQUIRE);
		if (by_now == leaves)
			return -ENOSPC;
		leaves = by_now;
		ww_reclaim_numbers(n);
	}
	return 0;
}
