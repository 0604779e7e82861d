/*
 * numbers.c - the numbers of a class with so many mutexes, for mutexes at any address, whatever was taken before.
 *
 * splits: free_from:60,note_taken:20,note_free:20
 * defines: MUTEXES=0 MUTEXES=1 MUTEXES=17 MUTEXES=1024 MUTEXES=1025 MUTEXES=5000 MUTEXES=65537 MUTEXES=16773121
 */
#include <__fc_builtin.h>
#define ww_likely_ in_128_bits
#include "base/numbers.h"
#include <stdlib.h>
#undef ww_likely_

/* As in ww_mutex_inline.h, whose product has 128 bits: the lower half of `span` is 0. */
uint64_t ww_likely_(const void *lock, uint64_t span)
{
	(void)lock;
	return (uint64_t)Frama_C_unsigned_int_interval(0, UINT32_MAX) * (span >> 32) >> 32;
}

/*
 * Only numbers that there are were left, so are these that are taken out of the word from number k on; and free_from, of which each bit
 * stands for 2^shift numbers, only finds such, since the last word of a level is never full: Eva doesn't know that of what is read twice.
 */
enum { shift = 0 };
#define __builtin_ctzll(bits) \
	({ \
		uint64_t found_ = k + ((uint64_t)Frama_C_unsigned_int_interval(0, 63) << shift); \
		(void)(bits); \
		k = found_ < n->locks ? (uint32_t)found_ : n->locks - 1; \
		0; \
	})
#undef __atomic_exchange_n
#define __atomic_exchange_n(p, v, order) take_out(p)
#define __atomic_fetch_or(p, v, order) ((void)(*(p) |= (v)))
static uint64_t take_out(uint64_t *p)
{
	uint64_t was = *p;

	*p = 0;
	return was;
}
#include "base/numbers.c"

void *ww_take_zeros(size_t size) { return calloc(1, size); }
void ww_return_zeros(void *at, size_t size)
{
	(void)size;
	free(at);
}

static bool is_used_or_not(struct ww_numbers *n, uint32_t number, const void *m)
{
	(void)n, (void)number, (void)m;
	return Frama_C_interval(0, 1);
}

void main(void)
{
	static struct ww_numbers n;
	static struct ww_mutex m;
	static uint32_t number; /* that it is written where 0 is returned isn't asked here */

	if (!ww_open_numbers(&n, MUTEXES, 1280) || !n.left || !n.lies_at || !n.puts ||
	    !n.used[0] || !n.used[1] || !n.used[2] || !n.used[3] || !n.used[4])
		return;
	while (Frama_C_interval(0, 1)) {
		n.used[0][Frama_C_unsigned_int_interval(0, n.locks >> 6)] = Frama_C_unsigned_long_interval(0, UINT64_MAX);
		n.used[1][Frama_C_unsigned_int_interval(0, n.locks >> 12)] = Frama_C_unsigned_long_interval(0, UINT64_MAX);
		n.used[2][Frama_C_unsigned_int_interval(0, n.locks >> 18)] = Frama_C_unsigned_long_interval(0, UINT64_MAX);
		n.used[3][Frama_C_unsigned_int_interval(0, n.locks >> 24)] = Frama_C_unsigned_long_interval(0, UINT64_MAX);
		*n.used[4] = Frama_C_unsigned_long_interval(0, UINT64_MAX);
		n.taken = Frama_C_unsigned_int_interval(0, UINT32_MAX);
		n.of_slots = Frama_C_unsigned_int_interval(0, 4095);
		if (!ww_take_number(&n, Frama_C_interval(0, 1) ? &m : NULL, &number)) {
			lies_at(&n, number, &m);
			if (Frama_C_interval(0, 1))
				ww_give_number(&n, number);
		}
		ww_give_number(&n, Frama_C_unsigned_int_interval(0, n.locks - 1));
		if (Frama_C_interval(0, 1))
			ww_leave_used(&n, Frama_C_unsigned_int_interval(0, n.locks - 1), is_used_or_not);
	}
	ww_close_numbers(&n);
}
