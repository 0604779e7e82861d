/* names.c - what of a class lies where, for the table of transfers. See `words_of` of pool.h for the proved library's part. */
#include "simulate.h"
#include "lock/context.h"

void name_pool(const struct ww_pool *pool)
{
	enum { LINE = 64, FRONT = 8, OF_LOCKS = 16, SLOT = 40, ADDRESSES = 64, SLOTS_AT = 2 };
	const uint64_t *locks = words_of(pool->seats), *table = locks - OF_LOCKS;
	uint64_t *addresses = *(void **)pool->seats[0].handle.at;
	uint32_t seats = seats_of(pool) + 1;

	name_lines("pool", pool, sizeof *pool);
	name_lines("crowd", &pool->crowd, sizeof pool->crowd);
	name_lines("seats of C", pool->seats, seats * sizeof *pool->seats);
	name_lines("addresses of the table", addresses, ADDRESSES);
	name_lines("wait lists", (void *)addresses[SLOTS_AT], addresses[SLOTS_AT + 2] * SLOT);
	name_lines("stamp word", table, LINE);
	name_lines("front word", table + FRONT, LINE);
	name_lines("owner words and guards", locks, (size_t)pool->numbers.locks * 16);
	name_lines("signs and cancels", locks + 2 * (size_t)pool->numbers.locks, (size_t)seats * LINE);
}
