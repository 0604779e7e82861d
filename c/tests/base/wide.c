/* Worlds of more than 16 seats: owner words of two seats that agree in all but their form, and each seat by itself. */
#include "../test.h"

enum { SEATS = 64, NARROW = 3, WIDE = 36, FIRST = 1, LATER = 129 };

static ww_handle seats[WW_MAX_SEATS];

static void closes(uint32_t count)
{
	for (uint32_t k = 0; k < count; k++)
		MUST(!ww_close_(&seats[k]));
}

/*
 * A seat below 16 has its number plus 1 and 32 times its stamp above the flags of its
 * owner words; one from 16 on has its number and 4,096 times its stamp.  For these two
 * that is one number: 3 + 1 + 32 * 129 and 36 + 4096 * 1.
 */
static void neither_has_the_others_locks(uint32_t kind)
{
	ww_handle *narrow = &seats[NARROW], *wide = &seats[WIDE];

	MUST(!open_all(kind, 8, 1000, seats, SEATS) && !ww_begin_(wide)); /* stamp 1 */
	for (unsigned k = FIRST + 1; k < LATER; k++)
		MUST(!ww_begin_(&seats[0]) && !ww_end_(&seats[0]));
	MUST(!ww_begin_(narrow)); /* stamp 129 */
	MUST(!ww_lock_(narrow, 5, false) && !ww_lock_(wide, 6, false));
	MUST(ww_try_(wide, 5) == -EBUSY && ww_try_(narrow, 6) == -EBUSY);
	MUST(ww_unlock_(wide, 5) == -EINVAL && ww_unlock_(narrow, 6) == -EINVAL);
	MUST(ww_has_(wide, 5) == -EINVAL && ww_has_(narrow, 6) == -EINVAL);
	MUST(ww_try_(wide, 6) == -EALREADY && ww_try_(narrow, 5) == -EALREADY);
	MUST(!ww_has_(wide, 6) && !ww_has_(narrow, 5) && ww_held_(wide) == 1 && ww_held_(narrow) == 1);
	MUST(!ww_unlock_(wide, 6) && !ww_unlock_(narrow, 5) && !ww_end_(wide) && !ww_end_(narrow));
	closes(SEATS);
}

/* Each seat has all locks in turn, and no other seat has one of them meanwhile. */
static void each_seat_has_its_own(uint32_t kind, uint32_t count)
{
	MUST(!open_all(kind, 3, 10000, seats, (uint16_t)count));
	for (uint32_t k = 0; k < count; k++) {
		ww_handle *h = &seats[k], *other = &seats[(k + 1) % count];

		MUST(!ww_begin_(h));
		for (uint32_t n = 0; n < 3; n++)
			MUST(!ww_lock_(h, n, false) && ww_try_(h, n) == -EALREADY && ww_try_(other, n) == -EBUSY);
		MUST(ww_unlock_(other, 1) == -EINVAL && !ww_unlock_(h, 1) && ww_unlock_(h, 1) == -EINVAL);
		MUST(!ww_unlock_(h, 0) && !ww_unlock_(h, 2) && !ww_end_(h));
	}
	closes(count);
}

int main(void)
{
	for (uint32_t kind = 0; kind < 2; kind++) {
		neither_has_the_others_locks(kind);
		each_seat_has_its_own(kind, 17);
		each_seat_has_its_own(kind, WW_MAX_SEATS);
	}
	printf("wide words: a seat has what it acquired, and nothing else\n");
	return 0;
}
