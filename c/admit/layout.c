/*
 * layout.c - where a debugger finds what: install/libww-gdb.py reads this table, and so knows no offset itself. The table lies in a
 * section of its own, which is allocated, so it stays in a stripped program or library. Debug information isn't used, since programs
 * in production lack it.
 */
#include "claim.h"
#include "class.h"
#include "layout.h"
#include "../base/sleep.h"

const struct ww_layout {
	struct ww_open *const *open; /* the list of open classes */
	struct ww_mine *const *owners; /* the owners of the threads' own seats */
	struct ww_row rows[49];
} ww_layout_ __attribute__((section(".ww_layout"))) = {
	&ww_all_open, ww_owners, {
		SIZE(ww_seat), AT(ww_seat, handle), AT(ww_seat, token), AT(ww_seat, busy), AT(ww_seat, slot), AT(ww_seat, waker),
		AT(ww_seat, awaits), AT(ww_seat, user), AT(ww_seat, ticket), AT(ww_seat, waits), AT(ww_seat, back_offs),
		AT(ww_pool, next), AT(ww_pool, gone), AT(ww_pool, seats), AT(ww_pool, class_), AT(ww_pool, before_own), AT(ww_pool, words),
		AT(ww_pool, own_seats), AT(ww_pool, threads), AT(ww_pool, tasks), AT(ww_pool, numbers), AT(ww_pool, crowd.sought),
		AT(ww_seats, count), AT(ww_seats, lines), AT(ww_seats, sought), SIZE(ww_line), AT(ww_line, first), VALUE(SERVED),
		AT(ww_numbers, locks), AT(ww_numbers, taken), AT(ww_numbers, lies_at),
		AT(ww_seek, next_), AT(ww_mine, thread), AT(ww_mine, lwp), AT(ww_mine, since), AT(ww_slot, seat),
		AT(ww_slot, marks), AT(ww_mutex, ctx), AT(ww_mutex, pool), AT(ww_mutex, number), AT(ww_mutex, waiters),
		AT(ww_class, is_wait_die), AT(ww_class, name), VALUE(BUSY), VALUE(ARMED), VALUE(IS_SLOT), VALUE(MANY_OWN), VALUE(STAMP_AT),
		VALUE(DRAWN_BEFORE),
	},
};
