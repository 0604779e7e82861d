/*
 * class.h - the words that threads share, and what class.c has for the library's other sources. It isn't installed.
 *
 * The table has each word that several threads write, what the word is part of, who writes it, and where two of its writers meet: a
 * program of the search of schedules (tests/search), or a test. tests/memory_order.py compares the table with the sources, and has
 * the order of each access.
 *
 *	word			of		written by							where they meet
 *	busy			seat		see seat.c							own-on
 *	token			seat		its user arms it and disarms it; anybody leaves TOKEN		destroy-waiter
 *	wake loop task		seat		its user, before the user arms the token			poll-again
 *	waits back_offs given	seat		its user							contexts-counts
 *	user			seat		a thread that locks by the seat without a context		alone
 *	ctx older		mutex		its holder							lock
 *	alone			mutex		its holder							alone
 *	waiters			mutex		each that waits, up and down; who takes and puts a number	number-puts
 *	pool number		mutex		its first locker, under `ww_opening`; who makes or destroys it	static
 *	own cancelled		context		its user; anybody cancels					cancel-once
 *	pool			class		who opens or frees the class, under `ww_opening`		free-and-use
 *	pool			seat		who makes the seat, under `queue`				made-cancel
 *	id at_hand is_crowded	pool		who opens the class; begin and end of a crowd, under `queue`	crowd-ends
 *	numbered		pool		who takes the first number, under `numbers`			number-again
 *	lies_at			numbers		who makes the mutex with the number				numbers
 *	is_large		numbers		who takes a number, under `numbers`				numbers
 *	taken used		numbers		who takes or gives a number, under `numbers`			numbers-4
 *	left is_used		numbers		who leaves a number, or gives one that was left			number-leave
 *	leaves			numbers		who leaves a number						number-leave
 *	puts			numbers		who puts the number back: one thread at a time			number-stranger
 *	processors		pool		who opens a class or takes own seats, under `ww_opening`	contexts
 *	ww_threads		process		who takes own seats, or ends, under `ww_opening`		own-end-3
 *	ends_waits		pool		who cancels the class						class-cancel
 *	next			pool		who opens or frees a class, under `ww_opening`			free-3
 *	seekers			line		who waits, or hands a seat over, under `queue`			tasks-late-held
 *	called			pool		who waits, or hands a seat over, under `queue`			tasks-unanswered
 *	sought			seats		who begins to wait, under `queue`				contexts-3
 *	first end		line		who waits, or hands a seat over, under `queue`			contexts-in-turn
 *	open due limiter	seats		who looks at the limiter of tasks, under `queue`		tasks-wider
 *	due limiter		crowd		who begins the crowd, or looks at its limiter, under `queue`	crowd-ends
 *	made			seats		who makes a seat, under `queue`					made
 *	waiting first end	crowd		who waits for a permit, under `queue`				class-cancel-permit
 *	is_called next		turn		who waits for a permit, and who calls it, under `queue`		class-cancel-permit
 *	served_ seat_ waker_	seek		who waits, and who serves or calls it, under `queue`		poll-contexts-end
 *	begun			crowd		each that begins contexts					crowd-checked
 *	quiet_until		crowd		who ends the crowd, under `queue`; others read it		crowd-ends
 *	permits quiet		crowd		who takes a permit or ends the crowd, under `queue`		crowd-waits-own
 *	since held waited	crowd		who begins the crowd or ends a lease, under `queue`		crowd
 *	leased backed_off	crowd		who ends a lease, or looks whether a limit is of use, under `queue`	crowd
 *	seat ends		permit		who takes the permit and puts it back, under `queue`		crowd-stale
 *	awaits			seat		its user							ring
 *	target label		seat		its user							why
 *	ticket			seat		its user suspends; who has the value takes it: see retry.c	retry
 *	set_aside		seats		who suspends a task's context, or resumes it, under `queue`	retry
 *	suspended		pool		who suspends, resumes and drops					retry
 *	readers_		shared mutex	each that reads the mutex, and who writes it: see shared.c	read-write
 *	marks			slot		who has the slot: see shared.c					again
 *	reads			slot		the user of its seat						destroy-again
 *	slots of_slots		pool, numbers	who makes a slot, under the lock of `numbers`			one-bit
 *	before mode waits	use		who has the lock of the bucket					table-raise
 *	root uses ways is_dead	table		who has the lock of the bucket					table-tree
 *	joined other		table		who has the lock of the owners					table-owners
 *	entries			table		who makes or frees an entry					table-full
 *	has is_in		table		the user of the seat; who closes the table reads them		table_any
 *	first_			event		who wakes a task, and the loop that takes them			poll_wakers
 *	last_thread		copy		each thread, once						contexts
 *	last_ticket		copy		each that suspends a context					retry
 *	reports_to		copy		ww_report_to, before others use the library			ends
 *	reports_data		copy		ww_report_to, before others use the library			ends
 */
#ifndef WW_CLASS_H
#define WW_CLASS_H
#include "pool.h"
#include "../base/message.h"

/* The message for an error of a call that got no number or no seat of a class. */
static inline const char *reason_of(int r)
{
	switch (r) {
	case -ENOMEM: return "there is no memory to open it";
	case -ENOSPC: return "all its mutexes are in use: 65,536, or as many as ww_class_limit set "
			     "(one that is freed without ww_mutex_destroy keeps its place)";
	case -EAGAIN: return "all its contexts are in use";
	default: return "it was in use at a fork, of which this is the child, or was never initialized "
			"(fork while no mutex is held and no context begun, or free it in the child, and make its mutexes anew)";
	}
}

/* The table by which a debugger finds what: see layout.c. */
WW_HIDDEN extern const struct ww_layout ww_layout_;

/* Opens the class, unless it is open. `has_own` says whether threads have seats of their own in it. */
WW_HIDDEN int ww_class_open_with(struct ww_class *c, bool has_own);

static inline int open_pool_of(struct ww_class *c, struct ww_pool **p)
{
	int r = LIKELY(__atomic_load_n(&c->pool, __ATOMIC_ACQUIRE)) ? 0 : ww_class_open(c);

	*p = __atomic_load_n(&c->pool, __ATOMIC_ACQUIRE);
	return r || LIKELY(!(*p)->gone) ? r : -EINVAL;
}

/*
 * Ends the program if another copy of the library opened the class: only that copy has the lock `ww_opening` of the class, and
 * knows which threads own its seats. Callers lock nothing before this: the program's function that gets the message may fork, or
 * exit.
 */
static inline void of_this_copy_alone(const struct ww_pool *p)
{
	if (UNLIKELY(p && p->copy != ww_this_copy))
		end_of(p->class_, "ww_class", "another copy of the library opened it, and a class is of one copy alone");
}

/* Gives a number to a mutex that WW_MUTEX_INIT made, unless the mutex has one. Returns 0, or an error of ww_mutex_init_checked. */
WW_HIDDEN int ww_number_at_first(struct ww_mutex *m);
/* The class of the mutex, or NULL if the mutex isn't initialized. */
WW_HIDDEN struct ww_class *ww_find_class_of(const struct ww_mutex *m);

/* The pool of a mutex, or NULL if the mutex has no number. A thread that sees the pool sees the number, too, whichever thread gave it. */
static inline struct ww_pool *pool_at(const struct ww_mutex *m) { return __atomic_load_n(&m->pool, __ATOMIC_ACQUIRE); }

#endif
