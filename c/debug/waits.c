/*
 * waits.c - the debug library's look at waits that may never end.
 *
 * No thread watches the others. A thread that waits for a mutex or a context, without a time limit, looks at its own wait before
 * each of its sleeps (ww_debug_sleeps, called by ww_futex_wait), and sleeps only until its next look. It looks whether it is in a
 * deadlock that no class detects, and whether it has waited for so long that somebody may have forgotten to unlock the mutex, or to
 * end a context. A task has no thread while it waits: so the next one that comes to the queue looks at the wait of the tasks before
 * it (ww_queue_grows).
 */
#define _GNU_SOURCE
#include "parts.h"
#ifdef WW_DEBUG
#include "../doors/print.h"
#include <errno.h>
#include <sys/syscall.h>
#include <unistd.h>

/*
 * After how many seconds a wait is long enough to be reported; 0: never. In the search of schedules no wait is, since a sleep that
 * ends by time would hide that a wake-up was lost.
 */
#ifndef WW_PATIENCE
#define WW_PATIENCE 10
#endif
static unsigned patience = WW_PATIENCE;
static unsigned check_interval = 1000; /* in milliseconds */
static uint64_t endless_waits;

/* The present wait of this thread: for a mutex by `seat`, which is NULL while there is no such wait; or for a context. */
static __thread struct {
	ww_seat *seat;
	struct timespec looks;	 /* when the thread next checks whether it is in a deadlock */
	struct timespec is_long; /* when the wait for the mutex becomes long */
	uint64_t seen;		 /* what the thread's last check found */
	struct ww_seats *seeks;	 /* the seats for one of which the thread waits without a time limit; or NULL */
	struct seeking seeking;
} mine;

void ww_report_long_waits(unsigned int seconds) { WRITE_ONCE(patience, seconds); }

void ww_debug_check_interval(unsigned int milliseconds) { WRITE_ONCE(check_interval, milliseconds); }

static unsigned seconds_of_patience(void) { return WW_PATIENCE > 0 ? READ_ONCE(patience) : 0; }

static struct timespec in_milliseconds(uint64_t count) { return timespec_of(ww_now() + count * 1000000); }
static struct timespec when_long(void) { return in_milliseconds(1000ull * seconds_of_patience()); }

void ww_wait_begins(ww_seat *s, const struct ww_mutex *m, const struct ww_how *how)
{
	struct watch *it = watch_of(s);
	bool is_endless = !how->until && how->who != ENDS_TASK;

	mine.seat = is_endless && how->who == THREAD ? s : NULL;
	mine.seen = 0;
	mine.looks = in_milliseconds(READ_ONCE(check_interval));
	mine.is_long = when_long();
	ww_watch_use(it);
	ww_set_place(&it->waits);
	ww_copy_place(&it->behind, &s->pool->debug->mutexes[m->number].acquired);
	it->from = ww_now();
	WRITE_ONCE(it->endless, is_endless ? __atomic_add_fetch(&endless_waits, 1, __ATOMIC_RELAXED) : 0);
	WRITE_ONCE(it->wants, m->number + 1);
}

void ww_wait_ends(ww_seat *s)
{
	struct watch *it = watch_of(s);

	mine.seat = NULL;
	ww_count_wait(&it->waits, ww_now() - it->from, &it->behind);
	WRITE_ONCE(it->wants, 0);
	ww_watch_unuse(it);
}

/* ---- deadlocks ---- */

/*
 * The seat by which a thread waits that holds the mutex for which this seat waits, in any class of the list, which is locked; or
 * NULL.
 */
static const ww_seat *next_wait(const struct ww_pool *of, const ww_seat *s)
{
	uint32_t wants = READ_ONCE(watch_of(s)->wants);
	uint64_t holder = wants ? READ_ONCE(s->pool->debug->mutexes[wants - 1].thread) : 0;

	return holder ? ww_seat_with(of, true, A_WAIT, holder) : NULL;
}

/* Whether the seat's thread sleeps, and nobody has woken it. */
static bool is_parked(const ww_seat *s)
{
	return __atomic_load_n(&s->token, __ATOMIC_SEQ_CST) >= ARMED && !READ_ONCE(watch_of(s)->is_polled);
}

/*
 * Follows this thread's wait to the wait of the thread that holds the mutex, and so on. If this comes back to the first wait, and
 * each of the threads sleeps without a time limit, it returns a number that identifies these waits, and how many there are;
 * otherwise 0.
 *
 * If two checks give the same number, each thread was in its wait all the time between them, and holds what it held: so they sleep
 * forever. A thread that has got something, an error or what it waited for, was woken, and isn't parked.
 */
static uint64_t deadlock(const struct ww_pool *of, unsigned *count)
{
	uint64_t number, these = 0;
	const ww_seat *s = mine.seat, *before = NULL;

	for (*count = 1; s; ++*count) {
		number = READ_ONCE(watch_of(s)->endless);
		if (!number || (s != mine.seat && !is_parked(s)))
			return 0;
		number *= MIX;
		these += (number ^ number >> 29) * MIX; /* mixed, so that no other waits have the same sum */
		s = next_wait(of, s);
		if (s == mine.seat)
			return these | 1;
		if (s == before)
			return 0; /* this thread waits for a cycle, and isn't part of it */
		if (!(*count & (*count - 1)))
			before = s; /* a cycle that doesn't come back to this thread comes back to the seat that is kept here */
	}
	return 0;
}

/* Writes that there is a deadlock, and a line for each wait of it. Each of the waits may still end by a cancel. */
static void print_deadlock(const struct ww_pool *of, unsigned count, FILE *file)
{
	struct ww_out to = { .file = file };

	if (count == 1)
		fputs("the thread waits for what it holds itself", file);
	else
		fprintf(file, "no class detects this deadlock of %u threads", count);
	for (const ww_seat *s = mine.seat; s && count; count--, s = next_wait(of, s))
		ww_print_wait(s, &to);
}

/*
 * Checks for a deadlock. Only a second check that finds the same deadlock reports it, since at the first one a thread of it may be
 * about to be woken; and only one of its threads reports it.
 */
static void look_for_deadlock(void)
{
	const struct ww_pool *of = ww_lock_pools();
	struct report report;
	unsigned count;
	uint64_t seen = deadlock(of, &count);
	bool is_new = seen && seen == mine.seen && ww_times(seen) == 1;

	if (is_new) {
		ww_begin_report(&report, NULL, "a wait");
		print_deadlock(of, count, report.to);
	}
	ww_unlock_pools();
	mine.seen = seen;
	if (is_new)
		ww_end_warning(&report, NULL);
}

/* ---- waits that last ---- */

/* Whether the seat's thread has ended. A task has no thread of its own. */
static bool has_ended(const struct watch *s)
{
	return READ_ONCE(s->thread) && syscall(SYS_tgkill, getpid(), READ_ONCE(s->tid), 0) == -1 && errno == ESRCH;
}

/*
 * Reports that this thread has waited for a mutex for long, and where the context, or the lock without one, began that holds the
 * mutex. It belongs to a thread that does something else, or that forgot it, or that has ended without releasing it.
 */
static void look_for_long_wait(void)
{
	const struct ww_pool *p = mine.seat->pool;
	uint32_t number = READ_ONCE(watch_of(mine.seat)->wants) - 1;
	const struct watch *holder = holder_with(p, number);

	if (holder && !mine.seen && seconds_of_patience() && ww_has_come(&mine.is_long))
		ww_warn(p->class_, "a wait", &holder->began,
			  "it has lasted %u s; mutex %u" NAMED " at %p is held by what %sbegan at", seconds_of_patience(), number,
			  NAME(name_of_mutex(p, number)), (void *)mutex_with(&p->numbers, number),
			  has_ended(holder) ? "a thread that has ended left; it " : "");
}

static uint64_t *handed(const struct ww_seats *of) { return &of->pool->debug->handed[of == &of->pool->tasks]; }

/* The queue is locked. */
void ww_seat_handed(const struct ww_seats *of, const ww_seat *s)
{
	if (s)
		count(handed(of));
}

static struct seeking seeking_from_now(const struct ww_seats *of)
{
	return (struct seeking){ when_long(), READ_ONCE(*handed(of)) };
}

/* Whether nobody was handed a seat during a long wait, which is to be reported once. */
static bool is_stuck(const struct ww_seats *of, struct seeking *seeking)
{
	uint64_t before = seeking->handed;

	if (!ww_has_come(&seeking->is_long))
		return false;
	*seeking = seeking_from_now(of);
	return seeking->handed == before && !__atomic_exchange_n(&of->pool->debug->is_leak_reported, true, __ATOMIC_RELAXED);
}

/*
 * Reports that all contexts have been in use for long, and where the oldest one began, since a context that is left without
 * ww_acquire_fini keeps its seat. A lock without a context counts as newer than all contexts.
 */
static void report_leak(const struct ww_seats *of)
{
	const struct ww_pool *p = of->pool;
	const struct watch *first = NULL;

	for (uint32_t k = 0; k < of->count; k++) {
		const struct watch *s = &p->debug->seats[of->seats - p->seats + k];

		if (is_seat_used(s) && (!first || READ_ONCE(s->stamp) - 1 < READ_ONCE(first->stamp) - 1))
			first = s;
	}
	ww_warn(p->class_, "a wait for a context", first ? &first->began : NULL,
		  "all contexts (%u) have been in use for %u s; "
		  "one that isn't ended by ww_acquire_fini stays in use%s",
		  open_seats(of), seconds_of_patience(),
		  first ? "; the oldest began at" : "");
}

void ww_seek_begins(struct ww_seats *of, const struct timespec *until)
{
	const ww_seat *s;

	if (until)
		return;
	if (seconds_of_patience()) {
		mine.seeks = of;
		mine.seeking = seeking_from_now(of);
	}
	s = ww_any_seat_with(ANYTHING, this_thread());
	if (s)
		ww_warn(of->pool->class_, "a wait for a context", &watch_of(s)->began,
			  "all are in use, and deadlocks through this wait are not detected; "
			  "the thread has what began at");
}

void ww_seek_ends(void) { mine.seeks = NULL; }

/*
 * Looks at the wait of the tasks before this one, of which no thread sleeps, and reports it if it is long. It counts from when the
 * first of these came into the queue, which was empty.
 */
void ww_queue_grows(struct ww_seats *of)
{
	struct ww_pool *p = of->pool;
	bool is = false;

	if (of != &p->tasks || !seconds_of_patience())
		return;
	pthread_mutex_lock(&p->queue);
	if (of->lines[WAITS].seekers + of->lines[CALLED].seekers == 1)
		p->debug->tasks = seeking_from_now(of);
	else if (of->lines[WAITS].first)
		is = is_stuck(of, &p->debug->tasks);
	pthread_mutex_unlock(&p->queue);
	if (is)
		report_leak(of);
}

/* The earlier one of the two times: a look may end a sleep earlier than its time limit, and never later. */
static const struct timespec *earlier(const struct timespec *until, const struct timespec *at)
{
	bool is_before = until && (until->tv_sec != at->tv_sec ? until->tv_sec < at->tv_sec : until->tv_nsec < at->tv_nsec);

	return is_before ? until : at;
}

const struct timespec *ww_debug_sleeps(const struct timespec *until)
{
	unsigned most = READ_ONCE(check_interval);

	if (mine.seeks && is_stuck(mine.seeks, &mine.seeking))
		report_leak(mine.seeks);
	if (mine.seeks)
		return earlier(until, &mine.seeking.is_long);
	if (!mine.seat || !most)
		return until;
	if (ww_has_come(&mine.looks)) {
		look_for_deadlock();
		look_for_long_wait();
		mine.looks = in_milliseconds(most);
	}
	return earlier(until, &mine.looks);
}
#endif
