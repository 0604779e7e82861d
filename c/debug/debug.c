/*
 * debug.c - what libww_debug does with what the library's sources note, and what it answers them. It reports misuse, and calls that
 * are right by themselves, but dangerous. Each part needs only those before it:
 *
 *	report.c	messages, with the line of the call and a backtrace
 *	check.c		whether seats and contexts are in states of their tables
 *	watch.c		what is known of seats and mutexes: who uses them, and since where
 *	slow.c		how long each line of the program waits
 *	waits.c		deadlocks that no class detects, and waits that last
 *	debug.c		which calls are right
 */
#define _GNU_SOURCE
#include "parts.h"
#ifdef WW_DEBUG
#include "../doors/print.h"
#include "../lock/loop.h"
static __thread const ww_seat *seen_seat; /* the seat of the last context that this thread found to be one */

/*
 * Says which mutex the next report is about: its address, and its number and name if it is one of an open class, of which a mutex that
 * is wrong may be none.
 */
static void about(const struct ww_mutex *m)
{
	const struct ww_pool *of = ww_lock_pools(), *p = m ? pool_at(m) : NULL;

	while (of && of != p)
		of = next_pool(of);
	if (of && !of->gone && m->number < of->numbers.locks)
		snprintf(ww_about, sizeof ww_about, " [mutex %u" NAMED " at %p]", m->number, NAME(name_of_mutex(of, m->number)), (const void *)m);
	else if (m)
		snprintf(ww_about, sizeof ww_about, " [mutex at %p]", (const void *)m);
	ww_unlock_pools();
}

/* Reports misuse of a mutex that has a number. */
static void fault_of(const struct ww_mutex *m, const char *call, const struct place *earlier, const char *why)
{
	about(m);
	ww_fault(m->pool->class_, call, earlier, why);
}

/* ---- contexts ---- */

/* Reports, once, that the program's calls don't say their lines. In the search of schedules no call does. */
static void report_unseen(void)
{
#ifndef WW_FEW
	if (!is_seen())
		ww_warn(NULL, "libww_debug", NULL,
			  "the calls of this program weren't compiled with -DWW_DEBUG: "
			  "reports have no lines, and some misuse isn't seen");
#endif
}

/* Reports a context that was left without ww_acquire_fini, and in whose memory this context begins. */
static void report_left(const struct ww_acquire_ctx *x)
{
	const ww_seat *left = ww_seat_with(x->own->pool, false, CONTEXT_AT, (uintptr_t)x);

	if (!left)
		return;
	WRITE_ONCE(watch_of(left)->context, NULL);
	ww_fault(left->pool->class_, "ww_acquire_init", &watch_of(left)->began,
		 "the context that was here before was left without ww_acquire_fini; it began at");
}

/* Reports that this thread already has a context, unless the new one is a task's: several tasks of a thread may have contexts. */
static void report_dangers(const struct ww_pool *p, bool is_task)
{
	const ww_seat *first = is_task ? NULL : ww_seat_with(p, false, A_CONTEXT, this_thread());

	if (first)
		ww_warn(p->class_, "ww_acquire_init", &watch_of(first)->began,
			  "two contexts of a thread can wait for each other forever; "
			  "its other one, if it wasn't left without ww_acquire_fini, began at");
}

static void note_begun(struct ww_acquire_ctx *x)
{
	report_unseen();
	report_left(x);
	report_dangers(x->own->pool, watch_of(x->own)->is_polled);
	ww_watch_begin(x);
	x->deadlock_inject_interval = 1;
	x->deadlock_inject_countdown = x->stamp & 15;
}

/*
 * Reports a context that ends after -EDEADLK. A suspended context whose value is dropped isn't reported: ww_watch_suspend has
 * forgotten its -EDEADLK.
 */
static void note_end(const struct ww_acquire_ctx *x)
{
	struct watch *s = watch_of(x->own);

	if (s->refused)
		ww_warn(x->own->pool->class_, "ww_acquire_fini", &s->asked,
			  "the context loses its age: one that begins in its place is the youngest, and gives way again; "
			  "let it back off, and go on, or suspend it (ww_retry.h); it got -EDEADLK at");
	ww_watch_end(s);
}

/* The next report is about a mutex that the seat holds, if there is one. */
static void about_held(const ww_seat *s)
{
	const struct ww_numbers *n = &s->pool->numbers;
	uint32_t number = 0;

	while (number < n->locks && holder_with(s->pool, number) != watch_of(s))
		number++;
	if (number < n->locks)
		about(mutex_with(n, number));
}

/* Reports a context that got -EDEADLK and still holds a mutex, and so may neither acquire another mutex nor end. */
static void report_unreleased(const char *call, const ww_seat *s)
{
	about_held(s);
	ww_fault(s->pool->class_, call, &watch_of(s)->asked,
		 "the context has to release all (ww_acquire_unlock_all), and still holds a mutex; it got -EDEADLK at");
}

static void note_stays(const struct ww_acquire_ctx *x)
{
	if (!x->own)
		return;
	if (watch_of(x->own)->refused)
		report_unreleased("ww_acquire_fini", x->own);
	about_held(x->own);
}

/* Whether the context was ever begun, in any class, or has ended. */
static bool is_context(const struct ww_acquire_ctx *x)
{
	const struct ww_pool *p;

	if (!x->own || x->own == seen_seat)
		return true;
	for (p = ww_lock_pools(); p && !(x->own >= p->seats && x->own < p->seats + seats_of(p)); p = next_pool(p))
		;
	ww_unlock_pools();
	seen_seat = p ? x->own : NULL;
	return p;
}

/*
 * Whether the context has ended by a copy of it. Only the context that last began by the seat has the seat's stamp.  A copy of a context
 * whose class was freed may name a seat that isn't made in the next class.
 */
bool ww_debug_has_ended(const struct ww_acquire_ctx *x)
{
	return x->own && (!is_made(x->own) || READ_ONCE(watch_of(x->own)->stamp) != x->stamp);
}

/* Notes that the context belongs to this thread, whose call names it. */
static void note_used_here(const struct ww_acquire_ctx *x)
{
	if (is_context(x) && !ww_debug_has_ended(x))
		ww_watch_use(watch_of(x->own));
}

/* ---- locks ---- */

static const char a_copy[] = "the mutex is a copy of another one, or was moved";

static void report_copy(const struct ww_mutex *m, const char *call)
{
	if (mutex_with(&m->pool->numbers, m->number) != m)
		fault_of(m, call, NULL, a_copy);
}

/* A mutex that has no number yet gets one, as by its first lock. Of what `name` was before, a reader may see one half. */
void ww_mutex_name(struct ww_mutex *m, const char *name)
{
	if (!pool_at(NEEDED(m)) && ww_number_at_first(m)) {
		about(m);
		ww_fault(NULL, "ww_mutex_name", NULL, "the mutex isn't initialized");
		return;
	}
	report_copy(m, "ww_mutex_name");
	WRITE_ONCE(holding_of(m)->name, NULL);
	WRITE_ONCE(holding_of(m)->puts, puts_of(&m->pool->numbers, m->number));
	WRITE_ONCE(holding_of(m)->name, name);
}

bool ww_debug_refuses(const char *call, const struct ww_mutex *m, const struct ww_acquire_ctx *x)
{
	const char *why = !is_context(x) ? "the context was never begun" :
			  ww_debug_has_ended(x) ? "the context has ended by a copy of it" : NULL;

	if (why) {
		about(m);
		ww_fault(NULL, call, NULL, why);
	} else if (m && fits(m, x)) {
		report_copy(m, call);
	}
	return why;
}

static void note_alone(const struct ww_mutex *m, const struct timespec *until)
{
	const struct ww_pool *p = pool_at(m);
	const ww_seat *s = p && !until && is_seen() ? ww_seat_with(p, false, A_MUTEX, this_thread()) : NULL;

	if (p)
		report_copy(m, "ww_mutex_lock");
	if (!s)
		return;
	about(m);
	ww_warn(p->class_, "ww_mutex_lock", &watch_of(s)->began,
		"deadlocks through locks without a context are not detected; the thread holds a mutex by what began at");
}

/* Notes that the context got -EDEADLK at the mutex: it has to release all, and then to wait for this mutex first. */
static void got_edeadlk(const struct ww_mutex *m, struct watch *s)
{
	ww_watch_use(s);
	ww_set_place(&s->asked);
	WRITE_ONCE(s->taken_back.file, NULL);
	WRITE_ONCE(s->refused, m);
}

/*
 * Notes where the context's wait for the contended mutex was taken back. If the context has yet to back off, it will wait, so
 * nothing is noted.
 */
static void note_taken_back(const struct ww_acquire_ctx *x)
{
	if (x->own && watch_of(x->own)->refused && !ww_is_contended(x))
		ww_set_place(&watch_of(x->own)->taken_back);
}

/*
 * Reports a lock after ww_acquire_done, and a lock that comes before the wait for the contended mutex, which is over by now; but not
 * if that mutex went by its number meanwhile. A lock that is released at once isn't noted as acquired.
 */
static void got_lock(const struct ww_mutex *m, const struct ww_acquire_ctx *x, struct watch *s)
{
	bool is_due = s->refused && s->refused != m && !ww_is_gone(m->pool, s->refused, x->puts);

	if (x->state & IS_DONE && holder_with(m->pool, m->number) == s)
		fault_of(m, "ww_mutex_lock", NULL, "the context is done: ww_acquire_done comes after its last lock");
	if (is_due && s->taken_back.file)
		fault_of(m, "ww_mutex_lock", &s->taken_back,
			 "after its back-off the context retries at once, and doesn't wait for the mutex at which -EDEADLK "
			 "came: that wait was taken back at");
	else if (is_due)
		fault_of(m, "ww_mutex_lock", &s->asked,
			 "after -EDEADLK another mutex comes first than that at which it came, at");
	s->is_injected = false;
	WRITE_ONCE(s->refused, NULL);
}

/* Notes how a lock call ended. If a context gave up its wait for the contended mutex, that wait is over: any lock may come next. */
static void note_end_of_lock(const struct ww_mutex *m, const struct ww_acquire_ctx *x, int r)
{
	if (x && !r)
		got_lock(m, x, watch_of(x->own));
	if (x && r == -EINTR && watch_of(x->own)->refused == m)
		WRITE_ONCE(watch_of(x->own)->refused, NULL);
	if (r != -EDEADLK)
		return;
	if (!watch_of(x->own)->is_injected)
		ww_count_back_off();
	got_edeadlk(m, watch_of(x->own));
}

/* Reports a lock call that the proved library or the loop refused. */
static void note_return(const struct ww_mutex *m, const struct ww_acquire_ctx *x, int r)
{
	if (r == -EINVAL && watch_of(x->own)->refused)
		report_unreleased("ww_mutex_lock", x->own);
	else if (r == -EINVAL)
		fault_of(m, "ww_mutex_lock", NULL, reason_of(r));
}

/* Makes up an -EDEADLK. The next one comes after three and a half times as many locks as this one. */
int ww_debug_injects(struct ww_mutex *m, struct ww_acquire_ctx *x, int r)
{
	if (r || !x || x->acquired < 2 || holder_with(m->pool, m->number) != watch_of(x->own) ||
	    x->deadlock_inject_countdown--)
		return r;
	x->deadlock_inject_countdown = x->deadlock_inject_interval > ~0u / 7 ? ~0u : x->deadlock_inject_interval * 7 / 2;
	x->deadlock_inject_interval = x->deadlock_inject_countdown;
	watch_of(x->own)->is_injected = true;
	(void)ww_unlock_of(m, x);
	return -EDEADLK;
}

bool ww_debug_forbids(const struct ww_acquire_ctx *x, uint32_t number)
{
	return watch_of(x->own)->is_injected && x->acquired && !ww_owns(x->own, number);
}

bool ww_debug_has_injected(const struct ww_mutex *m, const struct ww_acquire_ctx *x)
{
	return watch_of(x->own)->is_injected && x->contending_lock == m && !x->acquired;
}

/*
 * Reports a time limit that is probably wrong. A time that is years away, but not a century, is of another clock. A time soon after
 * the system began, but long ago, is a duration.
 */
static void note_time(const struct timespec *until)
{
	enum { MINUTE = 60, HOUR = 3600, YEAR = 365 * 86400 };
	time_t away = until && until->tv_sec ? until->tv_sec - (time_t)(ww_now() / 1000000000) : 0;
	bool is_far = away > YEAR && away / 90 < YEAR, is_past = away < -MINUTE && until->tv_sec < HOUR;

	if (is_far || is_past)
		ww_warn(NULL, "a time limit", NULL,
			  "the time is %s: is it one of CLOCK_MONOTONIC, and no duration?",
			  is_far ? "more than a year away" : "long past");
}

/* ---- unlocks ---- */

/* Whether a context of this thread got -EDEADLK at the mutex, and the program didn't look at that, which is reported then. */
static bool report_unlooked(const struct ww_mutex *m)
{
	const ww_seat *s = ww_any_seat_with(REFUSED_AT, (uintptr_t)m);

	if (s) {
		about(m);
		ww_fault(s->pool->class_, "ww_mutex_unlock", &watch_of(s)->asked,
			 "the context doesn't hold the mutex: nothing looked at the -EDEADLK that its lock returned at");
	}
	return s;
}

/*
 * Reports an unlock by a thread that has neither the mutex nor its context. A task may unlock in any thread. If the unlock's call
 * names the context, the context is this thread's by now. If no seat is noted as the holder, its own unlock is under way.
 */
static void note_released(const struct ww_mutex *m)
{
	const struct watch *by = holder_with(m->pool, m->number);
	bool by_context = by && READ_ONCE(by->stamp);
	uint64_t thread = by_context ? READ_ONCE(by->thread) : READ_ONCE(holding_of(m)->thread);

	report_copy(m, "ww_mutex_unlock");
	if (is_seen() && thread != this_thread() && !(by && !user_of(by)) && !report_unlooked(m))
		fault_of(m, "ww_mutex_unlock", NULL, by_context ?
			 "its context is another thread's, which named it last in a call: see ww_acquire_here" :
			 "another thread acquired the mutex");
	if (by)
		ww_watch_release(m);
}

/*
 * Why nobody holds a mutex that is unlocked, though somebody seems to: the mutex is a copy, or was moved, or was initialized anew;
 * or NULL.
 */
static const char *why_unheld(const struct ww_pool *of, const struct ww_mutex *m)
{
	while (of && of != m->pool)
		of = next_pool(of);
	if (!of || of->gone || m->number >= of->numbers.locks)
		return NULL;
	if (mutex_with(&of->numbers, m->number) != m)
		return a_copy;
	for (uint32_t n = 0; n < of->numbers.locks; n++)
		if (n != m->number && mutex_with(&of->numbers, n) == m && holder_with(of, n))
			return "the mutex was initialized once more while somebody held it";
	return NULL;
}

static void note_unheld(const struct ww_mutex *m)
{
	const char *why = why_unheld(ww_lock_pools(), m);

	ww_unlock_pools();
	if (why)
		fault_of(m, "ww_mutex_unlock", NULL, why);
	else
		(void)report_unlooked(m);
	about(m);
}

bool ww_debug_is_stale(const struct ww_mutex *m)
{
	struct ww_pool *p = pool_at(m);

	return p && !holder_with(p, m->number) && !owner_of_word(look_at(p, m));
}

/* ---- classes ---- */

/* Reports what of the class is in use, the first time that the class can't be freed at this line, unless nothing is in use by now. */
static void report_in_use(const struct ww_class *c)
{
	struct report report;
	struct ww_pool *p;
	bool is_new;

	(void)ww_lock_pools();
	p = c->pool;
	is_new = p && !p->gone && ww_is_any_used(p) && ww_times_here(c, "ww_class_free", NULL) == 1;
	if (is_new) {
		ww_begin_report(&report, NULL, "ww_class_free");
		ww_print_pool(p, &(struct ww_out){ .file = report.to });
	}
	ww_unlock_pools();
	if (is_new)
		ww_end_warning(&report, NULL);
}

/* ---- what is noted ---- */

/*
 * Checks the state of the context and the seat that are noted. A context that can't end, or that a call names, may be none, and a
 * seat that is handed over is another user's, so these aren't checked.
 */
static void check_states(const struct ww_note *note)
{
	if (note->what == CONTEXT_STAYS || note->what == CONTEXT_USED || note->what == SEAT_HANDED)
		return;
	if (note->context)
		ww_debug_check_context(note->context);
	if (note->context || note->seat)
		ww_debug_check_seat(note->context ? note->context->own : note->seat,
				    note->what == SEAT_CLOSED ? UNUSED : note->what == SEAT_GIVEN ? IS_THROUGH : IN_USE);
}

void ww_debug_note(const struct ww_note *note)
{
	check_states(note);
	switch (note->what) {
	case ABOUT: about(note->mutex); break;
	case MISUSE: ww_fault(note->class_, note->call, NULL, note->why); break;
	case TIME_LIMIT: note_time(note->until); break;
	case CLASS_STAYS: report_in_use(note->class_); break;
	case CLASS_FREED: free(note->pool->debug); break;
	case CONTEXT_SOUGHT: ww_seek_begins(note->seats, note->until); break;
	case CONTEXT_FOUND: ww_seek_ends(); break;
	case CONTEXT_QUEUED: ww_queue_grows(note->seats); break;
	case SEAT_HANDED: ww_seat_handed(note->seats, note->seat); break;
	case SEAT_POLLED: ww_watch_poll(note->seat); break;
	case SEAT_GIVEN:
	case SEAT_CLOSED:
	case CONTEXT_CHANGED: break;
	case CONTEXT_BEGUN: note_begun(note->context); break;
	case WAIT_TAKEN_BACK: note_taken_back(note->context); break;
	case CONTEXT_USED: note_used_here(note->context); break;
	case CONTEXT_STAYS: note_stays(note->context); break;
	case CONTEXT_SUSPENDED: ww_watch_suspend(note->context); break;
	case CONTEXT_RESUMED: ww_watch_resume(note->context); break;
	case CONTEXT_ENDS: note_end(note->context); break;
	case LOCK_ALONE: note_alone(note->mutex, note->until); break;
	case LOCK_WAITS: ww_wait_begins(note->seat, note->mutex, note->how); break;
	case LOCK_WAITED: ww_wait_ends(note->seat); break;
	case LOCK_ACQUIRED: ww_watch_acquire(note->mutex, note->context ? note->context->own : note->seat); break;
	case LOCK_ENDS: note_end_of_lock(note->mutex, note->context, note->r); break;
	case LOCK_RETURNS: note_return(note->mutex, note->context, note->r); break;
	case LOCK_RELEASED: note_released(note->mutex); break;
	case LOCK_UNHELD: note_unheld(note->mutex); break;
	}
}
#endif
