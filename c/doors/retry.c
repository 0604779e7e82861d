/*
 * retry.c - contexts that are suspended. A suspended context hasn't ended: its seat stays BUSY, with the context's age, and no
 * thread uses the seat. A value has the number of the seat, the number, plus 1, of the mutex at which the context got -EDEADLK
 * (`awaits_`), and names the context by the seat's `ticket`, a number that no other value has, of any class:
 *
 *	ticket		its next state, and which step makes it
 *	0		T: the seat's user suspends the context, by a store, and nobody uses the seat any more (suspends)
 *	T		0: a thread that has the value takes the ticket, to resume or to drop the context, by an exchange that finds T; that
 *			thread uses the seat from then on (takes)
 *
 * So of the copies of a value at most one finds its ticket, which crates/ww_protocols proves of such steps in any order, by the names
 * in brackets. The store of T releases what the former user wrote in the seat.
 *
 * A poll that resumes a context takes the ticket first, and then waits by the context. So nothing in the seat names the value, which
 * may move meanwhile; `seat_` of the seek says that this poll waits.
 *
 *	the context	ticket	the value	what comes next
 *	suspended	T	T		waits: a poll takes the ticket; goes on: there is nothing to wait for
 *	waits		0	zeros		goes on: the mutex is free, or ww_acquire_end_wait, which gives up the wait, but not the age;
 *						suspended, with another ticket: a cancel, or a poll without a waker;
 *						ended: ww_acquire_end
 *	goes on		0	zeros		any call
 *
 * While the context waits, it counts among the suspended ones, so that it can be suspended again, and as a waiter of the mutex.
 */
#define _GNU_SOURCE
#define WW_NO_INLINE /* ww_mutex.h compiles none of its calls into this file */
#include "../lock/loop.h"
#include "../lock/mutex.h"
#include "poll.h"
#include "ww_retry.h"

/* ---- tickets ---- */

static uint64_t last_ticket;

/* A number that no other value has. Copies of the library count from different numbers. */
static uint64_t new_ticket(void) { return ww_this_copy + __atomic_add_fetch(&last_ticket, 1, __ATOMIC_RELAXED); }

/* The seat of the class whose context the value names, which the caller uses from now on; or NULL. */
static ww_seat *take_ticket(struct ww_pool *p, const struct ww_retry *retry)
{
	ww_seat *s = retry->ticket_ && retry->seat_ < seats_of(p) ? &p->seats[retry->seat_] : NULL;
	uint64_t ticket = retry->ticket_;

	return s && is_suspended(s) && __atomic_compare_exchange_n(&s->ticket, &ticket, 0, false, __ATOMIC_ACQ_REL, __ATOMIC_RELAXED) ? s : NULL;
}

/* ---- how many are suspended ---- */

/*
 * Counts one more suspended context, which has this seat; false if as many are suspended as may be. A suspended context of a task
 * doesn't count among those that may run at a time.
 */
static bool count_in(const ww_seat *s)
{
	struct ww_pool *p = s->pool;

	if (__atomic_fetch_add(&p->suspended, 1, __ATOMIC_RELAXED) >= seats_of(p) / 2) {
		__atomic_fetch_sub(&p->suspended, 1, __ATOMIC_RELAXED);
		return false;
	}
	if (s->of == &p->tasks)
		ww_note_suspended(s->of, 1);
	return true;
}

static void count_out(const ww_seat *s)
{
	__atomic_fetch_sub(&s->pool->suspended, 1, __ATOMIC_RELAXED);
	if (s->of == &s->pool->tasks)
		ww_note_suspended(s->of, UINT32_MAX);
}

/* ---- suspending and dropping ---- */

/* Suspends the context into the value. Once the ticket is stored, another thread may resume the context. */
static void leave(struct ww_acquire_ctx *x, struct ww_retry *retry, uint32_t awaits)
{
	ww_seat *s = x->own;

	NOTE(CONTEXT_SUSPENDED, .context = x);
	note_meeting(s); /* no later context of the seat shares this age */
	*retry = (struct ww_retry){ .ticket_ = new_ticket(), .seat_ = place_among(s) - 1, .awaits_ = awaits };
	no_more(x);
	__atomic_store_n(&s->ticket, retry->ticket_, __ATOMIC_RELEASE);
}

/*
 * Ends the suspended context that the value names. No class is freed while the list of classes is locked; after that the context's
 * seat is in use, so its class isn't freed either.
 */
static int drop(struct ww_retry *retry)
{
	struct ww_acquire_ctx x = { 0 };
	ww_seat *s = NULL;

	if (!retry->ticket_)
		return 0;
	pthread_mutex_lock(&ww_opening);
	for (struct ww_open *open = ww_all_open; open && !s; open = open->next)
		s = take_ticket((struct ww_pool *)open, retry);
	pthread_mutex_unlock(&ww_opening);
	if (!s)
		return -EINVAL;
	*retry = (struct ww_retry){ 0 };
	of_seat(&x, s->pool, s);
	NOTE(CONTEXT_RESUMED, .context = &x);
	NOTE(CONTEXT_ENDS, .context = &x);
	count_out(s);
	leave_age(s);
	give_seat(s);
	return 0;
}

static const char used_before[] = "the value is of another class, or it was resumed or dropped before, or a copy of it";

int ww_retry_drop(struct ww_retry *retry)
{
	int r = drop(NEEDED(retry));

	if (r)
		NOTE_MISUSE(NULL, "ww_retry_drop", used_before);
	return r;
}

int ww_acquire_suspend(struct ww_acquire_ctx *x, struct ww_retry *retry)
{
	ww_seat *s = ww_debug_has_ended(NEEDED(x)) ? NULL : x->own;
	const char *why = !s ? "the context has ended, or was never begun" : is_polled(x) ? WAITS_BY_POLL :
		x->acquired ? "the context still holds a mutex: release all before (ww_acquire_unlock_all)" : NULL;

	if (why) {
		NOTE_MISUSE(s ? s->pool->class_ : NULL, "ww_acquire_suspend", why);
		return s && is_polled(x) ? -EBUSY : -EINVAL;
	}
	if (!count_in(s))
		return -EAGAIN;
	draw_age_by_hand(x);
	s->puts = x->puts;
	(void)drop(NEEDED(retry));
	leave(x, retry, ww_told_lock(x));
	return 0;
}

/* ---- resuming ---- */

/*
 * Waits until the contended mutex is free, and releases it at once. There is nothing to wait for if the mutex is gone, or if the
 * proved library refuses the wait (-EINVAL), since the context has already waited for the mutex.
 */
static int await_told(struct ww_acquire_ctx *x, uint32_t lock, const struct timespec *until)
{
	const struct ww_how how = { .visits = true, .is_interruptible = true, .until = until };
	struct ww_mutex *m = ww_count_at_told(x->own, lock, x->own->puts);
	int r = m ? ww_lock_slow_(&x->own->handle, m->number, false) : -EINVAL;

	if (r != -EINVAL) {
		r = ww_lock_on(m, x, x->own, r, &how);
		if (!r)
			(void)unlock_by(m, x->own);
	} else {
		r = 0;
	}
	if (m)
		ww_stop_counting(m);
	return r;
}

/* Takes the context that the value names; or returns -EINVAL, and leaves a context that has ended. */
static int take(struct ww_acquire_ctx *x, struct ww_class *c, const struct ww_retry *retry, const struct timespec *until)
{
	struct ww_pool *p = __atomic_load_n(&c->pool, __ATOMIC_ACQUIRE);
	ww_seat *s;

	of_this_copy_alone(p);
	s = is_time(until) && p && !p->gone ? take_ticket(p, retry) : NULL;
	if (!s) {
		NOTE_MISUSE(c, "ww_acquire_resume", is_time(until) ? used_before : "the time is none");
		return ww_begin_by(x, NULL, -EINVAL);
	}
	of_seat(x, p, s);
	NOTE(CONTEXT_RESUMED, .context = x);
	return 0;
}

/* Ends a resume whose wait returned r. */
static int resumed(struct ww_acquire_ctx *x, struct ww_retry *retry, uint32_t awaits, int r)
{
	if (r) {
		leave(x, retry, awaits);
	} else {
		count_out(x->own);
		*retry = (struct ww_retry){ 0 };
	}
	return r;
}

int ww_acquire_resume(struct ww_acquire_ctx *x, struct ww_class *c, struct ww_retry *retry, const struct timespec *until)
{
	uint32_t awaits = NEEDED(retry)->awaits_;

	if (!retry->ticket_)
		return ww_acquire_init_until(NEEDED(x), NEEDED(c), until);
	return take(NEEDED(x), NEEDED(c), retry, until) ? -EINVAL : resumed(x, retry, awaits, await_told(x, awaits, until));
}

/* ---- resuming by polls ---- */

static int stop_resuming(struct ww_poller *it, struct ww_acquire_ctx *x, int r)
{
	(void)it;
	ww_stop_counting(x->own->asked);
	count_out(x->own);
	return r;
}

static struct ww_poller resumes = { stop_resuming };

/* Before the wait begins, value and seek are as after -EINPROGRESS, since another thread may go on with the context by then. */
int ww_acquire_resume_poll(struct ww_acquire_ctx *x, struct ww_class *c, struct ww_retry *retry, struct ww_seek *seek,
			   const struct ww_waker *waker)
{
	bool waits = seek && seek->seat_ && !seek->of_ && x->own == seek->seat_ && is_polled(x) && x->own->poller == &resumes;
	struct ww_mutex *m = waits ? x->own->asked : NULL;
	uint32_t awaits = m ? m->number + 1 : NEEDED(retry)->awaits_;
	int r;

	if (!waits && !retry->ticket_)
		return ww_acquire_init_poll(NEEDED(x), NEEDED(c), seek, waker);
	if (!waits && take(NEEDED(x), NEEDED(c), retry, NULL))
		return -EINVAL;
	if (!waits)
		m = ww_count_at_told(x->own, awaits, x->own->puts);
	if (!m)
		return resumed(x, retry, awaits, 0);
	*retry = (struct ww_retry){ 0 };
	if (seek)
		*seek = (struct ww_seek){ .seat_ = x->own };
	r = ww_may_poll("ww_acquire_resume_poll", m, x, TO_AWAIT, &resumes);
	r = r ? r : ww_poll_on(m, x, (struct ww_how){ .visits = true, .waker = seek ? waker : NULL });
	if (r == -EINPROGRESS)
		return r;
	if (seek)
		*seek = (struct ww_seek){ 0 };
	if (!r)
		(void)unlock_by(m, x->own);
	ww_stop_counting(m);
	return resumed(x, retry, awaits, r);
}
