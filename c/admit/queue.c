/*
 * queue.c - threads and tasks that found no seat free: how they wait, how they are called and served, and what ends their waits.
 *
 * Threads and tasks that wait are of one kind (struct ww_seek). A thread's waker stays until the thread is served. A task may take
 * its own waker back; then it polls, which leaves another waker. Between the two, no waker is called, and the poll finds whatever was
 * done with the waiter. The states of a waiter:
 *
 *	served_		its waker is		its next state, and what makes it
 *	WAITS		there, or taken back	CALLED: the first of all tasks that wait, for a seat that was given (call_next)
 *						SERVED: a seat is handed to the waiter (ww_serve, ww_hands_over), or NULL,
 *						which ends its wait (ww_end_seeking, ww_poll_seat)
 *						out of its line: the waiter gives up (ww_leave_queue)
 *	CALLED		called, or taken back	SERVED: the task's poll finds a seat, or its wait ends there
 *						WAITS, before all: the task's poll finds no seat
 *						WAITS, behind all: the task hasn't polled for a lease, and another task is
 *						CALLED for its seat (pass_on_late)
 *						out of its line: the task gives up (ww_leave_queue)
 *	SERVED		called, or taken back	the waiter stands in no line; seat_ is its own, or its wait has ended
 *
 * The tasks that are CALLED stand in a line of their own, in the order of their calls. So whoever gives a seat finds the next task
 * that WAITS at once, and whoever comes to wait finds at once which call has lasted longest. A task is CALLED for one seat, and for
 * each seat at most one task is CALLED, as the pool's `called` says. If a CALLED task gives up, another task is CALLED for that
 * seat. If the loop of a CALLED task is busy, others go on without the task: after a lease, whoever gives its seat, or comes to
 * wait for any, passes its call on.
 *
 * Each change is made under the lock `queue`, and wakers are called after that. tests/admit/seats_model.py tries all that tasks may
 * do by this table and that of seats at the head of seat.c.
 */
#define _GNU_SOURCE
#include "queue.h"
#include "../base/message.h"
#include "../base/sleep.h"

/* A window of the tasks' limiter counts at least so many contexts: contexts that await a timer take long, and differ little. */
enum { COUNTED = 32 };
/* If nobody has waited for so many nanoseconds, the tasks that wait next may be another load. */
enum { ANOTHER_LOAD = 16000000 };

/* ---- who waits, and gets a seat ---- */

/* The waker of a thread that waits. The thread may have ended by now, so only the address of its futex word is used. */
static void wake_seeker(void *nothing, void *served)
{
	(void)nothing;
	ww_futex_wake(served);
}

/* Takes a waiter's waker, so that it is called at most once. The queue is locked. */
static struct ww_waker take_waker(struct ww_seek *it)
{
	struct ww_waker waker = it->waker_;

	it->waker_ = (struct ww_waker){ 0 };
	return waker;
}

/* Notes until when the task that was called for this seat may come; 0: no task is called for the seat any more. The queue is locked. */
static void note_call(const ww_seat *s, uint64_t until)
{
	__atomic_store_n(&s->pool->called[s - s->of->seats], until, __ATOMIC_SEQ_CST);
}

/*
 * Puts a waiter at this place into a line: `which` is WAITS or CALLED. The queue is locked. The store of served_ is relaxed, since
 * a waiter that doesn't lock the queue asks only whether it is SERVED.
 */
static void put_into(struct ww_seats *of, uint32_t which, struct ww_seek **at, struct ww_seek *it)
{
	struct ww_line *line = &of->lines[which];

	it->next_ = *at;
	*at = it;
	if (!it->next_)
		line->end = &it->next_;
	__atomic_fetch_add(&line->seekers, 1, __ATOMIC_SEQ_CST);
	__atomic_store_n(&it->served_, which, __ATOMIC_RELAXED);
}

/* Takes a waiter out of its line, and returns the seat for which the waiter was called, or NULL. The queue is locked. */
static ww_seat *take_out(struct ww_seats *of, struct ww_seek *it)
{
	bool is_called = it->served_ == CALLED;
	struct ww_line *line = &of->lines[it->served_];
	struct ww_seek **at = &line->first;

	while (*at != it)
		at = &(*at)->next_;
	*at = it->next_;
	if (!*at)
		line->end = at;
	__atomic_fetch_sub(&line->seekers, 1, __ATOMIC_SEQ_CST);
	if (is_called)
		note_call(it->seat_, 0);
	return is_called ? it->seat_ : NULL;
}

/* Calls the first task that waits, if there is one, to come and look for a seat, first at this one. The queue is locked. */
static struct ww_waker call_next(struct ww_seats *of, ww_seat *s, uint64_t now)
{
	struct ww_seek *it = of->lines[WAITS].first;

	if (!it)
		return (struct ww_waker){ 0 };
	(void)take_out(of, it);
	it->seat_ = s;
	put_into(of, CALLED, of->lines[CALLED].end, it);
	note_call(s, now + LEASE);
	return take_waker(it);
}

/*
 * If the task that was called first hasn't come for a lease, the first task that waits, if there is one, is called for the same
 * seat instead, and the late task waits behind all. The queue is locked.
 */
static struct ww_waker pass_on_late(struct ww_seats *of, uint64_t now)
{
	struct ww_seek *late = of->lines[CALLED].first;
	struct ww_waker waker;

	if (!late || !of->lines[WAITS].first || now < of->pool->called[late->seat_ - of->seats])
		return (struct ww_waker){ 0 };
	waker = call_next(of, take_out(of, late), now);
	put_into(of, WAITS, of->lines[WAITS].end, late);
	return waker;
}

/*
 * Serves a waiter with the seat, or with NULL, which ends its wait. The waiter may not exist any more after the store, since it
 * looks without the lock whether it is SERVED. Returns the waker to call: the waiter's; or, if the waiter was a task that had been
 * called for another seat, the waker of the next task, which is called for that seat. The queue is locked.
 */
static struct ww_waker hand_to(struct ww_seats *of, struct ww_seek *it, ww_seat *s)
{
	struct ww_waker waker = take_waker(it);
	ww_seat *was_for = take_out(of, it);

	NOTE(SEAT_HANDED, .seats = of, .seat = s);
	it->seat_ = s;
	__atomic_store_n(&it->served_, SERVED, __ATOMIC_RELEASE);
	return was_for && was_for != s ? call_next(of, was_for, ww_now()) : waker;
}

/* Whether a seat that is free, or given now, may go to a waiter of this array. The queue is locked. */
static bool may_go_to(const struct ww_seats *of, const ww_seat *s)
{
	const struct ww_pool *p = of->pool;

	return of == &p->threads || (!is_barred(p) && s < &of->seats[of->open]);
}

/*
 * The thread that gave the seat uses nothing of the class any more, so other threads may have freed the class by now, and opened
 * another one in its memory: then the id has changed. In a child of a fork nobody waits. If the limiter has just opened a seat of
 * tasks that was never used, the seat is made before a task is called, so that the task finds it.
 */
COLD void ww_serve(struct ww_seats *of, uint64_t id, ww_seat *s, uint64_t now)
{
	struct ww_pool *p = of->pool;
	struct ww_waker waker = { 0 };

	if (!has_seekers(of))
		return;
	pthread_mutex_lock(&p->queue);
	if (__atomic_load_n(&p->id, __ATOMIC_RELAXED) == id && may_go_to(of, s) && has_seekers(of)) {
		if (of == &p->threads && claim(s))
			waker = hand_to(of, of->lines[WAITS].first, s);
		else if (of != &p->threads && ww_make_seat(p, s) && !is_in_use(s))
			waker = p->called[s - of->seats] ? pass_on_late(of, now) : call_next(of, s, now);
	}
	pthread_mutex_unlock(&p->queue);
	call_waker(waker);
}

/* ---- seats of tasks ---- */

/* How many contexts have ended in all, by the seats that may be claimed now. The queue is locked. */
static uint32_t contexts_ended(const struct ww_seats *of)
{
	uint32_t sum = 0;

	for (uint32_t k = 0; k < of->open; k++)
		sum += __atomic_load_n(&of->seats[k].given, __ATOMIC_RELAXED);
	return sum;
}

/* The limiter begins with EACH_TASKS contexts for each processor, and measures anew how many are best. */
void ww_reset_task_limiter(struct ww_seats *of)
{
	uint32_t first = EACH_TASKS * processors_of(of->pool);

	ww_limiter_open(&of->limiter, 1, first < of->count ? first : of->count, of->count / 2, of->count, COUNTED);
}

/*
 * Asks the limiter how many seats may be claimed; and notes that `more` contexts more are suspended. The limiter's width doesn't
 * count suspended contexts, so for each of them one seat more may be claimed.
 *
 * If more seats may be claimed from now on, tasks are called for all of these at once, since from now on the limiter measures what
 * so many contexts do. If nobody has waited for long, the limiter begins anew, since what was best for one load isn't for the next
 * one. The limiter counts the contexts that end by the open seats. So if another number of seats is open, the count with which its
 * window began has to be that of these seats.
 */
COLD static void look_at_limiter(struct ww_seats *of, uint64_t now, uint32_t more)
{
	struct ww_pool *p = of->pool;
	uint64_t id = p->id;
	uint32_t was, limit, width;

	pthread_mutex_lock(&p->queue);
	was = of->open;
	width = of->limiter.width;
	of->set_aside += more;
	if (now >= of->due) {
		if (!of->lines[WAITS].first && now - of->due > ANOTHER_LOAD)
			ww_reset_task_limiter(of);
		else
			(void)ww_limiter_look(&of->limiter, now, contexts_ended(of), now);
		__atomic_store_n(&of->due, now + LEASE / 4, __ATOMIC_RELAXED);
	}
	limit = of->limiter.width < of->count - of->set_aside ? of->limiter.width + of->set_aside : of->count;
	if (limit != was) {
		of->limiter.begun = width != of->limiter.width ? 0 : of->limiter.begun - contexts_ended(of);
		__atomic_store_n(&of->open, limit, __ATOMIC_SEQ_CST);
		of->limiter.begun += contexts_ended(of);
	}
	pthread_mutex_unlock(&p->queue);
	for (uint32_t k = was; k < limit; k++)
		ww_serve(of, id, &of->seats[k], now);
}

static inline void look_if_due(struct ww_seats *of, uint64_t now)
{
	if (now >= __atomic_load_n(&of->due, __ATOMIC_RELAXED))
		look_at_limiter(of, now, 0);
}

void ww_note_suspended(struct ww_seats *of, uint32_t more)
{
	if (!of->pool->gone)
		look_at_limiter(of, ww_now(), more);
}

/*
 * The limiter is mostly looked at by those that give seats while others wait. If there is a seat for each task, nobody waits for a
 * seat. Then the tasks that have waited for locks look whether fewer contexts would get more done.
 */
COLD void ww_note_task_wait(const ww_seat *s)
{
	if (s->of == &s->pool->tasks)
		look_if_due(s->of, ww_now());
}

/*
 * The seat goes to the task that was called first, if one is called, and else to the first task that waits. It may be another seat
 * than the one for which that task was called.
 */
bool ww_hands_over(struct ww_seats *of, ww_seat *s, uint64_t now)
{
	struct ww_pool *p = of->pool;
	struct ww_waker waker = { 0 };
	struct ww_seek *it = NULL;

	look_if_due(of, now);
	if (now < s->lease)
		return false;
	pthread_mutex_lock(&p->queue);
	if (may_go_to(of, s))
		it = of->lines[CALLED].first ? of->lines[CALLED].first : of->lines[WAITS].first;
	if (it) {
		s->lease = now + LEASE;
		waker = hand_to(of, it, s);
	}
	pthread_mutex_unlock(&p->queue);
	call_waker(waker);
	return it;
}

/* ---- waits of tasks ---- */

/* Claims any seat that is free and may be claimed, or makes the next one. The queue is locked. */
static ww_seat *claim_or_make(struct ww_seats *of)
{
	ww_seat *s = ww_claim_any(of);

	return s ? s : ww_claim_next(of, of->open);
}

/*
 * A task that was called waits again, before all others, and then looks for a seat: first the one for which it was called. It looks
 * for any other seat only if no task WAITS, since otherwise a task is called for each seat that is free. The queue is locked.
 */
static void look_for_seat(struct ww_seats *of, struct ww_seek *me)
{
	bool is_only = !of->lines[WAITS].first;
	ww_seat *s = take_out(of, me);

	put_into(of, WAITS, &of->lines[WAITS].first, me);
	if (is_barred(of->pool))
		return;
	if (s >= &of->seats[of->open] || !claim(s))
		s = is_only ? claim_or_make(of) : NULL;
	if (s)
		(void)hand_to(of, me, s);
}

bool ww_poll_seat(struct ww_seek *me, const struct ww_waker *otherwise)
{
	struct ww_seats *of = me->of_;
	struct ww_pool *p = of->pool;
	struct ww_waker waker = { 0 };
	bool served;

	/* a waiter that was served isn't in the queue, so nobody writes it any more */
	if (__atomic_load_n(&me->served_, __ATOMIC_ACQUIRE) == SERVED)
		return true;
	pthread_mutex_lock(&p->queue);
	me->waker_ = (struct ww_waker){ 0 };
	if (me->served_ == WAITS)
		waker = pass_on_late(of, ww_now());
	if (me->served_ == CALLED)
		look_for_seat(of, me);
	if (me->served_ != SERVED && ww_ends_waits(p))
		(void)hand_to(of, me, NULL);
	served = me->served_ == SERVED;
	if (!served)
		me->waker_ = *otherwise;
	pthread_mutex_unlock(&p->queue);
	call_waker(waker);
	return served;
}

/* If the waiter is a task that was called for a seat, the next task is called for that seat, since the waiter won't come for it. */
bool ww_leave_queue(struct ww_seek *me)
{
	struct ww_seats *of = me->of_;
	struct ww_pool *p = of->pool;
	struct ww_waker waker = { 0 };
	bool waits;

	pthread_mutex_lock(&p->queue);
	waits = me->served_ != SERVED;
	if (waits) {
		ww_seat *s = take_out(of, me);

		__atomic_store_n(&me->served_, WAITS, __ATOMIC_RELAXED);
		if (s)
			waker = call_next(of, s, ww_now());
	}
	pthread_mutex_unlock(&p->queue);
	call_waker(waker);
	return waits;
}

/* ---- how a wait begins ---- */

/*
 * A waiter that comes behind another one doesn't look for a seat, since any seat that is free is meant for those before it. A waiter
 * without a waker is about to leave (ww_free_seat), so its wait isn't counted.
 */
bool ww_queue_up(struct ww_seek *me)
{
	struct ww_seats *of = me->of_;
	struct ww_pool *p = of->pool;
	struct ww_waker waker = { 0 };
	bool is_only, served, waits;
	ww_seat *s = NULL;

	if (of == &p->tasks)
		look_if_due(of, ww_now());
	pthread_mutex_lock(&p->queue);
	if (of->lines[CALLED].seekers >= of->open) /* a task is called for each seat, and may be late */
		waker = pass_on_late(of, ww_now());
	is_only = !of->lines[WAITS].first;
	put_into(of, WAITS, of->lines[WAITS].end, me);
	if (is_only && (of == &p->threads || !is_barred(p)))
		s = claim_or_make(of);
	served = s || (me->heeds_ && ww_ends_waits(p));
	waits = !served && me->waker_.wake;
	if (served)
		(void)hand_to(of, me, s);
	if (waits)
		count(&of->sought);
	pthread_mutex_unlock(&p->queue);
	call_waker(waker);
	if (waits) {
		DTRACE_PROBE2(ww, context_wait, p->class_, me);
		NOTE(CONTEXT_QUEUED, .seats = of);
	}
	return served;
}

/*
 * Sleeps until this thread is served, or until the time limit. Nobody hands a thread its own seat. So if the thread's own seat is
 * in use, maybe by a context with which another thread goes on, the thread wakes after a lease to look at that seat.
 */
static void sleep_until(struct ww_seek *me, const ww_seat *own, const struct timespec *until)
{
	struct timespec soon = timespec_of(ww_now() + LEASE);
	bool is_later = !until || (until->tv_sec != soon.tv_sec ? until->tv_sec > soon.tv_sec : until->tv_nsec > soon.tv_nsec);

	ww_futex_wait(&me->served_, WAITS, own && is_later ? &soon : until);
}

/* A thread whose own seat is in use waits in the queue all the same. It leaves the queue as soon as it sees that its own seat is free. */
COLD int ww_seek_seat(struct ww_pool *p, const struct timespec *until, bool heeds, ww_seat **s)
{
	struct ww_seek me = { .of_ = &p->threads, .heeds_ = heeds };
	ww_seat *own = own_seat(p);
	bool waits;

	if (p->gone)
		return -EINVAL;
	if (own && !is_made(own))
		own = NULL;
	me.waker_ = (struct ww_waker){ .wake = wake_seeker, .task = &me.served_ };
	waits = !ww_queue_up(&me);
	NOTE(CONTEXT_SOUGHT, .seats = me.of_, .until = until);
	while (!__atomic_load_n(&me.served_, __ATOMIC_ACQUIRE)) {
		if (((own && !is_in_use(own)) || (until && ww_has_come(until))) && ww_leave_queue(&me))
			break;
		sleep_until(&me, own, until);
	}
	if (waits)
		DTRACE_PROBE2(ww, context_wait_end, p->class_, &me);
	NOTE(CONTEXT_FOUND, .seats = me.of_);
	*s = own && !me.served_ ? use_own(own) : me.seat_;
	if (*s)
		note_user(*s);
	return *s ? 0 : me.served_ ? -EINTR : -ETIMEDOUT;
}

/* ---- the end of all waits ---- */

/*
 * A waker is called while nothing is locked, since it may run code of the program. The queue may have changed meanwhile, so the search
 * for the next waiter begins anew.
 */
void ww_end_seeking(struct ww_seats *of)
{
	struct ww_pool *p = of->pool;
	struct ww_seek *it;

	do {
		struct ww_waker waker = { 0 };

		pthread_mutex_lock(&p->queue);
		it = of->lines[WAITS].first;
		while (it && !it->heeds_)
			it = it->next_;
		if (it)
			waker = hand_to(of, it, NULL);
		pthread_mutex_unlock(&p->queue);
		call_waker(waker);
	} while (it);
}
