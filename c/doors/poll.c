/*
 * poll.c - contexts that wait without a thread.  They wait as threads do (wait.c, queue.c), with their own waker instead
 * of one that wakes a thread.
 */
#define _GNU_SOURCE
#define WW_NO_INLINE /* ww_mutex.h compiles none of its calls into this file */
#include "poll.h"
#include "../lock/loop.h"
#include "../lock/mutex.h"
#include <sys/syscall.h>
#include <unistd.h>

/* ---- lock calls ---- */

int ww_may_poll(const char *call, struct ww_mutex *m, struct ww_acquire_ctx *x, unsigned what, struct ww_poller *poller)
{
	int r;

	if (x && phase_of(x) == IN_POLL && x->own->asked == m && x->own->asks == what && x->own->poller == poller)
		return 0;
	r = ww_admit(call, CALL_POLL, m, x, NULL);
	if (r)
		return r;
	NOTE(SEAT_POLLED, .seat = x->own);
	x->own->asked = m;
	x->own->asks = (uint8_t)what;
	x->own->poller = poller;
	return 0;
}

int ww_poll_on(struct ww_mutex *m, struct ww_acquire_ctx *x, struct ww_how how)
{
	int r = WW_SLEEPS;

	how.who = how.waker ? TASK : ENDS_TASK;
	how.is_interruptible = true;
	if (is_polled(x)) {
		ww_disarm(x->own);
	} else {
		r = ww_debug_forbids(x, m->number) ? -EINVAL : ww_lock_(&x->own->handle, m->number, false);
		if (r > 0) {
			x->polled = m; /* takes the place of `prelocked`, which a context that may begin to wait doesn't owe */
			x->state = (x->state & ~(unsigned)IS_PRELOCKED) | IS_POLLED;
		}
	}
	r = ww_lock_on(m, x, x->own, r, &how);
	if (r == -EINPROGRESS)
		return r;
	x->state &= ~(unsigned)IS_POLLED;
	if (is_loop(x) && (!r || r == -EDEADLK))
		(void)ww_result_in_loop(m, x, r);
	NOTE(LOCK_RETURNS, .mutex = m, .context = x, .r = r);
	return r;
}

int ww_mutex_lock_poll(struct ww_mutex *m, struct ww_acquire_ctx *x, const struct ww_waker *waker)
{
	int r = ww_may_poll("ww_mutex_lock_poll", m, x, TO_LOCK, NULL);

	return r ? r : ww_poll_on(m, x, (struct ww_how){ .waker = waker });
}

/*
 * Ends a poll's wait, and with it what the poller has for that wait; in a forked child no poller is used. A lock that the poll would
 * release at once is only visited: the lock of the mutex at which the context got -EDEADLK, or of a slot by which another context reads.
 * If the context got -EDEADLK before the poll, that then holds again, as after a read or a write that fails by itself (shared.c).
 */
int ww_acquire_end_wait(struct ww_acquire_ctx *x)
{
	ww_seat *s = NEEDED(x)->own;
	struct ww_mutex *m = x->polled, *of = s ? s->asked : NULL;
	bool visits = s && (s->asks == TO_AWAIT || (s->asks == TO_WRITE && m != of));
	int r;

	if (!s || !is_polled(x))
		return s ? 0 : -EINVAL;
	r = note_told(x, of, ww_poll_on(m, x, (struct ww_how){ .asks = of, .visits = visits }));
	if (!r)
		(void)(visits ? unlock_by(m, s) : ww_unlock_of(m, x));
	if (s->asks == TO_WRITE && m != of)
		(void)ww_unlock_of(of, x);
	if (s->asks == TO_READ && m == of && !s->slot->reads)
		(void)ww_unlock_of(&s->slot->mutex, x);
	if (s->asks != TO_LOCK && s->asks != TO_AWAIT && !x->acquired && r != -EDEADLK && x->state & (IS_TOLD | WAS_TOLD))
		x->state |= IS_TOLD | WAS_TOLD;
	if (s->poller && !s->pool->gone)
		r = s->poller->ends(s->poller, x, r);
	return r == -ETIMEDOUT ? 0 : r;
}

/*
 * Ends the context in whatever state it is; if the context has ended, these calls do nothing. A thread that cancels the context at the
 * same time may wake the next user of its seat instead, which then looks again at what it waits for.
 */
int ww_acquire_end(struct ww_acquire_ctx *x)
{
	(void)ww_acquire_end_wait(NEEDED(x));
	ww_acquire_unlock_all(x);
	return ww_acquire_fini_checked(x);
}

/* ---- of what a context was told last ---- */

/* If the number was put back, the context's `contending_lock` may be an address of freed memory. A slot's memory stays. */
uint32_t ww_told_lock(const struct ww_acquire_ctx *x)
{
	const ww_seat *s = x->own;
	struct ww_numbers *n = &s->pool->numbers;
	uint32_t lock = 0;

	if (!(x->state & IS_TOLD))
		return 0;
	pthread_mutex_lock(&n->lock);
	if (puts_of(n, s->told) == x->puts)
		lock = (mutex_with(n, s->told) == x->contending_lock ? s->told : x->contending_lock->number) + 1;
	pthread_mutex_unlock(&n->lock);
	return lock;
}

/*
 * Whether a slot isn't in the way of the mutex at which the context got -EDEADLK: its context has ended that read, and reads others. The
 * context's own slot is in the way as long as another one has it.
 */
static bool has_passed(const ww_seat *s, struct ww_mutex *m)
{
	const struct ww_slot *slot = (const struct ww_slot *)(void *)m;

	return is_slot(m) && slot != s->slot && !has_mark(slot, s->told);
}

/*
 * A thread that destroys the mutex holds the same lock (ww_end_mutex). The memory of a mutex by number stays. As in wait_first (loop.c),
 * the context counts as a waiter before it asks whether the number was put back.
 */
struct ww_mutex *ww_count_at_told(ww_seat *s, uint32_t lock, uint32_t puts)
{
	struct ww_numbers *n = &s->pool->numbers;
	struct ww_mutex *m;

	pthread_mutex_lock(&n->lock);
	m = lock && puts_of(n, s->told) == puts ? mutex_with(n, lock - 1) : NULL;
	if (m)
		__atomic_fetch_add(&m->waiters, 1, __ATOMIC_SEQ_CST);
	pthread_mutex_unlock(&n->lock);
	if (m && (has_passed(s, m) || ww_is_gone(s->pool, m, puts))) {
		ww_stop_counting(m);
		m = NULL;
	}
	return m;
}

/* ---- contexts ---- */

/* Begins to wait for a seat, or goes on with that wait. Without a waker it ends the wait, or begins none. */
static __attribute__((noinline)) int seek(struct ww_class *c, struct ww_seek *me, const struct ww_waker *waker, ww_seat **s)
{
	bool waits = me && me->of_, served;
	struct ww_pool *p;
	int r = !waits ? open_pool_of(c, &p) : me->of_->pool->gone ? -EINVAL : 0;

	*s = r || waits ? NULL : ww_task_seat(p, me && me->is_within);
	if (r || *s || (!waits && !waker))
		return !r && !*s ? -ETIMEDOUT : r;
	if (!waits)
		*me = (struct ww_seek){ .of_ = of_tasks(p), .waker_ = *waker, .heeds_ = true };
	served = !waits ? ww_queue_up(me) : waker ? ww_poll_seat(me, waker) : !ww_leave_queue(me);
	if (!served && waker)
		return -EINPROGRESS;
	if (waits)
		DTRACE_PROBE2(ww, context_wait_end, me->of_->pool->class_, me);
	*s = served ? me->seat_ : NULL;
	*me = (struct ww_seek){ 0 };
	return !served ? -ETIMEDOUT : *s ? 0 : -EINTR;
}

void ww_seek_end(struct ww_seek *me)
{
	ww_seat *s;

	if (NEEDED(me)->of_ && !seek(NULL, me, NULL, &s))
		give_seat(s);
}

/* Most contexts of tasks of the Rust crate begin without a seek, by the seat that a task of this thread used last. */
int ww_acquire_init_poll(struct ww_acquire_ctx *x, struct ww_class *c, struct ww_seek *me, const struct ww_waker *waker)
{
	struct ww_pool *p = LIKELY(!me) ? __atomic_load_n(&NEEDED(c)->pool, __ATOMIC_ACQUIRE) : NULL;
	ww_seat *s = LIKELY(p) ? claim_last(of_tasks(p), p) : NULL;
	int r = LIKELY(s) ? 0 : seek(NEEDED(c), me, waker, &s);

	if (r == -EINPROGRESS)
		return r;
	NOTE(SEAT_POLLED, .seat = s);
	return ww_begin_by(NEEDED(x), s, r);
}

/*
 * Takes back the waker of a poll that waits, or returns false if another thread has taken the waker, to call it. In a forked child
 * no other thread calls it, and the lock `queue` isn't taken, since a thread of the parent may have held it at the fork.
 */
bool ww_poll_take_back(struct ww_acquire_ctx *x, struct ww_seek *seek)
{
	struct ww_pool *p = seek && seek->of_ ? seek->of_->pool : NULL;
	bool was_there;

	if (!p)
		return NEEDED(x)->own && is_polled(x) && ww_disarm(x->own);
	if (!p->gone)
		pthread_mutex_lock(&p->queue);
	was_there = seek->waker_.wake;
	seek->waker_ = (struct ww_waker){ 0 };
	if (!p->gone)
		pthread_mutex_unlock(&p->queue);
	return was_there;
}

/* ---- loops that watch a descriptor ---- */

/*
 * The exchange that puts the task into the list releases what this thread wrote before. If the list was empty, the thread also
 * writes to the descriptor. It does so by syscall, since in write(2) pthread_cancel could end a thread during its unlock.
 */
void ww_event_wake(void *event, void *woken)
{
	struct ww_event *to = NEEDED(event);
	struct ww_woken *it = NEEDED(woken), *first = __atomic_load_n(&to->first_, __ATOMIC_RELAXED);
	const uint64_t one = 1;

	do
		it->next = first;
	while (!__atomic_compare_exchange_n(&to->first_, &first, it, true, __ATOMIC_RELEASE, __ATOMIC_RELAXED));
	if (!first)
		syscall(SYS_write, to->descriptor, &one, sizeof one);
}

struct ww_woken *ww_event_take(struct ww_event *event) { return __atomic_exchange_n(&NEEDED(event)->first_, NULL, __ATOMIC_ACQUIRE); }
