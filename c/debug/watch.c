/* watch.c - what the debug library knows of seats and mutexes: who uses them, and since where. */
#define _GNU_SOURCE
#include "parts.h"
#ifdef WW_DEBUG
#include "../admit/layout.h"
#include "../doors/print.h"
#include <sys/syscall.h>
#include <unistd.h>

/* What a debugger finds of the debug library besides: this table begins as that of admit/layout.c. */
static const struct {
	struct ww_open *const *open;
	struct ww_mine *const *owners;
	struct ww_row rows[6];
} layout __attribute__((section(".ww_layout_debug"))) = {
	&ww_all_open, NULL, {
		AT(ww_pool, debug), AT(debug, mutexes), SIZE(holding), AT(holding, name), AT(holding, puts), AT(ww_numbers, puts),
	},
};

int ww_debug_open(struct ww_pool *p)
{
	size_t seats = seats_of(p) * sizeof(struct watch), mutexes = p->numbers.locks * sizeof(struct holding);

	__asm__ volatile("" ::"r"(&layout)); /* so that the linker keeps it */
	p->debug = calloc(1, sizeof *p->debug + seats + mutexes);
	if (!p->debug)
		return -ENOMEM;
	p->debug->mutexes = (struct holding *)(void *)&p->debug->seats[seats_of(p)];
	return 0;
}

const struct ww_pool *ww_lock_pools(void)
{
	pthread_mutex_lock(&ww_opening);
	return (struct ww_pool *)ww_all_open;
}
void ww_unlock_pools(void) { pthread_mutex_unlock(&ww_opening); }

/* ---- who uses a seat ---- */

/* Notes that this thread makes a call by the seat. A lock without a context began with this call. */
void ww_watch_use(struct watch *s)
{
	if (!READ_ONCE(s->stamp))
		ww_set_place(&s->began);
	WRITE_ONCE(s->thread, user_of(s));
	WRITE_ONCE(s->tid, syscall(SYS_gettid));
}

void ww_watch_unuse(struct watch *s)
{
	if (!READ_ONCE(s->stamp) && !READ_ONCE(s->held))
		WRITE_ONCE(s->thread, 0);
}

void ww_watch_poll(ww_seat *s)
{
	if (s)
		WRITE_ONCE(watch_of(s)->is_polled, true);
}

void ww_watch_begin(struct ww_acquire_ctx *x)
{
	struct watch *s = watch_of(x->own);

	x->stamp = __atomic_add_fetch(&x->own->pool->debug->stamps, 1, __ATOMIC_RELAXED);
	WRITE_ONCE(s->context, READ_ONCE(s->is_polled) ? NULL : x); /* a task's context may be moved, as Rust does */
	ww_set_place(&s->began);
	WRITE_ONCE(s->held, 0);
	WRITE_ONCE(s->stamp, x->stamp);
	ww_watch_use(s);
}

/* The seat's context ends: neither a context nor a thread uses the seat from now on. */
void ww_watch_end(struct watch *s)
{
	s->is_injected = false;
	WRITE_ONCE(s->is_polled, false);
	WRITE_ONCE(s->refused, NULL);
	WRITE_ONCE(s->context, NULL);
	WRITE_ONCE(s->thread, 0);
	WRITE_ONCE(s->stamp, 0);
}

/*
 * A suspended context has no thread. It waits for the mutex at which it got -EDEADLK as it is resumed, or not at all, so that is
 * forgotten here.
 */
void ww_watch_suspend(const struct ww_acquire_ctx *x)
{
	struct watch *s = watch_of(x->own);

	s->interval = x->deadlock_inject_interval;
	s->is_injected = false;
	WRITE_ONCE(s->refused, NULL);
	WRITE_ONCE(s->context, NULL);
	WRITE_ONCE(s->thread, 0);
	ww_set_place(&s->suspended);
}

void ww_watch_resume(struct ww_acquire_ctx *x)
{
	struct watch *s = watch_of(x->own);

	x->stamp = s->stamp;
	x->deadlock_inject_interval = x->deadlock_inject_countdown = s->interval;
	WRITE_ONCE(s->context, READ_ONCE(s->is_polled) ? NULL : x);
	ww_watch_use(s);
}

void ww_watch_acquire(const struct ww_mutex *m, const ww_seat *by)
{
	struct watch *s = watch_of(by);

	ww_watch_use(s);
	WRITE_ONCE(s->held, READ_ONCE(s->held) + 1);
	ww_set_place(&holding_of(m)->acquired);
	WRITE_ONCE(holding_of(m)->seat, place_among(by));
	WRITE_ONCE(holding_of(m)->thread, user_of(s));
}

void ww_watch_release(const struct ww_mutex *m)
{
	struct watch *s = holder_with(m->pool, m->number);

	WRITE_ONCE(holding_of(m)->thread, 0);
	WRITE_ONCE(holding_of(m)->seat, 0);
	WRITE_ONCE(s->held, READ_ONCE(s->held) - 1);
	ww_watch_unuse(s);
}

/* ---- who has what ---- */

/* Whether the seat has what is asked: the context or the mutex at this address, or this thread. */
static bool has(const struct watch *s, enum has what, uintptr_t value)
{
	if (what == CONTEXT_AT)
		return (uintptr_t)READ_ONCE(s->context) == value;
	if (what == REFUSED_AT)
		return (uintptr_t)READ_ONCE(s->refused) == value && READ_ONCE(s->thread) == this_thread();
	if (READ_ONCE(s->thread) != value)
		return false;
	return what == ANYTHING || (what == A_CONTEXT ? READ_ONCE(s->stamp) :
				    what == A_MUTEX ? READ_ONCE(s->held) : READ_ONCE(s->wants));
}

const ww_seat *ww_seat_with(const struct ww_pool *p, bool further, enum has what, uintptr_t value)
{
	for (; p; p = further ? next_pool(p) : NULL)
		for (uint32_t k = 0; k < seats_of(p) && !p->gone; k++)
			if (has(&p->debug->seats[k], what, value))
				return &p->seats[k];
	return NULL;
}

const ww_seat *ww_any_seat_with(enum has what, uintptr_t value)
{
	const ww_seat *s = ww_seat_with(ww_lock_pools(), true, what, value);

	ww_unlock_pools();
	return s;
}

/* ---- what is in use ---- */

void ww_debug_use(const struct ww_pool *p, uint32_t seat, struct ww_use *use)
{
	const struct debug *debug;
	struct watch it;

	if (!SEES(debug, p->debug) || !debug || !SEES(it, debug->seats[seat]))
		return;
	use->thread = it.thread ? (uint32_t)it.tid : 0;
	use->context = it.stamp;
	use->wants = it.wants;
	use->since = it.from;
	use->began = it.began;
	use->waits = it.waits;
	use->suspended = it.suspended;
}

static bool see_holding(const struct ww_pool *p, uint32_t number, struct holding *it)
{
	const struct holding *all;
	const struct debug *debug;

	return SEES(debug, p->debug) && debug && SEES(all, debug->mutexes) && SEES(*it, all[number]);
}

const char *ww_debug_name(const struct ww_pool *p, uint32_t number)
{
	const uint32_t *all;
	struct holding it;
	uint32_t puts;

	return see_holding(p, number, &it) && SEES(all, p->numbers.puts) && SEES(puts, all[number]) && puts == it.puts ? it.name : NULL;
}

void ww_debug_acquired(const struct ww_pool *p, uint32_t number, struct place *at)
{
	struct holding it;

	if (see_holding(p, number, &it))
		*at = it.acquired;
}

bool ww_is_any_used(const struct ww_pool *p)
{
	bool is = taken_numbers(&p->numbers);

	for (uint32_t k = 0; k < seats_of(p) && !is; k++)
		is = is_seat_used(&p->debug->seats[k]);
	return is;
}
#endif
