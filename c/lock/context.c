/*
 * context.c - the contexts of ww_mutex.h: how they begin and end, how they are cancelled, and whether they hold a mutex. While a
 * context is active, it has a seat, which is what the proved library knows of a thread, and by which the context makes its steps.
 */
#define _GNU_SOURCE
#define WW_NO_INLINE /* ww_mutex.h compiles none of its calls into this file */
#include "lock.h"

/*
 * Begins the context in the proved library, unless the seat rests (age.h). If the seat rests, the context has the seat's age,
 * unless its first lock shows that it acquires by hand.
 */
static inline int begin_core(struct ww_acquire_ctx *x, ww_seat *s)
{
	if (!s->ages)
		return ww_begin_(&s->handle);
	x->pool = NO_POOL;
	return 0;
}

/* Ends a begin that failed with r: leaves a context with which no call but a begin does anything. */
COLD static int not_begun(struct ww_acquire_ctx *x, ww_seat *s, int r)
{
	if (s)
		give_seat(s);
	no_more(x);
	x->gives = NULL;
	x->acquired = x->state = 0;
	return r;
}

int ww_begin_by(struct ww_acquire_ctx *x, ww_seat *s, int r)
{
	if (LIKELY(!r)) {
		of_seat(x, s->pool, s);
		r = begin_core(x, s);
	}
	if (UNLIKELY(r))
		return not_begun(x, s, r);
	NOTE(CONTEXT_BEGUN, .context = x);
	return 0;
}

static int begin(struct ww_acquire_ctx *x, struct ww_class *c, const struct timespec *until, bool heeds)
{
	struct ww_pool *p;
	ww_seat *s = NULL;
	int r = is_time(until) ? open_pool_of(c, &p) : -EINVAL;

	if (!r)
		r = ww_await_seat_to_begin(p, until, heeds, &s);
	return ww_begin_by(x, s, r);
}

static inline int begin_by_any(struct ww_acquire_ctx *x, struct ww_class *c, const struct timespec *until, bool heeds)
{
	struct ww_pool *p = __atomic_load_n(&c->pool, __ATOMIC_ACQUIRE);
	ww_seat *s = LIKELY(p) ? seat_at_hand(p) : NULL;

	if (!s && p)
		s = ww_seat_to_begin(p);
	return LIKELY(s) ? ww_begin_by(x, s, 0) : begin(x, c, until, heeds);
}

int ww_acquire_init_checked(struct ww_acquire_ctx *x, struct ww_class *c) { return begin_by_any(NEEDED(x), NEEDED(c), &ww_no_wait, false); }

/* The Rust crate begins most contexts by this call, without a time. */
int ww_acquire_init_until(struct ww_acquire_ctx *x, struct ww_class *c, const struct timespec *until)
{
	return LIKELY(!until) ? begin_by_any(NEEDED(x), NEEDED(c), NULL, true) : begin(NEEDED(x), NEEDED(c), until, true);
}

/*
 * A seat that nobody uses certainly begins a context, unless the seat has begun as many as it may. Then there is no context in the
 * proved library: this one can't acquire a second lock, and ww_acquire_fini ends the program.
 */
static inline void begin_for_certain(struct ww_acquire_ctx *x, struct ww_pool *p, ww_seat *s)
{
	of_seat(x, p, s);
	NOTE(CONTEXT_BEGUN, .context = x);
	(void)!begin_core(x, s);
}

static __attribute__((noinline)) void init_else(struct ww_acquire_ctx *x, struct ww_class *c, struct ww_pool *p)
{
	ww_seat *s = LIKELY(p) ? ww_seat_to_begin(p) : NULL;
	int r;

	if (LIKELY(s))
		begin_for_certain(x, p, s);
	else if ((r = begin(x, c, NULL, false)))
		end_of(c, "ww_acquire_init", r == -ENOSPC ? "it has begun as many contexts as it may" : reason_of(r));
}

void ww_acquire_init(struct ww_acquire_ctx *x, struct ww_class *c)
{
	struct ww_pool *p = __atomic_load_n(&NEEDED(c)->pool, __ATOMIC_ACQUIRE);
	ww_seat *s = LIKELY(p) ? seat_at_hand(p) : NULL;

	if (LIKELY(s))
		begin_for_certain(NEEDED(x), p, s);
	else
		init_else(NEEDED(x), c, p);
}

/*
 * The proved library isn't called, since a lock after ww_acquire_done is like any other, as in the kernel. Only the debug library
 * reports such a lock.
 */
int ww_acquire_done_checked(struct ww_acquire_ctx *x)
{
	if (UNLIKELY(!NEEDED(x)->own || x->state & (IS_DONE | IS_POLLED)))
		return x->own && is_polled(x) ? -EBUSY : -EINVAL;
	x->state |= IS_DONE;
	return 0;
}

static const struct ww_class *class_of_context(const struct ww_acquire_ctx *x) { return x->own ? x->own->pool->class_ : NULL; }

void ww_acquire_done(struct ww_acquire_ctx *x)
{
	if (UNLIKELY(ww_acquire_done_checked(NEEDED(x))))
		end_of(class_of_context(x), "ww_acquire_done",
		       phase_of(x) == IN_POLL ? WAITS_BY_POLL : "the context is done, or has ended");
}

int ww_acquire_fini_checked(struct ww_acquire_ctx *x)
{
	ww_seat *s = ww_debug_has_ended(NEEDED(x)) ? NULL : x->own;
	int r = s ? ww_end_(&s->handle) : -EINVAL;

	if (r && !(s && is_orphaned_by_fork(s, r)))
		return r;
	if (UNLIKELY(s->ages))
		forget_age(s);
	NOTE(CONTEXT_ENDS, .context = x);
	no_more(x);
	give_seat(s);
	return 0;
}

/*
 * Why the context can't end. A mutex that it holds may be its reader slot, by which it reads (shared.c). If a copy of the context
 * has ended, the context still names its seat.
 */
static const char *why_unended(struct ww_acquire_ctx *x)
{
	if (phase_of(x) == HAS_ENDED)
		return "the context has ended, or was never begun (ww_acquire_init)";
	if (phase_of(x) == IN_POLL)
		return WAITS_BY_POLL;
	if (!x->acquired || ww_debug_has_ended(x))
		return "the context has ended by a copy of it, or the class has begun as many as it may";
	return holds_slot(x) && x->acquired == 1 ? "the context still reads a mutex (ww_acquire_end_reads ends that)" :
		"the context still holds a mutex (unlock it before, or end by ww_acquire_end)";
}

COLD static void fini_else(struct ww_acquire_ctx *x)
{
	if (!ww_acquire_fini_checked(x))
		return;
	NOTE(CONTEXT_STAYS, .context = x);
	end_of(class_of_context(x), "ww_acquire_fini", why_unended(x));
}

void ww_acquire_fini(struct ww_acquire_ctx *x)
{
	ww_seat *s = NEEDED(x)->own;

	/* If the context has released everything, its end can't fail. */
	if (UNLIKELY(!s || s->handle.mode != WW_BARE_) || ww_debug_has_ended(x)) {
		fini_else(x);
		return;
	}
	NOTE(CONTEXT_ENDS, .context = x);
	no_more(x);
	leave_age(s);
	give_seat(s);
}

/*
 * Marks the context as cancelled, and wakes the thread or task that may wait by it. That one ends the wait, since only it knows
 * when its wait is over. The load of `own` is relaxed, since the caller ensures that the context has begun.
 */
int ww_acquire_cancel(struct ww_acquire_ctx *x)
{
	ww_seat *s = __atomic_load_n(&NEEDED(x)->own, __ATOMIC_RELAXED);

	if (!s)
		return -EINVAL;
	if (__atomic_exchange_n(&x->cancelled, 1, __ATOMIC_SEQ_CST))
		return -EALREADY;
	ww_unpark(s);
	return 0;
}

void ww_acquire_here(struct ww_acquire_ctx *x) { note_used(NEEDED(x)); }

/* ---- what contexts hold ---- */

/* A list of locks that fails (list.c) releases no keys, since the context keeps what it held before that list. */
COLD void ww_release_keys(struct ww_acquire_ctx *x)
{
	if (is_loop(x) || is_polled(x))
		return;
	while (x->own->keys) /* each call takes its table out of this list */
		x->own->keys->release(x->own->keys, x);
}

/*
 * A mutex names the context or the seat that acquired it, except if it was acquired by number. The lock's owner word says whether
 * it is still held by that one. A task to which the mutex was handed holds it once the task polls.
 */
bool ww_mutex_is_held_by(const struct ww_mutex *m, const struct ww_acquire_ctx *x)
{
	const ww_seat *s = x ? __atomic_load_n(&x->own, __ATOMIC_RELAXED) : seat_of(NEEDED(m));
	bool says_so = s && (x ? is_of_number(NEEDED(m)) || holder_of(m) == x : is_used_here(s));
	uint64_t word;

	return says_so && pool_at(m) == s->pool && owner_of_word(word = look_at(s->pool, m)) == place_among(s) && !is_handed(word);
}
