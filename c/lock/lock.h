/* lock.h - one lock by one seat, and which context has it: see lock.c. It isn't installed. */
#ifndef WW_LOCK_H
#define WW_LOCK_H
#include "context.h"

/* ---- who has a mutex ---- */

/* Puts the mutex into the list of what the context acquired, as the newest. */
static inline void enlist(struct ww_acquire_ctx *x, struct ww_mutex *m)
{
	__atomic_store_n(&m->older, x->newest, __ATOMIC_RELAXED);
	x->newest = m;
}

/* Removes the mutex from the list of what the context acquired; false if it isn't there. */
static inline bool unlist(struct ww_acquire_ctx *x, const struct ww_mutex *m)
{
	struct ww_mutex **link = &x->newest;

	for (; *link != m; link = &(*link)->older)
		if (!*link)
			return false;
	__atomic_store_n(link, m->older, __ATOMIC_RELAXED); /* other threads may read `older` as `alone`, which shares its memory */
	return true;
}

/*
 * Notes in the mutex that the context holds it, or the seat, if there is no context. A context that holds a mutex stays where it
 * is, except if it acquired the mutex by number outside a loop: then the mutex doesn't name the context, and no list has the mutex.
 */
static inline void note_holder(struct ww_mutex *m, struct ww_acquire_ctx *x, ww_seat *s)
{
	__tsan_acquire(m);
	NOTE(LOCK_ACQUIRED, .mutex = m, .context = x, .seat = s);
	if (x) {
		x->acquired++;
		if (is_loop(x) || !is_of_number(m)) {
			enlist(x, m);
			__atomic_store_n(&m->ctx, x, __ATOMIC_RELAXED);
		}
	} else {
		/* a former holder may have unlocked a copy of the mutex, so that the mutex still names that holder */
		__atomic_store_n(&m->ctx, NULL, __ATOMIC_RELAXED);
		__atomic_store_n(&m->alone, (char *)s + 1, __ATOMIC_RELEASE);
	}
}

/* Whether the seat has the lock of this number, as the proved library says. */
WW_HIDDEN bool ww_owns(ww_seat *s, uint32_t number);

/*
 * Whether the context reads anything: a reader has locked the slot of its seat, which is a mutex of the reader's own (shared.c). A
 * writer that locks the slot for a moment doesn't note that in the slot's `ctx`.
 */
static inline bool holds_slot(const struct ww_acquire_ctx *x) { return x->own->slot && holder_of(&x->own->slot->mutex); }

/*
 * Whether the context reads the mutex; and whether it holds the mutex, so that it writes a shared one. A mutex for which the body
 * of the context's loop hasn't asked yet (owes_it), or for which a poll of the context still waits, doesn't count as held. Only the
 * context's user may ask these.
 */
static inline bool reads_it(const struct ww_acquire_ctx *x, const struct ww_mutex *m)
{
	return fits(m, x) && holds_slot(x) && has_mark(x->own->slot, m->number);
}
static inline bool holds_it(const struct ww_acquire_ctx *x, const struct ww_mutex *m)
{
	/* a context that holds the mutex still does while its poll to read the mutex waits for the context's own slot */
	if (!fits(m, x) || owes_it(x, m) || (is_polled(x) && x->own->asked == m && (x->own->asks != TO_READ || x->polled == m)))
		return false;
	return is_of_number(m) ? ww_owns(x->own, m->number) : holder_of(m) == x;
}

/*
 * The number, plus 1, of the seat in an owner word, or 0 if there is none. crates/ww_word defines the word's bits;
 * tests/base/numbers.c compares them.
 */
static inline uint32_t owner_of_word(uint64_t word)
{
	bool is_wide = 0xD4 >> word % 8 & 1;

	return is_wide ? 1 + word / 8 % 4096 : word / 8 % 32;
}

/* Whether the lock was handed to a waiter, which hasn't taken it yet: a word has the flags PICKUP and WAITERS in one of two ways. */
static inline bool is_handed(uint64_t word) { return word % 8 == 5 || word % 8 == 2; }

/*
 * The owner word of a mutex's lock. It is 0 if nobody has the lock or waits for it, or if only the spare seat has it, by which a
 * call looks who uses the mutex (used.c). A look needs no context. Its result may be out of date when it returns, unless nobody
 * else uses the mutex. An unlock accesses the mutex for the last time before the step that releases the lock. So if the lock is
 * free, all former holders are through with the mutex, and the caller sees what they wrote.
 */
static inline uint64_t owner_word(const struct ww_pool *p, uint32_t number)
{
	const uint64_t *owners = (const uint64_t *)p->words;
	uint64_t word = __atomic_load_n(&owners[2 * (size_t)number], __ATOMIC_SEQ_CST);

	return owner_of_word(word) == seats_of(p) + 1 ? 0 : word;
}
static inline uint64_t look_at(const struct ww_pool *p, const struct ww_mutex *m)
{
	uint64_t word = owner_word(p, m->number);

	__tsan_acquire((void *)(uintptr_t)m);
	return word;
}

/* ---- locks ---- */

/* Locks the mutex by the context, from the first step to the last. */
WW_HIDDEN int ww_lock_by(struct ww_mutex *m, struct ww_acquire_ctx *x, const struct ww_how *how);
/*
 * Locks the mutex by the seat, after a first step that returned r. If the waker of a task's wait was called or taken back, r is
 * WW_SLEEPS. If there is a context, the seat is the context's.
 */
WW_HIDDEN int ww_lock_on(struct ww_mutex *m, struct ww_acquire_ctx *x, ww_seat *s, int r, const struct ww_how *how);

/* ---- unlocks ---- */

/* Releases a mutex that the context holds. The context may lie elsewhere in memory than when it acquired the mutex. */
WW_HIDDEN int ww_unlock_of(struct ww_mutex *m, struct ww_acquire_ctx *x);
/* Makes the further steps of an unlock whose first step returned r, which isn't 0. */
WW_HIDDEN int ww_release_on(ww_seat *s, int r);

/*
 * Releases the mutex's lock. After the step that does so, another thread may own the mutex, destroy it and free its memory. Before
 * that step nobody does, since ww_mutex_destroy sees the lock.
 */
static inline int unlock_by(struct ww_mutex *m, ww_seat *s)
{
	uint32_t number = m->number;
	int r;

	__tsan_release(m); /* orders what this thread did before */
	r = ww_unlock_(&s->handle, number);
	return LIKELY(!r) ? 0 : ww_release_on(s, r);
}

/* Releases a mutex that the context holds, and that the context's list, if there is one, doesn't have any more. */
static inline int unlock_unlisted(struct ww_mutex *m, struct ww_acquire_ctx *x)
{
	uint32_t number = m->number;
	int r;

	NOTE(LOCK_RELEASED, .mutex = m);
	x->acquired--;
	__atomic_store_n(&m->ctx, NULL, __ATOMIC_RELAXED);
	__tsan_release(m);
	r = ww_unlock_(&x->own->handle, number);
	return LIKELY(!r) ? 0 : ww_release_on(x->own, r);
}

#endif
