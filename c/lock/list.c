/* list.c - lists of mutexes, which a context locks by one call, backing off by itself as in a loop (loop.c). */
#define _GNU_SOURCE
#include "loop.h"
#include "mutex.h"

/* Locks the mutexes in their order, up to the first lock that fails, whose error it returns. */
static inline int lock_each(struct ww_acquire_ctx *x, struct ww_mutex *const *locks, size_t count)
{
	for (size_t k = 0; k < count; k++) {
		int r = ww_mutex_lock(locks[k], x);

		if (UNLIKELY(r))
			return r;
	}
	return 0;
}

/*
 * Locks the list again after each -EDEADLK, once the context has backed off, unless the context held mutexes before the list
 * (`held`), which this call can't release. Returns what the last try returned, r at first.
 */
COLD static int retry(struct ww_acquire_ctx *x, struct ww_mutex *const *locks, size_t count, size_t held, int r)
{
	while (r == -EDEADLK && !held) {
		ww_back_off_(x);
		r = lock_each(x, locks, count);
	}
	return r;
}

/*
 * Locks a list by a context that is in a loop, or has locked a list before. After each error but -EDEADLK the context holds what it
 * held before, and its loop has to do what it had to do before. If the context has waited for a mutex that its loop owed, or had to
 * wait for first, it keeps that mutex, unless the list asked for it.
 */
COLD static int lock_further(struct ww_acquire_ctx *x, struct ww_mutex *const *locks, size_t count)
{
	size_t held = ww_acquire_mark(x);
	bool keeps;
	unsigned int tries = x->state & TRIES;
	struct ww_mutex *contending_lock = x->contending_lock;
	struct ww_mutex *owed = tries & WAITS_FIRST ? contending_lock : x->state & IS_PRELOCKED ? x->prelocked : NULL;
	int r = retry(x, locks, count, held, lock_each(x, locks, count));

	if (!r)
		return 0;
	keeps = x->state & IS_PRELOCKED && x->prelocked == owed;
	for (size_t left = held + (keeps && ww_acquire_mark(x) != x->acquired); x->acquired > left;)
		(void)release_newest(x);
	if (r != -EDEADLK) {
		x->contending_lock = contending_lock;
		ww_become(x, TRIES | IS_PRELOCKED, keeps ? IS_PRELOCKED | (tries & HAS_TO_BACK_OFF) : tries);
	}
	return r;
}

/*
 * In a large class, fetches the words of all locks but the first into the cache together; otherwise each lock's words would be
 * fetched only after the step of the lock before. If a mutex has no number yet, or is of another class, what is fetched for it is
 * of no use. The loads are atomic, since gcc leaves out plain loads that only serve a fetch.
 */
static inline void begin_list(struct ww_acquire_ctx *x, struct ww_mutex *const *locks, size_t count)
{
	begin_loop(x);
	let_be_older(x);
	if (UNLIKELY(__atomic_load_n(&x->own->pool->numbers.is_large, __ATOMIC_RELAXED)))
		for (size_t k = 1; k < count; k++)
			__builtin_prefetch(words_of(x->own) + 2 * (size_t)__atomic_load_n(&locks[k]->number, __ATOMIC_RELAXED), 1);
}

/*
 * Ends a list by taking the context back to the phase BY_HAND, and releases the list if it failed. What the list's lock calls left
 * to do for a loop is dropped, except after -EDEADLK the contended mutex, for which a slow lock asks.
 */
COLD static int ends_by_hand(struct ww_acquire_ctx *x, struct ww_mutex *contending_lock, int r)
{
	if (r)
		ww_acquire_unlock_all(x);
	x->gives = x->own;
	ww_become(x, TRIES, 0);
	if (r && r != -EDEADLK)
		x->contending_lock = contending_lock;
	return r;
}

/*
 * After its first list a context lists what it acquires, as in a loop, unless it held a mutex before that list: then it stays in
 * the phase BY_HAND.
 */
int ww_mutex_lock_all(struct ww_acquire_ctx *x, struct ww_mutex *const *locks, size_t count)
{
	bool is_quick = x && phase_of(x) == BY_HAND && !IS_DEBUG;
	int r = LIKELY(is_quick) ? 0 : ww_admit("ww_mutex_lock_all", CALL_LIST, NULL, x, NULL);
	struct ww_mutex *contending_lock;
	size_t held;

	if (UNLIKELY(r))
		return r;
	if (UNLIKELY(is_loop(x)))
		return lock_further(x, locks, count);
	contending_lock = x->contending_lock;
	held = x->acquired;
	begin_list(x, locks, count);
	r = lock_each(x, locks, count);
	if (UNLIKELY(r))
		r = retry(x, locks, count, held, r);
	return LIKELY(!r && !held) ? 0 : ends_by_hand(x, contending_lock, r);
}
