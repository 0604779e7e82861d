/*
 * number.c - mutexes by their numbers. The library has a shared mutex for each number that was ever taken. A call that isn't quick
 * makes the call of ww_mutex.h on that mutex: so the mutex is waited for, backed off from and listed like any other. A quick call
 * uses only the number. So outside loops the mutex doesn't name its holder, and only its lock in the proved library says who holds
 * it.
 */
#define _GNU_SOURCE
#include "../lock/mutex.h" /* this comes first, so that no call in this file reports its line */
/* This file has the functions that may be called instead of those that ww_number.h compiles into its callers. */
#define WW_NO_INLINE
#include "../lock/used.h"

/* ---- numbers ---- */

/* The mutexes by number of a class, or NULL if there is no memory for them, which is allocated with the class's first number. */
static struct ww_shared_mutex *mutexes_of(struct ww_pool *p)
{
	pthread_mutex_lock(&p->numbers.lock);
	/* The address is released here, and acquired in mutex_at: a thread that sees it sees that the memory is zeroed. */
	if (!p->numbered)
		__atomic_store_n(&p->numbered, calloc(p->numbers.locks, sizeof *p->numbered), __ATOMIC_RELEASE);
	pthread_mutex_unlock(&p->numbers.lock);
	return p->numbered;
}

/* The mutex of a number, which is kept when the number is put back; NULL if the number was never taken. */
static struct ww_shared_mutex *mutex_at(const struct ww_pool *p, uint32_t number)
{
	struct ww_shared_mutex *all = number < p->numbers.locks ? __atomic_load_n(&p->numbered, __ATOMIC_ACQUIRE) : NULL;

	return all && pool_at(&all[number].mutex_) ? &all[number] : NULL;
}

struct ww_shared_mutex *ww_number_at(uint32_t number, struct ww_class *c)
{
	const struct ww_pool *p = __atomic_load_n(&NEEDED(c)->pool, __ATOMIC_ACQUIRE);

	return p ? mutex_at(p, number) : NULL;
}

/*
 * A context that got -EDEADLK at this number may still come to wait for it (wait_first), though the number was put back meanwhile. If
 * that context sees IS_TAKEN, which is released here, it also sees that the number was put back before.
 */
int ww_number_take(uint32_t *number, struct ww_class *c)
{
	struct ww_mutex *m;
	struct ww_pool *p;
	int r = open_pool_of(NEEDED(c), &p);

	if (!r && !mutexes_of(p))
		r = -ENOMEM;
	if (!r)
		r = ww_take_number(&p->numbers, NULL, NEEDED(number));
	if (r)
		return r;
	m = &p->numbered[*number].mutex_;
	if (!pool_at(m)) {
		m->number = *number;
		__atomic_store_n(&m->waiters, IS_OF_NUMBER, __ATOMIC_RELAXED);
		__atomic_store_n(&m->pool, p, __ATOMIC_RELEASE);
	}
	__atomic_fetch_add(&m->waiters, IS_TAKEN, __ATOMIC_RELEASE);
	lies_at(&p->numbers, *number, m);
	return 0;
}

/*
 * Puts the number back; with `leaves` also while somebody uses it. A waiter counts itself in `waiters` first, and is the holder before it
 * counts itself out: so the looks here find a waiter or a holder. Of several threads that put the number back only one finds
 * IS_TAKEN in its exchange. A context that backed off may still come to the number (wait_first): the look after that exchange finds the
 * context, or the context finds that the number isn't taken. In a forked child nobody uses the number any more, and it isn't freed.
 */
static int put_number(uint32_t number, struct ww_class *c, bool leaves)
{
	struct ww_shared_mutex *m = ww_number_at(number, c);
	uint32_t taken = m ? __atomic_load_n(&m->mutex_.waiters, __ATOMIC_SEQ_CST) : 0;
	struct ww_pool *p = m ? pool_at(&m->mutex_) : NULL;

	if (p && p->gone)
		return 0;
	if (!leaves && taken & IS_TAKEN && (taken != (IS_TAKEN | IS_OF_NUMBER) || ww_has_users(&p->numbers, number, m)))
		return -EBUSY;
	if (taken & IS_TAKEN && __atomic_fetch_and(&m->mutex_.waiters, ~IS_TAKEN, __ATOMIC_SEQ_CST) & IS_TAKEN) {
		count_put(&p->numbers, number);
		(ww_has_users(&p->numbers, number, m) ? ww_leave_number : ww_give_number)(&p->numbers, number);
		return 0;
	}
	NOTE_MISUSE(c, "ww_number_put", "nobody has taken the number, or it was put back before");
	return -EINVAL;
}

int ww_number_put(uint32_t number, struct ww_class *c) { return put_number(number, NEEDED(c), false); }

void ww_number_leave(uint32_t number, struct ww_class *c) { (void)put_number(number, NEEDED(c), true); }

/* ---- by a context ---- */

/* The mutex of a number in the context's class; or NULL, whose reason the debug library reports. */
static struct ww_mutex *mutex_asked(const char *call, uint32_t number, const struct ww_acquire_ctx *x)
{
	struct ww_shared_mutex *m = x && x->own ? mutex_at(x->own->pool, number) : NULL;

	if (!m)
		NOTE_MISUSE(x && x->own ? x->own->pool->class_ : NULL, call,
			    !x ? "there is no context" : !x->own ? "the context has ended, or was never begun" :
			    "the class has no mutex of this number");
	return m ? &m->mutex_ : NULL;
}

/* The quick ww_mutex_lock notes the holder in the mutex, which only a context in a loop may do for a mutex by number. */
int ww_number_lock(uint32_t number, struct ww_acquire_ctx *x)
{
	struct ww_mutex *m = mutex_asked("ww_number_lock", number, x);

	return !m ? -EINVAL : LIKELY(is_loop(x)) ? ww_mutex_lock(m, x) : ww_mutex_lock_else_(m, x);
}

int ww_number_trylock(uint32_t number, struct ww_acquire_ctx *x)
{
	struct ww_mutex *m = mutex_asked("ww_number_trylock", number, x);

	return m ? ww_mutex_trylock_else_(m, x) : 0;
}

int ww_number_unlock(uint32_t number, struct ww_acquire_ctx *x)
{
	struct ww_mutex *m = mutex_asked("ww_number_unlock", number, x);
	int r;

	if (!m || is_polled(x))
		return m ? -EBUSY : -EINVAL;
	note_used(x);
	r = is_loop(x) ? 0 : ww_has_(&x->own->handle, number); /* in a loop the context's list says whether it holds the mutex */
	r = !r || is_orphaned_by_fork(x->own, r) ? ww_unlock_of(m, x) : -EINVAL;
	if (r)
		NOTE_MISUSE_OF(m, x->own->pool->class_, "ww_number_unlock", "the context doesn't hold the mutex");
	return r;
}

/* Ends an unlock whose first step returned r. If r is an error, that step did nothing. */
int ww_number_unlock_further_(uint32_t number, struct ww_acquire_ctx *x, int r)
{
	if (r < 0)
		return ww_number_unlock(number, x);
	x->acquired--;
	x->newest = NULL;
	return ww_release_on(x->own, r);
}
