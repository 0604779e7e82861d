/*
 * loop.c - contexts that back off by themselves, in ww_until_all_locked and ww_mutex_lock_all.
 *
 * What a context has to do, in a loop (ww_until_all_locked) and after it, is one of six states. M is the mutex at which the context
 * got -EDEADLK last. OWES: the context has waited for M, and holds it, but the body of the loop hasn't asked for M since the
 * back-off; so the first lock call of M that the body makes only takes note of that.
 *
 *	state		call				returns			then
 *	EASE		a lock				0			EASE
 *							-EDEADLK		TOLD
 *							-EALREADY (0 with WW_IGNORE_DUPLICATES), -EINTR, -ETIMEDOUT	EASE
 *			a slow lock			-EINVAL			EASE
 *	OWES		a lock of M			0, a trylock 1		EASE
 *			a lock of another mutex		0			OWES
 *							-EDEADLK		TOLD, OWES
 *			unlock of M, and a lock of M	0			EASE
 *			ww_acquire_unlock_all					EASE
 *	TOLD		a lock of a held mutex		-EALREADY, as in EASE	TOLD
 *			any other lock			-EINVAL, a trylock 0	TOLD
 *			back off						FIRST
 *			its last unlock						TOLD, holding nothing
 *	TOLD, OWES	a lock of the owed mutex	0, a trylock 1		TOLD
 *			any other call as in TOLD; after each other lock the context still OWES
 *	TOLD, holding nothing: as FIRST, but a lock of another mutex doesn't wait for M
 *	FIRST		a lock of M			0			EASE
 *			a lock of another mutex		0, having waited for M	OWES
 *							-EDEADLK, after M	TOLD, OWES
 *			a slow lock of M		0			EASE
 *			a slow lock of another mutex	-EINVAL			FIRST
 *			a trylock			1			EASE
 *							0			FIRST
 *			ww_acquire_unlock_all					EASE, holding nothing
 *			any of these calls		-EINTR, -ETIMEDOUT	FIRST, or OWES if that came at another mutex than M
 *	EASE, holding nothing: after FIRST a slow lock of M returns 0, having waited for M
 *	any state	ww_mutex_lock_all		-EINVAL			as it was
 *
 * The bits of `state` are HAS_TO_BACK_OFF in TOLD, WAITS_FIRST in FIRST, and IS_PRELOCKED while the context OWES the mutex
 * `prelocked`. tests/lock/loop.c tests each row.
 */
#define _GNU_SOURCE
#include "loop.h"

/* In each phase of a loop but LOOP_EASE the context has NO_POOL, so that its lock calls take the long way (ww_lock_in_loop). */
COLD void ww_become(struct ww_acquire_ctx *x, unsigned int not, unsigned int now)
{
	x->state = (x->state & ~not) | now;
	x->pool = is_loop(x) && x->state & (TRIES | IS_PRELOCKED) ? NO_POOL : x->own->pool;
	NOTE(CONTEXT_CHANGED, .context = x);
}

void ww_acquire_flags(struct ww_acquire_ctx *x, unsigned int flags)
{
	enum phase phase = phase_of(NEEDED(x));

	if (phase == IN_POLL)
		NOTE_MISUSE(x->own->pool->class_, "ww_acquire_flags", WAITS_BY_POLL);
	if (phase == IN_POLL || phase == HAS_ENDED)
		return;
	x->state = (x->state & ~(unsigned)FLAGS) | (flags & FLAGS);
	if (flags & WW_MAY_BE_OLDER && !is_loop(x))
		let_be_older(x);
}

/* ---- the list of what a context acquired, the newest first ---- */

/* Whether the context holds a mutex for which it waited after a back-off, and for which the body of its loop hasn't asked yet. */
static bool owes(const struct ww_acquire_ctx *x)
{
	const struct ww_mutex *m = x->state & IS_PRELOCKED ? x->newest : NULL;

	while (m && m != x->prelocked)
		m = m->older;
	return m;
}

size_t ww_acquire_mark(const struct ww_acquire_ctx *x) { return NEEDED(x)->acquired - owes(x); }

COLD __attribute__((noreturn)) static void end_unreleased(const struct ww_acquire_ctx *x, const char *call)
{
	end_of(x->own->pool->class_, call, is_polled(x) ? WAITS_BY_POLL : "nobody holds the mutex");
}

/* A mark counts what was acquired before it, except a mutex that the loop's body has yet to ask for: that one stays held besides. */
void ww_acquire_unlock_to(struct ww_acquire_ctx *x, size_t mark)
{
	note_used(NEEDED(x));
	if (!is_loop(x))
		return; /* outside a loop nothing says what was acquired after the mark */
	if (!mark)
		ww_acquire_unlock_all(x);
	else
		for (size_t left = mark + owes(x); x->acquired > left;)
			if (release_newest(x))
				end_unreleased(x, "ww_acquire_unlock_to");
}

static inline void release_newest_first(struct ww_acquire_ctx *x)
{
	while (x->newest)
		if (UNLIKELY(release_newest(x)))
			end_unreleased(x, "ww_acquire_unlock_all");
}

/*
 * Ends ww_acquire_unlock_all, once all that the list had is released. In the phase BY_HAND the list has what the context acquired
 * since it last unlocked a mutex, and nothing that it acquired by number: such an unlock is quick, and so cuts the list. If the
 * context still holds anything, the program ends. Its keys of tables, and its own slot, by which it reads, are always known.
 */
COLD static void unlocks_no_more(struct ww_acquire_ctx *x)
{
	bool is_left = !is_loop(x) && x->acquired;

	ww_release_keys(x);
	if (is_left && !is_polled(x) && holds_slot(x))
		(void)ww_unlock_of(&x->own->slot->mutex, x);
	if (is_polled(x) || (is_left && x->acquired))
		end_of(x->own->pool->class_, "ww_acquire_unlock_all", is_polled(x) ? WAITS_BY_POLL :
		       "outside a loop the context acquired a mutex by number, or before it released another one "
		       "(unlock each by itself, or acquire them after ww_acquire_begin_tries)");
	if (x->state & (WAITS_FIRST | IS_PRELOCKED)) {
		ww_become(x, WAITS_FIRST | IS_PRELOCKED, 0);
		NOTE(WAIT_TAKEN_BACK, .context = x);
	}
}

/*
 * Releases all that the context holds. Afterwards the context doesn't wait for the contended mutex first, since that may have been
 * destroyed by then, and owes no mutex to the body of its loop. A context that has ended holds nothing.
 */
void ww_acquire_unlock_all(struct ww_acquire_ctx *x)
{
	if (UNLIKELY(!NEEDED(x)->own))
		return;
	note_used(x);
	release_newest_first(x);
	if (UNLIKELY(x->acquired || x->state & (WAITS_FIRST | IS_PRELOCKED | IS_POLLED | HAD_KEYS)))
		unlocks_no_more(x);
}

/* ---- the lock calls of a loop ---- */

/*
 * Only by this function does a lock call succeed without a step by which the proved library took the lock. A mutex that was owed
 * becomes the newest in the context's list, and isn't owed any more.
 */
bool ww_accept_held(struct ww_acquire_ctx *x, struct ww_mutex *m, bool may_repeat)
{
	if (!is_loop(x) || !ww_owns(x->own, m->number))
		return false;
	if (!owes_it(x, m))
		return may_repeat;
	(void)unlist(x, m);
	enlist(x, m);
	ww_become(x, IS_PRELOCKED, 0);
	return true;
}

int ww_result_in_loop(struct ww_mutex *m, struct ww_acquire_ctx *x, int r)
{
	if (r == 0 && owes_it(x, m)) /* the body has released the mutex that was owed, and locked it now */
		ww_become(x, TRIES | IS_PRELOCKED, 0);
	else if (r == 0)
		ww_become(x, TRIES, 0);
	else if (r == -EDEADLK)
		ww_become(x, 0, HAS_TO_BACK_OFF);
	return r == -EALREADY && ww_accept_held(x, m, x->state & WW_IGNORE_DUPLICATES) ? 0 : r;
}

/*
 * Whether the number of the contended mutex was put back since the -EDEADLK, at which it had been put back `puts` times. The number
 * is still that mutex's if it is taken and was put back as often as then: a thread that puts a number back counts that before
 * another thread can take the number, and note so in `waiters`.
 */
bool ww_is_gone(const struct ww_pool *p, const struct ww_mutex *m, uint32_t puts)
{
	return is_of_number(m) && (!(__atomic_load_n(&m->waiters, __ATOMIC_SEQ_CST) & IS_TAKEN) || puts_of(&p->numbers, m->number) != puts);
}
static bool has_gone(const struct ww_acquire_ctx *x, const struct ww_mutex *m) { return ww_is_gone(x->own->pool, m, x->puts); }

/*
 * Takes note that the context has waited for the mutex, and has it, or only visits it. A mutex for which the body of the loop can't ask
 * is released at once: a reader slot (shared.c), or a mutex whose number was put back during the wait.
 */
static void note_waited(struct ww_acquire_ctx *x, struct ww_mutex *m, bool visits)
{
	if (!visits && !has_gone(x, m)) {
		x->prelocked = m;
		ww_become(x, TRIES, IS_PRELOCKED);
	} else {
		(void)(visits ? unlock_by(m, x->own) : release_newest(x));
		ww_become(x, TRIES | IS_PRELOCKED, 0);
	}
}

/*
 * Waits for the mutex at which the context got -EDEADLK, before the loop's lock call does anything else, unless the mutex's number
 * was put back, and so may be another mutex's by now. The context counts as a waiter before it asks that, so from then on the number
 * stays with its mutex.
 */
static int wait_first(struct ww_acquire_ctx *x, struct ww_how how)
{
	struct ww_mutex *m = x->contending_lock;
	bool counts = is_of_number(m) && !has_gone(x, m);
	int r = 0;

	how.visits = is_slot(m);
	if (counts)
		__atomic_fetch_add(&m->waiters, 1, __ATOMIC_SEQ_CST);
	if (has_gone(x, m))
		ww_become(x, TRIES, 0);
	else if (!(r = ww_lock_by(m, x, &how)))
		note_waited(x, m, how.visits);
	if (counts)
		__atomic_fetch_sub(&m->waiters, 1, __ATOMIC_SEQ_CST);
	return r;
}

static inline __attribute__((always_inline)) int lock_and_note(struct ww_mutex *m, struct ww_acquire_ctx *x, const struct ww_how *how)
{
	int r = ww_lock_by(m, x, how);

	return ww_result_in_loop(m, x, r);
}

int ww_lock_in_loop(struct ww_mutex *m, struct ww_acquire_ctx *x, const struct ww_how *how)
{
	if (x->state & WAITS_FIRST) {
		int r = wait_first(x, *how);

		if (r || ww_accept_held(x, m, false))
			return r;
	}
	return lock_and_note(m, x, how);
}

/* ---- loops ---- */

COLD static void begin_loop_else(struct ww_acquire_ctx *x)
{
	if (!x->own || x->acquired || is_polled(x))
		end_of(x->own ? x->own->pool->class_ : NULL, "ww_until_all_locked",
		       x->own && is_polled(x) ? WAITS_BY_POLL : "the context holds a mutex, or has ended");
	let_be_older(x);
	ww_become(x, TRIES | IS_PRELOCKED, 0);
}

struct ww_acquire_ctx *ww_tries_begin_(struct ww_acquire_ctx *x)
{
	begin_loop(NEEDED_BY("ww_until_all_locked", x));
	if (UNLIKELY(!x->own || x->acquired | x->state))
		begin_loop_else(x);
	else
		let_be_older(x);
	return x;
}

COLD void ww_back_off_(struct ww_acquire_ctx *x)
{
	if (!ww_is_contended(x))
		return;
	note_used(x);
	if (is_polled(x))
		end_of(x->own->pool->class_, "ww_retry_on_contention", WAITS_BY_POLL);
	release_newest_first(x);
	ww_become(x, HAS_TO_BACK_OFF | IS_PRELOCKED, WAITS_FIRST);
}

bool ww_is_contended(const struct ww_acquire_ctx *x) { return NEEDED(x)->state & HAS_TO_BACK_OFF; }
