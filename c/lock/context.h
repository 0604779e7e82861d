/* context.h - the phases of a context, and what a mutex says of its holder. It isn't installed. */
#ifndef WW_CONTEXT_H
#define WW_CONTEXT_H
#include "wait.h"

/* ---- what a mutex says ---- */

/*
 * The context that holds the mutex, or NULL. Only the mutex's holder writes `ctx` and `alone`. The accesses of `ctx` are relaxed:
 * the lock orders one holder's accesses before the next holder's, and other threads take `ctx` as a hint. An address in `alone` is
 * released and acquired, since other threads go on to read the seat at it.
 */
static inline struct ww_acquire_ctx *holder_of(const struct ww_mutex *m) { return __atomic_load_n(&m->ctx, __ATOMIC_RELAXED); }

/*
 * The seat by which the mutex is held without a context, or NULL. The seat's address plus 1 lies in `alone`. Only that is odd: the
 * other members of the union are addresses of structures.
 */
static inline ww_seat *seat_of(const struct ww_mutex *m)
{
	uintptr_t at = (uintptr_t)__atomic_load_n(&m->alone, __ATOMIC_ACQUIRE);

	NEVER(at == 1);
	return at & 1 ? (ww_seat *)(at ^ 1) : NULL;
}

/* ---- contexts ---- */

/*
 * The pool of a context that has ended, or whose lock calls take the long way. No mutex has this pool, so a quick lock call finds
 * that the mutex's pool is another one.
 */
#define NO_POOL ((struct ww_pool *)1)

/* The bits of a context's state: the flags of ww_acquire_flags, what its loop has to do next, and what its earlier calls returned. */
enum {
	FLAGS = WW_IGNORE_DUPLICATES | WW_INTERRUPTIBLE,
	HAS_TO_BACK_OFF = WW_HAS_TO_BACK_OFF_,
	WAITS_FIRST = WW_WAITS_FIRST_,
	TRIES = HAS_TO_BACK_OFF | WAITS_FIRST,
	IS_DONE = 16, /* ww_acquire_done was called, which only a second ww_acquire_done refuses */
	IS_POLLED = 128, /* a lock call of ww_poll.h waits for the mutex `polled` */
	IS_PRELOCKED = 256, /* the context has waited for the mutex `prelocked`, for which the body of its loop hasn't asked yet */
	IS_TOLD = 512, /* the context got -EDEADLK at `contending_lock`, and hasn't locked its reader slot since */
	WAS_TOLD = 1024, /* the context got -EDEADLK, but the proved library forgot it, as a shared lock call acquired a lock and failed */
	HAD_KEYS = 2048, /* the context has had a key of a table, so `keys` of its seat may list tables of which it has keys now */
};

/*
 * The phases of a context, by its fields. S is the context's seat, and P that seat's pool. With NO_POOL lock calls take the long
 * way. With the empty handle empty_ unlocks and all calls by number take the long way.
 *
 *	phase		own	pool		gives	bit of `state`		what comes next
 *	HAS_ENDED	NULL	any		any	any			a begin; zeroed memory is in this phase, too
 *	IN_POLL		S	any		any	IS_POLLED		a poll of `polled`; any other call returns
 *										-EBUSY, or ends the program
 *	BY_HAND		S	P, or NO_POOL	S	none			any call; with NO_POOL the seat rests (age.h),
 *										until the first lock shows how the context acquires
 *	LOOP_EASE	S	P		empty_	none			any call
 *	LOOP_OWES	S	NO_POOL		empty_	IS_PRELOCKED		a lock of `prelocked`, but no poll
 *	LOOP_FIRST	S	NO_POOL		empty_	WAITS_FIRST		a wait for `contending_lock`
 *	LOOP_TOLD	S	NO_POOL		empty_	HAS_TO_BACK_OFF		a back-off; it may owe `prelocked`, too
 *
 * The last four phases are those of a loop: the table in loop.c says what comes next in each, and in all four the context lists
 * what it acquired. After its first list of locks (list.c) a context is in one of them, too. In BY_HAND the list has what the
 * context acquired since its last unlock. A poll turns each other phase but LOOP_OWES into IN_POLL, and its end turns IN_POLL back.
 * The flags, IS_DONE, IS_TOLD, WAS_TOLD and HAD_KEYS may be set in each phase.
 */
enum phase { HAS_ENDED, IN_POLL, BY_HAND, LOOP_EASE, LOOP_OWES, LOOP_FIRST, LOOP_TOLD };
static inline enum phase phase_of(const struct ww_acquire_ctx *x)
{
	if (!x->own)
		return HAS_ENDED;
	if (x->state & IS_POLLED)
		return IN_POLL;
	if (x->gives == x->own)
		return BY_HAND;
	return x->state & HAS_TO_BACK_OFF ? LOOP_TOLD : x->state & WAITS_FIRST ? LOOP_FIRST :
		x->state & IS_PRELOCKED ? LOOP_OWES : LOOP_EASE;
}

/* Whether a context that hasn't ended waits by a poll; and whether it is in a loop, also while a poll waits there. */
static inline bool is_polled(const struct ww_acquire_ctx *x) { return UNLIKELY(x->state & IS_POLLED); }
static inline bool is_loop(const struct ww_acquire_ctx *x) { return x->gives == x->empty_; }
#define WAITS_BY_POLL "the context waits by a poll"

/*
 * What a poll does with the mutex for which it asks: the seat keeps the two as `asks` and `asked`, and only the same call goes on
 * with the wait. The poll waits for the mutex `polled`. That is the mutex `asked` itself, or a slot on the way: the context's own
 * slot to read, or another context's slot to write, while the context already has the mutex.
 */
enum { TO_LOCK, TO_READ, TO_WRITE, TO_AWAIT };

/*
 * Whether r is the -EBUSY by a seat from before a fork, in the child: there a call that had to wait never ends (ww_go_on), so each
 * further call by its seat returns -EBUSY.
 */
static inline bool is_orphaned_by_fork(const ww_seat *s, int r) { return r == -EBUSY && s->pool->gone; }

/* The number of a seat, plus 1, as owner_in and owner_of_word have it of the seat that owns a lock. */
static inline uint32_t place_among(const ww_seat *s) { return (uint32_t)(s - s->pool->seats) + 1; }

/* Whether the mutex has a number; and if there is a context, whether it has begun, in the class of the mutex. */
static inline bool fits(const struct ww_mutex *m, const struct ww_acquire_ctx *x)
{
	return x ? x->own && pool_at(m) == x->own->pool : pool_at(m) != NULL;
}

/* Notes, for the debug library alone, that a call of this thread names the context, so the context is this thread's from now on. */
static inline void note_used(struct ww_acquire_ctx *x)
{
	if (x->own)
		NOTE(CONTEXT_USED, .context = x);
}

/* Whether the context has waited for the mutex, and the body of its loop hasn't asked for the mutex yet. */
static inline bool owes_it(const struct ww_acquire_ctx *x, const struct ww_mutex *m)
{
	return x->state & IS_PRELOCKED && x->prelocked == m;
}

/* ---- of context.c ---- */

/*
 * Makes the context one of this seat. The stores of `own` and `cancelled` are relaxed: a thread that cancels the context that was
 * in this memory before may read them, and nothing is ordered by what it reads.
 */
static inline void of_seat(struct ww_acquire_ctx *x, struct ww_pool *p, ww_seat *s)
{
	x->pool = p;
	x->span = p->span;
	x->words = p->words;
	x->gives = s;
	__atomic_store_n(&x->own, s, __ATOMIC_RELAXED);
	__atomic_store_n(&x->cancelled, 0, __ATOMIC_RELAXED);
	x->acquired = x->state = 0;
	x->newest = NULL;
}

/* Leaves the context as one that has ended. */
static inline void no_more(struct ww_acquire_ctx *x)
{
	x->pool = NO_POOL;
	__atomic_store_n(&x->own, NULL, __ATOMIC_RELAXED);
}

/* Releases the keys of tables that the context has, unless it is in a loop or a list of locks, or waits by a poll. */
WW_HIDDEN void ww_release_keys(struct ww_acquire_ctx *x);
/* If r is 0, begins the context by the seat, and returns 0 or an error. Otherwise leaves a context that has ended, and returns r. */
WW_HIDDEN int ww_begin_by(struct ww_acquire_ctx *x, ww_seat *s, int r);

#endif
