/*
 * shared.c - shared mutexes, over the calls of exclusive ones.
 *
 * A shared mutex is a struct ww_mutex, which a writer holds, and a word of bits. The core sees a reader by a mutex of the reader's
 * own, its slot. Each seat has a slot, from its first read on, and its context holds the slot as long as it reads anything. In the
 * slot the context marks what it reads: there is a mark for each mutex of the class. In the mutex it sets the bit of its slot, one
 * of 64.
 *
 *	a reader (reads_at_once)		a writer (await_readers)
 *	slot: the context has it already	mutex: acquired
 *	bit: set, unless it is			bits?
 *	mark: set				of each slot with that bit:
 *	1. mutex: free?				  mark?  if so: acquires the slot, clears its marks, releases it, looks again
 *	2. bit: set?				bit: cleared, unless the writer itself reads by a slot with that bit
 *	3. mutex: free?
 *	then it reads; else the mark is taken back
 *
 * That is Dekker's argument twice. Each line is sequentially consistent, as the core's steps are. A writer that has the mutex after line
 * 1 finds the mark, and clears no bit of this slot before the read has ended; earlier writers have released the mutex by then. So
 * once line 2 finds the bit, the bit stays. But a writer in between may have found no bit, if another slot with the same bit has
 * set it again. If line 3 finds the mutex free, that writer is through, and all later writers find bit and mark. So a writer waits
 * for each reader as it waits for any holder of a mutex: ages, cycles, cancels and times are the core's. A writer may also wait for
 * a context that reads other mutexes: one that acquires its slot after the writer has found a mark there, and before the writer has
 * the slot.
 *
 * A reader that finds the mutex taken acquires it, as a writer would, sets bit and mark under it, and releases it (reads_in_turn).
 * While the reader waits for the mutex, it has no mark of it; otherwise a writer on its way from slot to slot would wait for the
 * reader's wait. An upgrade is a writer that passes its own slot. A downgrade sets bit and mark, and releases the mutex.
 *
 * In a poll each lock on the way is polled by itself, and a further call goes on at the lock for which the context waits
 * (`polled`): the context's own slot, the mutex, or for a write another context's slot, while the context has the mutex. Once the
 * context has such a lock, the call goes on as one that begins there. A call that returns -EINPROGRESS accesses nothing more, since
 * from then on another thread may go on with the context.
 *
 *	a word		who writes it
 *	bit		any reader sets it; the mutex's holder clears it, once no slot with it has the mark
 *	mark		the slot's holder: a reader sets its mark and takes it back; the next one that acquires the slot clears it
 *	reads		the seat's user: 0 before it acquires the slot; then how many reads are to be ended
 *	mutex.ctx	of a slot: not NULL while its seat's context has it; a writer that visits the slot writes nothing here
 *
 * Bits and marks stay after the reads. So a context that reads a mutex again writes only its own slot, and one unlock, that of the
 * slot, ends all its reads. Slots stay until the class is freed. A reader is known by its seat, and not by the address of its
 * context, which may lie elsewhere later if it acquires mutexes only by number. The bits of a mutex by number lie in the class,
 * beside the mutex.
 */
#define _GNU_SOURCE
#include "poll.h"
#include "shared.h"
#include "../lock/used.h"
#include "../lock/loop.h"
#include "../lock/mutex.h"

/* How often a writer looks at a mark before it waits for the slot: the reader may be about to take the mark back. */
#ifndef WW_MARK_LOOKS
#define WW_MARK_LOOKS 16
#endif
/* How many bits there are, of which each slot has one. A program of the search of schedules sets WW_BITS itself. */
#ifndef WW_BITS
#define WW_BITS MANY_BITS
#endif

#define ALWAYS_INLINE static inline __attribute__((always_inline))
/* How a call waits that has no time limit and is no poll; and how a call tries. */
#define BY_WAITING ((struct ww_how){ 0 })
#define BY_TRYING ((struct ww_how){ .who = NOBODY })

/* Acquires the shared mutex for which the call asks, or the context's own slot; or visits another context's slot. */
static int acquire(struct ww_mutex *m, struct ww_acquire_ctx *x, struct ww_how how)
{
	how.is_interruptible |= !!(x->state & WW_INTERRUPTIBLE);
	if (how.who == NOBODY)
		return how.visits ? ww_lock_by(m, x, &how) : ww_try_by(m, x);
	return how.who == THREAD ? ww_lock_as(m, x, &how) : ww_poll_on(m, x, how);
}

/*
 * Tries to acquire the shared mutex, or the context's own slot, by one step. With NO_POOL, and while the context waits by a poll,
 * there is more to ask first, so this returns false.
 */
static inline bool lock_at_once(struct ww_mutex *m, struct ww_acquire_ctx *x)
{
	if (UNLIKELY(x->pool == NO_POOL) || is_polled(x) || ww_debug_forbids(x, m->number) || UNLIKELY(ww_try_(&x->own->handle, m->number)))
		return false;
	note_holder(m, x, NULL);
	NOTE(LOCK_ENDS, .mutex = m, .context = x, .r = 0);
	return true;
}

/* ---- reader slots ---- */

/*
 * Marks the mutex of this number in the slot, which the context has. The context looks whether the mutex is free only after that:
 * see the head of this file.
 */
static inline void mark(struct ww_slot *slot, uint32_t number)
{
	uint64_t *marks = marks_at(slot, number), had = __atomic_load_n(marks, __ATOMIC_RELAXED);

	if (!had)
		slot->nonzero[slot->nonzero_count++] = number / MARKS_IN_A_WORD;
	__atomic_exchange_n(marks, had | mark_of(number), __ATOMIC_SEQ_CST);
}

/*
 * Takes back a mark, which most often is the newest. The store releases, as in clear_marks: a writer that finds no mark comes after
 * what the context read.
 */
static void unmark(struct ww_slot *slot, uint32_t number)
{
	uint64_t *marks = marks_at(slot, number), left = __atomic_load_n(marks, __ATOMIC_RELAXED) & ~mark_of(number);
	uint32_t k = slot->nonzero_count;

	__atomic_store_n(marks, left, __ATOMIC_RELEASE);
	if (left)
		return;
	while (slot->nonzero[--k] != number / MARKS_IN_A_WORD)
		;
	slot->nonzero[k] = slot->nonzero[--slot->nonzero_count];
}

static inline void clear_marks(struct ww_slot *slot)
{
	while (slot->nonzero_count)
		__atomic_store_n(&slot->marks[slot->nonzero[--slot->nonzero_count]], 0, __ATOMIC_RELEASE);
}

/*
 * Makes the seat's slot. Its mutex isn't counted among those of the class: it has a number besides. The slot is shown by a
 * sequentially consistent store, before its first mark, since another slot may already have set its bit.
 */
COLD static int make_slot(ww_seat *s)
{
	struct ww_pool *p = s->pool;
	size_t words = (p->numbers.locks + MARKS_IN_A_WORD - 1) / MARKS_IN_A_WORD;
	size_t size = sizeof(struct ww_slot) + words * (sizeof(uint64_t) + sizeof(uint32_t));
	struct ww_slot *slot = p->gone ? NULL : ww_take_zeros(size);
	uint32_t k;

	if (!slot)
		return p->gone ? -EINVAL : -ENOMEM;
	pthread_mutex_lock(&p->numbers.lock);
	k = p->numbers.of_slots++ % WW_BITS;
	*slot = (struct ww_slot){
		.mutex = { .pool = p, .number = ww_take_locked(&p->numbers, NULL), .waiters = IS_SLOT }, .size = size,
		.seat = (uint32_t)(s - p->seats), .nonzero = (uint32_t *)(void *)&slot->marks[words],
		.bit = (uint64_t)1 << k, .next = p->slots[k],
	};
	lies_at(&p->numbers, slot->mutex.number, &slot->mutex);
	__atomic_store_n(&p->slots[k], slot, __ATOMIC_SEQ_CST);
	pthread_mutex_unlock(&p->numbers.lock);
	s->slot = slot;
	return 0;
}

/*
 * Tries the slot until it is free, for a downgrade, which doesn't fail. A writer that has the slot found a mark of earlier reads,
 * and soon releases the slot; the first such writer clears all marks. But a task that waits for the slot goes on only when it is
 * polled, maybe by this thread. So this returns an error if a task waits, or if the context got -EDEADLK and may acquire nothing.
 */
COLD static int try_slot(struct ww_slot *slot, struct ww_acquire_ctx *x)
{
	unsigned looks = 0;
	uint64_t until = 0;
	int r;

	while ((r = ww_debug_forbids(x, slot->mutex.number) ? -EINVAL : ww_try_(&x->own->handle, slot->mutex.number)) == -EBUSY &&
	       !x->own->pool->gone && (__atomic_load_n(&slot->mutex.waiters, __ATOMIC_RELAXED) & ~IS_SLOT) < A_TASK)
		ww_await_guard(&looks, &until);
	if (!r)
		note_holder(&slot->mutex, x, NULL);
	return r;
}

/*
 * Locks the context's slot, which is made first if the seat has none. If the context got -EDEADLK before, it isn't told to back off any
 * more once it has its slot. But the read may still fail: so WAS_TOLD takes the place of IS_TOLD, which a read that fails sets again
 * (reads_in_turn).
 */
ALWAYS_INLINE int take_slot(struct ww_acquire_ctx *x, const struct ww_how how, bool tries)
{
	int r = LIKELY(x->own->slot) ? 0 : make_slot(x->own);
	struct ww_slot *slot = x->own->slot;

	if (UNLIKELY(r))
		return r;
	__atomic_store_n(&slot->reads, 0, __ATOMIC_RELAXED);
	r = tries ? try_slot(slot, x) : LIKELY(lock_at_once(&slot->mutex, x)) ? 0 : acquire(&slot->mutex, x, how);
	if (UNLIKELY(r))
		return r;
	clear_marks(slot);
	if (UNLIKELY(x->state & (IS_TOLD | WAS_TOLD)))
		x->state = (x->state & ~(unsigned)(IS_TOLD | WAS_TOLD)) | (x->state & IS_TOLD ? WAS_TOLD : 0);
	return 0;
}

/* Counts one more read. The store releases: a thread that sees the count sees that no mark is from earlier reads. */
static inline void add_read(struct ww_slot *slot) { __atomic_store_n(&slot->reads, slot->reads + 1, __ATOMIC_RELEASE); }

/* Notes how many reads are left. If none is, the slot is released. */
static void leave_reads(struct ww_acquire_ctx *x, uint64_t left)
{
	struct ww_slot *slot = x->own->slot;

	__atomic_store_n(&slot->reads, left, __ATOMIC_RELAXED);
	if (!left)
		(void)ww_unlock_of(&slot->mutex, x);
}

/* ---- mutexes ---- */

int ww_shared_mutex_init_checked(struct ww_shared_mutex *m, struct ww_class *c)
{
	(void)NEEDED(m);
	m->readers_ = 0;
	return ww_mutex_init_checked(&m->mutex_, NEEDED(c));
}

void ww_shared_mutex_init(struct ww_shared_mutex *m, struct ww_class *c)
{
	(void)NEEDED(m);
	m->readers_ = 0;
	ww_mutex_init(&m->mutex_, NEEDED(c));
}

bool ww_shared_mutex_is_locked(const struct ww_shared_mutex *m)
{
	struct ww_pool *p = pool_at(&NEEDED(m)->mutex_);

	return p && !p->gone && (look_at(p, &m->mutex_) ||
				 __atomic_load_n(&m->mutex_.waiters, __ATOMIC_SEQ_CST) & ~(IS_TAKEN | IS_OF_NUMBER) ||
				 ww_is_read_by(p, m->mutex_.number, __atomic_load_n(&m->readers_, __ATOMIC_SEQ_CST)) ||
				 look_at(p, &m->mutex_)); /* between the looks a reader may have upgraded, and ended its read */
}

static bool reports_use(const struct ww_shared_mutex *m)
{
	struct ww_pool *p = pool_at(&m->mutex_);
	bool is = p && !p->gone && ww_has_users(&p->numbers, m->mutex_.number, m);

	if (is)
		NOTE_MISUSE_OF(&m->mutex_, p->class_, "ww_shared_mutex_destroy", "a context reads, holds or awaits the mutex");
	return is;
}

/* Ends a mutex whose memory goes. A context that has read the mutex, and reads on, names the number alone, so the number is left. */
int ww_shared_mutex_end_(struct ww_shared_mutex *m)
{
	return ww_end_mutex(&m->mutex_, reports_use(NEEDED(m)) ? ww_leave_number : ww_give_locked);
}

int ww_shared_mutex_destroy(struct ww_shared_mutex *m) { return reports_use(NEEDED(m)) ? -EBUSY : ww_mutex_destroy(&m->mutex_); }

bool ww_shared_mutex_is_written_by(const struct ww_shared_mutex *m, const struct ww_acquire_ctx *x)
{
	return holds_it(NEEDED(x), &NEEDED(m)->mutex_);
}

bool ww_shared_mutex_is_read_by(const struct ww_shared_mutex *m, const struct ww_acquire_ctx *x)
{
	return reads_it(NEEDED(x), &NEEDED(m)->mutex_);
}

/*
 * Whether a call may begin, or a poll go on: 0, or the error that the call returns. Of most calls little is asked, since they have
 * no time limit, and a mutex of the context's class. The debug library asks all of each call. A poll goes on only if it asks for
 * the same (`what`), for the same poller, as the call that began the wait.
 */
static inline int may_go_on(const char *call, struct ww_shared_mutex *m, struct ww_acquire_ctx *x, struct ww_how how, unsigned what)
{
	if (how.who == TASK)
		return ww_may_poll(call, &m->mutex_, x, what, how.poller);
	if (!IS_DEBUG && LIKELY(!how.until) && LIKELY(x) && LIKELY(pool_at(&m->mutex_) == x->pool) &&
	    LIKELY(!(x->state & (IS_POLLED | IS_TOLD))))
		return 0;
	return ww_admit(call, CALL_LOCK, &m->mutex_, x, how.until);
}

/* ---- reads ---- */

/*
 * Whether nobody has a mutex of the context's class or waits for it, as ww_is_free_ says. This looks at the owner word itself,
 * since that call takes 25 instructions, of 150 for a read. In the debug library a context doesn't say where the owner words are.
 */
static inline bool nobody_has(const struct ww_acquire_ctx *x, uint32_t number)
{
	const uint64_t *owners = (const uint64_t *)x->words;

	return IS_DEBUG ? !ww_is_free_(&x->own->handle, number) : !__atomic_load_n(&owners[2 * (size_t)number], __ATOMIC_SEQ_CST);
}

/*
 * Makes the lines of a reader in the table at the head of this file, and returns whether the context reads the mutex. A look at the
 * holder that the mutex names comes first, as a hint. What the context reads comes after what the last writer wrote.
 */
ALWAYS_INLINE bool reads_at_once(struct ww_shared_mutex *m, struct ww_acquire_ctx *x, struct ww_slot *slot)
{
	uint32_t number = m->mutex_.number;
	bool reads = has_mark(slot, number); /* the context reads the mutex already */

	if (reads || UNLIKELY(holder_of(&m->mutex_)))
		return reads;
	if (UNLIKELY(!(__atomic_load_n(&m->readers_, __ATOMIC_SEQ_CST) & slot->bit)))
		__atomic_fetch_or(&m->readers_, slot->bit, __ATOMIC_SEQ_CST);
	mark(slot, number);
	if (LIKELY(nobody_has(x, number)) &&
	    LIKELY(__atomic_load_n(&m->readers_, __ATOMIC_SEQ_CST) & slot->bit) &&
	    LIKELY(nobody_has(x, number))) {
		__tsan_acquire(&m->mutex_);
		return true;
	}
	unmark(slot, number);
	return false;
}

/* Lets the mutex's holder read it, too. The mutex is released only after this, so that nobody finds neither a holder nor a reader. */
static void read_held(struct ww_shared_mutex *m, struct ww_slot *slot)
{
	__atomic_fetch_or(&m->readers_, slot->bit, __ATOMIC_SEQ_CST);
	mark(slot, m->mutex_.number);
	add_read(slot);
}

/*
 * Reads a mutex that couldn't be read at once. If this context already writes the mutex, it goes on writing it. But for a mutex by
 * number, outside loops, that returns -EALREADY, since the caller may have a reference to write what the mutex guards, beside which
 * there may be none to read.
 */
COLD static int reads_in_turn(struct ww_shared_mutex *m, struct ww_acquire_ctx *x, struct ww_how how)
{
	bool writes = holds_it(x, &m->mutex_);
	int r = !writes ? acquire(&m->mutex_, x, how) : is_of_number(&m->mutex_) && !is_loop(x) ? -EALREADY : 0;

	if (!r) {
		read_held(m, x->own->slot);
		if (!writes)
			(void)ww_unlock_of(&m->mutex_, x);
	} else if (r != -EINPROGRESS) {
		leave_reads(x, x->own->slot->reads);
		if (!x->own->slot->reads && x->state & WAS_TOLD)
			x->state |= IS_TOLD;
	}
	return r;
}

/*
 * Whether a trylock to read would fail now. The trylock asks this before it makes a step: a context that acquires its own slot has
 * acquired something, so the mutex at which it got -EDEADLK, and what its loop has to do, would be forgotten.
 */
static bool is_vain_read(const struct ww_shared_mutex *m, struct ww_acquire_ctx *x)
{
	return !nobody_has(x, m->mutex_.number) && !ww_owns(x->own, m->mutex_.number) && !reads_it(x, &m->mutex_);
}

ALWAYS_INLINE int read_by(struct ww_shared_mutex *m, struct ww_acquire_ctx *x, struct ww_how how)
{
	int r = may_go_on("ww_shared_mutex_lock_shared", m, x, how, TO_READ);
	struct ww_slot *slot;

	how.asks = &m->mutex_;
	if (LIKELY(!r) && how.who == NOBODY && is_vain_read(m, x))
		return -EBUSY;
	if (LIKELY(!r) && !holds_slot(x)) {
		r = take_slot(x, how, false);
	} else if (LIKELY(!r) && UNLIKELY(x->state & IS_TOLD)) {
		r = -EINVAL;
		NOTE(LOCK_RETURNS, .mutex = &m->mutex_, .context = x, .r = r);
	}
	if (UNLIKELY(r))
		return note_told(x, &m->mutex_, r);
	slot = x->own->slot;
	/* A context whose poll waits for the mutex would find it taken. */
	if ((how.who == TASK && is_polled(x)) || UNLIKELY(!reads_at_once(m, x, slot)))
		return reads_in_turn(m, x, how);
	add_read(slot);
	return 0;
}

int ww_shared_read_by(struct ww_shared_mutex *m, struct ww_acquire_ctx *x, struct ww_how how) { return read_by(m, x, how); }
int ww_shared_mutex_lock_shared(struct ww_shared_mutex *m, struct ww_acquire_ctx *x) { return read_by(m, x, BY_WAITING); }

/*
 * What a trylock returns if its call returned r. If another thread came between the trylock's look and its step, the step made the
 * loop forget what it has to do (`tries`), which is set again.
 */
static int ended_try(struct ww_acquire_ctx *x, unsigned int tries, int r)
{
	if (r && tries && tries & ~x->state)
		ww_become(x, 0, tries);
	return !r;
}
static inline unsigned int tries_of(const struct ww_acquire_ctx *x) { return x && x->own ? x->state & TRIES : 0; }

int ww_shared_mutex_trylock_shared(struct ww_shared_mutex *m, struct ww_acquire_ctx *x)
{
	unsigned int tries = tries_of(x);

	return ended_try(x, tries, read_by(m, x, BY_TRYING));
}

int ww_shared_mutex_lock_shared_until(struct ww_shared_mutex *m, struct ww_acquire_ctx *x, const struct timespec *until)
{
	return read_by(m, x, (struct ww_how){ .is_interruptible = true, .until = until });
}

int ww_shared_mutex_lock_shared_poll(struct ww_shared_mutex *m, struct ww_acquire_ctx *x, const struct ww_waker *waker)
{
	return read_by(m, x, (struct ww_how){ .who = TASK, .waker = waker });
}

/* ---- writes ---- */

/*
 * Waits for the context that reads the mutex of this number by this slot. For that the writer visits the slot, and clears its
 * marks, without a note that it has the slot. A poll that waits for the slot goes on here.
 */
static int await_slot(struct ww_slot *slot, uint32_t number, struct ww_acquire_ctx *x, struct ww_how how)
{
	const uint64_t *marks = marks_at(slot, number);
	unsigned looks = 1;
	int r;

	how.visits = true;
	while (is_polled(x) || __atomic_load_n(marks, __ATOMIC_SEQ_CST) & mark_of(number)) {
		if (looks++ < WW_MARK_LOOKS && !is_polled(x)) {
			ww_pause(1);
			continue;
		}
		r = acquire(&slot->mutex, x, how);
		if (r)
			return note_told(x, how.asks, r);
		clear_marks(slot);
		(void)unlock_by(&slot->mutex, x->own);
	}
	return 0;
}

/*
 * Makes the lines of a writer in the table at the head of this file, for a context that has the mutex. It passes its own slot, by
 * which nobody else reads.
 */
COLD static int await_readers(struct ww_shared_mutex *m, struct ww_acquire_ctx *x, struct ww_how how)
{
	bool reads = reads_it(x, &m->mutex_);

	for (uint64_t bits = __atomic_load_n(&m->readers_, __ATOMIC_SEQ_CST); bits; bits &= bits - 1) {
		struct ww_slot *slot = __atomic_load_n(&x->own->pool->slots[__builtin_ctzll(bits)], __ATOMIC_SEQ_CST);

		for (; slot; slot = slot->next) {
			int r = slot != x->own->slot ? await_slot(slot, m->mutex_.number, x, how) : 0;

			if (r)
				return r;
		}
		if (!reads || !(x->own->slot->bit & bits & -bits))
			__atomic_fetch_and(&m->readers_, ~(bits & -bits), __ATOMIC_SEQ_CST);
	}
	return 0;
}

/*
 * Whether a trylock to write would fail now. It fails at any slot of another context that is marked and taken, also if the read has
 * ended: the slot's owner may read other mutexes, and another writer may have the slot.
 */
static bool is_vain_write(const struct ww_shared_mutex *m, const struct ww_acquire_ctx *x)
{
	const struct ww_pool *p = x->own->pool;

	for (uint64_t bits = __atomic_load_n(&m->readers_, __ATOMIC_SEQ_CST); bits; bits &= bits - 1) {
		struct ww_slot *slot = __atomic_load_n(&p->slots[__builtin_ctzll(bits)], __ATOMIC_SEQ_CST);

		for (; slot; slot = slot->next) {
			const uint64_t *marks = marks_at(slot, m->mutex_.number);

			if (slot != x->own->slot && __atomic_load_n(marks, __ATOMIC_SEQ_CST) & mark_of(m->mutex_.number) &&
			    look_at(p, &slot->mutex))
				return true;
		}
	}
	return false;
}

/*
 * Acquires the mutex, and then waits for the contexts that read it. A poll that waits for one of these has the mutex, and goes on
 * at that one's slot. In a loop the context may have the mutex already: the loop has waited for it, or the body locked it by a call
 * that waits for no reader (ww_number_lock), and asks for it again. A call that gets no further than the mutex releases it, unless
 * the context had it before or waits by a poll. If the context got -EDEADLK before, that then holds again.
 */
ALWAYS_INLINE int write_by(struct ww_shared_mutex *m, struct ww_acquire_ctx *x, struct ww_how how)
{
	int r = may_go_on("ww_shared_mutex_lock", m, x, how, TO_WRITE);
	bool owed, held = false;

	how.asks = &m->mutex_;
	if (UNLIKELY(r))
		return r;
	owed = owes_it(x, &m->mutex_) && ww_owns(x->own, m->mutex_.number);
	if (how.who == NOBODY && is_vain_write(m, x))
		return -EBUSY;
	if (how.who == TASK && is_polled(x) && x->polled != &m->mutex_) {
		r = await_slot((struct ww_slot *)(void *)x->polled, m->mutex_.number, x, how);
	} else if (LIKELY(!owed)) {
		held = UNLIKELY(x->state & WW_IGNORE_DUPLICATES) && holds_it(x, &m->mutex_);
		r = !IS_DEBUG && LIKELY(lock_at_once(&m->mutex_, x)) ? 0 : acquire(&m->mutex_, x, how);
		if (r)
			return r;
	}
	if (!r && UNLIKELY(__atomic_load_n(&m->readers_, __ATOMIC_SEQ_CST)))
		r = await_readers(m, x, how);
	if (UNLIKELY(owed) && !r)
		(void)ww_accept_held(x, &m->mutex_, false);
	if (UNLIKELY(r) && r != -EINPROGRESS && !held && !owed) {
		(void)ww_unlock_of(&m->mutex_, x);
		if (r != -EDEADLK && x->state & IS_TOLD)
			x->state |= WAS_TOLD;
	}
	return r;
}

int ww_shared_write_by(struct ww_shared_mutex *m, struct ww_acquire_ctx *x, struct ww_how how) { return write_by(m, x, how); }
int ww_shared_mutex_lock(struct ww_shared_mutex *m, struct ww_acquire_ctx *x) { return write_by(m, x, BY_WAITING); }

int ww_shared_mutex_trylock(struct ww_shared_mutex *m, struct ww_acquire_ctx *x)
{
	unsigned int tries = tries_of(x);

	return ended_try(x, tries, write_by(m, x, BY_TRYING));
}

int ww_shared_mutex_lock_until(struct ww_shared_mutex *m, struct ww_acquire_ctx *x, const struct timespec *until)
{
	return write_by(m, x, (struct ww_how){ .is_interruptible = true, .until = until });
}

int ww_shared_mutex_lock_poll(struct ww_shared_mutex *m, struct ww_acquire_ctx *x, const struct ww_waker *waker)
{
	return write_by(m, x, (struct ww_how){ .who = TASK, .waker = waker });
}

/*
 * Puts the slot right behind the mutex in the context's list, unless the slot is older there. So once the mutex is released, the
 * slot has its place, and ww_acquire_unlock_to doesn't end a read of a mutex that was acquired before the mark.
 */
static void list_behind(struct ww_acquire_ctx *x, struct ww_mutex *slot, struct ww_mutex *m)
{
	struct ww_mutex *it = x->newest;

	while (it && it != m && it != slot)
		it = it->older;
	if (it == slot && unlist(x, slot)) {
		__atomic_store_n(&slot->older, m->older, __ATOMIC_RELAXED);
		__atomic_store_n(&m->older, slot, __ATOMIC_RELAXED);
	}
}

void ww_shared_mutex_downgrade(struct ww_shared_mutex *m, struct ww_acquire_ctx *x)
{
	bool waits = x && phase_of(x) == IN_POLL;

	if (UNLIKELY(!x || waits || !holds_it(x, &NEEDED(m)->mutex_))) {
		NOTE(ABOUT, .mutex = &m->mutex_);
		end_of(ww_find_class_of(&m->mutex_), "ww_shared_mutex_downgrade", waits ? WAITS_BY_POLL : "the context doesn't write the mutex");
	}
	note_used(x);
	if (!holds_slot(x) && take_slot(x, (struct ww_how){ 0 }, true))
		return;
	read_held(m, x->own->slot);
	if (is_loop(x))
		list_behind(x, &x->own->slot->mutex, &m->mutex_);
	(void)ww_unlock_of(&m->mutex_, x);
}

int ww_shared_mutex_unlock(struct ww_shared_mutex *m, struct ww_acquire_ctx *x)
{
	if (is_polled(NEEDED(x)))
		return -EBUSY;
	note_used(x);
	if (holds_it(x, &NEEDED(m)->mutex_))
		return ww_unlock_of(&m->mutex_, x);
	NOTE_MISUSE_OF(&m->mutex_, NULL, "ww_shared_mutex_unlock", "the context doesn't write the mutex");
	return -EINVAL;
}

/*
 * Ends one read of the mutex. If it is the last one, its mark is taken back; if the context reads nothing else, its slot is released. A
 * writer that has already found the mark waits for the slot, and so for all reads by it. The slot can't be given up for that writer and
 * taken again: the writer clears all its marks, and until the reader has set them again, writers of the other mutexes find none.
 */
ALWAYS_INLINE int end_read(const char *call, struct ww_shared_mutex *m, struct ww_acquire_ctx *x, bool is_last)
{
	if (is_polled(NEEDED_BY(call, x)))
		return -EBUSY;
	note_used(x);
	if (!reads_it(x, &NEEDED_BY(call, m)->mutex_)) {
		NOTE_MISUSE_OF(&m->mutex_, NULL, call, "the context doesn't read the mutex");
		return -EINVAL;
	}
	if (is_last && x->own->slot->reads > 1)
		unmark(x->own->slot, m->mutex_.number);
	leave_reads(x, x->own->slot->reads - 1);
	return 0;
}

int ww_shared_mutex_unlock_shared(struct ww_shared_mutex *m, struct ww_acquire_ctx *x) { return end_read(__func__, m, x, false); }
int ww_shared_mutex_end_read(struct ww_shared_mutex *m, struct ww_acquire_ctx *x) { return end_read(__func__, m, x, true); }

void ww_acquire_end_reads(struct ww_acquire_ctx *x)
{
	if (phase_of(NEEDED(x)) == IN_POLL)
		end_of(x->own->pool->class_, "ww_acquire_end_reads", WAITS_BY_POLL);
	note_used(x);
	if (x->own && holds_slot(x))
		leave_reads(x, 0);
}

/* ---- after -EDEADLK ---- */

/* Waits for the mutex at which the context got -EDEADLK, and releases it at once; or not, if there is nothing to wait for any more. */
int ww_await_contended(struct ww_acquire_ctx *x, struct ww_how how)
{
	bool told = x && x->own && x->state & IS_TOLD && !x->acquired, goes_on = told && is_polled(x);
	struct ww_mutex *m = goes_on ? x->polled : told ? ww_count_at_told(x->own, ww_told_lock(x), x->puts) : NULL;
	int r = 0;

	how.visits = true;
	if (told && !m) {
		NOTE(LOCK_ENDS, .mutex = x->contending_lock, .context = x, .r = -EINTR); /* the debug library expects no wait any more */
		return 0;
	}
	if (how.who == THREAD)
		r = ww_lock_slowly(m, x, &how);
	else if (!(r = ww_may_poll("ww_shared_mutex_await_poll", m, x, TO_AWAIT, how.poller)))
		r = ww_poll_on(m, x, how);
	if (!r)
		(void)unlock_by(m, x->own);
	if (m && !goes_on)
		ww_stop_counting(m);
	return r;
}

int ww_shared_mutex_await(struct ww_acquire_ctx *x, const struct timespec *until)
{
	return ww_await_contended(x, (struct ww_how){ .is_interruptible = true, .until = until });
}

int ww_shared_mutex_await_poll(struct ww_acquire_ctx *x, const struct ww_waker *waker)
{
	return ww_await_contended(x, (struct ww_how){ .who = TASK, .waker = waker });
}
