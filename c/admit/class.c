/*
 * class.c - classes of mutexes: how they are opened, cancelled and freed, what they count, and what becomes of them in a child of a
 * fork. The lock `ww_opening` is explained in process.c.
 */
#define _GNU_SOURCE
#include "seat.h"
#include "../base/sleep.h"
#include <limits.h>
#include <string.h>

/* A class has one seat more than contexts, the spare seat. No context uses it: ww_has_users makes its steps by it (used.c). */
enum { SPARE = 1 };

static struct ww_pool *freed; /* the pools of classes that were freed, whose memory is used again */

/* ---- as the library is loaded, and forks ---- */

/*
 * The lock of the queue is held for a few instructions at a time, by a thread that comes or goes while others wait. Where the C
 * library has adaptive mutexes, a thread that finds the lock taken tries again before it sleeps.
 */
#ifdef PTHREAD_ADAPTIVE_MUTEX_INITIALIZER_NP
#define MET_OFTEN PTHREAD_ADAPTIVE_MUTEX_INITIALIZER_NP
#else
#define MET_OFTEN PTHREAD_MUTEX_INITIALIZER
#endif

static void make_locks(struct ww_pool *p)
{
	p->numbers.lock = p->spare = (pthread_mutex_t)PTHREAD_MUTEX_INITIALIZER;
	p->queue = (pthread_mutex_t)MET_OFTEN;
}

/*
 * Whether nobody uses a seat of the class, except for suspended contexts if these may be there, and nobody waits. A thread that
 * waits for a permit and then for a seat counts as one that waits throughout. Opening is locked.
 */
static bool is_idle(struct ww_pool *p, bool may_be_suspended)
{
	bool idle;

	pthread_mutex_lock(&p->queue);
	idle = !p->threads.lines[WAITS].first && !p->tasks.lines[WAITS].first && !p->tasks.lines[CALLED].first && !waiting_threads(p);
	for (uint32_t k = 0; k < seats_of(p) && idle; k++)
		idle = !(__atomic_load_n(&p->seats[k].busy, __ATOMIC_ACQUIRE) & BUSY) || (may_be_suspended && is_suspended(&p->seats[k]));
	pthread_mutex_unlock(&p->queue);
	return idle;
}

static bool is_free(pthread_mutex_t *lock) { return !pthread_mutex_trylock(lock) && !pthread_mutex_unlock(lock); }

/*
 * Whether, at the moment of the fork, no other thread was in the middle of something that the child can't go on from. The child's
 * memory is that of this moment. A seat was BUSY while a step was made by it, as when a mutex was locked, by a context or without
 * one. Besides, only these locks cover more than one step: those of the queue, of the spare seat, and of numbers, which is_free
 * tries here; and `ww_opening`, which the forking thread had. A thread that was between two of these left at most a number that no
 * mutex has, or its count at a mutex for which it was about to wait; such a mutex can't be destroyed.
 */
static bool was_idle(struct ww_pool *p)
{
	return is_free(&p->queue) && is_free(&p->spare) && is_free(&p->numbers.lock) && is_idle(p, true);
}

/*
 * A class that nobody used goes on in the child, as do its mutexes. But no seat of it rests any more, since the threads whose
 * contexts would share its age don't exist in the child. Only a suspended context keeps its age: it may go on both in the parent and
 * in the child.
 *
 * In any other class, also in a child of this child, threads were in the middle of their calls, and don't exist here. So no seat and
 * no number of that class is given any more, nobody waits in its queues or looks at its limiters, and nobody takes its locks. The
 * memory of freed classes is used again, though a thread may have been about to leave its last context or mutex there: so these get
 * new locks. Opening is locked.
 */
static void in_child(void)
{
	for (struct ww_open *it = ww_all_open; it; it = it->next) {
		struct ww_pool *p = (struct ww_pool *)it;

		if (was_idle(p)) {
			for (uint32_t k = 0; k < seats_of(p); k++)
				if (!is_suspended(&p->seats[k]))
					stop_rest(&p->seats[k]);
			continue;
		}
		p->gone = true;
		p->is_crowded = false;
		p->tasks.id = NO_ID;
		ww_set_at_hand(p, false);
		for (struct ww_seats *of = &p->threads; of <= &p->tasks; of++) {
			of->lines[WAITS].seekers = 0;
			of->due = UINT64_MAX;
		}
		p->crowd.quiet_until = UINT64_MAX;
	}
	for (struct ww_pool *p = freed; p; p = next_pool(p))
		make_locks(p);
}

/*
 * This thread ends, and gives its own seat in each class, unless a context that was begun by the seat goes on elsewhere. The next
 * thread that gets the seats has ages of its own, so no seat rests. Opening is locked.
 */
static void thread_ends(void)
{
	for (struct ww_open *it = ww_all_open; it; it = it->next) {
		ww_seat *s = it->gone ? NULL : own_seat((struct ww_pool *)it);

		if (s && use_own(s)) {
			stop_rest(s);
			give_seat(s);
		}
	}
}

/* Nobody else uses the library yet. The empty assembly refers to the table for debuggers, so the linker takes that into each program. */
__attribute__((constructor(101))) static void load(void)
{
	__asm__ volatile("" ::"r"(&ww_layout_));
	ww_load(thread_ends, in_child);
}

/* ---- what an open class consists of ---- */

/*
 * The memory of a class that was freed, whose queues are empty; or new memory, in which all but the locks and the queues is 0. NULL if
 * memory is refused.
 */
static struct ww_pool *memory_of_pool(void)
{
	struct ww_pool *p = freed;

	if (p) {
		freed = next_pool(p);
		return p;
	}
	p = aligned_alloc(_Alignof(struct ww_pool), sizeof *p);
	if (!p)
		return NULL;
	memset(p, 0, sizeof *p);
	p->copy = ww_this_copy;
	make_locks(p);
	for (struct ww_seats *of = &p->threads; of <= &p->tasks; of++) {
		of->pool = p;
		for (uint32_t k = 0; k < SERVED; k++)
			of->lines[k].end = &of->lines[k].first;
	}
	return p;
}

/* The bytes of all seats, made or not. */
static size_t bytes_of_seats(const struct ww_pool *p) { return (seats_of(p) + SPARE) * sizeof *p->seats; }

static void keep_memory(struct ww_pool *p)
{
	ww_close_numbers(&p->numbers);
	ww_return_zeros(p->seats, bytes_of_seats(p));
	p->next = (struct ww_open *)freed;
	freed = p;
}

/* Prepares both arrays of seats of a class that is opened, which no other thread sees yet. No seat is made so far. */
static void open_seats_of(struct ww_pool *p)
{
	struct ww_seats *tasks = &p->tasks;

	__atomic_store_n(&p->processors, ww_processors(), __ATOMIC_RELAXED);
	p->threads.count = p->class_->contexts ? p->class_->contexts : MANY_CONTEXTS;
	tasks->count = p->class_->contexts ? 0 : MANY_TASKS;
	p->threads.open = p->threads.count;
	ww_reset_task_limiter(tasks);
	tasks->open = tasks->limiter.width;
	for (struct ww_seats *of = &p->threads; of <= &p->tasks; of++) {
		__atomic_store_n(&of->made, 0, __ATOMIC_RELAXED);
		__atomic_store_n(&of->due, 0, __ATOMIC_RELAXED);
		__atomic_store_n(&of->sought, 0, __ATOMIC_RELAXED);
	}
}

static void close_world(struct ww_pool *p)
{
	for (uint32_t k = 0; k < seats_of(p) + SPARE; k++) {
		ww_seat *s = &p->seats[k];

		if (!is_made(s))
			continue;
		stop_rest(s);
		NOTE(SEAT_CLOSED, .seat = s);
		if (ww_close_(&s->handle))
			abort(); /* can't be: nobody has a seat */
	}
	ww_close_world_(&p->world);
}

/*
 * Makes the spare seat, the first seat that threads come to, and the first that tasks come to. So whoever waits in a queue waits
 * for somebody who has a seat.
 */
static bool make_first_seats(struct ww_pool *p)
{
	p->threads.seats = p->seats;
	p->tasks.seats = &p->seats[p->threads.count - p->tasks.count];
	p->before_own = &p->seats[p->threads.count - 1];
	if (ww_make_seat(p, spare_of(p)) && ww_make_seat(p, p->seats) && (!p->tasks.count || ww_make_seat(p, p->tasks.seats)))
		return true;
	close_world(p);
	return false;
}

/* Opens the world of the proved library that the class has, with its first seats. */
static int open_world(struct ww_pool *p, bool is_wait_die)
{
	uint64_t begins = ((uint64_t)1 << 52) - 1; /* so many contexts may begin by each seat */
	int r;

	ww_heap_opens();
	r = ww_open_world_(is_wait_die, p->numbers.locks, begins, (uint16_t)(seats_of(p) + SPARE), &p->world);
	p->bytes = ww_heap_opened() + bytes_of_seats(p) + ww_bytes_of_numbers(&p->numbers);
	if (r || !make_first_seats(p))
		return r ? r : -ENOMEM;
	p->span = p->numbers.span;
	p->words = (uintptr_t)words_of(p->seats);
	return 0;
}

/* Makes the pool of a class that is opened. If it can't be made, its memory is kept for another class. */
static int make_pool(struct ww_class *c, bool has_own, struct ww_pool **made)
{
	struct ww_pool *p = *made = memory_of_pool();
	bool has_memory;
	int r;

	if (!p)
		return -ENOMEM;
	p->class_ = c;
	p->own_seats = has_own ? MANY_OWN : 0;
	/*
	 * Relaxed: a thread that gave a seat of an earlier class in this memory may read the id (ww_serve), but finds nobody in the
	 * queue.
	 */
	__atomic_store_n(&p->id, ww_new_id(), __ATOMIC_RELAXED);
	p->tasks.id = ~p->id;
	open_seats_of(p);
	__atomic_store_n(&p->ends_waits, false, __ATOMIC_SEQ_CST);
	ww_reset_crowd(p);
	has_memory = ww_open_numbers(&p->numbers, c->mutexes, seats_of(p));
	p->seats = ww_take_zeros(bytes_of_seats(p));
	r = has_memory && p->seats ? ww_debug_open(p) : -ENOMEM;
	if (!r) {
		r = open_world(p, !!c->is_wait_die);
		if (r)
			NOTE(CLASS_FREED, .pool = p);
	}
	if (r)
		keep_memory(p);
	return r;
}

/* ---- how a class is opened ---- */

/* Opens the class, unless it is open. Opening is locked. */
static int open_now(struct ww_class *c, bool has_own)
{
	struct ww_pool *p;
	int r;

	if (c->pool)
		return 0;
	r = ww_prepare();
	if (!r)
		r = make_pool(c, has_own, &p);
	if (r)
		return r;
	p->next = ww_all_open;
	ww_all_open = &p->open;
	__atomic_store_n(&c->pool, p, __ATOMIC_RELEASE);
	return 0;
}

COLD int ww_class_open_with(struct ww_class *c, bool has_own)
{
	int r;

	of_this_copy_alone(__atomic_load_n(&c->pool, __ATOMIC_ACQUIRE));
	pthread_mutex_lock(&ww_opening);
	r = open_now(c, has_own);
	pthread_mutex_unlock(&ww_opening);
	return r;
}

/* A class whose number of contexts the program sets has exactly as many, so no thread has a seat of its own there. */
int ww_class_open(struct ww_class *c) { return ww_class_open_with(c, !NEEDED(c)->contexts); }

int ww_class_open_for(struct ww_class *c, uint32_t contexts, uint32_t keys, size_t *bytes)
{
	int r = ww_class_limit(NEEDED(c), keys, contexts);
	struct ww_pool *p;

	if (!r)
		r = open_pool_of(c, &p);
	if (!r && bytes)
		*bytes = p->bytes;
	return r;
}

size_t ww_class_size(void) { return sizeof(struct ww_class); }
size_t ww_mutex_size(void) { return sizeof(struct ww_mutex); }
size_t ww_acquire_size(void) { return sizeof(struct ww_acquire_ctx); }

void ww_class_init(struct ww_class *c, int is_wait_die, const char *name)
{
	*NEEDED(c) = (struct ww_class){ .is_wait_die = is_wait_die, .name = name };
}

static bool is_open(const struct ww_class *c, const char *call)
{
	bool is = __atomic_load_n(&c->pool, __ATOMIC_RELAXED);

	if (is)
		NOTE_MISUSE(c, call, "the class is open: this comes before its first use");
	return is;
}

int ww_class_limit(struct ww_class *c, uint32_t mutexes, uint32_t contexts)
{
	if (mutexes > WW_MAX_LOCKS - WW_MAX_SEATS || contexts > WW_MAX_SEATS - SPARE) {
		NOTE_MISUSE(c, "ww_class_limit", "a class has at most 16,773,121 mutexes and 4,094 contexts");
		return -EINVAL;
	}
	if (is_open(NEEDED(c), "ww_class_limit"))
		return -EBUSY;
	c->mutexes = mutexes;
	c->contexts = contexts;
	return 0;
}

int ww_class_crowd(struct ww_class *c, uint32_t permits)
{
	if (permits > MANY_PERMITS && permits != WW_NO_CROWD)
		return -EINVAL;
	if (is_open(NEEDED(c), "ww_class_crowd"))
		return -EBUSY;
	c->permits = permits;
	return 0;
}

/* ---- how a mutex gets its number at its first lock ---- */

/*
 * Several threads may lock the mutex first at the same time. One of them gives it its number, under the lock `ww_opening`. From
 * then on `alone`, which shares the memory of `class_`, belongs to the mutex's holders.
 */
COLD int ww_number_at_first(struct ww_mutex *m)
{
	struct ww_class *c = ww_find_class_of(m);
	uint32_t number;
	int r = 0;

	if (!c)
		return -EINVAL;
	of_this_copy_alone(__atomic_load_n(&c->pool, __ATOMIC_ACQUIRE));
	pthread_mutex_lock(&ww_opening);
	if (!pool_at(m)) {
		r = open_now(c, !c->contexts);
		if (!r)
			r = c->pool->gone ? -EINVAL : ww_take_number(&c->pool->numbers, m, &number);
		if (!r) {
			__atomic_store_n(&m->number, number, __ATOMIC_RELAXED); /* who locks a list may look for it already */
			lies_at(&c->pool->numbers, number, m);
			__atomic_store_n(&m->pool, c->pool, __ATOMIC_RELEASE);
		}
	}
	pthread_mutex_unlock(&ww_opening);
	return r;
}

/*
 * A thread that gives the mutex its number holds the lock meanwhile. Once the mutex has a number, its class is that of its pool,
 * since `class_` is overwritten.
 */
struct ww_class *ww_find_class_of(const struct ww_mutex *m)
{
	struct ww_class *c;

	pthread_mutex_lock(&ww_opening);
	c = !m ? NULL : pool_at(m) ? m->pool->class_ : m->class_;
	pthread_mutex_unlock(&ww_opening);
	return c;
}

/* ---- how a class is cancelled, and freed ---- */

/*
 * `ends_waits` is stored before anybody is woken, and a thread or task that is woken looks at `ends_waits` after that. A seat that
 * isn't made yet can't be woken, but its first user looks at `ends_waits`, too, before it sleeps.
 */
int ww_class_cancel(struct ww_class *c)
{
	struct ww_pool *p;
	int r = open_pool_of(NEEDED(c), &p);

	if (r)
		return r;
	__atomic_store_n(&p->ends_waits, true, __ATOMIC_SEQ_CST);
	for (uint32_t k = 0; k < seats_of(p); k++)
		if (is_made(&p->seats[k]))
			ww_unpark(&p->seats[k]);
	ww_end_seeking(&p->threads);
	ww_end_seeking(&p->tasks);
	pthread_mutex_lock(&p->queue);
	ww_call_waiting(p, true);
	pthread_mutex_unlock(&p->queue);
	return 0;
}

/*
 * Frees what the class has, except its pool: a thread that gave a seat may still look there for a waiter to serve, but finds nobody
 * in the queues. The readers' slots are freed here, so that a program without shared mutexes links nothing of shared.c.
 */
static void free_pool(struct ww_pool *p)
{
	NOTE(CLASS_FREED, .pool = p);
	close_world(p);
	for (uint32_t k = 0; k < MANY_BITS; k++)
		for (struct ww_slot *slot; (slot = p->slots[k]); ww_return_zeros(slot, slot->size))
			p->slots[k] = slot->next;
	free(p->numbered);
	p->numbered = NULL;
	keep_memory(p);
}

int ww_class_free(struct ww_class *c)
{
	struct ww_open **at = &ww_all_open;
	struct ww_pool *p;
	int r = 0;

	of_this_copy_alone(__atomic_load_n(&NEEDED(c)->pool, __ATOMIC_ACQUIRE));
	pthread_mutex_lock(&ww_opening);
	p = c->pool;
	if (p && !p->gone)
		ww_reclaim_numbers(&p->numbers);
	if (p && !p->gone && (p->tables || taken_numbers(&p->numbers) || !is_idle(p, false))) {
		r = -EBUSY;
	} else if (p) {
		while (*at != &p->open)
			at = &(*at)->next;
		*at = p->next;
		__atomic_store_n(&c->pool, NULL, __ATOMIC_RELEASE);
		/* In a child of a fork others may have been in the middle of their calls, so the memory of such a class stays as it is. */
		if (!p->gone)
			free_pool(p);
	}
	pthread_mutex_unlock(&ww_opening);
	if (r)
		NOTE(CLASS_STAYS, .class_ = c);
	return r;
}

/* ---- what is said of a class ---- */

void ww_class_stats(struct ww_class *c, struct ww_class_counts *counts)
{
	struct ww_pool *p;

	*NEEDED(counts) = (struct ww_class_counts){ 0 };
	of_this_copy_alone(__atomic_load_n(&NEEDED(c)->pool, __ATOMIC_ACQUIRE));
	pthread_mutex_lock(&ww_opening);
	p = c->pool;
	if (p)
		*counts = (struct ww_class_counts){
			.context_waits = __atomic_load_n(&p->threads.sought, __ATOMIC_RELAXED) +
				__atomic_load_n(&p->tasks.sought, __ATOMIC_RELAXED),
			.permit_waits = __atomic_load_n(&p->crowd.sought, __ATOMIC_RELAXED),
			.context_waiters = waiters_of(&p->threads) + waiters_of(&p->tasks),
			.task_contexts = open_seats(of_tasks(p)),
		};
	for (uint32_t k = 0; p && k < seats_of(p); k++) {
		counts->lock_waits += __atomic_load_n(&p->seats[k].waits, __ATOMIC_RELAXED);
		counts->back_offs += __atomic_load_n(&p->seats[k].back_offs, __ATOMIC_RELAXED);
		counts->contexts += __atomic_load_n(&p->seats[k].busy, __ATOMIC_RELAXED) & BUSY;
	}
	pthread_mutex_unlock(&ww_opening);
}
