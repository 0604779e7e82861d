/*
 * hooks.c - what comes in the place of the thread sanitizer, of system calls, and before each step of the proved library.
 *
 * Here it is seen what threads share, in which order, and whether they may.
 */
#define _GNU_SOURCE
#include "inside.h"
#include "../../admit/seat.h"
#include <errno.h>
#include <linux/futex.h>
#include <pthread.h>
#include <stdarg.h>
#include <stdlib.h>
#include <sys/resource.h>
#include <sys/syscall.h>

enum { SLICE = 100000 }; /* nanoseconds that a sched_yield takes */
static const char core, clock_object; /* what all steps of the proved library, and all looks at the time, are about */

/* Of a byte: when each thread accessed it so. */
enum access { READS, WRITES, READS_ATOMICALLY, WRITES_ATOMICALLY, ACCESSES };
static struct cell {
	uint32_t run;
	uint8_t by, how; /* which threads did, and how, in any run */
	uint16_t last[ACCESSES][WIDE];
} cells[sizeof il.memory + DATA];
/* Sets of bytes: those that are gone, and those that somebody accessed in any run. */
static uint64_t gone[sizeof cells / sizeof *cells / 64], touched[sizeof gone / sizeof *gone];

/* ---- what depends on what: hashes for runs that are alike, clocks for races ---- */

struct object *il_object_of(const volatile void *at)
{
	uintptr_t key = (uintptr_t)at;
	struct object *o = &il.objects[mix(key, 1) % OBJECTS];

	while (o->key && o->key != key)
		o = o == &il.objects[OBJECTS - 1] ? il.objects : o + 1;
	o->key = key;
	if (o->run != il.run) {
		o->run = il.run;
		o->written = o->read = 0;
		memset(&o->clocks, 0, sizeof o->clocks);
	}
	return o;
}

static void happens(struct object *o, bool writes)
{
	uint64_t h = mix(mix(me()->hash, o->key), o->written);

	if (!il.running || il.whole)
		return;
	if (writes) {
		h = mix(h, o->read);
		o->written = h;
		o->read = 0;
	} else {
		o->read += mix(h, 7);
	}
	me()->hash = h;
}

static void join(struct clocks *to, const struct clocks *from)
{
	for (unsigned t = 0; t < ALL; t++)
		if (to->of[t] < from->of[t])
			to->of[t] = from->of[t];
}

static void keep_clocks(struct object *o)
{
	il_keep(&o->clocks);
	il_keep((char *)(&o->clocks + 1) - 1);
}

static void acquire(struct object *o, int order)
{
	if (il.running && order != __ATOMIC_RELAXED && order != __ATOMIC_RELEASE)
		join(&me()->clocks, &o->clocks);
}

/* A store begins what others acquire, and a change goes on with it. */
static void release(struct object *o, int order, bool goes_on)
{
	if (!il.running)
		return;
	if (!o->orders) {
		o->orders = true;
		il_grows();
	}
	keep_clocks(o);
	if (!goes_on)
		memset(&o->clocks, 0, sizeof o->clocks);
	if (order >= __ATOMIC_RELEASE) {
		join(&o->clocks, &me()->clocks);
		me()->clocks.of[il.current]++;
	}
}

/* As an earlier run may have left it; NULL for what is neither in the arena nor data. */
static struct cell *cell_at(uintptr_t at)
{
	uintptr_t k = at - (uintptr_t)il.memory, data = at - (uintptr_t)__start_il_data;

	return k < sizeof il.memory ? &cells[k] :
	       data < (uintptr_t)(__stop_il_data - __start_il_data) ? &cells[sizeof il.memory + data] : NULL;
}

static struct cell *cell_of(uintptr_t at)
{
	struct cell *c = cell_at(at);

	if (c && c->run != il.run)
		*c = (struct cell){ .run = il.run, .by = c->by, .how = c->how };
	return c;
}

/* Those by others that have to be ordered before one. */
static const uint8_t ordered[] = {
	[READS] = 1 << WRITES | 1 << WRITES_ATOMICALLY,
	[WRITES] = 1 << READS | 1 << WRITES | 1 << READS_ATOMICALLY | 1 << WRITES_ATOMICALLY,
	[READS_ATOMICALLY] = 1 << WRITES,
	[WRITES_ATOMICALLY] = 1 << READS | 1 << WRITES,
};

/* Several threads come to it, so that two of them may race. */
static bool may_race(const struct cell *c)
{
	bool plainly = c->how & (1 << READS | 1 << WRITES), writes = c->how & (1 << WRITES | 1 << WRITES_ATOMICALLY);

	return c->by & (c->by - 1) && plainly && writes;
}

static void is_met(struct cell *c, enum access access)
{
	if (c->by >> il.current & 1 && c->how >> access & 1)
		return;
	c->by |= (uint8_t)(1u << il.current);
	c->how |= (uint8_t)(1u << access);
	touched[(size_t)(c - cells) / 64] |= (uint64_t)1 << (c - cells) % 64;
	if (may_race(c))
		il_grows();
}

static bool is_gone(const struct cell *c)
{
	size_t k = (size_t)(c - cells);

	return gone[k / 64] >> k % 64 & 1;
}

/* Whether one of these clocks is ahead of what is known of its thread. */
static bool is_ahead(const uint16_t *clocks, const uint16_t *known)
{
	uint16_t ahead = 0;

	for (unsigned t = 0; t < WIDE; t++)
		ahead |= clocks[t] > known[t];
	return ahead;
}

__attribute__((noreturn, cold)) static void race(const uint16_t *last, const uint16_t *known)
{
	unsigned t = 1;

	while (last[t] <= known[t])
		t++;
	il_fail("a race with what thread %u did", t);
}

static void check_one(struct cell *c, enum access access, const void *pc)
{
	const struct clocks *mine = &me()->clocks;

	il.from = pc;
	if (is_gone(c))
		il_fail("memory is touched that is gone");
	is_met(c, access);
	if (c->last[access][il.current] == mine->of[il.current])
		return; /* Whatever came since then met this. */
	for (enum access k = READS; k < ACCESSES; k++)
		if (ordered[access] >> k & 1 && is_ahead(c->last[k], mine->of))
			race(c->last[k], mine->of);
	il_keep(&c->last[access][il.current]);
	c->last[access][il.current] = mine->of[il.current];
}

/* Of four bytes and more every fourth is looked at: no field is reached in two sizes but by copies of all. */
static void check(const volatile void *at, size_t size, enum access access, const void *pc)
{
	struct cell *c;

	if (!il.running || (uintptr_t)at - (uintptr_t)il.own < il.own_size)
		return;
	for (size_t k = 0; k < size && (c = cell_of((uintptr_t)at + k)); k += size >= 4 ? 4 : 1)
		check_one(c, access, pc);
	il.from = NULL;
}

/* ---- what of the clocks belongs to a state ---- */

/*
 * A clock only counts by what it is compared with: when a thread accessed a cell with how far others have heard of that thread, now
 * or once they come to an object.  So in place of each clock stands how many of the latter it is ahead of; nothing, where all
 * others have heard of it.  Only cells are looked at in which two accesses may race, of any run.
 */
enum { CLOCKS = 1 << 12 };
static struct cell *met[1 << 15];
static struct object *ordering[OBJECTS];
static size_t met_count, ordering_count;
static struct ranks {
	uint64_t heard[CLOCKS / 64];
	uint16_t before[CLOCKS / 64];
} ranks[ALL];
static uint16_t least[WIDE]; /* of which all others have heard */

void il_forget_cells(void)
{
	memset(cells, 0, sizeof cells);
	memset(touched, 0, sizeof touched);
}

bool il_begin_clocks(void)
{
	met_count = ordering_count = 0;
	for (struct cell *c = cells; c < cells + sizeof cells / sizeof *cells; c++)
		if (may_race(c) && met_count < sizeof met / sizeof *met)
			met[met_count++] = c;
	for (struct object *o = il.objects; o < il.objects + OBJECTS; o++)
		if (o->orders)
			ordering[ordering_count++] = o;
	return met_count < sizeof met / sizeof *met;
}

static void hears(unsigned t, uint16_t clock)
{
	if (clock >= CLOCKS)
		il_fail("CLOCKS is too small");
	if (clock > least[t])
		ranks[t].heard[clock / 64] |= (uint64_t)1 << clock % 64;
}

static uint16_t rank_of(unsigned t, uint16_t clock)
{
	uint64_t below = ranks[t].heard[clock / 64] & (((uint64_t)1 << clock % 64) - 1);

	return clock <= least[t] ? 0 : (uint16_t)(1 + ranks[t].before[clock / 64] + __builtin_popcountll(below));
}

static bool is_other(unsigned u, unsigned t) { return u != t && il.threads[u].state != ENDED; }

/* Of the clock of this thread. */
static void rank(unsigned t)
{
	uint16_t sum = 0;

	memset(ranks[t].heard, 0, sizeof ranks[t].heard);
	for (unsigned u = 1; u <= il.count; u++)
		if (is_other(u, t) && il.threads[u].clocks.of[t] < least[t])
			least[t] = il.threads[u].clocks.of[t];
	for (unsigned u = 1; u <= il.count; u++)
		if (is_other(u, t))
			hears(t, il.threads[u].clocks.of[t]);
	for (size_t k = 0; k < ordering_count; k++)
		if (ordering[k]->run == il.run)
			hears(t, ordering[k]->clocks.of[t]);
	for (unsigned k = 0; k < CLOCKS / 64; k++) {
		ranks[t].before[k] = sum;
		sum = (uint16_t)(sum + __builtin_popcountll(ranks[t].heard[k]));
	}
}

/* Of these clocks the ranks that aren't 0, each with its place among all. */
static uint64_t *add_ranks(uint64_t *at, uint64_t place, const uint16_t *clocks)
{
	if (is_ahead(clocks, least))
		for (unsigned t = 1; t <= il.count; t++)
			if (clocks[t] > least[t])
				*at++ = (place * ALL + t) << 16 | rank_of(t, clocks[t]);
	return at;
}

const void *il_clocks(size_t *size)
{
	static uint64_t are[IL_THREADS * (sizeof met / sizeof *met * ACCESSES + OBJECTS + ALL)];
	uint64_t *at = are;

	memset(least, 0xff, sizeof least);
	for (unsigned t = 1; t <= il.count; t++) {
		rank(t);
		for (unsigned u = 1; u <= il.count; u++)
			*at++ = is_other(u, t) ? rank_of(t, il.threads[u].clocks.of[t]) : 0;
	}
	for (size_t k = 0; k < ordering_count; k++)
		if (ordering[k]->run == il.run)
			at = add_ranks(at, k, ordering[k]->clocks.of);
	for (size_t k = 0; k < met_count; k++)
		for (enum access a = READS; met[k]->run == il.run && a < ACCESSES; a++)
			at = add_ranks(at, OBJECTS + k * ACCESSES + a, met[k]->last[a]);
	*size = (size_t)((char *)at - (char *)are);
	return are;
}

/* ---- memory ---- */

void *il_new(size_t size)
{
	size_t at = (il.used + 127) / 64 * 64;

	if (at + size > ARENA)
		il_fail("the arena is too small");
	*(size_t *)(void *)&il.memory[at - 64] = size;
	il.used = at + size;
	return &il.memory[at];
}

void il_forget_gone(void)
{
	if (il.gone)
		memset(gone, 0, sizeof gone);
	il.gone = 0;
}

/* Whoever touches a byte later finds that it is gone; so a byte that nobody touched in any run needs no look. */
void il_gone(void *at, size_t size)
{
	size_t from = (size_t)(cell_at((uintptr_t)at) - cells), to = from + size;

	il_commit(me());
	for (size_t k = from, next; k < to && il.running; k = next) {
		uint64_t *word = &gone[k / 64], these = UINT64_MAX << k % 64;

		next = k / 64 * 64 + 64;
		if (next > to)
			these &= UINT64_MAX >> (next - to);
		for (uint64_t met = these & (*word | touched[k / 64]); met; met &= met - 1)
			check_one(cell_of((uintptr_t)at + next - 64 + (unsigned)__builtin_ctzll(met) - from), WRITES, PC);
		il_keep(word);
		*word |= these;
	}
	if (il.running)
		il.gone += mix(mix((uintptr_t)at, size), 13);
	memset(at, 0xdb, size);
}

void __real_free(void *at);
void *__wrap_malloc(size_t size) { return il_new(size); }
void *__wrap_calloc(size_t count, size_t size) { return il_new(count * size); }
void *__wrap_aligned_alloc(size_t align, size_t size) { return (void)align, il_new(size); }
/* What isn't in the arena the C library gave. */
void __wrap_free(void *at)
{
	if ((uintptr_t)at - (uintptr_t)il.memory >= sizeof il.memory)
		__real_free(at);
	else
		il_gone(at, *(size_t *)(void *)((char *)at - 64));
}

/* In place of mmap and munmap where the library calls these: for slots. */
void *il_mmap(void *at, size_t size, int protection, int flags, int file, off_t from);
void *il_mmap(void *at, size_t size, int protection, int flags, int file, off_t from)
{
	(void)at, (void)protection, (void)flags, (void)file, (void)from;
	return il_new(size);
}
int il_munmap(void *at, size_t size);
int il_munmap(void *at, size_t size) { return il_gone(at, size), 0; }

/* ---- atomic accesses ---- */

_Static_assert(__BYTE_ORDER__ == __ORDER_LITTLE_ENDIAN__, "the lowest bytes come first");
static uint64_t get(const volatile void *at, unsigned size)
{
	uint64_t value = 0;

	memcpy(&value, (const void *)(uintptr_t)at, size);
	return value;
}

static void put(volatile void *at, unsigned size, uint64_t value) { memcpy((void *)(uintptr_t)at, &value, size); }

void il_commit(struct thread *it)
{
	for (unsigned k = 0; k < it->lates; k++) {
		il_puts(it->late[k].at, get(it->late[k].at, it->late[k].size), it->late[k].value, it->late[k].pc);
		put(it->late[k].at, it->late[k].size, it->late[k].value);
		il_note(il_object_of(it->late[k].at), true);
		happens(il_object_of(it->late[k].at), true);
	}
	it->lates = 0;
}

/* The last late store that meets this, whose own thread sees it at once. */
static const struct late_store *late_at(const volatile void *at, size_t size)
{
	const struct thread *it = me();

	for (unsigned k = it->lates; k--;)
		if ((uintptr_t)it->late[k].at < (uintptr_t)at + size && (uintptr_t)at < (uintptr_t)it->late[k].at + it->late[k].size)
			return &it->late[k];
	return NULL;
}

static uint64_t seen(const volatile void *at, unsigned size)
{
	const struct late_store *late = late_at(at, size);

	return late ? late->value : get(at, size);
}

static struct object *order_of(const ww_handle *h, uint32_t lock);

/* Whether this is the owner word of a lock: a look at it that orders what comes later is as ww_look_. */
static bool is_look(const volatile void *at, int order, uint32_t *lock)
{
	const struct ww_pool *p = il_class->pool;
	uintptr_t behind = p ? (uintptr_t)at - p->words : 0;

	*lock = (uint32_t)(behind / (2 * sizeof(uint64_t)));
	return p && order == __ATOMIC_SEQ_CST && behind < p->numbers.locks * 2 * sizeof(uint64_t);
}

static uint64_t load(const volatile void *at, unsigned size, int order, const void *pc)
{
	uint32_t lock;
	bool looks = is_look(at, order, &lock);
	struct object *o = looks ? il_before(&core, true, "look", pc) : il_before(at, false, "load", pc);
	uint64_t value = seen(at, size);

	check(at, size, READS_ATOMICALLY, pc);
	happens(o, looks);
	acquire(looks ? order_of(&il_class->pool->seats->handle, lock) : o, order);
	il_access(IL_READS, at, value, value, pc);
	il_gets(at, value, pc);
	return value;
}

/* On a stack what isn't instrumented writes too, so nothing is delayed there. */
static bool may_be_late(const struct object *o, const volatile void *at, int order)
{
	return il.running && il.flags & IL_DELAYS && order != __ATOMIC_SEQ_CST && (il_is_shared(o) || il.replay) &&
	       (uintptr_t)at - (uintptr_t)il.memory - ARENA >= IL_THREADS * STACK;
}

static void store(volatile void *at, unsigned size, uint64_t value, int order, const void *pc)
{
	struct object *o = il_before(at, true, "store", pc);
	struct thread *it = me();

	check(at, size, WRITES_ATOMICALLY, pc);
	il_stores(at, get(at, size), value, pc);
	il_access(IL_STORES, at, seen(at, size), value, pc);
	if (it->lates < LATES && may_be_late(o, at, order) && (it->lates || il_chooses(COMMITS, DELAYS))) {
		it->late[it->lates++] = (struct late_store){ (void *)(uintptr_t)at, value, size, pc };
	} else {
		il_commit(it);
		il_puts(at, get(at, size), value, pc);
		put(at, size, value);
		happens(o, true);
	}
	release(o, order, false);
}

enum change { EXCHANGES, ADDS, ORS, ANDS, COMPARES };

/* What was there; where it compares, nothing is changed unless that is as expected. */
static uint64_t change(volatile void *at, unsigned size, enum change how, uint64_t by, uint64_t is, const int orders[2], const void *pc)
{
	struct object *o = il_before(at, true, "change", pc);
	uint64_t old, put_there;
	bool changes;

	il_commit(me());
	old = get(at, size);
	put_there = how == ADDS ? old + by : how == ORS ? (old | by) : how == ANDS ? (old & by) : by;
	changes = how != COMPARES || old == is;
	check(at, size, changes ? WRITES_ATOMICALLY : READS_ATOMICALLY, pc);
	happens(o, changes);
	acquire(o, orders[!changes]);
	if (size == 4)
		put_there = (uint32_t)put_there;
	il_access(changes ? IL_CHANGES : IL_FAILS, at, old, changes ? put_there : old, pc);
	if (changes) {
		il_stores(at, old, put_there, pc);
		il_puts(at, old, put_there, pc);
		put(at, size, put_there);
		release(o, orders[0], true);
	}
	return old;
}

#define CHANGE(n, type, name, how, by)                                                                 \
	type __tsan_atomic##n##_##name(volatile type *at, type value, int order)                       \
	{                                                                                              \
		return (type)change(at, sizeof *at, how, by, 0, (const int[]){ order, 0 }, PC);        \
	}
#define COMPARE(n, type, name)                                                                         \
	int __tsan_atomic##n##_##name(volatile type *at, type *is, type value, int order, int fails)   \
	{                                                                                              \
		type old = (type)change(at, sizeof *at, COMPARES, value, *is, (const int[]){ order, fails }, PC), was = *is; \
		*is = old;                                                                             \
		return old == was;                                                                     \
	}
#define HOOKS(n, type)                                                                                 \
	type __tsan_atomic##n##_load(const volatile type *at, int order) { return (type)load(at, sizeof *at, order, PC); } \
	void __tsan_atomic##n##_store(volatile type *at, type value, int order) { store(at, sizeof *at, value, order, PC); } \
	CHANGE(n, type, exchange, EXCHANGES, value) CHANGE(n, type, fetch_add, ADDS, value) CHANGE(n, type, fetch_sub, ADDS, -(uint64_t)value) \
	CHANGE(n, type, fetch_or, ORS, value) CHANGE(n, type, fetch_and, ANDS, value) \
	COMPARE(n, type, compare_exchange_strong) COMPARE(n, type, compare_exchange_weak)
HOOKS(8, uint8_t)
HOOKS(32, uint32_t)
HOOKS(64, uint64_t)

/* ---- plain accesses: nobody runs between two of them, since a race of theirs fails anyway ---- */

static void plain(void *at, size_t size, enum access access, const void *pc)
{
	if (me()->lates && late_at(at, size))
		il_commit(me());
	check(at, size, access, pc);
}

#define PLAIN(bytes)                                                                                   \
	void __tsan_read##bytes(void *at) { plain(at, bytes, READS, PC); }                             \
	void __tsan_write##bytes(void *at) { plain(at, bytes, WRITES, PC); }
PLAIN(1)
PLAIN(2)
PLAIN(4)
PLAIN(8)
PLAIN(16)
void __tsan_read_range(void *at, size_t size) { plain(at, size, READS, PC); }
void __tsan_write_range(void *at, size_t size) { plain(at, size, WRITES, PC); }
void __tsan_init(void) {}
void __tsan_func_entry(void *pc) { (void)pc; }
void __tsan_func_exit(void) {}

/* ---- pthreads: the first word of a mutex says who has it ---- */

static struct object *at_mutex(pthread_mutex_t *m, const char *op, const void *pc)
{
	struct object *o = il_before(m, true, op, pc);

	il_commit(me());
	check(m, 4, WRITES_ATOMICALLY, pc);
	happens(o, true);
	return o;
}

int __wrap_pthread_mutex_lock(pthread_mutex_t *m)
{
	uint32_t *owner = (uint32_t *)(void *)m;
	struct object *o;

	while (o = at_mutex(m, "mutex lock", PC), *owner) {
		if (!il.running || *owner == il.current + 1 || me()->inside)
			il_fail(me()->inside ? "it waits for a mutex inside a guard" : "a mutex that its own thread has is locked");
		me()->state = BLOCKED;
		me()->word = owner;
		il_switch_away();
	}
	*owner = il.current + 1;
	il_has(il_lock_bit(m, 0));
	acquire(o, __ATOMIC_ACQUIRE);
	return 0;
}

int __wrap_pthread_mutex_trylock(pthread_mutex_t *m)
{
	uint32_t *owner = (uint32_t *)(void *)m;
	struct object *o = at_mutex(m, "mutex trylock", PC);

	if (*owner)
		return EBUSY;
	*owner = il.current + 1;
	il_has(il_lock_bit(m, 0));
	acquire(o, __ATOMIC_ACQUIRE);
	return 0;
}

int __wrap_pthread_mutex_unlock(pthread_mutex_t *m)
{
	uint32_t *owner = (uint32_t *)(void *)m;

	release(at_mutex(m, "mutex unlock", PC), __ATOMIC_RELEASE, true);
	il_unlocks(m, PC);
	if (*owner != il.current + 1)
		il_fail("a mutex that another has is unlocked");
	*owner = 0;
	il_has_no_more(il_lock_bit(m, 0));
	for (unsigned t = 1; t <= il.count; t++)
		if (il.threads[t].state == BLOCKED && il.threads[t].word == owner)
			il.threads[t].state = READY;
	return 0;
}

int __wrap_pthread_key_create(pthread_key_t *key, void (*destructor)(void *)) { return *key = 0, il.destructor = destructor, 0; }
int __wrap_pthread_key_delete(pthread_key_t key) { return (void)key, 0; }
int __wrap_pthread_setspecific(pthread_key_t key, const void *value)
{
	return (void)key, me()->specific = (void *)(uintptr_t)value, 0;
}
int __wrap_pthread_atfork(void (*first)(void), void (*second)(void), void (*third)(void)) { return !first && !second && !third; }

/* ---- the system ---- */

static long futex_wait(uint32_t *word, uint32_t is, const struct timespec *until)
{
	struct object *o = il_before(word, true, "futex wait", PC);

	il_commit(me());
	check(word, 4, READS_ATOMICALLY, PC);
	happens(o, true);
	if (*word != is || (until && time_of(until) <= il.now))
		return -1;
	if (!il.running || me()->inside)
		il_fail(me()->inside ? "it sleeps inside a guard" : "the first thread sleeps");
	il_waits("waits", PC);
	me()->word = word;
	me()->is = is;
	me()->until = until;
	me()->state = SLEEPS;
	il_yielded();
	il_switch_away();
	return 0;
}

/* By its address alone, so nothing of that is looked at. */
static long futex_wake(uint32_t *word, uint32_t many)
{
	struct object *o = il_before(word, true, "futex wake", PC);
	uint32_t woken = 0;

	il_commit(me());
	happens(o, true);
	for (unsigned t = 1; t <= il.count && woken < many; t++)
		if (il.threads[t].state == SLEEPS && il.threads[t].word == word) {
			il.threads[t].state = READY;
			woken++;
		}
	return woken;
}

long __wrap_syscall(long number, ...)
{
	va_list list;
	uint32_t *word, is;
	int command;

	if (number == SYS_gettid)
		return (long)il.current;
	va_start(list, number);
	if (number != SYS_futex)
		il_fail("another call of the system");
	word = va_arg(list, uint32_t *);
	command = va_arg(list, int) & FUTEX_CMD_MASK;
	is = va_arg(list, uint32_t);
	return command == FUTEX_WAKE ? futex_wake(word, is) : futex_wait(word, is, va_arg(list, const struct timespec *));
}

/* No thread sleeps elsewhere than in the library. */
int __wrap_getrusage(int who, struct rusage *is) { return (void)who, *is = (struct rusage){ 0 }, 0; }

/* How the debug library came to what it tells. */
int __wrap_backtrace(void **calls, int most) { return (void)calls, (void)most, 0; }
void __wrap_backtrace_symbols_fd(void *const *calls, int count, int to) { (void)calls, (void)count, (void)to; }

/* A thread that rests since the library said so needn't switch: whatever waits at a guard does as its step answers that. */
int __wrap_sched_yield(void)
{
	if (me()->inside)
		il_fail("it yields inside a guard");
	return me()->skew += SLICE, 0;
}

/* Somebody has it for a moment: whoever isn't inside a guard lets others run first. */
void __wrap_ww_await_guard(unsigned *looks, uint64_t *until) { (void)looks, (void)until, il_yield(); }

/* The time that somebody asked for may come at each look. */
int __wrap_clock_gettime(clockid_t id, struct timespec *at)
{
	long long now;
	bool ticks;

	me()->coming = PC;
	ticks = il.running && il.asked > il.now && il_chooses(STANDS, TICKS);
	if (ticks)
		il_let_time_pass(il.asked);
	happens(il_object_of(&clock_object), ticks);
	now = il.now + me()->skew;
	*at = (struct timespec){ .tv_sec = now / 1000000000, .tv_nsec = now % 1000000000 };
	return (void)id, 0;
}

/* ---- the proved library, of which each call is one step ---- */

static void step(const char *op, const void *pc)
{
	struct object *o = il_before(&core, true, op, pc);

	il_commit(me());
	happens(o, true);
}

/* Where steps are looked into: before each atomic access of the core (tests.mk puts a call of entry.S there). */
void il_inside(const void *pc)
{
	if (il.running && il.flags & IL_INSIDE)
		step("inside", pc);
}

/* One thread at a time uses a handle; one that is empty is no seat's. */
static void by_any(const ww_handle *h, const void *pc)
{
	if (!h->at)
		return;
	check(h, sizeof *h, WRITES, pc);
	il_calls(h, pc);
}

/* It is the seat's user. */
static void by(const ww_handle *h, const void *pc)
{
	by_any(h, pc);
	il_uses(h, pc);
}

static int32_t answered(const ww_handle *h, int32_t r)
{
	if (h->at)
		il_answers(h, r);
	il_steps(NULL);
	return r;
}

static int32_t looked(const ww_handle *h, int32_t r)
{
	if (h->at)
		il_looked(h);
	return r;
}

/* What a lock orders. */
static struct object *order_of(const ww_handle *h, uint32_t lock)
{
	return il_object_of((const void *)((uintptr_t)((const ww_seat *)(const void *)h)->pool + ((uintptr_t)lock << 33) + 3));
}

/* The lock of a seat's call, with which another thread may go on. */
static uint32_t *wanted_by(const ww_handle *h)
{
	static GHOST struct wanted {
		uint32_t run, lock;
	} wanted[SEATS];
	struct wanted *it;
	const ww_seat *s = (const void *)h;

	it = &wanted[s - s->pool->seats];
	if (it->run != il.run) {
		it->run = il.run;
		it->lock = UINT32_MAX;
	}
	return &it->lock;
}

static void wants(const ww_handle *h, uint32_t lock)
{
	if (h->at)
		*wanted_by(h) = lock;
}

static int32_t locked(const ww_handle *h, int32_t r)
{
	answered(h, r);
	if (r == 0 && h->at && *wanted_by(h) != UINT32_MAX) {
		acquire(order_of(h, *wanted_by(h)), __ATOMIC_ACQUIRE);
		il_has(il_lock_bit(NULL, *wanted_by(h)));
	}
	if (r <= 0)
		wants(h, UINT32_MAX);
	return r;
}

#define STEP(name, ...) int32_t __real_##name(__VA_ARGS__); int32_t __wrap_##name(__VA_ARGS__)
#define LOCKS(name)                                                                                    \
	STEP(name, ww_handle *h, uint32_t lock, bool heeds)                                            \
	{                                                                                              \
		return step(#name, PC), by(h, PC), wants(h, lock), locked(h, __real_##name(h, lock, heeds)); \
	}
LOCKS(ww_lock_)
LOCKS(ww_lock_slow_)
STEP(ww_begin_, ww_handle *h) { return step("ww_begin_", PC), by(h, PC), answered(h, __real_ww_begin_(h)); }
/* Also by whoever frees the class, where a seat rests. */
STEP(ww_end_, ww_handle *h) { return step("ww_end_", PC), by_any(h, PC), answered(h, __real_ww_end_(h)); }
/* Also by who makes the seat. */
STEP(ww_cancel_, ww_handle *h, uint16_t victim)
{
	return step("ww_cancel_", PC), by_any(h, PC), answered(h, __real_ww_cancel_(h, victim));
}
/* One thread at a time. */
STEP(ww_open_seat_, ww_world *world, uint16_t number, ww_handle *h)
{
	step("ww_open_seat_", PC);
	check(world, sizeof *world, WRITES, PC);
	check(h, sizeof *h, WRITES, PC);
	return __real_ww_open_seat_(world, number, h);
}
STEP(ww_try_, ww_handle *h, uint32_t lock)
{
	return step("ww_try_", PC), by(h, PC), wants(h, lock), locked(h, __real_ww_try_(h, lock));
}
STEP(ww_unlock_, ww_handle *h, uint32_t lock)
{
	if (h->at) {
		step("ww_unlock_", PC), by(h, PC), wants(h, UINT32_MAX);
		release(order_of(h, lock), __ATOMIC_RELEASE, true);
		il_has_no_more(il_lock_bit(NULL, lock));
	}
	return answered(h, __real_ww_unlock_(h, lock));
}
STEP(ww_is_free_, ww_handle *h, uint32_t lock)
{
	int32_t r = (step("ww_is_free_", PC), by(h, PC), __real_ww_is_free_(h, lock));

	if (!r) {
		acquire(order_of(h, lock), __ATOMIC_ACQUIRE);
		il_finds_free(h, lock, PC);
	}
	return answered(h, r);
}
/* These look at something, and leave the call that is on its way as it was. A look sees what came before whatever it sees. */
STEP(ww_look_, ww_handle *h, uint32_t lock)
{
	int32_t r = (step("ww_look_", PC), by(h, PC), looked(h, __real_ww_look_(h, lock)));

	acquire(order_of(h, lock), __ATOMIC_ACQUIRE);
	return r;
}
STEP(ww_is_wounded_, ww_handle *h) { return step("ww_is_wounded_", PC), by(h, PC), looked(h, __real_ww_is_wounded_(h)); }
/* This looks at nothing but its own seat. */
STEP(ww_has_, ww_handle *h, uint32_t lock) { return by(h, PC), looked(h, __real_ww_has_(h, lock)); }
/* It changes how a call waits that is on its way, and makes no step of it. */
STEP(ww_heed_, ww_handle *h) { return check(h, sizeof *h, WRITES, PC), __real_ww_heed_(h); }
STEP(ww_close_, ww_handle *h) { return il_closes(), __real_ww_close_(h); }
STEP(ww_next_wake_, ww_handle *h) { return check(h, sizeof *h, WRITES, PC), il_names(h, __real_ww_next_wake_(h), PC); }

STEP(ww_go_on_, ww_handle *h)
{
	int32_t r = (step("ww_go_on_", PC), by(h, PC), locked(h, __real_ww_go_on_(h)));

	me()->inside = r == WW_AGAIN;
	if (r == WW_AWAITS && il.running) {
		il_yielded();
		il_switch_away();
	}
	return r;
}

/* ---- what programs ask ---- */

struct timespec il_in(long nanoseconds)
{
	il.asked = il.now + nanoseconds;
	return (struct timespec){ .tv_sec = il.asked / 1000000000, .tv_nsec = il.asked % 1000000000 };
}

void il_await(uint32_t *word)
{
	while (!load(word, 4, __ATOMIC_ACQUIRE, PC))
		futex_wait(word, 0, NULL);
}

void il_set(uint32_t *word)
{
	store(word, 4, 1, __ATOMIC_RELEASE, PC);
	while (futex_wake(word, 1))
		;
}
