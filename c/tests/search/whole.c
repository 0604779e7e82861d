/*
 * whole.c - every schedule of a program, without a bound: a search of states, where interleave.c has one of runs.
 *
 * At each choice the whole state is hashed.  A state that was met before isn't gone on from, since all that can follow
 * it was tried, or will be.  Of a new one each option is tried in turn, the first one at once, and each further one
 * from a copy of the state.  (Copies stand in place of replays from the beginning, which take 50 us.  A state has some 40 KB, at
 * addresses that stay; a copy has only threads and their stacks, since the rest is kept as it was hashed last, and each block
 * that changes is noted as it was.)
 *
 * Two equal states are two equal futures, since what comes next depends on nothing but what is hashed:
 *
 *	memory		all that was given out, so what the library and the core have in it, mutexes and stacks of others too
 *	data		of the library and of the program
 *	each thread	what it has for itself; whether it goes on, and else why not, on what word and until when; late stores
 *	its place	the registers with which it called the runtime, the stack from there on, and where in that call it is
 *	time		what time it is, and which one is waited for; what memory is gone
 *	checkers	what moves.c, seats.c and readers.c know
 *	races		what the clocks come to: which is ahead of which, as far as anybody may still compare them (hooks.c)
 *
 * Of a call of the runtime nothing below that place is hashed: its words are those that the registers hand over, and no
 * call keeps others across a choice.  Who chooses is no part of the state either, since whoever is ready may go on next;
 * but where a choice is one thread's alone, it is.
 *
 * Two states that differ have the same hash of 128 bits with a probability of 2^-128, if the hash is as good as a drawn
 * one.  So among ten million states some two have the same with one of 2 * 10^-25, and then something may be missed.
 *
 * Not each access is a choice.  A thread goes on without one
 *
 *	where no other thread, from where it stands on, accesses the same word in a way that can't be exchanged with this
 *	one, so that neither of the two writes, or the other is past all its accesses of that word; and
 *	under a lock, of the C library or of the proved one, that is held at each access of that word.
 *
 * In both cases no other thread can come to anything that depends on this access before this thread has made it: so
 * whatever others do first they can do behind it, with the same outcome (the thread alone is a persistent set: Godefroid
 * 1996).  No thread is put off for ever by this: who goes on without a choice comes to one, waits or ends, or else has
 * no end, which is told.
 *
 * How far in its text a thread accesses a word, and under which locks, is what was seen in any run; where more is seen,
 * all begins anew with that.  So in the last pass, the one that counts, nothing is seen that wasn't known.  That is
 * enough: if some schedule made an access that wasn't known, take the shortest way to one from a state of this pass.
 * What comes before it on that way was known, so the pass has that way as well, in another order; and it would have
 * seen the access.
 *
 * A run without an end is a way round through states.  Fairness would be hard to ask of it, but from each state some
 * schedule has to come to an end.  So a thread that goes round by itself, and would go on once another one is let in, is
 * no failure here: it is one of the search by bounds 0 and 1, which comes first (explore_whole).
 */
#define _GNU_SOURCE
#include "inside.h"
#include <limits.h>
#include <stdio.h>
#include <stdlib.h>
#include <sys/mman.h>
#include <sys/time.h>

enum { FEW_STATES = 1 << 16, MOST_STATES = 1 << 24, MOST_EDGES = 1 << 27, MOST_LOGGED = 1 << 24, MOST_CHANGES = 1 << 22 };
enum { DRAWN = 1000, MOST_DRAWN = 20000 }; /* until so many show nothing new */
static const size_t MOST_COPIED = (size_t)2 << 30;

extern char __start_il_ghost[], __stop_il_ghost[];
static size_t data_size(void) { return (size_t)(__stop_il_data - __start_il_data); }
static size_t ghost_size(void) { return (size_t)(__stop_il_ghost - __start_il_ghost); }
static const char *top_of(unsigned t) { return &il.memory[ARENA + t * STACK]; }

/* Not by malloc, which is the library's here. */
static void *pages(size_t size)
{
	void *p = mmap(NULL, size, PROT_READ | PROT_WRITE, MAP_PRIVATE | MAP_ANONYMOUS | MAP_NORESERVE, -1, 0);

	if (p == MAP_FAILED)
		exit((fputs("interleave: no memory\n", stderr), 2));
	return p;
}

/* ---- the hash of a state ---- */

struct key {
	uint64_t half[2];
};
__extension__ typedef unsigned __int128 wide;

static uint64_t fold(uint64_t a, uint64_t b)
{
	wide product = (wide)a * b;

	return (uint64_t)product ^ (uint64_t)(product >> 64);
}

static void add(struct key *key, uint64_t a, uint64_t b)
{
	key->half[0] = fold(key->half[0] ^ a ^ 0xa0761d6478bd642fu, b ^ 0xe7037ed1a0b428dbu);
	key->half[1] = fold(key->half[1] ^ b ^ 0x8ebc6af09c88c6e3u, a ^ 0x589965cc75374cc3u);
}

/* Two at a time, since each waits for a product. */
static void add_all(struct key *key, const void *from, size_t size)
{
	const char *at = from;
	struct key second = { { size ^ 0x1d8e4e27c47d124fu, ~size } };

	for (; size; at += 32) {
		uint64_t words[4] = { 0 };
		size_t many = size < sizeof words ? size : sizeof words;

		memcpy(words, at, many);
		add(key, words[0], words[1]);
		add(&second, words[2], words[3]);
		size -= many;
	}
	add(key, second.half[0], second.half[1]);
}

/* What is alike in most states that follow one another: only a block that has changed is hashed anew, and is noted as it was. */
enum { BLOCK = 512, REGIONS = 3 };
static struct region {
	char *last;
	struct key *blocks, sum;
} regions[REGIONS];
static struct change {
	struct region *in;
	size_t block;
	struct key key;
	char was[BLOCK];
} *changes;
static size_t change_count;

static void set_block(struct region *r, size_t block, struct key key, const char *is, size_t size)
{
	for (unsigned k = 0; k < 2; k++)
		r->sum.half[k] += key.half[k] - r->blocks[block].half[k];
	r->blocks[block] = key;
	memcpy(r->last + block * BLOCK, is, size);
}

static void add_region(struct key *key, struct region *r, const char *from, size_t size)
{
	for (size_t at = 0, block = 0; at < size; at += BLOCK, block++) {
		size_t many = size - at < BLOCK ? size - at : BLOCK;
		struct key was = r->blocks[block], is = { { at, ~at } };
		struct change *change = &changes[change_count];

		if (!memcmp(r->last + at, from + at, many) && (was.half[0] || was.half[1]))
			continue;
		change_count++;
		*change = (struct change){ .in = r, .block = block, .key = was };
		memcpy(change->was, r->last + at, BLOCK);
		add_all(&is, from + at, many);
		set_block(r, block, is, from + at, many);
	}
	add(key, r->sum.half[0], r->sum.half[1]);
}

static void add_thread(struct key *key, unsigned t)
{
	const struct thread *it = &il.threads[t];
	const char *from = (const char *)it->entry.stack;

	add(key, it->state, it->inside);
	if (it->state == SLEEPS || it->state == BLOCKED)
		add(key, (uintptr_t)it->word, it->is);
	if (it->state == SLEEPS)
		add(key, (uintptr_t)it->until, 0);
	add(key, (uintptr_t)it->specific, (uint64_t)it->skew);
	add(key, it->lates, 0);
	for (unsigned k = 0; k < it->lates; k++) {
		add(key, (uintptr_t)it->late[k].at, it->late[k].value);
		add(key, it->late[k].size, 0);
	}
	if (it->state == ENDED)
		return;
	add_all(key, it->own, il.own_size);
	add_all(key, &it->entry, offsetof(struct entry, pc));
	add(key, (uintptr_t)it->place, (uintptr_t)from);
	if (from)
		add_all(key, from, (size_t)(top_of(t) - from));
}

static size_t most_used; /* in this pass; what lies behind what is used is 0 */

static struct key state_now(bool is_of_one)
{
	struct key key = { { il.count, is_of_one ? il.current : 0 } };
	size_t clocks;
	const void *ranks = il_clocks(&clocks);

	add(&key, il.used, il.gone);
	add(&key, (uint64_t)il.now, (uint64_t)il.asked);
	most_used = most_used < il.used ? il.used : most_used;
	add_region(&key, &regions[0], il.memory, most_used);
	add_region(&key, &regions[1], __start_il_data, data_size());
	add_region(&key, &regions[2], __start_il_ghost, ghost_size());
	for (unsigned t = 1; t <= il.count; t++)
		add_thread(&key, t);
	add_all(&key, ranks, clocks);
	return key;
}

/* ---- the states that were met, and how one comes from one to another ---- */

static struct {
	struct found {
		struct key key;
		uint32_t number; /* from 1 */
	} *found;
	size_t room;
	uint32_t count;
	bool *end; /* of each whether an end can be reached */
} states;

static struct edge {
	uint32_t from, to, point;
	uint8_t what, thread;
} *edges;
static size_t edge_count;

static struct found *place_in(struct found *found, size_t room, struct key key)
{
	size_t k = key.half[0] & (room - 1);

	while (found[k].number && memcmp(&found[k].key, &key, sizeof key))
		k = (k + 1) & (room - 1);
	return &found[k];
}

static void widen(void)
{
	size_t room = states.room ? 2 * states.room : FEW_STATES;
	struct found *found = pages(room * sizeof *found);

	for (size_t k = 0; k < states.room; k++)
		if (states.found[k].number)
			*place_in(found, room, states.found[k].key) = states.found[k];
	if (states.found)
		munmap(states.found, states.room * sizeof *found);
	states.found = found;
	states.room = room;
}

static void forget_states(void)
{
	if (states.found)
		munmap(states.found, states.room * sizeof *states.found);
	states.found = NULL;
	states.room = states.count = 0;
	widen();
}

/* ---- copies of states ---- */

/* What was in words that no copy has: clocks, of which few change at a time. */
static struct logged {
	uint64_t *at, was;
} *logged;
static size_t logged_count;

void il_keep(void *word)
{
	uint64_t *at = (uint64_t *)((uintptr_t)word & ~(uintptr_t)7);

	if (!il.whole || !il.running || il.drawing || il.replay)
		return;
	if (logged_count == MOST_LOGGED)
		il_fail("MOST_LOGGED is too small");
	logged[logged_count++] = (struct logged){ at, *at };
}

/* A state whose options aren't all tried. */
static struct node {
	struct option options[4 * ALL];
	uint32_t number, point;
	size_t copy, logged_count, change_count, used;
	unsigned current;
	long long now, asked;
	uint64_t gone;
} *nodes;
static char *copies;
static size_t copied;

static char *copy_part(char *at, void *part, size_t size, bool back)
{
	memcpy(back ? part : at, back ? at : part, size);
	return at + size;
}

/* The stack of each thread that goes on, or chooses who does. */
static char *copy_threads(char *at, bool back)
{
	at = copy_part(at, &il.threads[1], il.count * sizeof *il.threads, back);
	for (unsigned t = 1; t <= il.count; t++) {
		char *stack = il.threads[t].stack;

		if (il.threads[t].state != ENDED || t == il.current)
			at = copy_part(at, stack, (size_t)(top_of(t) - stack), back);
	}
	return at;
}

/* The rest of the state is as it was hashed last. */
static void save(struct node *n)
{
	n->point = il.point;
	n->copy = copied;
	n->logged_count = logged_count;
	n->change_count = change_count;
	n->used = il.used;
	n->current = il.current;
	n->now = il.now;
	n->asked = il.asked;
	n->gone = il.gone;
	copied = (size_t)(copy_threads(copies + copied, false) - copies);
}

static void restore(const struct node *n)
{
	for (; logged_count > n->logged_count; logged_count--)
		*logged[logged_count - 1].at = logged[logged_count - 1].was;
	for (; change_count > n->change_count; change_count--) {
		const struct change *it = &changes[change_count - 1];

		set_block(it->in, it->block, it->key, it->was, BLOCK);
	}
	memcpy(il.memory, regions[0].last, n->used);
	memcpy(__start_il_data, regions[1].last, data_size());
	memcpy(__start_il_ghost, regions[2].last, ghost_size());
	if (il.used > n->used)
		memset(il.memory + n->used, 0, il.used - n->used);
	il.point = n->point;
	il.used = n->used;
	il.current = n->current;
	il.now = n->now;
	il.asked = n->asked;
	il.gone = n->gone;
	il.from = NULL;
	copy_threads(copies + n->copy, true);
	il_entry = &me()->entry;
	memcpy(il.own, me()->own, il.own_size);
	il.running = true;
}

/* ---- the search ---- */

static const char *stopped; /* why it isn't whole */
static struct {
	bool is;
	const struct option *options;
	unsigned count, taken;
	bool forced;
	void *explorer; /* its stack */
} asked;

unsigned il_choose_whole(const struct option *options, unsigned count, bool forced)
{
	asked.is = true;
	asked.options = options;
	asked.count = count;
	asked.forced = forced;
	il_switch(&me()->stack, asked.explorer);
	return asked.taken;
}

/* Until the thread asks, or the run is at its end. */
static void go_on(void)
{
	asked.is = false;
	il.steps = 0;
	if (!_setjmp(il.explorer))
		il_switch(&asked.explorer, me()->stack);
}

static void come_from_last(uint32_t to)
{
	const struct node *n = &nodes[il.depth - 1];
	const struct option *o = &il.choices[il.depth - 1].option;

	if (edge_count == MOST_EDGES)
		stopped = "too many edges";
	else if (il.depth)
		edges[edge_count++] = (struct edge){ n->number, to, n->point, (uint8_t)o->what, (uint8_t)o->thread };
}

static void take(unsigned which)
{
	struct choice *last = &il.choices[il.depth - 1];

	asked.taken = last->taken = which;
	last->option = nodes[il.depth - 1].options[which];
}

/* A state that is new. */
static void come_to(uint32_t number)
{
	struct node *n = &nodes[il.depth];

	memcpy(n->options, asked.options, asked.count * sizeof *n->options);
	n->number = number;
	save(n);
	il.choices[il.depth++] = (struct choice){
		.count = asked.count, .by = il.current, .point = il.point, .done = me()->done, .coming = me()->coming,
	};
	if (il.depth == DEPTH)
		stopped = "too deep";
	if (copied > MOST_COPIED || change_count > MOST_CHANGES - 4 * ARENA / BLOCK)
		stopped = "too much memory for copies";
	if (number == MOST_STATES - 1)
		stopped = "too many states";
	take(0);
}

/* Whether the state at a choice is new, and so gone on from. */
static bool meets(void)
{
	bool is_of_one = asked.options->what != RUNS || (asked.forced && me()->state == READY);
	struct found *it;
	struct key key;

	memcpy(me()->own, il.own, il.own_size);
	key = state_now(is_of_one);
	if (2 * (size_t)states.count >= states.room)
		widen();
	it = place_in(states.found, states.room, key);
	if (it->number) {
		come_from_last(it->number);
		return false;
	}
	*it = (struct found){ key, ++states.count };
	states.end[states.count] = false;
	come_from_last(states.count);
	come_to(states.count);
	return !stopped;
}

static void end_run(void)
{
	if (il.depth)
		states.end[nodes[il.depth - 1].number] = true;
	if (!_setjmp(il.explorer))
		il_end_run();
}

/* To the last state of which an option is left. */
static bool go_back(void)
{
	while (il.depth && il.choices[il.depth - 1].taken + 1 == il.choices[il.depth - 1].count)
		copied = nodes[--il.depth].copy;
	if (!il.depth)
		return false;
	restore(&nodes[il.depth - 1]);
	take(il.choices[il.depth - 1].taken + 1);
	il.runs++;
	return true;
}

static void begin_run(void)
{
	if (!_setjmp(il.explorer))
		il_begin_run();
	copied = logged_count = change_count = il.depth = 0;
	il.runs++;
}

static void watch(double until)
{
	if (il.runs % 256)
		return;
	il_watch();
	if ((double)clock() / CLOCKS_PER_SEC > until)
		stopped = "too long";
}

/* Whether more was seen than was known, so that all begins anew.  Mostly still more is seen soon behind it: it is taken along. */
static bool try_states(double until)
{
	bool grew = false;
	uint32_t most = MOST_STATES;

	il_begin_pass();
	if (!il_begin_clocks())
		stopped = "too many words of which several threads know";
	forget_states();
	edge_count = most_used = 0;
	begin_run();
	while (!il.failed && !stopped) {
		do
			go_on();
		while (asked.is && meets());
		if (!asked.is && !il.failed)
			end_run();
		watch(until);
		if (il.grown) {
			most = states.count + states.count / 16;
			grew = true;
			il.grown = false;
		}
		if (states.count > most || il.failed || stopped || !go_back())
			break;
	}
	return grew;
}

/*
 * What threads access is known best before the search, since that begins anew where it sees more: so drawn schedules come
 * first, in which threads are preempted now often, now seldom.
 */
static void try_drawn(void)
{
	static uint64_t drawn;
	static unsigned seldom, left;

	drawn = mix(il.runs, 17);
	seldom = 2u << 2 * (il.runs % 4);
	begin_run();
	if (il.failed)
		return;
	for (go_on(), left = DEPTH; asked.is && left && !il.failed; go_on(), left--) {
		drawn = mix(drawn, 1);
		asked.taken = asked.forced || drawn % seldom == 0 ? (unsigned)(drawn >> 32) % asked.count : 0;
	}
}

/* ---- ends ---- */

/* By the way on which that state was met first. */
static void say_no_end(uint32_t state)
{
	static const struct edge *way[DEPTH];
	const struct edge *e;

	for (il.depth = 0; state != 1; state = e->from) {
		for (e = edges; e->to != state; e++)
			;
		way[il.depth++] = e;
	}
	for (unsigned k = 0; k < il.depth; k++) {
		e = way[il.depth - 1 - k];
		il.choices[k] = (struct choice){ .option = { e->what, e->thread, 0 }, .count = 2, .taken = 1, .point = e->point };
	}
	il.failed = true;
	snprintf(il.message, sizeof il.message, "a run without an end: no schedule comes to one from there");
}

static void look_for_ends(void)
{
	bool more = true;

	while (more) {
		more = false;
		for (const struct edge *e = edges + edge_count; e-- > edges;)
			if (states.end[e->to] && !states.end[e->from])
				more = states.end[e->from] = true;
	}
	for (uint32_t k = 1; k <= states.count && !il.failed; k++)
		if (!states.end[k])
			say_no_end(k);
}

static void allocate(void)
{
	if (nodes)
		return;
	nodes = pages(DEPTH * sizeof *nodes);
	copies = pages(MOST_COPIED + sizeof il.memory);
	logged = pages(MOST_LOGGED * sizeof *logged);
	changes = pages(MOST_CHANGES * sizeof *changes);
	edges = pages(MOST_EDGES * sizeof *edges);
	states.end = pages(MOST_STATES);
	for (struct region *r = regions; r < regions + REGIONS; r++) {
		r->last = pages(ARENA);
		r->blocks = pages(ARENA / BLOCK * sizeof *r->blocks);
	}
}

struct whole il_try_whole(double seconds)
{
	double until = (double)clock() / CLOCKS_PER_SEC + seconds;

	allocate();
	stopped = NULL;
	il.budget = INT_MAX;
	states.count = 0;
	il.whole = il.drawing = true;
	il_begin_pass();
	for (unsigned k = 0, all = 0; k < DRAWN && all < MOST_DRAWN && !il.failed; k++, all++) {
		il.grown = false;
		try_drawn();
		k = il.grown ? 0 : k;
		watch(until);
	}
	il.drawing = false;
	while (!il.failed && !stopped && try_states(until))
		;
	if (!il.failed && !stopped)
		look_for_ends();
	il.whole = false;
	return (struct whole){ states.count, il.failed ? "a failure ended it" : stopped };
}
