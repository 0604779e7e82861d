/*
 * lines.c - cache lines: which processors have a copy, and what an access takes.  A line is transferred to one processor after
 * another, and an access has its effect once the line has come; only plain stores wait behind, while their processor goes on.
 */
#include "simulate.h"
#include <stddef.h>
#include <sys/mman.h>

/* The first STATIC bytes of memory, where the program's variables are, and the arena have lines. */
enum { LINE = 64, STATIC = 1 << 24, LINES = (STATIC + ARENA_SIZE) / LINE };

typedef unsigned __int128 set;

static struct line {
	set has;	   /* which processors have a copy */
	int64_t busy;	   /* until then it is on its way */
	uint8_t owner;	   /* which changed it or came first */
	bool is_modified;  /* what `owner` has is newer than memory */
	bool is_shared;	   /* two processors had it at some time, so accesses to it are made in order */
	uint32_t transfers;
	int64_t queued;
} *lines;

/* A processor's own caches: sets of lines, in each the one first that was used last. */
enum { WAYS_1 = 8, SETS_1 = 64, WAYS_2 = 16, SETS_2 = 1024 };
struct caches {
	uint32_t first[SETS_1][WAYS_1], second[SETS_2][WAYS_2];
};

static void *pages(size_t size)
{
	void *p = mmap(NULL, size, PROT_READ | PROT_WRITE, MAP_PRIVATE | MAP_ANONYMOUS | MAP_NORESERVE, -1, 0);

	if (p == MAP_FAILED)
		refuse("no memory for the lines");
	return p;
}

void open_lines(void)
{
	lines = pages(LINES * sizeof *lines);
	for (unsigned k = 0; k < processor_count; k++)
		processors[k].cached = pages(sizeof(struct caches));
}

static void take_time(int64_t time, enum spent on)
{
	me()->clock += time;
	self->counted.spent[on] += time;
}

static void await_stores(void)
{
	if (me()->stores_out > me()->clock)
		take_time(me()->stores_out - me()->clock, TRANSFERS);
}

/* Puts the line first, in the place of the last one if it wasn't there. Returns whether it was. */
static bool put_first(uint32_t *set_of, unsigned ways, uint32_t number)
{
	unsigned k = 0;
	bool was;

	while (k < ways - 1 && set_of[k] != number)
		k++;
	was = set_of[k] == number;
	for (; k; k--)
		set_of[k] = set_of[k - 1];
	set_of[0] = number;
	return was;
}

/* The line is in this processor's caches from now on. Returns what that took. */
static int64_t cache(uint32_t number)
{
	struct caches *own = me()->cached;
	uint32_t *first = own->first[number % SETS_1];

	if (*first == number || put_first(first, WAYS_1, number))
		return model.own_line;
	return put_first(own->second[number % SETS_2], WAYS_2, number) ? model.second_cache : model.third_cache;
}

static void access_own(struct line *line, uint32_t number, bool writes)
{
	int64_t time = cache(number);

	take_time(time, time == model.own_line ? OWN : CACHES);
	line->is_modified |= writes;
}

static void access_first(struct line *line, uint32_t number, bool writes)
{
	cache(number);
	take_time(model.third_cache, CACHES);
	line->has = (set)1 << current;
	line->owner = (uint8_t)current;
	line->is_modified = writes;
}

/* How long it takes to get the line, from when it is there. */
static int64_t time_of(const struct line *line, bool writes, bool is_contended)
{
	unsigned half = processor_count / 2;
	int64_t apart = (line->owner < half) == (current < half) ? 0 : model.far;
	bool is_copied = line->has & (set)1 << current;

	if (is_contended)
		return apart + model.contended;
	if (writes)
		return apart + (is_copied || !line->is_modified ? model.upgrade : model.from_modified);
	return apart + (line->is_modified ? model.from_modified : model.from_shared);
}

/* Makes this processor the only one that has the line, or one of those. Returns what that takes from `from` on. */
static int64_t transfer(struct line *line, bool writes, int64_t from)
{
	bool is_contended = from > me()->clock && (writes || line->is_modified);
	int64_t time = time_of(line, writes, is_contended);

	line->busy = from + (writes || line->is_modified ? time : model.busy_shared);
	line->has = writes ? 0 : line->has;
	line->has |= (set)1 << current;
	line->owner = writes ? (uint8_t)current : line->owner;
	line->is_modified = writes;
	return time;
}

static void access_anothers(struct line *line, uint32_t number, enum access kind)
{
	int64_t from = me()->clock > line->busy ? me()->clock : line->busy, queued = from - me()->clock;
	int64_t time = transfer(line, kind != READ, from);

	cache(number);
	self->counted.transfers++;
	if (me()->clock > counts_from) {
		line->transfers++;
		line->queued += queued;
	}
	if (kind == WRITE) {
		me()->stores_out = (me()->stores_out > from ? me()->stores_out : from) + time;
		take_time(model.own_line, OWN);
		if (me()->stores_out > me()->clock + model.buffered)
			take_time(me()->stores_out - model.buffered - me()->clock, QUEUES);
		return;
	}
	take_time(queued, QUEUES);
	take_time(time, TRANSFERS);
}

static void access_line(uint32_t number, enum access kind)
{
	struct line *line = &lines[number];
	set mine = (set)1 << current;
	bool is_own;

	if (line->has & ~mine)
		line->is_shared = true;
	if (line->is_shared || me()->clock > next_clock + model.ahead)
		in_order();
	is_own = line->has & mine && (kind == READ || line->has == mine);
	if (is_own)
		access_own(line, number, kind != READ);
	else if (!line->has)
		access_first(line, number, kind != READ);
	else
		access_anothers(line, number, kind);
	if (kind == LOCKED)
		take_time(model.locked, ATOMICS);
	if (!is_own && line->is_shared)
		in_order();
}

/* The number of the line at an address; LINES where none is: that is what the library has for each thread. */
static uint32_t number_of(uintptr_t at)
{
	if (at < STATIC)
		return (uint32_t)(at / LINE);
	return at - ARENA < ARENA_SIZE ? (uint32_t)((at - ARENA + STATIC) / LINE) : LINES;
}

static uintptr_t address_of(uint32_t number)
{
	return number < STATIC / LINE ? (uintptr_t)number * LINE : (uintptr_t)number * LINE - STATIC + ARENA;
}

void access_memory(uintptr_t at, uint32_t code)
{
	enum access kind = code & 7;
	uint32_t number = number_of(at);

	if (!is_running)
		return;
	if (me()->clock >= me()->preempts)
		look_at_queue();
	take_time((code >> 3) * model.instruction, INSTRUCTIONS);
	if (kind == PAUSE) {
		take_time(model.pause, PAUSES);
		return;
	}
	if (kind == LOCKED || kind == FENCE)
		await_stores();
	if (kind == FENCE)
		take_time(model.locked, ATOMICS);
	else if (number < LINES)
		access_line(number, kind);
	else
		take_time(model.own_line, OWN);
}

/* ---- the table of transfers ---- */

enum { MOST_NAMES = 1 << 14 };
static struct transfers named[MOST_NAMES] = { { .name = "others" } };
static unsigned named_count = 1;

void name_lines(const char *name, const void *at, size_t size)
{
	uintptr_t from = (uintptr_t)at;

	if (named_count < MOST_NAMES)
		named[named_count++] = (struct transfers){ .name = name, .from = from, .to = from + size };
}

/* The first one of the name that was given last to what lies in the line. */
static struct transfers *owner_of(uintptr_t at)
{
	struct transfers *it = named;
	unsigned k = named_count;

	while (--k && (at + LINE <= named[k].from || at >= named[k].to))
		;
	while (it->name != named[k].name)
		it++;
	return it;
}

const struct transfers *all_transfers(unsigned *count)
{
	for (uint32_t k = 0; k < LINES; k++) {
		if (lines[k].transfers) {
			struct transfers *it = owner_of(address_of(k));

			it->count += lines[k].transfers;
			it->queued += lines[k].queued;
		}
	}
	*count = named_count;
	return named;
}
