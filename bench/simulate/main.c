/*
 * main.c - simulate ENGINE LOAD PROCESSORS [MICROSECONDS TO WAKE] [NAME=NUMBER]...: makes transactions by so many processors, and
 * prints how many.  A name is one of the model's (numbers.h), in nanoseconds; or `us`, for how many microseconds it counts, after
 * `warm` others; or `threads`, as many as processors unless said; or `work`, for how many nanoseconds each works after each lock,
 * or `nap`, how many it sleeps while it holds all; or `seed`, of the drawn lists; or `crowds`: with 0 the class has none; or `lines`:
 * with 1 it prints what was transferred, too.
 */
#include "simulate.h"
#include <stdio.h>
#include <stdlib.h>
#include <string.h>

#define VALUE(name, value, source) .name = value,
struct model model = { NUMBERS(VALUE) };

static double us = 3000, warm = 500, many = 0, works_for = 0, naps_for = 0, seed = 0, crowds = 1, lines = 0;
int64_t works, naps;
bool has_crowds;

void is_done(unsigned retries)
{
	int64_t clock = me()->clock;

	if (self->began <= counts_from && clock > counts_from)
		self->counted = (struct counted){ 0 };
	if (clock > counts_from && clock <= ends_at) {
		self->counted.done++;
		self->counted.retries += retries;
	}
	if (clock > counts_from && clock - self->began > self->counted.longest)
		self->counted.longest = clock - self->began;
	self->began = clock;
}

bool is_over(void) { return me()->clock >= ends_at; }

void refuse(const char *why)
{
	fprintf(stderr, "simulate: %s\n", why);
	exit(1);
}

/* ---- words ---- */

static bool is_named(const char *word, const char *name)
{
	size_t length = strlen(name);

	return !strncmp(word, name, length) && word[length] == '=';
}

static double number_in(const char *word) { return atof(strchr(word, '=') + 1); }

static bool set_option(const char *word)
{
	const struct {
		const char *name;
		double *option;
	} options[] = { { "us", &us },		{ "warm", &warm }, { "threads", &many },    { "work", &works_for },
			{ "nap", &naps_for },	{ "seed", &seed }, { "crowds", &crowds },   { "lines", &lines } };

	for (unsigned k = 0; k < sizeof options / sizeof *options; k++)
		if (is_named(word, options[k].name)) {
			*options[k].option = number_in(word);
			return true;
		}
	return false;
}

static bool set_number(const char *word)
{
#define SET(name, value, source)                                               \
	if (is_named(word, #name)) {                                           \
		model.name = (int64_t)(1000 * number_in(word) + .5);           \
		return true;                                                   \
	}
	NUMBERS(SET)
#undef SET
	return false;
}

static bool set_wake(const char *word)
{
	if (strspn(word, "0123456789.") != strlen(word))
		return false;
	model.wake = (int64_t)(1e6 * atof(word));
	return true;
}

static void read_words(int count, char **words)
{
	if (count < 4)
		refuse("usage: simulate ENGINE LOAD PROCESSORS [MICROSECONDS TO WAKE] [NAME=NUMBER]...");
	processor_count = (unsigned)atoi(words[3]);
	if (processor_count < 1 || processor_count > MOST_PROCESSORS)
		refuse("there are 1 to 128 processors");
	for (int k = 4; k < count; k++)
		if (!set_wake(words[k]) && !set_option(words[k]) && !set_number(words[k]))
			refuse("a number has no such name");
	thread_count = many ? (unsigned)many : processor_count;
	if (thread_count < processor_count || thread_count > MOST_THREADS)
		refuse("there are at most 1024 threads, and no fewer than processors");
	works = (int64_t)(1e3 * works_for);
	naps = (int64_t)(1e3 * naps_for);
	has_crowds = crowds;
	counts_from = (int64_t)(warm * 1e6);
	ends_at = counts_from + (int64_t)(us * 1e6);
}

/* ---- what was counted ---- */

static struct counted sum(void)
{
	struct counted all = { 0 };

	for (struct thread *it = threads; it < threads + thread_count; it++) {
		all.done += it->counted.done;
		all.retries += it->counted.retries;
		all.transfers += it->counted.transfers;
		all.sleeps += it->counted.sleeps;
		all.yields += it->counted.yields;
		for (unsigned k = 0; k < SPENT; k++)
			all.spent[k] += it->counted.spent[k];
		if (it->counted.longest > all.longest)
			all.longest = it->counted.longest;
	}
	return all;
}

static uint64_t least(void)
{
	uint64_t least = UINT64_MAX;

	for (unsigned k = 0; k < thread_count; k++)
		if (threads[k].counted.done < least)
			least = threads[k].counted.done;
	return least;
}

static void print_share(const char *name, int64_t part, int64_t of)
{
	if (200 * part > of)
		printf(", %s %.0f%%", name, 100.0 * (double)part / (double)of);
}

/* Of the threads' time, and then of that in which they have a processor. */
static void print_spent(const struct counted *all)
{
	static const char *const names[SPENT] = { "instructions", "own lines", "caches", "transfers", "queues", "locked",	     "pauses",
						  "yields",	  "system",    "drawing", "work",     "asleep", "without a processor" };
	int64_t total = 0, ran = 0;

	for (unsigned k = 0; k < SPENT; k++) {
		total += all->spent[k];
		ran += k < SLEEPS ? all->spent[k] : 0;
	}
	for (unsigned k = SLEEPS; k < SPENT; k++)
		print_share(names[k], all->spent[k], total);
	fputs("; else", stdout);
	for (unsigned k = 0; k < SLEEPS; k++)
		print_share(names[k], all->spent[k], ran);
}

static void print(const struct counted *all)
{
	double done = all->done ? (double)all->done : 1;

	printf("%.6f million/s; each: %.3f retries, %.2f transfers, %.3f sleeps, %.2f yields; least/mean %.2f; longest %.0f us", (double)all->done / us,
	       (double)all->retries / done, (double)all->transfers / done, (double)all->sleeps / done, (double)all->yields / done,
	       (double)(least() * thread_count) / done, (double)all->longest / 1e6);
	print_spent(all);
	puts("");
}

static void print_lines(double done)
{
	unsigned count;
	const struct transfers *it = all_transfers(&count);

	for (; count--; it++)
		if (it->count)
			printf("%8.3f transfers each, queued %.0f ns: %s\n", (double)it->count / done,
			       (double)it->queued / 1e3 / (double)it->count, it->name);
}

int main(int count, char **words)
{
	struct counted all;
	bool ends;

	read_words(count, words);
	processors = calloc(processor_count, sizeof *processors);
	threads = calloc(thread_count, sizeof *threads);
	open_arena();
	open_lines();
	if (!open_lists(words[2], (uint64_t)seed))
		refuse("there is no such load");
	if (!open_engine(words[1]))
		refuse("there is no such engine");
	ends = run_all();
	all = sum();
	print(&all);
	if (lines)
		print_lines(all.done ? (double)all.done : 1);
	if (!ends)
		refuse("some threads sleep forever");
	return 0;
}
