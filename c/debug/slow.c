/*
 * slow.c - where the program waits for mutexes, as the kernel's lock_stat shows it: for each line that locks how often and how long it
 * waited, how often a context backed off there, and where the mutex of the longest wait had been acquired.
 */
#define _GNU_SOURCE
#include "parts.h"
#ifdef WW_DEBUG
#include "../doors/print.h"

/* In the search of schedules nothing is counted: there are no times, and each word that threads share makes more schedules. */
#ifdef WW_FEW
enum { COUNTS = false, LINES = 1 };
#else
enum { COUNTS = true, LINES = 2048 };
#endif

/* A line of the program. What is counted orders nothing, so all accesses are relaxed. */
static struct line {
	uint64_t about; /* the line's place, mixed; 0: there is no line here */
	struct place at, holder;
	uint64_t waits, all, longest, back_offs; /* times in nanoseconds */
} lines[LINES];

/* The line of this place; or NULL if LINES others have been met. */
static struct line *line_at(const struct place *at)
{
	uint64_t about = ((uintptr_t)at->file * MIX ^ (unsigned)at->line) * MIX | 1;

	for (unsigned k = 0; COUNTS && k < LINES; k++) {
		struct line *line = &lines[(about / MIX + k) % LINES];
		uint64_t is = 0;

		if (__atomic_compare_exchange_n(&line->about, &is, about, false, __ATOMIC_RELAXED, __ATOMIC_RELAXED) || is == about) {
			ww_copy_place(&line->at, at);
			return line;
		}
	}
	return NULL;
}

static void count_up(uint64_t *to, uint64_t by) { __atomic_fetch_add(to, by, __ATOMIC_RELAXED); }

void ww_count_wait(const struct place *at, uint64_t took, const struct place *holder)
{
	struct line *line = line_at(at);
	uint64_t longest = line ? READ_ONCE(line->longest) : 0;

	if (!line)
		return;
	count_up(&line->waits, 1);
	count_up(&line->all, took);
	while (took > longest)
		if (__atomic_compare_exchange_n(&line->longest, &longest, took, false, __ATOMIC_RELAXED, __ATOMIC_RELAXED)) {
			ww_copy_place(&line->holder, holder);
			break;
		}
}

void ww_count_back_off(void)
{
	struct line *line = line_at(&ww_here);

	if (line)
		count_up(&line->back_offs, 1);
}

static int by_time(const void *one, const void *other)
{
	uint64_t a = READ_ONCE((*(struct line *const *)one)->all), b = READ_ONCE((*(struct line *const *)other)->all);

	return (a < b) - (a > b);
}

static void print_line(const struct line *line, FILE *to)
{
	fprintf(to, "\n%8llu %10.1f %10.1f %9llu  ", (unsigned long long)READ_ONCE(line->waits), (double)READ_ONCE(line->all) / 1e6,
		(double)READ_ONCE(line->longest) / 1e6, (unsigned long long)READ_ONCE(line->back_offs));
	ww_print_place(&line->at, to);
	if (READ_ONCE(line->holder.file)) {
		fputs(" behind ", to);
		ww_print_place(&line->holder, to);
	}
}

/* Writes a line for each wait that hasn't ended, and so isn't counted yet: of a program that hangs these are the ones. */
static void print_present_waits(FILE *to)
{
	struct ww_out out = { .file = to };

	for (const struct ww_pool *p = ww_lock_pools(); p; p = next_pool(p))
		for (uint32_t k = 0; k < seats_of(p) && !p->gone; k++)
			if (READ_ONCE(p->debug->seats[k].wants))
				ww_print_wait(&p->seats[k], &out);
	ww_unlock_pools();
}

void ww_lock_stat(FILE *to)
{
	const struct line *met[LINES];
	unsigned count = 0;

	for (unsigned k = 0; k < LINES; k++)
		if (READ_ONCE(lines[k].about))
			met[count++] = &lines[k];
	qsort(met, count, sizeof *met, by_time);
	if (!to) {
		ww_fault(NULL, "ww_lock_stat", NULL, "an argument is NULL");
		return;
	}
	fputs("   waits     all ms longest ms back-offs  at the line, behind the line that held the mutex longest", to);
	for (unsigned k = 0; k < count; k++)
		print_line(met[k], to);
	print_present_waits(to);
	fputc('\n', to);
}

/* The environment may ask for the table at the end of the program. */
__attribute__((destructor)) static void at_exit(void)
{
	if (getenv("WW_LOCK_STAT"))
		ww_lock_stat(stderr);
}
#endif
