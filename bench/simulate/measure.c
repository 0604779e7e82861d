/*
 * measure.c - measures those of the model's numbers that a program can, and prints each by its name, in nanoseconds: the median of
 * some goes.  On a busy machine `yield` and `wake` are the others' time.  cc -O2 -pthread bench/simulate/measure.c -o measure
 */
#define _GNU_SOURCE
#include <linux/futex.h>
#include <pthread.h>
#include <sched.h>
#include <stdint.h>
#include <stdio.h>
#include <stdlib.h>
#include <sys/resource.h>
#include <sys/syscall.h>
#include <time.h>
#include <unistd.h>

enum { GOES = 51, LINES = 512 };
/* Two lines apart, since a processor may fetch lines by pairs. */
static struct {
	uint64_t value;
} __attribute__((aligned(128))) lines[LINES];
static uint32_t turn, word, asleep_on;
static double woke;
/* What the other thread does to all lines at its turn. */
enum { MINE, WRITES, SLEEPS };

static double now(void)
{
	struct timespec t;

	clock_gettime(CLOCK_MONOTONIC, &t);
	return (double)t.tv_sec * 1e9 + (double)t.tv_nsec;
}

static void run_on(int processor)
{
	cpu_set_t set;

	CPU_ZERO(&set);
	CPU_SET(processor, &set);
	if (sched_setaffinity(0, sizeof set, &set))
		exit(1);
}

static long futex(int command, uint32_t value) { return syscall(SYS_futex, &word, command, value, NULL, NULL, 0); }

/* ---- what takes how long ---- */

static void pauses(unsigned times)
{
	for (unsigned k = 0; k < times; k++)
		__builtin_ia32_pause();
}

static void locks(unsigned times)
{
	for (unsigned k = 0; k < times; k++)
		__atomic_add_fetch(&lines[0].value, 1, __ATOMIC_SEQ_CST);
}

static void clocks(unsigned times)
{
	for (unsigned k = 0; k < times; k++)
		now();
}

static void yields(unsigned times)
{
	for (unsigned k = 0; k < times; k++)
		sched_yield();
}

static void usages(unsigned times)
{
	struct rusage used;

	for (unsigned k = 0; k < times; k++)
		getrusage(RUSAGE_THREAD, &used);
}

static void looks(unsigned times)
{
	for (unsigned k = 0; k < times; k++)
		futex(FUTEX_WAIT_PRIVATE, word + 1);
}

static void wakes_nobody(unsigned times)
{
	for (unsigned k = 0; k < times; k++)
		futex(FUTEX_WAKE_PRIVATE, 1);
}

/* The next line depends on what the last one has, so none comes before it is asked for. */
static unsigned next(unsigned k, uint64_t value) { return (k * 5 + 37 + (unsigned)(value >> 40)) % LINES; }

static void loads(unsigned times)
{
	unsigned k = 0;

	for (unsigned n = 0; n < times; n++)
		k = next(k, __atomic_load_n(&lines[k].value, __ATOMIC_RELAXED));
	lines[0].value = k;
}

static void changes(unsigned times)
{
	unsigned k = 0;

	for (unsigned n = 0; n < times; n++)
		k = next(k, __atomic_add_fetch(&lines[k].value, 1, __ATOMIC_SEQ_CST));
	lines[0].value = k;
}

/* ---- the other thread ---- */

/* If it comes too late, `word` has changed already. */
static void sleep_once(void)
{
	futex(FUTEX_WAIT_PRIVATE, asleep_on);
	woke = now();
}

static void *other(void *unused)
{
	run_on(1);
	for (;;) {
		uint32_t is = __atomic_load_n(&turn, __ATOMIC_SEQ_CST);

		if (is == WRITES)
			for (unsigned k = 0; k < LINES; k++)
				lines[k].value++;
		else if (is == SLEEPS)
			sleep_once();
		if (is != MINE)
			__atomic_store_n(&turn, MINE, __ATOMIC_SEQ_CST);
	}
	return unused;
}

/* It has the processor of who measures, and yields it. */
static uint32_t is_beside;
static void *beside(void *unused)
{
	run_on(0);
	while (__atomic_load_n(&is_beside, __ATOMIC_SEQ_CST))
		sched_yield();
	return unused;
}

static void have_other(uint32_t is)
{
	__atomic_store_n(&turn, is, __ATOMIC_SEQ_CST);
	while (__atomic_load_n(&turn, __ATOMIC_SEQ_CST) != MINE)
		;
}

static void written(void) { have_other(WRITES); }
static void written_and_read(void)
{
	have_other(WRITES);
	loads(LINES);
}

/* ---- medians ---- */

static int compare(const void *a, const void *b)
{
	double x = *(const double *)a, y = *(const double *)b;

	return (x > y) - (x < y);
}

static double median(double told[GOES])
{
	qsort(told, GOES, sizeof *told, compare);
	return told[GOES / 2];
}

static double measure(void (*before)(void), void (*what)(unsigned), unsigned times)
{
	double told[GOES];

	for (unsigned k = 0; k < GOES; k++) {
		double from;

		if (before)
			before();
		from = now();
		what(times);
		told[k] = (now() - from) / times;
	}
	return median(told);
}

/* How long the call that wakes takes, and from it until the other runs, which sleeps for 100 microseconds. */
static void measure_wakes(void)
{
	double calls[GOES], wakes[GOES];

	for (unsigned k = 0; k < GOES; k++) {
		double from = now();

		asleep_on = word;
		__atomic_store_n(&turn, SLEEPS, __ATOMIC_SEQ_CST);
		while (now() < from + 100000)
			;
		from = now();
		__atomic_add_fetch(&word, 1, __ATOMIC_SEQ_CST);
		futex(FUTEX_WAKE_PRIVATE, 1);
		calls[k] = now() - from;
		while (__atomic_load_n(&turn, __ATOMIC_SEQ_CST) != MINE)
			;
		wakes[k] = woke - from;
	}
	printf("futex_wake %.0f\nwake %.0f\n", median(calls), median(wakes));
}

/* A yield to the other thread takes two changes, as that yields back. */
static double measure_switch(double yield)
{
	pthread_t thread;
	double both;

	is_beside = 1;
	if (pthread_create(&thread, NULL, beside, NULL))
		exit(1);
	both = measure(NULL, yields, 1000);
	__atomic_store_n(&is_beside, 0, __ATOMIC_SEQ_CST);
	pthread_join(thread, NULL);
	return both / 2 - yield;
}

int main(void)
{
	pthread_t thread;
	double own, yield;

	run_on(0);
	own = measure(NULL, locks, 500);
	printf("pause %.2f\nlocked %.2f\n", measure(NULL, pauses, 500), own);
	yield = measure(NULL, yields, 4);
	printf("clock_read %.1f\nyield %.0f\ncontext_switch %.0f\n", measure(NULL, clocks, 500), yield, measure_switch(yield));
	printf("usage_read %.0f\n", measure(NULL, usages, 100));
	printf("futex_look %.0f\nfutex_nobody %.0f\n", measure(NULL, looks, 100), measure(NULL, wakes_nobody, 100));
	if (pthread_create(&thread, NULL, other, NULL))
		return 1;
	printf("from_modified %.1f\n", measure(written, loads, LINES));
	printf("upgrade %.1f\n", measure(written_and_read, changes, LINES) - own);
	measure_wakes();
	return 0;
}
