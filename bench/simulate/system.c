/*
 * system.c - what the library asks of the system and of libc, in virtual time: futexes, clocks, processors, what a thread used, and
 * memory that lies at the same addresses in each run.  `make` puts these in the place of the real ones in what the library calls.
 */
#define _GNU_SOURCE
#include <errno.h>
#include "simulate.h"
#include <linux/futex.h>
#include <pthread.h>
#include <sched.h>
#include <stdarg.h>
#include <stdio.h>
#include <string.h>
#include <sys/mman.h>
#include <sys/resource.h>
#include <sys/syscall.h>
#include <time.h>

/* ---- memory ---- */

static char *unused;

void open_arena(void)
{
	void *want = (void *)ARENA;

	unused = mmap(want, ARENA_SIZE, PROT_READ | PROT_WRITE, MAP_PRIVATE | MAP_ANONYMOUS | MAP_NORESERVE | MAP_FIXED_NOREPLACE, -1, 0);
	if (unused != want)
		refuse("no memory for the arena");
}

/* Nothing of it is ever used twice, so it is zero. */
void *take(size_t size, size_t align)
{
	char *p = (char *)(((uintptr_t)unused + align - 1) & -align);

	unused = p + size;
	if (unused > (char *)ARENA + ARENA_SIZE)
		refuse("the arena is full");
	return p;
}

/* As glibc lays blocks out: 8 bytes lie between two of them, and each begins at a multiple of 16. */
enum { BETWEEN = 8, ALIGNED = 16, PAGE = 4096 };

/* One name for all blocks of a size; the last one is for all sizes that came later. */
static const char *name_of_size(size_t size)
{
	enum { SIZES = 64 };
	static char names[SIZES][32] = { [SIZES - 1] = "other blocks" };
	static size_t sizes[SIZES];
	unsigned k = 0;

	while (k < SIZES - 1 && sizes[k] && sizes[k] != size)
		k++;
	if (k < SIZES - 1 && !sizes[k]) {
		sizes[k] = size;
		snprintf(names[k], sizeof names[k], "blocks of %zu bytes", size);
	}
	return names[k];
}

static void *block(size_t size, size_t align)
{
	void *p;

	unused += BETWEEN;
	p = take(size, align > ALIGNED ? align : ALIGNED);
	name_lines(name_of_size(size), p, size);
	return p;
}

void *simulated_malloc(size_t size);
void *simulated_calloc(size_t count, size_t size);
void *simulated_aligned_alloc(size_t align, size_t size);
void simulated_free(void *p);
void *simulated_mmap(void *at, size_t size, int protection, int flags, int descriptor, off_t offset);
int simulated_munmap(void *at, size_t size);
int simulated_madvise(void *at, size_t size, int advice);

void *simulated_malloc(size_t size) { return block(size, ALIGNED); }
void *simulated_calloc(size_t count, size_t size) { return block(count * size, ALIGNED); }
void *simulated_aligned_alloc(size_t align, size_t size) { return block(size, align); }
void simulated_free(void *p) { (void)p; }
void *simulated_mmap(void *at, size_t size, int protection, int flags, int descriptor, off_t offset)
{
	(void)at, (void)protection, (void)flags, (void)descriptor, (void)offset;
	return take(size, PAGE);
}
int simulated_munmap(void *at, size_t size) { return (void)at, (void)size, 0; }
int simulated_madvise(void *at, size_t size, int advice) { return (void)at, (void)size, (void)advice, 0; }

/* ---- sleeping and waking ---- */

/* Returns as the system call does. */
static long sleep_on(uint32_t *word, uint32_t is, int64_t until)
{
	spend(model.futex_look, SYSTEM);
	if (*word != is) {
		errno = EAGAIN;
		return -1;
	}
	self->slept = me()->clock;
	self->sleeps_on = word;
	self->until = until > self->slept ? until : self->slept;
	self->was_woken = false;
	self->counted.sleeps++;
	if (until != NEVER_COMES)
		set_timer(self, self->until + model.wake);
	leave_processor();
	errno = self->was_woken ? 0 : ETIMEDOUT;
	return self->was_woken ? 0 : -1;
}

/* The one that has slept on the word for longest, or NULL. One whose time has come isn't woken any more. */
static struct thread *first_asleep(const uint32_t *word)
{
	struct thread *first = NULL;

	for (struct thread *it = threads; it < threads + thread_count; it++)
		if (it->sleeps_on == word && it->until > me()->clock && (!first || it->slept < first->slept))
			first = it;
	return first;
}

static int wake_on(const uint32_t *word, uint32_t count)
{
	int woken = 0;

	for (struct thread *it; count && (it = first_asleep(word)); count--) {
		set_timer(it, NEVER_COMES);
		it->was_woken = true;
		is_ready(it, me()->clock, model.wake);
		woken++;
	}
	spend(woken ? model.futex_wake : model.futex_nobody, SYSTEM);
	return woken;
}

void nap(int64_t time)
{
	spend(model.futex_look, SYSTEM);
	self->slept = me()->clock;
	set_timer(self, self->slept + time + model.slack + model.wake);
	leave_processor();
}

/* In parts, after each of which another thread may run. */
void work(int64_t time)
{
	enum { PART = 500000 };

	for (; time > PART; time -= PART)
		spend(PART, WORK);
	spend(time, WORK);
}

static int64_t picoseconds(const struct timespec *at)
{
	return at ? (at->tv_sec * 1000000000 + at->tv_nsec) * 1000 : NEVER_COMES;
}

long simulated_syscall(long number, ...);
long simulated_syscall(long number, ...)
{
	va_list rest;
	uint32_t *word, value;
	int command;
	const struct timespec *until;

	if (number == SYS_gettid)
		return 1; /* what a debugger asks for: it costs a thread nothing but its first lock */
	va_start(rest, number);
	word = va_arg(rest, uint32_t *);
	command = va_arg(rest, int) & FUTEX_CMD_MASK;
	value = va_arg(rest, uint32_t);
	until = va_arg(rest, const struct timespec *);
	va_end(rest);
	if (number == SYS_futex && command == FUTEX_WAKE)
		return wake_on(word, value);
	if (number == SYS_futex && command == FUTEX_WAIT_BITSET)
		return sleep_on(word, value, picoseconds(until));
	refuse("this system call isn't simulated");
}

/* As glibc's: 0 is free, 1 held, and 2 held while others may sleep. */
enum { FREE, HELD, CONTENDED };

static void access_lock(const uint32_t *word)
{
	spend(model.mutex_call, SYSTEM);
	access_memory((uintptr_t)word, LOCKED);
}

int simulated_pthread_mutex_lock(pthread_mutex_t *mutex);
int simulated_pthread_mutex_lock(pthread_mutex_t *mutex)
{
	uint32_t *word = (uint32_t *)mutex, was;

	if (!is_running)
		return 0;
	access_lock(word);
	if (*word == FREE) {
		*word = HELD;
		return 0;
	}
	for (;;) {
		access_lock(word);
		was = *word;
		*word = CONTENDED;
		if (was == FREE)
			return 0;
		sleep_on(word, CONTENDED, NEVER_COMES);
	}
}

int simulated_pthread_mutex_trylock(pthread_mutex_t *mutex);
int simulated_pthread_mutex_trylock(pthread_mutex_t *mutex)
{
	uint32_t *word = (uint32_t *)mutex;

	if (!is_running)
		return 0;
	access_lock(word);
	if (*word != FREE)
		return EBUSY;
	*word = HELD;
	return 0;
}

int simulated_pthread_mutex_unlock(pthread_mutex_t *mutex);
int simulated_pthread_mutex_unlock(pthread_mutex_t *mutex)
{
	uint32_t *word = (uint32_t *)mutex, was;

	if (!is_running)
		return 0;
	access_lock(word);
	was = *word;
	*word = FREE;
	if (was == CONTENDED)
		wake_on(word, 1);
	return 0;
}

/* ---- the rest ---- */

int simulated_sched_yield(void);
int simulated_sched_getaffinity(pid_t pid, size_t size, cpu_set_t *set);
int simulated_clock_gettime(clockid_t id, struct timespec *now);
int simulated_getrusage(__rusage_who_t who, struct rusage *used);
ssize_t simulated_getrandom(void *to, size_t size, unsigned flags);

int simulated_sched_yield(void)
{
	self->counted.yields++;
	spend(model.yield, YIELDS);
	let_first_run();
	return 0;
}

int simulated_sched_getaffinity(pid_t pid, size_t size, cpu_set_t *set)
{
	(void)pid;
	memset(set, 0, size);
	for (unsigned k = 0; k < processor_count; k++)
		CPU_SET_S(k, size, set);
	return 0;
}

int simulated_clock_gettime(clockid_t id, struct timespec *now)
{
	int64_t is;

	(void)id;
	spend(model.clock_read, SYSTEM);
	is = is_running ? me()->clock / 1000 : 0;
	now->tv_sec = is / 1000000000;
	now->tv_nsec = is % 1000000000;
	return 0;
}

/* Of all that Linux counts only how often the thread left a processor. */
int simulated_getrusage(__rusage_who_t who, struct rusage *used)
{
	if (who != RUSAGE_THREAD)
		refuse("only what a thread used is simulated");
	spend(model.usage_read, SYSTEM);
	memset(used, 0, sizeof *used);
	used->ru_nvcsw = is_running ? (long)self->voluntary : 0;
	used->ru_nivcsw = is_running ? (long)self->involuntary : 0;
	return 0;
}

ssize_t simulated_getrandom(void *to, size_t size, unsigned flags)
{
	(void)flags;
	memset(to, 1, size);
	return (ssize_t)size;
}
