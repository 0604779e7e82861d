/*
 * process.c - what the library knows of the process: its threads' numbers and ends, copies of the library, forks, messages, memory,
 * processors, and the list of open classes.
 *
 * The lock `ww_opening` protects that list, the memory of classes that were freed, and whose own seats are. It is locked when:
 *
 *	here		a process forks; a thread comes to have seats of its own, or ends
 *	class.c		a class is opened, freed, counted or shown; a mutex gets its number at its first lock
 *	watch.c		a report is about any class (ww_lock_pools)
 */
#define _GNU_SOURCE
#include "process.h"
#include <sched.h>
#include <stdio.h>
#include <string.h>
#include <sys/mman.h>
#include <sys/syscall.h>
#include <unistd.h>

__thread struct ww_mine ww_mine __attribute__((tls_model("initial-exec")));
pthread_mutex_t ww_opening = PTHREAD_MUTEX_INITIALIZER;
struct ww_open *ww_all_open;
uint32_t ww_threads;
struct ww_mine *ww_owners[MANY_OWN];
static void (*reports_to)(void *data, const char *message);
static void *reports_data;
static pthread_key_t ending;
static bool is_prepared, is_closed;
static void (*at_end)(void), (*in_child)(void);

/*
 * A process may have several copies of the library, and may load one at an address where another one was before. Each copy counts from a
 * number of its own, which it makes of its address and the time when it is loaded, by Knuth's multiplication (ww_load). So no two copies
 * have the same ids, and no id is NO_ID or 0.
 */
uint64_t ww_this_copy = (uint64_t)1 << 62;

/* The count of threads is relaxed, since it orders nothing. */
void ww_number_thread(void)
{
	static uint64_t last_thread;

	if (UNLIKELY(!ww_mine.thread)) {
		ww_mine.thread = ww_this_copy + __atomic_add_fetch(&last_thread, 1, __ATOMIC_RELAXED);
		ww_mine.lwp = (uint32_t)syscall(SYS_gettid);
	}
}

uint64_t ww_new_id(void)
{
	static uint64_t last_id;

	return ww_this_copy + ++last_id;
}

/* ---- memory ---- */

/*
 * Functions of the leak sanitizer, in programs that have it. The sanitizer looks for addresses only in memory of malloc and in
 * regions that it was told of. Without these calls it would take what seats have for lost when a program ends that keeps its
 * classes.
 */
void __lsan_register_root_region(const void *at, size_t size) __attribute__((weak));
void __lsan_unregister_root_region(const void *at, size_t size) __attribute__((weak));

void *ww_take_zeros(size_t size)
{
	void *at = mmap(NULL, size, PROT_READ | PROT_WRITE, MAP_PRIVATE | MAP_ANONYMOUS, -1, 0);

	if (at == MAP_FAILED)
		return NULL;
	if (__lsan_register_root_region)
		__lsan_register_root_region(at, size);
	return at;
}

void ww_return_zeros(void *at, size_t size)
{
	if (!at)
		return;
	if (__lsan_unregister_root_region)
		__lsan_unregister_root_region(at, size);
	munmap(at, size);
}

/* ---- messages ---- */

void ww_report_to(void (*function)(void *data, const char *message), void *data)
{
	__atomic_store_n(&reports_data, data, __ATOMIC_RELAXED);
	__atomic_store_n(&reports_to, function, __ATOMIC_RELEASE);
}

void ww_report_message(const char *message)
{
	void (*to)(void *, const char *) = __atomic_load_n(&reports_to, __ATOMIC_ACQUIRE);

	if (to)
		to(__atomic_load_n(&reports_data, __ATOMIC_RELAXED), message);
	else
		fprintf(stderr, "%s\n", message);
}

/* ---- processors ---- */

/*
 * The thread that opens a class may be bound to one processor, while other threads are not. So the processors of each thread are added
 * when that thread takes seats of its own, and the open classes learn of them then. The sets have room for as many processors as a
 * kernel has. If the kernel doesn't say which of them a thread may use, all that run count.
 */
uint32_t ww_processors(void)
{
	static cpu_set_t all[8192 / CPU_SETSIZE];
	static uint32_t before;
	cpu_set_t set[8192 / CPU_SETSIZE];
	long count;

	if (!ww_all_open)
		memset(all, 0, sizeof all);
#ifndef WW_FEW
	for (int k = 0; k < 2; k++)
		if (!sched_getaffinity(k ? getpid() : 0, sizeof set, set))
			CPU_OR_S(sizeof all, all, all, set);
	count = CPU_COUNT_S(sizeof all, all);
	if (!count)
		count = sysconf(_SC_NPROCESSORS_ONLN);
#else
	(void)set;
	count = 1;
#endif
	count = count < 1 ? 1 : count < MANY_PROCESSORS ? count : MANY_PROCESSORS;
	for (struct ww_open *it = ww_all_open; it && (uint32_t)count != before; it = it->next)
		__atomic_store_n(&it->processors, (uint32_t)count, __ATOMIC_RELAXED);
	return before = (uint32_t)count;
}

/* ---- threads' own seats ---- */

/* Other threads read this count without the lock, as a hint. Opening is locked. */
static void set_threads(uint32_t many) { __atomic_store_n(&ww_threads, many, __ATOMIC_RELAXED); }

void ww_take_own(void)
{
	uint32_t k = 0;

	if (ww_mine.own_at || ww_mine.ends || __atomic_load_n(&ww_threads, __ATOMIC_RELAXED) == MANY_OWN)
		return;
	pthread_mutex_lock(&ww_opening);
	while (k < MANY_OWN && ww_owners[k])
		k++;
	if (k < MANY_OWN && !is_closed && !pthread_setspecific(ending, &ww_mine)) {
		ww_owners[k] = &ww_mine;
		set_threads(ww_threads + 1);
		ww_mine.own_at = (k + 1) * sizeof(ww_seat);
		(void)ww_processors();
	}
	pthread_mutex_unlock(&ww_opening);
}

/*
 * Called when a thread ends that has seats of its own. The next thread that gets these seats locks `ww_opening`, and so sees what
 * this thread did with them.
 */
static void end_thread(void *mine)
{
	(void)mine;
	pthread_mutex_lock(&ww_opening);
	at_end();
	ww_owners[ww_mine.own_at / sizeof(ww_seat) - 1] = NULL;
	set_threads(ww_threads - 1);
	ww_mine.own_at = 0;
	ww_mine.ends = true;
	pthread_mutex_unlock(&ww_opening);
}

/* In a child of a fork, keeps the own seats of this thread: the other threads of the parent don't exist here. */
static void keep_one_own(void)
{
	for (uint32_t k = 0; k < MANY_OWN; k++)
		ww_owners[k] = ww_mine.own_at == (k + 1) * sizeof(ww_seat) ? &ww_mine : NULL;
	set_threads(!!ww_mine.own_at);
}

/* ---- forks ---- */

static void before_fork(void) { pthread_mutex_lock(&ww_opening); }
static void in_parent(void) { pthread_mutex_unlock(&ww_opening); }
static void behind_fork(void)
{
	keep_one_own();
	ww_mine.lwp = (uint32_t)syscall(SYS_gettid);
	in_child();
	pthread_mutex_unlock(&ww_opening);
}

/* Registers the library's handlers, once in a program. Opening is locked, or nobody else uses the library yet. */
int ww_prepare(void)
{
	if (is_prepared)
		return 0;
	if (pthread_key_create(&ending, end_thread))
		return -ENOMEM;
	if (pthread_atfork(before_fork, in_parent, behind_fork)) {
		pthread_key_delete(ending);
		return -ENOMEM;
	}
	is_prepared = true;
	return 0;
}

/*
 * Handlers that are registered first are called last before a fork, and first after it. So the lock `ww_opening` isn't held while a
 * handler of the program runs, which may lock mutexes. If handlers can't be registered here, whoever opens a class first tries it
 * again.
 */
void ww_load(void (*thread_ends)(void), void (*child)(void))
{
	struct timespec now;

	clock_gettime(CLOCK_MONOTONIC, &now);
	ww_this_copy |= (((uint64_t)now.tv_sec << 30 | (uint64_t)now.tv_nsec) ^ (uintptr_t)&ww_this_copy) * 0x9e3779b97f4a7c15 >> 2;
	at_end = thread_ends;
	in_child = child;
	(void)ww_prepare();
}

/*
 * When the library is closed (dlclose), threads that used it go on, and end without it. At the end of the program they may go on as
 * well, and another key may get the number of this one. Destructors of the program or of a plugin may come later, and open a class.
 * Then no thread gets seats of its own, as its end would call what isn't there any more, and no handler of a fork is registered
 * again.
 */
__attribute__((destructor)) static void unprepare(void)
{
	pthread_mutex_lock(&ww_opening);
	if (is_prepared)
		pthread_key_delete(ending);
	is_prepared = is_closed = true;
	pthread_mutex_unlock(&ww_opening);
}
