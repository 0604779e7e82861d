/*
 * What libww_debug warns of, though the calls are right by themselves, and what ww_class_print writes.
 *
 * Each warning comes once for a call, each deadlock that no class detects with all of its threads, and none if there is
 * none.
 */
#ifndef WW_DEBUG
#define WW_DEBUG
#endif
#include "../mutex_test.h"
#include "ww_retry.h" /* before the next one, behind which no call says its line */
#include "../crowd.h"
#include "../later.h"
#include "../said.h"
#include <sys/mman.h>
#include <sys/syscall.h>
#include <sys/wait.h>

static DEFINE_WW_CLASS(c);
static DEFINE_WD_CLASS(d);
static struct ww_mutex a, b, other; /* other is of d */
static struct ww_acquire_ctx x, y;
static pthread_barrier_t all_hold;

/* Where calls were made, and by which threads: as the child knows it. */
static struct seen {
	int lines[4];
	long threads[3];
} *seen;
#define AT(k, call) (__atomic_store_n(&seen->lines[k], __LINE__, __ATOMIC_RELAXED), (call))

static void is_thread(size_t k) { seen->threads[k] = syscall(SYS_gettid); }

static void awaits_warnings(unsigned long count)
{
	while (ww_debug_warnings() < count)
		usleep(1000);
}

/* ---- warnings ---- */

static void *begins_and_ends(void *class)
{
	struct ww_acquire_ctx z;

	ww_acquire_init(&z, class);
	ww_acquire_fini(&z);
	return NULL;
}

static void second_context(void)
{
	AT(0, ww_acquire_init(&x, &c));
	for (unsigned k = 0; k < 2; k++) {
		AT(1, ww_acquire_init(&y, &c));
		ww_acquire_fini(&y);
	}
	begins_and_ends(&d);
	end_thread(begin_thread(begins_and_ends, &c));
	MUST(!AT(2, ww_acquire_init_checked(&y, &c)));
	ww_acquire_fini(&x);
	ww_acquire_fini(&y);
	begins_and_ends(&c);
	MUST(ww_debug_warnings() == 2);
}

/* Each time as the youngest; one that backs off isn't told, nor one that is suspended, though its value is dropped. */
static void loses_its_age(void)
{
	struct ww_retry retry = { 0 };

	for (unsigned k = 0; k < 5; k++) {
		ww_acquire_init(&x, &c);
		x.deadlock_inject_countdown = k == 0 ? ~0u : 0;
		MUST(!ww_mutex_lock(&a, &x) && AT(0, ww_mutex_lock(&b, &x)) == (k == 0 ? 0 : -EDEADLK));
		ww_mutex_unlock(&a);
		if (k == 0)
			ww_mutex_unlock(&b);
		if (k == 1) {
			ww_mutex_lock_slow(&b, &x);
			ww_mutex_unlock(&b);
		}
		if (k == 2)
			MUST(!ww_acquire_suspend(&x, &retry) && !ww_retry_drop(&retry));
		else
			AT(1, ww_acquire_fini(&x));
		MUST(ww_debug_warnings() == (k > 2));
	}
}

static void without_context(void)
{
	struct timespec late = in_ms(600000);

	ww_acquire_init(&x, &c);
	ww_mutex_lock(&b, NULL);
	ww_mutex_unlock(&b);
	MUST(!ww_mutex_lock(&a, &x) && !ww_mutex_lock(&other, NULL));
	MUST(ww_mutex_trylock(&b, NULL));
	ww_mutex_unlock(&b);
	MUST(!ww_mutex_lock_until(&b, NULL, &late));
	ww_mutex_unlock(&b);
	MUST(!ww_debug_warnings());
	ww_mutex_unlock(&a);
	ww_acquire_fini(&x);
	AT(1, ww_mutex_lock(&a, NULL));
	for (unsigned k = 0; k < 2; k++) {
		AT(2, ww_mutex_lock(&b, NULL));
		ww_mutex_unlock(&b);
	}
	MUST(ww_debug_warnings() == 1);
}

static void without_context_beside_one(void)
{
	AT(0, ww_acquire_init(&x, &c));
	MUST(!ww_mutex_lock(&a, &x));
	MUST(!AT(1, ww_mutex_lock_interruptible(&b, NULL)));
}

static void *waits_for_a(void *arg)
{
	(void)arg;
	ww_mutex_lock(&a, NULL);
	return NULL;
}

/* So many threads sleep because no context is left. */
static void awaits_seekers(unsigned count)
{
	char words[64];

	sprintf(words, "waits for a context: %u\n", count);
	for (bool is_there = false; !is_there;) {
		char *text = printed(&c);

		is_there = strstr(text, words);
		free(text);
		usleep(1000);
	}
}

static bool has_tried; /* it found no context at its time, for which it waited a moment, too */

static void *waits_for_context(void *holds)
{
	struct timespec now = in_ms(0);
	struct ww_acquire_ctx z;

	if (holds)
		AT(0, ww_mutex_lock(&other, NULL));
	MUST(ww_mutex_lock_until(&a, NULL, &now) == -ETIMEDOUT && !ww_debug_warnings());
	__atomic_store_n(&has_tried, true, __ATOMIC_SEQ_CST);
	AT(1, ww_acquire_init(&z, &c));
	ww_acquire_fini(&z);
	if (holds)
		ww_mutex_unlock(&other);
	return NULL;
}

/* Both contexts are in use, until the other thread waits for one. */
static void wait_for_context(void)
{
	pthread_t thread;

	for (size_t holds = 0; holds < 2; holds++) {
		ww_acquire_init(&x, &c);
		ww_mutex_lock(&b, NULL);
		has_tried = false;
		thread = begin_thread(waits_for_context, (void *)holds);
		while (!__atomic_load_n(&has_tried, __ATOMIC_SEQ_CST))
			usleep(100);
		awaits_seekers(1);
		ww_mutex_unlock(&b);
		ww_acquire_fini(&x);
		end_thread(thread);
		MUST(ww_debug_warnings() == holds);
	}
}

/* The number goes to another mutex, which has no name. */
static void stays_open(void)
{
	is_thread(2);
	ww_mutex_name(&a, "which was destroyed");
	MUST(!ww_mutex_destroy(&a));
	ww_mutex_init(&a, &c);
	ww_mutex_name(&a, "which was taken away");
	ww_mutex_name(&a, NULL);
	AT(0, ww_acquire_init(&x, &c));
	AT(1, ww_mutex_lock(&a, NULL));
	for (unsigned k = 0; k < 2; k++)
		MUST(AT(2, ww_class_free(&c)) == -EBUSY);
	MUST(ww_debug_warnings() == 1);
}

static void stays_suspended(void)
{
	struct ww_retry retry = { 0 };

	AT(0, ww_acquire_init(&x, &c));
	MUST(!AT(1, ww_acquire_suspend(&x, &retry)) && AT(2, ww_class_free(&c)) == -EBUSY);
}

/* ---- deadlocks ---- */

/* At one line, since any of them may be the one that tells. */
static void locks_at_last(struct ww_mutex *m, struct ww_acquire_ctx *ctx)
{
	pthread_barrier_wait(&all_hold);
	AT(1, (void)!ww_mutex_lock(m, ctx));
}

static void *by_two_classes(void *second)
{
	struct ww_acquire_ctx of_c, of_d;

	is_thread((size_t)second);
	ww_acquire_init(&of_c, &c);
	ww_acquire_init(&of_d, &d);
	MUST(!ww_mutex_lock(second ? &other : &a, second ? &of_d : &of_c));
	locks_at_last(second ? &a : &other, second ? &of_c : &of_d);
	return NULL;
}

static void *without(void *second)
{
	is_thread((size_t)second);
	AT(0, ww_mutex_lock(second ? &b : &a, NULL));
	locks_at_last(second ? &a : &b, NULL);
	return NULL;
}

static void *by_context_and_without(void *second)
{
	struct ww_acquire_ctx z;

	if (!second)
		return without(NULL);
	is_thread(1);
	ww_acquire_init(&z, &c);
	MUST(!ww_mutex_lock(&b, &z));
	locks_at_last(&a, &z);
	return NULL;
}

static void *for_itself(void *second)
{
	if (second) {
		pthread_barrier_wait(&all_hold);
		return NULL;
	}
	is_thread(0);
	AT(0, ww_mutex_lock(&a, NULL));
	locks_at_last(&a, NULL);
	return NULL;
}

/* Around a ring: each holds its mutex without a context, and asks for that of the next one. */
static void *in_a_ring(void *place)
{
	static struct ww_mutex *const ring[] = { &a, &other, &b };
	size_t k = (size_t)place;

	is_thread(k);
	AT(0, ww_mutex_lock(ring[k], NULL));
	locks_at_last(ring[(k + 1) % 3], NULL);
	return NULL;
}

enum { INTERVAL = 20 }; /* in milliseconds, between two checks */
static void deadlocked(unsigned threads, void *(*work)(void *), unsigned long warnings)
{
	ww_debug_check_interval(INTERVAL);
	MUST(!pthread_barrier_init(&all_hold, NULL, threads));
	for (size_t k = 0; k < threads; k++)
		MUST(!pthread_detach(begin_thread(work, (void *)k)));
	awaits_warnings(warnings);
}

/* By its second check. */
static void two_classes(void)
{
	struct timespec second = in_ms(2 * INTERVAL), now;

	deadlocked(2, by_two_classes, 1);
	now = in_ms(0);
	MUST(now.tv_sec > second.tv_sec || (now.tv_sec == second.tv_sec && now.tv_nsec >= second.tv_nsec));
}
/* Where nobody checks nothing is told. */
static void without_checks(void)
{
	ww_debug_check_interval(0);
	MUST(!pthread_barrier_init(&all_hold, NULL, 2));
	for (size_t k = 0; k < 2; k++)
		MUST(!pthread_detach(begin_thread(by_two_classes, (void *)k)));
	awaits_waiter(&a);
	awaits_waiter(&other);
	usleep(100000);
	MUST(!ww_debug_warnings());
}
static void two_with_names(void)
{
	ww_mutex_name(&a, "another");
	ww_mutex_name(&a, "the account");
	ww_mutex_name(&other, "the user");
	two_classes();
}
static void two_without(void) { deadlocked(2, without, 2); }
static void one_without(void) { deadlocked(2, by_context_and_without, 2); }
static void itself(void) { deadlocked(2, for_itself, 2); }
static void three(void) { deadlocked(3, in_a_ring, 2); }

/* A thread waits for one of them, and isn't one. */
static void behind(void)
{
	two_without();
	MUST(!pthread_detach(begin_thread(waits_for_a, NULL)));
	awaits_waiter(&a);
	usleep(200000);
	MUST(ww_debug_warnings() == 2);
}

/* ---- none ---- */

/* As two_without, but one of them waits for a while. */
static void *without_for_a_while(void *second)
{
	struct timespec then;

	if (!second) {
		without(NULL);
		return NULL;
	}
	ww_mutex_lock(&b, NULL);
	pthread_barrier_wait(&all_hold);
	then = in_ms(300);
	MUST(ww_mutex_lock_until(&a, NULL, &then) == -ETIMEDOUT);
	ww_mutex_unlock(&b);
	return NULL;
}

static void for_a_while(void)
{
	ww_debug_check_interval(5);
	MUST(!pthread_barrier_init(&all_hold, NULL, 2));
	in_threads(2, without_for_a_while);
	MUST(ww_debug_warnings() == 1);
}

/* The thread has one of the two contexts that it waits for, and another, which doesn't wait, has the other one. */
static void one_is_awake(void)
{
	pthread_t thread;

	ww_debug_check_interval(5);
	MUST(!pthread_barrier_init(&all_hold, NULL, 1));
	ww_acquire_init(&x, &c);
	thread = begin_thread(without, NULL);
	awaits_seekers(1);
	usleep(200000);
	ww_acquire_fini(&x);
	end_thread(thread);
	MUST(ww_debug_warnings() == 2);
}

static void *waits_long(void *for_context)
{
	struct ww_acquire_ctx z;

	comes_to_look();
	if (for_context)
		AT(1, ww_acquire_init(&z, &c));
	else
		AT(1, ww_mutex_lock(&a, NULL));
	has_looked();
	return NULL;
}

/* A context that holds a mutex is left, as by a throw: who waits for that, or for a context, says after ten seconds where it began. */
static void waits_for_what_was_left(bool for_context)
{
	__atomic_store_n(&ahead, for_context ? -11 : 0, __ATOMIC_SEQ_CST);
	ww_debug_check_interval(20);
	AT(0, ww_acquire_init(&x, &c));
	MUST(!ww_mutex_lock(&a, &x));
	MUST(!pthread_detach(begin_thread(waits_long, for_context ? &x : NULL)));
	if (for_context)
		awaits_seekers(1);
	else
		awaits_waiter(&a);
	usleep(100000);
	MUST(!ww_debug_warnings());
	__atomic_store_n(&ahead, for_context ? 0 : 11, __ATOMIC_SEQ_CST);
	awaits_warnings(1);
}
static void for_a_mutex(void)
{
	ww_mutex_name(&a, "what was left");
	waits_for_what_was_left(false);
}

/* The thread that held it has ended. */
static void *leaves_a(void *arg)
{
	AT(0, ww_mutex_lock(&a, NULL));
	return arg;
}
static void for_what_a_thread_left(void)
{
	__atomic_store_n(&ahead, 0, __ATOMIC_SEQ_CST);
	ww_debug_check_interval(20);
	end_thread(begin_thread(leaves_a, NULL));
	MUST(!pthread_detach(begin_thread(waits_long, NULL)));
	awaits_waiter(&a);
	usleep(100000);
	__atomic_store_n(&ahead, 11, __ATOMIC_SEQ_CST);
	awaits_warnings(1);
}

/* A duration, and a time of the other clock, are no times of this one. */
static void of_another_clock(void)
{
	struct timespec duration = { 5, 0 }, real;

	__atomic_store_n(&ahead, 1000, __ATOMIC_SEQ_CST);
	MUST(!clock_gettime(CLOCK_REALTIME, &real));
	ww_mutex_lock(&a, NULL);
	MUST(AT(0, ww_mutex_lock_until(&a, NULL, &duration)) == -ETIMEDOUT);
	ww_mutex_unlock(&a);
	MUST(!AT(1, ww_mutex_lock_until(&a, NULL, &real)));
	ww_mutex_unlock(&a);
	MUST(ww_debug_warnings() == 2);
}
static void for_a_context(void) { waits_for_what_was_left(true); }

/* Each of two threads waits for a context, and has one: no cycle of mutexes, so only its time shows it, eleven seconds by this clock. */
static void no_context_left(void)
{
	__atomic_store_n(&ahead, -11, __ATOMIC_SEQ_CST);
	deadlocked(2, without, 2);
	__atomic_store_n(&ahead, 0, __ATOMIC_SEQ_CST);
	awaits_warnings(3);
}

/* One of two threads gets the context that both wait for: the other one says so only where it isn't given for ten seconds more. */
static void contexts_come_back(void)
{
	__atomic_store_n(&ahead, -22, __ATOMIC_SEQ_CST);
	ww_acquire_init(&x, &c);
	for (unsigned k = 0; k < 2; k++)
		MUST(!pthread_detach(begin_thread(waits_long, &x)));
	awaits_seekers(2);
	each_has_looked();
	ww_acquire_fini(&x);
	awaits_seekers(1);
	__atomic_store_n(&ahead, -11, __ATOMIC_SEQ_CST);
	each_has_looked();
	MUST(!ww_debug_warnings());
	__atomic_store_n(&ahead, 0, __ATOMIC_SEQ_CST);
	awaits_warnings(1);
}

/* A context is left by a return, and the next one lies in its memory. */
static void in_the_same_memory(void)
{
	AT(0, ww_acquire_init(&x, &c));
	AT(1, ww_acquire_init(&x, &c));
	MUST(ww_debug_faults() == 1);
	ww_acquire_fini(&x);
	AT(2, ww_acquire_init(&x, &c));
	MUST(ww_debug_faults() == 1);
}

/* Linked in place of the proved library's further steps: a thread that sleeps is woken, and for a while does nothing. */
static bool is_slow;
static __thread bool is_younger;
int32_t __real_ww_go_on_(ww_handle *handle);
int32_t __wrap_ww_go_on_(ww_handle *handle)
{
	if (is_younger && __atomic_load_n(&is_slow, __ATOMIC_RELAXED))
		usleep(200000);
	return __real_ww_go_on_(handle);
}

static void *is_wounded(void *arg)
{
	struct ww_retry retry = { 0 };

	(void)arg;
	is_younger = true;
	ww_acquire_init(&y, &c);
	y.deadlock_inject_countdown = ~0u;
	MUST(!ww_mutex_lock(&b, &y) && ww_mutex_lock(&a, &y) == -EDEADLK);
	ww_mutex_unlock(&b);
	MUST(!ww_acquire_suspend(&y, &retry) && !ww_retry_drop(&retry));
	return NULL;
}

/* Both sleep, and so wait for each other, until the younger one goes on, which was woken to be told -EDEADLK. */
static void one_is_woken(void)
{
	struct ww_mutex further;
	pthread_t thread;

	ww_debug_check_interval(5);
	ww_mutex_init(&further, &c);
	ww_acquire_init(&x, &c);
	x.deadlock_inject_countdown = ~0u;
	MUST(!ww_mutex_lock(&further, &x) && !ww_mutex_lock(&a, &x));
	thread = begin_thread(is_wounded, NULL);
	awaits_waiter(&a);
	usleep(100000);
	__atomic_store_n(&is_slow, true, __ATOMIC_RELAXED);
	MUST(!ww_mutex_lock(&b, &x));
	__atomic_store_n(&is_slow, false, __ATOMIC_RELAXED);
	end_thread(thread);
	MUST(!ww_debug_warnings());
}

static struct ww_mutex firsts[3], seconds[3], outside[2];

/* Takes two of three and then two of three others, now and then during a lock without a context: long enough that others look. */
static void *goes_on(void *arg)
{
	unsigned draws = 1 + (unsigned)(size_t)arg;

	for (unsigned k = 0; k < 60; k++) {
		struct ww_acquire_ctx in, further;
		struct ww_mutex *lone = next(&draws) % 2 ? &outside[next(&draws) % 2] : NULL;
		unsigned n = next(&draws) % 3, m = next(&draws) % 3;

		if (lone)
			ww_mutex_lock(lone, NULL);
		ww_acquire_init(&in, &c);
		MUST(!ww_mutex_lock_all(&in, (struct ww_mutex *[]){ &firsts[n], &firsts[(n + 1) % 3] }, 2));
		ww_acquire_init(&further, &d);
		MUST(!ww_mutex_lock_all(&further, (struct ww_mutex *[]){ &seconds[m], &seconds[(m + 2) % 3] }, 2));
		usleep(next(&draws) % 3000);
		ww_mutex_unlock(&seconds[m]);
		ww_mutex_unlock(&seconds[(m + 2) % 3]);
		ww_acquire_fini(&further);
		ww_mutex_unlock(&firsts[n]);
		ww_mutex_unlock(&firsts[(n + 1) % 3]);
		ww_acquire_fini(&in);
		if (lone)
			ww_mutex_unlock(lone);
	}
	return NULL;
}

static DEFINE_WW_CLASS(beyond);

static void no_deadlock(void)
{
	ww_debug_check_interval(1);
	for (unsigned k = 0; k < 3; k++) {
		ww_mutex_init(&firsts[k], &c);
		ww_mutex_init(&seconds[k], &d);
	}
	for (unsigned k = 0; k < 2; k++)
		ww_mutex_init(&outside[k], &beyond);
	in_threads(8, goes_on);
	MUST(!ww_debug_faults());
}

/* ---- what each of them says ---- */

/* The limits of c and d, and what runs. */
static void in_child(uint32_t contexts, uint32_t others, void (*what)(void))
{
	MUST(!ww_class_limit(&c, 8, contexts) && !ww_class_limit(&d, 8, others));
	MUST(!ww_class_crowd(&c, WW_NO_CROWD) && !ww_class_crowd(&d, WW_NO_CROWD)); /* which would come by how long waits take */
	ww_mutex_init(&a, &c);
	ww_mutex_init(&b, &c);
	ww_mutex_init(&other, &d);
	what();
	_exit(0);
}

static int by_words(const void *one, const void *two) { return strcmp(*(char *const *)one, *(char *const *)two); }

/* Without the folder of this source. */
#define FOLDER "tests/debug/"
static void strip(char *text)
{
	char *to = text;

	for (const char *at = text; *at;)
		if (strncmp(at, FOLDER, sizeof FOLDER - 1))
			*to++ = *at++;
		else
			at += sizeof FOLDER - 1;
	*to = 0;
}

/* Its lines in order, without those and without the lines of backtraces. */
static void put_in_order(char *said, char *to)
{
	char *lines[64];
	unsigned count = 0;

	strip(said);
	for (char *line = strtok(said, "\n"); line && count < 64; line = strtok(NULL, "\n"))
		if (!strstr(line, "[0x") && !strstr(line, "[link with -rdynamic"))
			lines[count++] = line;
	qsort(lines, count, sizeof *lines, by_words);
	*to = 0;
	for (unsigned k = 0; k < count; k++)
		to += sprintf(to, "%s\n", lines[k]);
}

static char said[65536];

static void hear(uint32_t contexts, uint32_t others, void (*what)(void))
{
	int ends[2], status;
	ssize_t count, all = 0;
	pid_t child;

	MUST(!pipe(ends) && (child = fork()) >= 0);
	if (!child) {
		dup2(ends[1], 2);
		in_child(contexts, others, what);
	}
	close(ends[1]);
	while ((count = read(ends[0], said + all, sizeof said - 1 - (size_t)all)) > 0)
		all += count;
	said[all] = 0;
	without_addresses(said);
	close(ends[0]);
	MUST(waitpid(child, &status, 0) == child);
	if (status) {
		fprintf(stderr, "a child ended by %d: %s\n", status, said);
		exit(1);
	}
}

/* In these words $ is the place of this file whose line AT has seen, and ~ a thread. */
static void fill_in(char *to, const char *words)
{
	for (; *words; words++)
		if (*words == '$')
			to += sprintf(to, "warnings.c:%d", seen->lines[*++words - '0']);
		else if (*words == '~')
			to += sprintf(to, "thread %ld", seen->threads[*++words - '0']);
		else
			*to++ = *words;
	*to = 0;
}

/* What it says, in any order. */
static void tells(uint32_t contexts, uint32_t others, void (*what)(void), const char *words)
{
	static char expected[8192], wanted[8192], heard[65536];

	hear(contexts, others, what);
	fill_in(expected, words);
	put_in_order(expected, wanted);
	MUST(!HAS_BACKTRACE || strstr(said, "[0x"));
	put_in_order(said, heard);
	if (strcmp(heard, wanted)) {
		fprintf(stderr, "said is\n%sin place of\n%s", heard, wanted);
		exit(1);
	}
}

#define OTHER_CONTEXT "two contexts of a thread can wait for each other forever; its other one, if it wasn't left without ww_acquire_fini, began at "
#define BESIDE "deadlocks through locks without a context are not detected; the thread holds a mutex by what began at "
#define ALL_IN_USE(n) "all contexts (" n ") have been in use for 10 s; one that isn't ended by ww_acquire_fini stays in use; the oldest began at "
#define NONE_LEFT "all are in use, and deadlocks through this wait are not detected; the thread has what began at "

#define CLOCK "is it one of CLOCK_MONOTONIC, and no duration?\n"

static void tells_warnings(void)
{
	tells(4, 4, second_context, "$1: ww_acquire_init: class \"c\": " OTHER_CONTEXT "$0\n"
				    "$2: ww_acquire_init: class \"c\": " OTHER_CONTEXT "$0\n");
	tells(4, 4, loses_its_age, "$1: ww_acquire_fini: class \"c\": the context loses its age: one that begins in its place is the youngest, and "
				   "gives way again; let it back off, and go on, or suspend it (ww_retry.h); it got -EDEADLK at $0\n");
	tells(4, 4, without_context, "$2: ww_mutex_lock: class \"c\": " BESIDE "$1@\n");
	tells(4, 4, without_context_beside_one, "$1: ww_mutex_lock: class \"c\": " BESIDE "$0@\n");
	tells(2, 2, wait_for_context, "$1: a wait for a context: class \"c\": " NONE_LEFT "$0\n");
	tells(2, 2, for_a_mutex, "$1: a wait: class \"c\": it has lasted 10 s; mutex 0 \"what was left\" is held by what began at $0\n");
	tells(2, 2, for_what_a_thread_left, "$1: a wait: class \"c\": it has lasted 10 s; mutex 0 is held by what a thread that has "
					    "ended left; it began at $0\n");
	tells(2, 2, of_another_clock, "$0: a time limit: the time is long past: " CLOCK "$1: a time limit: the time is more than a year away: " CLOCK);
	tells(1, 2, contexts_come_back, "$1: a wait for a context: class \"c\": " ALL_IN_USE("1") "$1\n");
	tells(1, 2, for_a_context, "$1: a wait for a context: class \"c\": " ALL_IN_USE("1") "$0\n");
	tells(4, 2, in_the_same_memory,
	      "$1: ww_acquire_init: class \"c\": the context that was here before was left without ww_acquire_fini; it began at $0\n"
	      "$1: ww_acquire_init: class \"c\": " OTHER_CONTEXT "$0\n"
	      "$2: ww_acquire_init: class \"c\": " OTHER_CONTEXT "$0\n");
	tells(4, 2, stays_suspended,
	      "$2: ww_class_free: class \"c\": 2 of 8 mutexes and 1 of 4 contexts in use, waits for a context: 0\n"
	      "the user of context 1: context 1 began at $0; suspended at $1\n");
	tells(2, 2, stays_open,
	      "$2: ww_class_free: class \"c\": 2 of 8 mutexes and 2 of 2 contexts in use, waits for a context: 0\n"
	      "~2: context 1 began at $0\n~2: a lock without a context began at $1\nmutex 0 is held by ~2 since $1\n");
}

static void tells_deadlocks(void)
{
	tells(2, 2, two_classes, "$1: a wait: no class detects this deadlock of 2 threads\n"
				 "~0 waits at $1 for mutex 0 of class \"d\", which ~1 holds\n"
				 "~1 waits at $1 for mutex 0 of class \"c\", which ~0 holds\n");
	tells(2, 2, two_with_names, "$1: a wait: no class detects this deadlock of 2 threads\n"
				    "~0 waits at $1 for mutex 0 \"the user\" of class \"d\", which ~1 holds\n"
				    "~1 waits at $1 for mutex 0 \"the account\" of class \"c\", which ~0 holds\n");
	tells(4, 2, two_without, "$1: ww_mutex_lock: class \"c\": " BESIDE "$0@\n"
				 "$1: a wait: no class detects this deadlock of 2 threads\n"
				 "~0 waits at $1 for mutex 4 of class \"c\", which ~1 holds\n"
				 "~1 waits at $1 for mutex 0 of class \"c\", which ~0 holds\n");
	tells(4, 2, behind, "$1: ww_mutex_lock: class \"c\": " BESIDE "$0@\n"
			    "$1: a wait: no class detects this deadlock of 2 threads\n"
			    "~0 waits at $1 for mutex 4 of class \"c\", which ~1 holds\n"
			    "~1 waits at $1 for mutex 0 of class \"c\", which ~0 holds\n");
	tells(4, 2, one_without, "$1: ww_mutex_lock: class \"c\": " BESIDE "$0@\n"
				 "$1: a wait: no class detects this deadlock of 2 threads\n"
				 "~0 waits at $1 for mutex 4 of class \"c\", which ~1 holds\n"
				 "~1 waits at $1 for mutex 0 of class \"c\", which ~0 holds\n");
	tells(4, 2, itself, "$1: ww_mutex_lock: class \"c\": " BESIDE "$0@\n"
			    "$1: a wait: the thread waits for what it holds itself\n"
			    "~0 waits at $1 for mutex 0 of class \"c\", which ~0 holds\n");
	tells(4, 2, three, "$1: ww_mutex_lock: class \"c\": " BESIDE "$0@\n"
			   "$1: a wait: no class detects this deadlock of 3 threads\n"
			   "~0 waits at $1 for mutex 0 of class \"d\", which ~1 holds\n"
			   "~1 waits at $1 for mutex 4 of class \"c\", which ~2 holds\n"
			   "~2 waits at $1 for mutex 0 of class \"c\", which ~0 holds\n");
	tells(2, 2, no_context_left, "$1: ww_mutex_lock: class \"c\": " BESIDE "$0@\n"
				     "$1: a wait for a context: class \"c\": " NONE_LEFT "$0\n"
				     "$1: a wait for a context: class \"c\": " ALL_IN_USE("2") "$0\n");
}

/* ---- what ww_class_print writes ---- */

static void *acquires(void *arg)
{
	(void)arg;
	is_thread(0);
	AT(1, ww_mutex_lock(&a, NULL));
	pthread_barrier_wait(&all_hold);
	pthread_barrier_wait(&all_hold);
	ww_mutex_unlock(&a);
	return NULL;
}

static void prints(unsigned mutexes, unsigned contexts, const char *words)
{
	static char expected[8192];
	char *text = printed(&c);
	int count = sprintf(expected, "class \"c\": %u of 8 mutexes and %u of 4 contexts in use, waits for a context: 0\n",
			    mutexes, contexts);

	fill_in(expected + count, words);
	strip(text);
	if (strcmp(text, expected)) {
		fprintf(stderr, "printed is\n%sin place of\n%s", text, expected);
		exit(1);
	}
	free(text);
}

static void prints_what_is(void)
{
	struct timespec now = in_ms(0);
	pthread_t thread;

	is_thread(2);
	MUST(!ww_class_limit(&c, 8, 4) && !ww_class_crowd(&c, WW_NO_CROWD) && !pthread_barrier_init(&all_hold, NULL, 2));
	ww_mutex_init(&a, &c);
	ww_mutex_init(&b, &c);
	prints(2, 0, "");
	AT(0, ww_acquire_init(&x, &c));
	MUST(!AT(3, ww_mutex_lock(&a, &x)));
	thread = begin_thread(acquires, NULL);
	awaits_waiter(&a);
	prints(2, 2, "~2: context 1 began at $0\n~0: a lock without a context began at $1; waits at $1 for mutex 0, which ~2 holds\nmutex 0 is held by ~2 since $3\n");
	ww_mutex_unlock(&a);
	pthread_barrier_wait(&all_hold);
	prints(2, 2, "~2: context 1 began at $0\n~0: a lock without a context began at $1\nmutex 0 is held by ~0 since $1\n");
	MUST(ww_mutex_lock_until(&a, &x, &now) == -ETIMEDOUT && ww_mutex_lock_until(&a, NULL, &now) == -ETIMEDOUT);
	pthread_barrier_wait(&all_hold);
	end_thread(thread);
	prints(2, 1, "~2: context 1 began at $0\n");
	ww_acquire_fini(&x);
	MUST(!ww_mutex_destroy(&b));
	prints(1, 0, "");
	MUST(!ww_mutex_destroy(&a) && !ww_class_free(&c) && !ww_debug_warnings() && !ww_debug_faults());
}

static bool is_printed(const char *words)
{
	char *text = printed(&c);
	bool is = strstr(text, words) != NULL;

	free(text);
	return is;
}

static void *begins_later(void *arg)
{
	struct ww_acquire_ctx z;

	ww_acquire_init(&z, &c);
	ww_acquire_fini(&z);
	return arg;
}

static void permit_ends(uint64_t at)
{
	pthread_mutex_lock(&c.pool->queue);
	c.pool->crowd.permits[0].ends = at;
	pthread_mutex_unlock(&c.pool->queue);
}

/* How many permits a crowd has, and how many threads wait for one. */
static void prints_crowd(void)
{
	pthread_t threads[2];

	MUST(!ww_class_limit(&c, 8, 0) && !ww_class_crowd(&c, 0) && !ww_class_open(&c) && !is_printed("crowd"));
	crowds(&c, 1);
	permit_ends(UINT64_MAX / 2);
	for (unsigned k = 0; k < 2; k++)
		threads[k] = begin_thread(begins_later, NULL);
	while (!is_printed("waits for a context: 0; a crowd, permits: 1, waits for one: 2\n"))
		usleep(100);
	permit_ends(0);
	for (unsigned k = 0; k < 2; k++)
		end_thread(threads[k]);
	MUST(!ww_class_free(&c));
}

static bool is_over;

static void *prints_on(void *arg)
{
	while (!__atomic_load_n(&is_over, __ATOMIC_RELAXED))
		free(printed(&c));
	return arg;
}

/* The class is opened and freed meanwhile; it has so many mutexes that there is much to look at. */
static void prints_beside_its_end(void)
{
	pthread_t thread = begin_thread(prints_on, NULL);

	MUST(!ww_class_limit(&c, 20000, 4));
	for (unsigned k = 0; k < 100; k++) {
		ww_mutex_init(&a, &c);
		ww_mutex_lock(&a, NULL);
		ww_mutex_unlock(&a);
		MUST(!ww_mutex_destroy(&a) && !ww_class_free(&c));
	}
	__atomic_store_n(&is_over, true, __ATOMIC_RELAXED);
	end_thread(thread);
}

int main(void)
{
	seen = mmap(NULL, sizeof *seen, PROT_READ | PROT_WRITE, MAP_SHARED | MAP_ANONYMOUS, -1, 0);
	MUST(seen != MAP_FAILED);
	tells_warnings();
	tells_deadlocks();
	tells(4, 2, for_a_while, "$1: ww_mutex_lock: class \"c\": " BESIDE "$0@\n");
	tells(2, 2, one_is_awake, "$1: ww_mutex_lock: class \"c\": " BESIDE "$0@\n"
				  "$1: a wait for a context: class \"c\": " NONE_LEFT "$0\n");
	hear(2, 2, without_checks);
	hear(4, 2, one_is_woken);
	hear(4, 2, no_deadlock);
	MUST(!strstr(said, "no class detects this deadlock"));
	prints_what_is();
	prints_crowd();
	prints_beside_its_end();
	puts("warnings: each warning and each deadlock is told, and no other");
	return 0;
}
