/*
 * Waits that last, of which the debug library says where what they wait for began.
 *
 * Contexts are left without ww_acquire_fini: a thread that waits for a context reports that after ten seconds, once, and
 * only if none was given meanwhile; and it goes on waiting.  So does the next task that comes to wait, and who waits for a
 * mutex, once for each line.
 */
#ifndef WW_DEBUG
#define WW_DEBUG
#endif
#include "../mutex_test.h"
#include "../../admit/class.h"
#include "ww_poll.h"
#include "../later.h"
#include "../said.h"
#include <string.h>
#include <sys/wait.h>

static struct ww_class c;
static struct ww_acquire_ctx x;
static struct ww_mutex a;
static bool comes_back;

/* Nobody looks how long it waits. */
static bool is_silent;

static void each_waits(void)
{
	if (is_silent)
		usleep(100000);
	else
		each_has_looked();
}

/* As if so many seconds had gone since the waits began; then each of them has looked. */
static void is_later_by(time_t seconds)
{
	__atomic_store_n(&ahead, seconds - 60, __ATOMIC_SEQ_CST);
	each_waits();
}

/* ---- what is said ---- */

static int said;

static void listens(void)
{
	int ends[2];

	MUST(!pipe(ends) && dup2(ends[1], STDERR_FILENO) == STDERR_FILENO);
	close(ends[1]);
	said = ends[0];
}

/* Since it was asked last, of waits, without lines and where something began; what a call says it says at once. */
static void says(const char *words)
{
	static char all[65536];
	char heard[1024] = "", *rest = all;
	ssize_t count = 0;

	fputc('.', stderr); /* so that there is something to read */
	count = read(said, all, sizeof all - 1);
	MUST(count > 0);
	all[count - 1] = 0;
	without_addresses(all);
	for (char *line; (line = strsep(&rest, "\n"));) {
		const char *from = strstr(line, "a wait"), *end = strstr(line, "began at ");

		if (from && end)
			strncat(heard, from, (size_t)(end - from));
	}
	if (strcmp(heard, words)) {
		printf("said is\n%s\nin place of\n%s\n", heard, words);
		exit(1);
	}
}

#define ALL_IN_USE(n) "a wait for a context: class \"it\": all contexts (" n ") have been in use for 10 s; one that isn't " \
		      "ended by ww_acquire_fini stays in use; the oldest "
static const char all_in_use[] = ALL_IN_USE("1");

/* ---- who waits ---- */

static uint64_t waits(void)
{
	struct ww_class_counts counts;

	ww_class_stats(&c, &counts);
	return counts.context_waits;
}

static void *begins(void *ctx)
{
	struct ww_acquire_ctx mine, *y = ctx ? ctx : &mine;

	comes_to_look();
	ww_acquire_init(y, &c);
	has_looked();
	__atomic_store_n(&comes_back, true, __ATOMIC_RELAXED);
	pthread_testcancel();
	if (!ctx)
		ww_acquire_fini(y);
	return NULL;
}

static pthread_t waits_for_one(void *ctx)
{
	uint64_t before = waits();
	pthread_t thread = begin_thread(begins, ctx);

	while (waits() == before)
		usleep(1000);
	each_waits();
	return thread;
}

static void begins_anew(void)
{
	__atomic_store_n(&ahead, -60, __ATOMIC_SEQ_CST);
	ww_class_init(&c, 0, "it");
	MUST(!ww_class_limit(&c, 1, 1));
	ww_acquire_init(&x, &c);
}

static void ends_again(void) { MUST(!ww_class_free(&c)); }

/* Two threads wait, and one of them says it; later nobody does. */
static void is_said_once(void)
{
	pthread_t threads[2];

	begins_anew();
	for (unsigned k = 0; k < 2; k++)
		threads[k] = waits_for_one(NULL);
	is_later_by(5);
	says("");
	is_later_by(11);
	says(all_in_use);
	is_later_by(35);
	says("");
	ww_acquire_fini(&x);
	for (unsigned k = 0; k < 2; k++)
		end_thread(threads[k]);
	ends_again();
}

/* The first of two threads gets the context, and keeps it: the other one says it ten seconds later. */
static void is_given_meanwhile(void)
{
	struct ww_acquire_ctx y;
	pthread_t first, second;

	begins_anew();
	first = waits_for_one(&y);
	second = waits_for_one(NULL);
	ww_acquire_fini(&x);
	end_thread(first);
	is_later_by(11);
	says("");
	is_later_by(22);
	says(all_in_use);
	ww_acquire_fini(&y);
	end_thread(second);
	ends_again();
}

/* pthread_cancel doesn't end the thread during the message: its wait is in the queue. */
static void is_to_end(void)
{
	struct ww_acquire_ctx y;
	pthread_t thread;
	void *how;

	begins_anew();
	comes_back = false;
	thread = waits_for_one(&y);
	MUST(!pthread_cancel(thread));
	is_later_by(11);
	says(all_in_use);
	ww_acquire_fini(&x);
	MUST(!pthread_join(thread, &how) && how == PTHREAD_CANCELED && comes_back);
	ww_acquire_fini(&y);
	ends_again();
}

static void nothing(void *loop, void *task)
{
	(void)loop;
	(void)task;
}

/* No thread sleeps for a task, so the next one that comes to wait says it, if none of those before it got a context. */
static void is_said_of_tasks(void)
{
	static struct ww_acquire_ctx tasks[128], y;
	static struct ww_seek seeks[4];
	const struct ww_waker waker = { nothing, NULL, NULL };
	unsigned count = 0;
	char all[256];

	__atomic_store_n(&ahead, -60, __ATOMIC_SEQ_CST);
	ww_class_init(&c, 0, "it");
	MUST(!ww_class_open(&c));
	c.pool->tasks.due = UINT64_MAX; /* nobody looks whether more contexts would be better */
	while (!ww_acquire_init_poll(&tasks[count], &c, &seeks[0], &waker))
		count++;
	snprintf(all, sizeof all, ALL_IN_USE("%u"), count);
	is_later_by(11);
	ww_acquire_fini(&tasks[0]);
	MUST(!ww_acquire_init_poll(&tasks[0], &c, &seeks[0], &waker));
	says("");
	for (unsigned k = 0; k < 4; k++) {
		MUST(ww_acquire_init_poll(&y, &c, &seeks[k], &waker) == -EINPROGRESS);
		says(k == 2 ? all : "");
		is_later_by(k < 1 ? 16 : 33 + (time_t)k);
	}
	for (unsigned k = 0; k < 4; k++)
		MUST(ww_acquire_init_poll(&y, &c, &seeks[k], NULL) == -ETIMEDOUT);
	while (count)
		ww_acquire_fini(&tasks[--count]);
	ends_again();
}

static const char is_long[] = "a wait: class \"it\": it has lasted 10 s; mutex 0 is held by what ";

static void *locks(void *arg)
{
	comes_to_look();
	ww_mutex_lock(&a, NULL);
	has_looked();
	__atomic_store_n(&comes_back, true, __ATOMIC_RELAXED);
	pthread_testcancel();
	ww_mutex_unlock(&a);
	return arg;
}

/* Threads wait for a mutex: one of them says it, or none; then each acquires it, also one that is cancelled during its message. */
static void waits_for_a_mutex(unsigned count, bool is_to_end, const char *words)
{
	pthread_t threads[2];
	void *how;

	__atomic_store_n(&ahead, -60, __ATOMIC_SEQ_CST);
	comes_back = false;
	ww_class_init(&c, 0, "it");
	ww_mutex_init(&a, &c);
	ww_mutex_lock(&a, NULL);
	for (unsigned k = 0; k < count; k++)
		threads[k] = begin_thread(locks, NULL);
	while (__atomic_load_n(&a.waiters, __ATOMIC_SEQ_CST) < count)
		usleep(1000);
	each_waits();
	if (is_to_end)
		MUST(!pthread_cancel(threads[0]));
	is_later_by(5);
	says("");
	is_later_by(11);
	says(words);
	is_later_by(35);
	says("");
	ww_mutex_unlock(&a);
	for (unsigned k = 0; k < count; k++)
		MUST(!pthread_join(threads[k], &how) && __atomic_load_n(&comes_back, __ATOMIC_RELAXED) && (how == PTHREAD_CANCELED) == is_to_end);
	if (is_to_end) /* it holds it still */
		ww_mutex_unlock(&a);
	MUST(!ww_mutex_destroy(&a));
	ends_again();
}

/* No wait is long, and nobody says anything. */
static void is_never_said(void)
{
	pthread_t thread;

	is_silent = true;
	ww_report_long_waits(0);
	waits_for_a_mutex(2, false, "");
	begins_anew();
	thread = waits_for_one(NULL);
	is_later_by(35);
	says("");
	ww_acquire_fini(&x);
	end_thread(thread);
	ends_again();
	ww_report_long_waits(10);
	is_silent = false;
}

static void *locks_until(void *until)
{
	MUST(ww_mutex_lock_until(&a, NULL, until) == -ETIMEDOUT);
	return NULL;
}

/* A wait that ends by itself says nothing. */
static void has_a_time(void)
{
	struct timespec until;
	pthread_t thread;

	begins_anew();
	ww_mutex_init(&a, &c);
	until = in_ms(15000);
	thread = begin_thread(locks_until, &until);
	while (!waits())
		usleep(1000);
	is_later_by(12);
	is_later_by(16);
	end_thread(thread);
	says("");
	MUST(!ww_mutex_destroy(&a));
	ww_acquire_fini(&x);
	ends_again();
}

static void of_two_threads(void) { waits_for_a_mutex(2, false, is_long); }
static void of_one_that_is_to_end(void) { waits_for_a_mutex(1, true, is_long); }

/* By itself, since each line is reported once. */
static void in_a_child(void (*what)(void))
{
	int status;
	pid_t child = fork();

	if (!child) {
		what();
		exit(0);
	}
	MUST(child > 0 && waitpid(child, &status, 0) == child && WIFEXITED(status) && !WEXITSTATUS(status));
}

int main(void)
{
	listens();
	in_a_child(is_said_once);
	in_a_child(is_given_meanwhile);
	in_a_child(is_to_end);
	in_a_child(is_said_of_tasks);
	in_a_child(has_a_time);
	in_a_child(of_two_threads);
	in_a_child(of_one_that_is_to_end);
	in_a_child(is_never_said);
	puts("leaks: it is said that no context comes back, and that a wait for a mutex is long");
	return 0;
}
