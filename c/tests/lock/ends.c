/*
 * Errors that the kernel's calls can't return end the program, with a message that names the call.
 *
 * Each such end is that of a child.  And what a forked child may do.
 */
#include "../mutex_test.h"
#include "ww_number.h"
#include "ww_poll.h"
#include "ww_shared.h"
#include <signal.h>
#include <sys/wait.h>

static DEFINE_WD_CLASS(c);
static DEFINE_WW_CLASS(other);
static DEFINE_WD_CLASS(small);
static struct ww_mutex a, b, its;
static struct ww_acquire_ctx x, y; /* x holds a, at which y got -EDEADLK */

static void fini_with_a_mutex(void) { ww_acquire_fini(&x); }
static void fini_twice(void)
{
	ww_mutex_unlock(&a);
	ww_acquire_fini(&x);
	ww_acquire_fini(&x);
}
static void done_twice(void)
{
	ww_acquire_done(&x);
	ww_acquire_done(&x);
}
static void unlocks_in_vain(void)
{
	ww_mutex_unlock(&a);
	ww_mutex_unlock(&a);
}
static void fini_of_a_copy(void)
{
	struct ww_acquire_ctx copy;

	ww_mutex_unlock(&a);
	copy = x;
	ww_acquire_fini(&copy);
	ww_acquire_fini(&x);
}
static void unlocks_a_copy_in_a_loop(void)
{
	struct ww_mutex copy;

	ww_mutex_unlock(&a);
	ww_until_all_locked(&x) {
		MUST(!ww_mutex_lock(&a, &x) && !ww_mutex_lock(&b, &x));
		copy = a;
		ww_mutex_unlock(&copy);
	}
}
static void slow_without_cause(void) { ww_mutex_lock_slow(&its, &x); }
static void slow_without_context(void) { ww_mutex_lock_slow(&a, NULL); }
static void slow_while_it_holds(void) { ww_mutex_lock_slow(&a, &y); }
static void tries_another_class(void)
{
	int r = ww_mutex_trylock(&its, &x);

	(void)r;
}
static void tries_nothing(void)
{
	struct ww_mutex none = { 0 };
	int r = ww_mutex_trylock(&none, NULL);

	(void)r;
}
static void locks_what_is_destroyed(void)
{
	MUST(!ww_mutex_destroy(&its));
	ww_mutex_lock(&its, NULL);
}
static void one_mutex_too_many(void)
{
	struct ww_mutex list[3];

	MUST(!ww_class_limit(&small, 2, 1));
	for (unsigned k = 0; k < 3; k++)
		ww_mutex_init(&list[k], &small);
}
static void class_of_nothing(void)
{
	static struct ww_class none = { .mutexes = WW_MAX_LOCKS + 1, .contexts = 4, .name = "none" };
	struct ww_acquire_ctx z;

	MUST(ww_acquire_init_checked(&z, &none) == -EINVAL);
	ww_acquire_init(&z, &none);
}
static void loop_while_it_holds(void)
{
	ww_until_all_locked(&x) {}
}

/* Amid a wait by a poll, in a class of the child's own. */
static void never(void *loop, void *task) { MUST(loop == task && !loop); }
static void amid_a_wait(void (*what)(struct ww_acquire_ctx *waits, struct ww_mutex *holds), bool it_holds)
{
	static DEFINE_WW_CLASS(own);
	const struct ww_waker waker = { never, &x, NULL };
	struct ww_acquire_ctx waits, holds;
	struct ww_shared_mutex m;
	struct ww_mutex n;

	ww_shared_mutex_init(&m, &own);
	ww_mutex_init(&n, &own);
	ww_acquire_init(&waits, &own);
	ww_acquire_init(&holds, &own);
	if (it_holds)
		MUST(!ww_shared_mutex_lock(&m, &waits));
	MUST(!ww_mutex_lock(&n, &holds) && ww_mutex_lock_poll(&n, &waits, &waker) == -EINPROGRESS);
	what(&waits, it_holds ? &m.mutex_ : NULL);
}
static void loops(struct ww_acquire_ctx *waits, struct ww_mutex *holds)
{
	MUST(!holds);
	ww_until_all_locked(waits) {}
}
static void unlocks(struct ww_acquire_ctx *waits, struct ww_mutex *holds)
{
	(void)waits;
	ww_mutex_unlock(holds);
}
static void finishes(struct ww_acquire_ctx *waits, struct ww_mutex *holds)
{
	(void)holds;
	ww_acquire_fini(waits);
}
static void unlocks_all(struct ww_acquire_ctx *waits, struct ww_mutex *holds)
{
	(void)holds;
	ww_acquire_unlock_all(waits);
}
static void downgrades(struct ww_acquire_ctx *waits, struct ww_mutex *holds)
{
	ww_shared_mutex_downgrade((struct ww_shared_mutex *)(void *)holds, waits);
}
static void ends_reads(struct ww_acquire_ctx *waits, struct ww_mutex *holds)
{
	(void)holds;
	ww_acquire_end_reads(waits);
}
static void downgrade_amid_a_wait(void) { amid_a_wait(downgrades, true); }
static void end_of_reads_amid_a_wait(void) { amid_a_wait(ends_reads, false); }
static void loop_amid_a_wait(void) { amid_a_wait(loops, false); }
static void unlock_amid_a_wait(void) { amid_a_wait(unlocks, true); }
static void unlock_all_amid_a_wait(void) { amid_a_wait(unlocks_all, true); }
static void fini_amid_a_wait(void) { amid_a_wait(finishes, false); }

/* Of a class that was opened before the fork a child gets nothing. */
static void inits_in_a_child(void)
{
	struct ww_mutex m;

	MUST(ww_mutex_init_checked(&m, &c) == -EINVAL);
	ww_mutex_init(&m, &c);
}
static void begins_in_a_child(void)
{
	struct ww_acquire_ctx z;

	ww_mutex_unlock(&a);
	ww_acquire_fini(&x);
	MUST(ww_acquire_init_checked(&z, &c) == -EINVAL);
	ww_acquire_init(&z, &c);
}
static void locks_in_a_child(void)
{
	struct timespec soon = in_ms(1);

	MUST(!ww_mutex_trylock(&its, NULL) && ww_mutex_lock_interruptible(&its, NULL) == -EINVAL);
	MUST(ww_mutex_lock_until(&its, NULL, &soon) == -EINVAL);
	ww_mutex_lock(&its, NULL);
}

/* This context is in use, while the thread has another seat at hand. */
static void uses_other(struct ww_acquire_ctx *z)
{
	struct ww_acquire_ctx first;

	ww_acquire_init(&first, &other);
	ww_acquire_init(z, &other);
	ww_acquire_fini(&first);
}

static void writes(void *to, const char *message) { MUST(dprintf(*(int *)to, "%s\n", message) > 0); }

/* Runs it in a child, and reads what that says: to standard error, by a function, or to standard error after one. */
static int in_child(unsigned by, void (*what)(void), char *said, size_t room)
{
	int ends[2], status;
	ssize_t count, all = 0;
	pid_t child;

	MUST(!pipe(ends) && (child = fork()) >= 0);
	if (!child) {
		if (by)
			ww_report_to(writes, &ends[by == 1]);
		if (by == 2)
			ww_report_to(NULL, NULL);
		if (by != 1)
			dup2(ends[1], 2);
		signal(SIGABRT, SIG_DFL);
		what();
		_exit(0);
	}
	close(ends[1]);
	while ((count = read(ends[0], said + all, room - 1 - (size_t)all)) > 0)
		all += count;
	said[all] = 0;
	close(ends[0]);
	MUST(waitpid(child, &status, 0) == child);
	return status;
}

static void ends(void (*what)(void), const char *message)
{
	char said[4096];

	for (unsigned by = 0; by < 3; by++) {
		int status = in_child(by, what, said, sizeof said);

		if (!WIFSIGNALED(status) || WTERMSIG(status) != SIGABRT || strncmp(said, message, strlen(message))) {
			fprintf(stderr, "not told: %s, but %s\n", message, said);
			exit(1);
		}
	}
}

/* A child has classes of its own, and what it had of a class that it lets go is new. */
static void goes_on_in_a_child(void)
{
	static DEFINE_WW_CLASS(own);
	struct ww_mutex m;
	struct ww_acquire_ctx z;
	struct ww_class *classes[] = { &own, &c };

	for (unsigned k = 0; k < 2; k++) {
		MUST(!ww_class_free(classes[k]) && !ww_class_limit(classes[k], 64, 4));
		ww_mutex_init(&m, classes[k]);
		ww_acquire_init(&z, classes[k]);
		MUST(!ww_mutex_lock(&m, &z) && !ww_mutex_trylock(&m, NULL));
		ww_mutex_unlock(&m);
		ww_acquire_fini(&z);
		MUST(!ww_mutex_lock(&m, NULL));
		ww_mutex_unlock(&m);
		MUST(!ww_mutex_destroy(&m) && !ww_class_free(classes[k]));
	}
}

static bool stop;
static void *works(void *arg)
{
	(void)arg;
	while (!__atomic_load_n(&stop, __ATOMIC_RELAXED)) {
		struct ww_acquire_ctx z;
		struct ww_mutex m;

		ww_mutex_init(&m, &c);
		ww_acquire_init(&z, &c);
		MUST(!ww_mutex_lock(&m, &z));
		ww_mutex_unlock(&m);
		ww_acquire_fini(&z);
		MUST(!ww_mutex_destroy(&m));
	}
	return NULL;
}

/* Forks while other threads are in their calls; the parent goes on as ever. */
static void forks(void)
{
	struct ww_acquire_ctx z;
	pthread_t threads[4];
	char said[4096];

	for (unsigned k = 0; k < 4; k++)
		threads[k] = begin_thread(works, NULL);
	for (unsigned k = 0; k < 20; k++) {
		int status = in_child(0, goes_on_in_a_child, said, sizeof said);

		MUST(!status && !said[0]);
	}
	uses_other(&z);
	ends(locks_in_a_child, "ww_mutex_lock: class \"other\": it was in use at a fork, of which this is the child");
	ww_acquire_fini(&z);
	__atomic_store_n(&stop, true, __ATOMIC_RELAXED);
	for (unsigned k = 0; k < 4; k++)
		end_thread(threads[k]);
}

int main(void)
{
	struct ww_acquire_ctx z;

	ww_mutex_init(&a, &c);
	ww_mutex_init(&b, &c);
	ww_mutex_init(&its, &other);
	ww_acquire_init(&x, &c);
	ww_acquire_init(&y, &c);
	MUST(!ww_mutex_lock(&a, &x));
	ends(fini_with_a_mutex, "ww_acquire_fini: class \"c\": the context still holds a mutex");
	ends(fini_twice, "ww_acquire_fini: the context has ended");
	ends(fini_of_a_copy, "ww_acquire_fini: class \"c\": the context has ended by a copy of it, or the class");
	ends(unlocks_a_copy_in_a_loop, "ww_mutex_unlock: nobody holds the mutex, or it is a copy");
	ends(done_twice, "ww_acquire_done: class \"c\": the context is done, or has ended");
	ends(unlocks_in_vain, "ww_mutex_unlock: nobody holds the mutex");
	ends(slow_without_cause, "ww_mutex_lock_slow: class \"other\": no -EDEADLK of this mutex came before");
	ends(slow_without_context, "ww_mutex_lock_slow: class \"c\": no -EDEADLK of this mutex came before");
	ends(tries_another_class, "ww_mutex_trylock: class \"other\": the mutex is of another class, or isn't initialized");
	ends(tries_nothing, "ww_mutex_trylock: the mutex isn't initialized");
	ends(locks_what_is_destroyed, "ww_mutex_lock: the mutex isn't initialized");
	ends(one_mutex_too_many, "ww_mutex_init: class \"small\": all its mutexes are in use: 65,536, or as many as ww_class_limit set (one");
	ends(class_of_nothing, "ww_acquire_init: class \"none\": it was in use at a fork, of which this is the child, or was never");
	ends(loop_while_it_holds, "ww_until_all_locked: class \"c\": the context holds a mutex");
	uses_other(&z);
	ends(inits_in_a_child, "ww_mutex_init: class \"c\": it was in use at a fork, of which this is the child");
	ends(begins_in_a_child, "ww_acquire_init: class \"c\": it was in use at a fork, of which this is the child");
	ends(locks_in_a_child, "ww_mutex_lock: class \"other\": it was in use at a fork, of which this is the child");
	ww_acquire_fini(&z);
	MUST(!ww_mutex_lock(&b, &y) && ww_mutex_lock(&a, &y) == -EDEADLK);
	ends(slow_while_it_holds, "ww_mutex_lock_slow: class \"c\": no -EDEADLK of this mutex came before");
	ends(loop_amid_a_wait, "ww_until_all_locked: class \"own\": the context waits by a poll");
	ends(unlock_amid_a_wait, "ww_mutex_unlock: its context waits by a poll, or is another one");
	ends(unlock_all_amid_a_wait, "ww_acquire_unlock_all: class \"own\": the context waits by a poll");
	ends(fini_amid_a_wait, "ww_acquire_fini: class \"own\": the context waits by a poll");
	ends(downgrade_amid_a_wait, "ww_shared_mutex_downgrade: class \"own\": the context waits by a poll");
	ends(end_of_reads_amid_a_wait, "ww_acquire_end_reads: class \"own\": the context waits by a poll");
	forks();
	ww_mutex_unlock(&a);
	ww_mutex_unlock(&b);
	ww_acquire_fini(&x);
	ww_acquire_fini(&y);
	MUST(!ww_mutex_destroy(&a) && !ww_mutex_destroy(&b) && !ww_mutex_destroy(&its) && !ww_class_free(&c) && !ww_class_free(&other));
	puts("ends: each says why");
	return 0;
}
