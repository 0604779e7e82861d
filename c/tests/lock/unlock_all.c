/*
 * What ww_acquire_unlock_all releases of a context without a loop: all that was acquired since the last unlock of one mutex, in
 * whichever way it was acquired, the newest first, and all reads.
 *
 * What it can't know, a mutex by number or one from before such an unlock, ends the program with a message that says what to do.
 * Then it is known: after ww_acquire_begin_tries.
 */
#include "../mutex_test.h"
#include "ww_number.h"
#include "ww_poll.h"
#include "ww_shared.h"
#include <sys/wait.h>

enum { MUTEXES = 4 };
static DEFINE_WW_CLASS(boxes);
static struct ww_mutex m[MUTEXES];
static struct ww_shared_mutex shared;

static void begins(struct ww_acquire_ctx *x) { ww_acquire_init(x, &boxes); }

/* Everything is free, and the context can begin anew with all of it. */
static void releases_all(struct ww_acquire_ctx *x)
{
	ww_acquire_unlock_all(x);
	MUST(!x->acquired);
	for (int k = 0; k < MUTEXES; k++)
		MUST(!ww_mutex_is_locked(&m[k]));
	MUST(!ww_shared_mutex_is_locked(&shared));
	ww_acquire_unlock_all(x);
	for (int k = 0; k < MUTEXES; k++)
		MUST(!ww_mutex_lock(&m[k], x));
	ww_acquire_unlock_all(x);
	ww_acquire_fini(x);
}

static void in_each_way(void)
{
	struct timespec soon = in_ms(1000);
	struct ww_acquire_ctx x;

	begins(&x);
	MUST(!ww_mutex_lock(&m[0], &x) && ww_mutex_trylock(&m[1], &x) && !ww_mutex_lock_until(&m[2], &x, &soon));
	MUST(!ww_mutex_lock_interruptible(&m[3], &x));
	releases_all(&x);
}

static void behind_unlocks(void)
{
	struct ww_acquire_ctx x;

	begins(&x);
	MUST(!ww_mutex_lock(&m[0], &x) && !ww_mutex_lock(&m[1], &x));
	ww_mutex_unlock(&m[0]);
	ww_mutex_unlock(&m[1]);
	MUST(!ww_mutex_lock(&m[2], &x));
	MUST(!ww_mutex_unlock_checked(&m[2]));
	MUST(!ww_mutex_lock(&m[1], &x) && !ww_mutex_lock(&m[3], &x));
	releases_all(&x);
}

static unsigned woken[MUTEXES], count;
static void note(void *loop, void *task) { woken[count++] = (unsigned)((struct ww_mutex *)task - (struct ww_mutex *)loop); }

/* Of each mutex another context waits, whose waker says when the mutex was released; in a loop those behind a mark come first. */
static void newest_first(bool loops)
{
	struct ww_acquire_ctx x, y[MUTEXES];

	begins(&x);
	if (loops)
		ww_acquire_begin_tries(&x);
	for (unsigned k = 0; k < MUTEXES; k++) {
		MUST(!ww_mutex_lock(&m[k], &x));
		begins(&y[k]);
		MUST(ww_mutex_lock_poll(&m[k], &y[k], &(struct ww_waker){ note, m, &m[k] }) == -EINPROGRESS);
	}
	count = 0;
	if (loops)
		ww_acquire_unlock_to(&x, 2);
	ww_acquire_unlock_all(&x);
	MUST(count == MUTEXES);
	for (unsigned k = 0; k < MUTEXES; k++)
		MUST(woken[k] == MUTEXES - 1 - k && !ww_acquire_end(&y[k]));
	ww_acquire_fini(&x);
}

static void with_reads(void)
{
	struct ww_acquire_ctx x;

	begins(&x);
	MUST(!ww_shared_mutex_lock_shared(&shared, &x) && !ww_mutex_lock(&m[0], &x));
	releases_all(&x);

	begins(&x);
	MUST(!ww_mutex_lock(&m[0], &x) && !ww_shared_mutex_lock_shared(&shared, &x));
	ww_mutex_unlock(&m[0]);
	releases_all(&x);

	begins(&x);
	MUST(!ww_shared_mutex_lock(&shared, &x));
	ww_shared_mutex_downgrade(&shared, &x);
	MUST(!ww_mutex_lock(&m[0], &x));
	releases_all(&x);
}

static void from_before_an_unlock(struct ww_acquire_ctx *x)
{
	MUST(!ww_mutex_lock(&m[0], x) && !ww_mutex_lock(&m[1], x));
	ww_mutex_unlock(&m[1]);
}

static void by_number(struct ww_acquire_ctx *x)
{
	uint32_t number;

	MUST(!ww_number_take(&number, &boxes) && !ww_number_lock(number, x));
}

/* The call ends the program, with a message. */
static const char message[] =
	"ww_acquire_unlock_all: class \"boxes\": outside a loop the context acquired a mutex by number, or before it released another one "
	"(unlock each by itself, or acquire them after ww_acquire_begin_tries)\n";

static int unlocks_all(struct ww_acquire_ctx *x) { return ww_acquire_unlock_all(x), 0; }

static void must_end(void (*acquires)(struct ww_acquire_ctx *x), int (*releases)(struct ww_acquire_ctx *x))
{
	char said[256] = "";
	struct ww_acquire_ctx known;
	int ends[2], status;
	pid_t child;

	MUST(!pipe(ends));
	child = fork();
	MUST(child >= 0);
	if (!child) {
		struct ww_acquire_ctx x;

		dup2(ends[1], 2);
		begins(&x);
		acquires(&x);
		_exit(releases(&x));
	}
	close(ends[1]);
	for (ssize_t got = 0, more = 1; more > 0; got += more) { /* the message may come in parts */
		more = read(ends[0], said + got, sizeof said - 1 - (size_t)got);
		MUST(more >= 0);
	}
	/* qemu says something behind it. */
	MUST(!strncmp(said, message, sizeof message - 1));
	close(ends[0]);
	MUST(waitpid(child, &status, 0) == child && WIFSIGNALED(status));
	begins(&known);
	ww_acquire_begin_tries(&known);
	acquires(&known);
	MUST(!releases(&known) && !known.acquired);
	(void)ww_acquire_end(&known);
}

int main(void)
{
	for (int k = 0; k < MUTEXES; k++)
		ww_mutex_init(&m[k], &boxes);
	ww_shared_mutex_init(&shared, &boxes);
	in_each_way();
	behind_unlocks();
	newest_first(false);
	newest_first(true);
	with_reads();
	must_end(from_before_an_unlock, unlocks_all);
	must_end(by_number, unlocks_all);
	must_end(from_before_an_unlock, ww_acquire_end);
	must_end(by_number, ww_acquire_end);
	puts("unlock_all: without a loop all is released that was acquired since the last unlock");
	return 0;
}
