/*
 * What each call of ww_table.h returns, in one thread; each memory that it asks for is refused in turn.
 *
 * By Wait-Die, where a younger context that would wait for an older one is told so at once.
 */
#include "../mutex_test.h"
#include "ww_retry.h"
#include "ww_table.h"
#include <sys/mman.h>
#include <sys/wait.h>

static DEFINE_WD_CLASS(rows);
static DEFINE_WW_CLASS(others);
static DEFINE_WD_CLASS(ending);
static struct ww_class four = { .name = "four", .mutexes = 4, .contexts = 4 }, more = { .name = "more", .mutexes = 600, .contexts = 4 };
static struct ww_table *t;
static struct ww_acquire_ctx a, b;

/* So many allocations succeed from now on; -1: all do. And so many weren't freed yet. */
static long refuses = -1, allocated;
static bool is_refused(void)
{
	bool is = refuses == 0 || (refuses > 0 && refuses-- == 0);

	allocated += !is;
	return is;
}
void __real_free(void *at);
void __wrap_free(void *at)
{
	allocated -= at != NULL;
	__real_free(at);
}
void *__real_malloc(size_t size);
void *__real_calloc(size_t count, size_t size);
void *__wrap_malloc(size_t size) { return is_refused() ? NULL : __real_malloc(size); }
void *__wrap_calloc(size_t count, size_t size) { return is_refused() ? NULL : __real_calloc(count, size); }
void *__real_mmap(void *at, size_t size, int may, int how, int file, off_t from);
void *__wrap_mmap(void *at, size_t size, int may, int how, int file, off_t from)
{
	return is_refused() ? MAP_FAILED : __real_mmap(at, size, may, how, file, from);
}
int __real_munmap(void *at, size_t size);
int __wrap_munmap(void *at, size_t size)
{
	allocated--;
	return __real_munmap(at, size);
}

static const struct timespec past;
static const struct ww_table_how try_it = { .by = WW_TABLE_TRIES }, until_past = { .until = &past };

static int lock(struct ww_acquire_ctx *x, const char *key, enum ww_table_mode mode, const struct ww_table_how *how)
{
	return ww_table_lock(t, x, key, strlen(key), mode, how);
}
static int unlock(struct ww_acquire_ctx *x, const char *key) { return ww_table_unlock(t, x, key, strlen(key)); }
static int reads(struct ww_acquire_ctx *x, const char *key) { return lock(x, key, WW_TABLE_SHARED, &try_it); }
static int writes(struct ww_acquire_ctx *x, const char *key) { return lock(x, key, WW_TABLE_EXCLUSIVE, &try_it); }

static void begins(void)
{
	ww_acquire_init(&a, &rows);
	ww_acquire_init(&b, &rows);
}

static void ends(void)
{
	ww_table_unlock_to(t, &a, 0);
	ww_table_unlock_to(t, &b, 0);
	ww_acquire_fini(&a);
	ww_acquire_fini(&b);
}

/* Each row: what a has, in which mode b asks, what it gets, and whether a may raise its own. */
static void modes(void)
{
	static const struct { enum ww_table_mode has, asks; int gets, raises; } table[] = {
		{ WW_TABLE_SHARED, WW_TABLE_SHARED, 0, -EBUSY },
		{ WW_TABLE_SHARED, WW_TABLE_EXCLUSIVE, -EBUSY, 0 },
		{ WW_TABLE_EXCLUSIVE, WW_TABLE_SHARED, -EBUSY, -EALREADY },
		{ WW_TABLE_EXCLUSIVE, WW_TABLE_EXCLUSIVE, -EBUSY, -EALREADY },
	};

	for (size_t k = 0; k < sizeof table / sizeof *table; k++) {
		begins();
		MUST(!lock(&a, "k", table[k].has, NULL) && lock(&a, "k", table[k].has, NULL) == -EALREADY);
		MUST(lock(&b, "k", table[k].asks, &try_it) == table[k].gets);
		MUST(table[k].gets == 0 || lock(&b, "k", table[k].asks, &until_past) == -ETIMEDOUT);
		MUST(writes(&a, "k") == table[k].raises);
		MUST(!writes(&b, "another") && !writes(&b, "") && unlock(&b, "none") == -EINVAL);
		ends();
	}
}

/* An unlock ends both. */
static void raised(void)
{
	begins();
	MUST(!reads(&a, "k") && !writes(&a, "k") && reads(&b, "k") == -EBUSY && writes(&a, "k") == -EALREADY && reads(&a, "k") == -EALREADY);
	MUST(!unlock(&a, "k") && unlock(&a, "k") == -EINVAL && !writes(&b, "k") && ww_table_mark(t, &a) == 0);
	ends();
}

/* What was shared and is no more, another context may have, whatever else is still shared. */
static void shared_no_more(void)
{
	begins();
	MUST(!reads(&a, "1") && !reads(&a, "2") && !reads(&a, "3") && !unlock(&a, "2") && !writes(&b, "2") && writes(&b, "3") == -EBUSY);
	ww_table_unlock_to(t, &a, 1);
	MUST(!writes(&b, "3") && writes(&b, "1") == -EBUSY);
	ends();
}

/*
 * A key that both share and one releases is the other's to write at once, by a try and by a poll, though the first shares another key on:
 * the entry stays, since the second context has it.
 */
static void raised_at_once(void)
{
	const struct ww_table_how poll = { .by = WW_TABLE_POLLS };

	begins();
	MUST(!reads(&a, "1") && !reads(&a, "2") && !reads(&a, "3") && !reads(&b, "2") && !reads(&b, "3"));
	MUST(writes(&b, "2") == -EBUSY && !unlock(&a, "2") && !writes(&b, "2"));
	MUST(lock(&b, "3", WW_TABLE_EXCLUSIVE, &poll) == -ETIMEDOUT && !unlock(&a, "3") && !lock(&b, "3", WW_TABLE_EXCLUSIVE, &poll));
	MUST(writes(&b, "1") == -EBUSY && ww_table_mark(t, &a) == 1);
	ends();
}

static void marks(void)
{
	begins();
	MUST(!writes(&a, "1") && !reads(&a, "2") && ww_table_mark(t, &a) == 2 && !writes(&a, "3") && !writes(&a, "2"));
	ww_table_unlock_to(t, &a, 1);
	MUST(ww_table_mark(t, &a) == 1 && !writes(&b, "2") && !writes(&b, "3") && writes(&b, "1") == -EBUSY);
	ww_table_unlock_to(t, &a, 1);
	MUST(ww_table_close(t) == -EBUSY);
	ends();
	MUST(ww_table_mark(t, &a) == 0);
}

static void refused_arguments(void)
{
	struct ww_acquire_ctx x;

	begins();
	ends();
	MUST(writes(&a, "k") == -EINVAL && unlock(&a, "k") == -EINVAL);
	ww_acquire_init(&x, &others);
	ww_acquire_init(&a, &rows);
	MUST(!writes(&a, "1"));
	MUST(writes(&x, "k") == -EINVAL && ww_table_mark(t, &x) == 0 && ww_table_mark(t, &a) == 1 && !unlock(&a, "1"));
	ww_acquire_fini(&a);
	ww_acquire_fini(&x);
	ww_acquire_init(&x, &rows);
	ww_until_all_locked(&x)
		MUST(writes(&x, "k") == -EINVAL);
	ww_acquire_fini(&x);
}

/* A context may move, and a cancel ends its wait. */
static void moved_and_cancelled(void)
{
	const struct timespec late = in_ms(5000);
	const struct ww_table_how until_late = { .until = &late };
	struct ww_acquire_ctx x;
	struct timespec now;

	begins();
	MUST(!writes(&a, "1") && !reads(&a, "2"));
	x = a;
	memset(&a, 0x5a, sizeof a);
	MUST(writes(&x, "1") == -EALREADY && !writes(&x, "2") && ww_table_mark(t, &x) == 2 && !unlock(&x, "1"));
	a = x;
	MUST(!ww_acquire_cancel(&b) && lock(&b, "2", WW_TABLE_SHARED, &until_late) == -EINTR && !writes(&b, "1"));
	MUST(!clock_gettime(CLOCK_MONOTONIC, &now) && now.tv_sec < late.tv_sec - 1);
	ends();
}

static void wakes(void *loop, void *task)
{
	(void)loop;
	++*(unsigned *)task;
}

/* A younger context would wait for an older one; with nothing held it waits. */
static void told(void)
{
	unsigned woken = 0;
	struct ww_waker waker = { wakes, NULL, &woken };
	const struct ww_table_how poll = { .by = WW_TABLE_POLLS, .waker = &waker };

	begins();
	MUST(!writes(&a, "1") && !writes(&b, "2") && lock(&b, "1", WW_TABLE_SHARED, NULL) == -EDEADLK);
	MUST(lock(&b, "3", WW_TABLE_SHARED, NULL) == -EDEADLK && writes(&b, "3") == -EDEADLK && ww_table_mark(t, &b) == 1);
	ww_table_unlock_to(t, &b, 0);
	MUST(lock(&b, "1", WW_TABLE_SHARED, &until_past) == -ETIMEDOUT && !lock(&b, "3", WW_TABLE_EXCLUSIVE, &until_past));
	MUST(lock(&b, "1", WW_TABLE_SHARED, NULL) == -EDEADLK && !unlock(&b, "3"));
	MUST(!writes(&b, "5") && !lock(&b, "6", WW_TABLE_EXCLUSIVE, &until_past)); /* a try waits for nothing first, and then any may come */
	ww_table_unlock_to(t, &b, 0);
	MUST(!writes(&b, "3") && lock(&b, "1", WW_TABLE_SHARED, NULL) == -EDEADLK && !unlock(&b, "3"));
	MUST(!lock(&b, "4", WW_TABLE_EXCLUSIVE, &until_past)); /* in vain it waits for the first one, and then may lock any */
	MUST(!unlock(&b, "4") && !lock(&b, "5", WW_TABLE_EXCLUSIVE, &poll));
	ends();
	/* the older one waits */
	begins();
	MUST(!writes(&b, "2") && lock(&a, "2", WW_TABLE_SHARED, &until_past) == -ETIMEDOUT && !writes(&a, "1"));
	ends();
}

/*
 * By Wait-Die a context that got -EDEADLK, and has released its keys and then another mutex, may lock that one first in its retry. And it
 * has to release other mutexes, too, before it may lock any key.
 */
static void told_beside_a_mutex(void)
{
	struct ww_mutex besides;

	ww_mutex_init(&besides, &rows);
	begins();
	MUST(!writes(&a, "1") && !ww_mutex_lock(&besides, &b) && lock(&b, "1", WW_TABLE_EXCLUSIVE, NULL) == -EDEADLK);
	ww_table_unlock_to(t, &b, 0);
	MUST(lock(&b, "2", WW_TABLE_EXCLUSIVE, NULL) == -EDEADLK && writes(&b, "2") == -EDEADLK && reads(&b, "1") == -EDEADLK);
	ww_mutex_unlock(&besides);
	MUST(!unlock(&a, "1") && !ww_mutex_lock(&besides, &b) && !lock(&b, "1", WW_TABLE_EXCLUSIVE, NULL) && b.acquired == 2);
	ww_mutex_unlock(&besides);
	ends();
	MUST(!ww_mutex_destroy(&besides));
}

/* ---- who is in the way ---- */

static struct seen {
	unsigned count, waits;
	struct ww_table_user last;
	bool agrees;
	int r;
} seen;

static bool meets(void *data, const struct ww_table_user *user)
{
	MUST(data == &seen && user->length == 1 && !memcmp(user->key, "k", 1) && !user->waits);
	seen.count++;
	seen.last = *user;
	return seen.agrees;
}

static void ignores(void *data, const struct ww_table_user *user) { MUST(!data && user->length == 1); }

/* Nothing is locked then; and the call that waits is seen itself. */
static int waits(void *data, struct ww_table_how *how)
{
	MUST(data == &seen && ww_table_see(t, "k", 1, ignores, NULL) == 2);
	how->until = &past;
	return ++seen.waits == 1 ? 0 : seen.r;
}

static void sees(void *data, const struct ww_table_user *user)
{
	seen.count++;
	seen.waits += user->waits;
	MUST(!data && user->owner);
}

static struct ww_table_user shown[4];
static void shows(void *data, const struct ww_table_user *user) { shown[(*(unsigned *)data)++ % 4] = *user; }

/* The newest comes first; and the key lies in the table. */
static void in_order(void)
{
	const struct ww_table_how one = { .owner = 1 }, two = { .owner = 2 };
	char key[] = "k";
	unsigned count = 0;

	begins();
	MUST(!lock(&a, key, WW_TABLE_SHARED, &one) && !lock(&b, key, WW_TABLE_SHARED, &two) && (*key = '?'));
	MUST(ww_table_see(t, "k", 1, shows, &count) == 2 && shown[0].owner == 2 && shown[1].owner == 1 && !memcmp(shown[0].key, "k", 1));
	ends();
}

/* Holders are shown, and may be disowned; if there is none nobody is asked. */
/* The keys that `a` has in two tables; `b` gets each of them in both, once `a` has released all at once or has ended. */
static void has_keys(struct ww_table *second, bool writes_too)
{
	MUST(!reads(&a, "r") && !ww_table_lock(second, &a, "r", 1, WW_TABLE_SHARED, &try_it));
	MUST(!writes_too || (!writes(&a, "w") && !ww_table_lock(second, &a, "w", 1, WW_TABLE_EXCLUSIVE, &try_it)));
}

static void are_free(struct ww_table *second)
{
	MUST(!a.acquired && !ww_table_mark(t, &a) && !ww_table_mark(second, &a) && !ww_table_see(t, NULL, 0, sees, NULL));
	for (const char *key = "rw"; *key; key++)
		MUST(!ww_table_lock(t, &b, key, 1, WW_TABLE_EXCLUSIVE, &try_it) &&
		     !ww_table_lock(second, &b, key, 1, WW_TABLE_EXCLUSIVE, &try_it));
	ww_acquire_unlock_all(&b);
}

static void all_at_once(void)
{
	static struct ww_mutex mutex = WW_MUTEX_INIT(&rows);
	struct ww_mutex *const twice[] = { &mutex, &mutex };
	struct ww_table *second;

	MUST(!ww_table_open(&second, &rows, 0));
	begins();
	for (unsigned way = 0; way < 4; way++) {
		has_keys(second, way % 2);
		if (way & 1) /* a list that fails releases none */
			MUST(ww_mutex_lock_all(&a, twice, 2) == -EALREADY && ww_table_mark(t, &a) == 2 && !ww_mutex_lock(&mutex, &a));
		if (way & 2) {
			MUST(!ww_acquire_end(&a));
			ww_acquire_init(&a, &rows);
		} else {
			ww_acquire_unlock_all(&a);
		}
		are_free(second);
	}
	ends();
	MUST(!ww_table_close(second) && !ww_mutex_destroy(&mutex));
}

static void expires(void)
{
	struct ww_acquire_ctx x;
	struct ww_table_how one = { .owner = 1 }, two = { .owner = 2, .meets = meets, .waits = waits, .data = &seen };

	begins();
	MUST(!lock(&a, "k", WW_TABLE_EXCLUSIVE, &one));
	seen = (struct seen){ .r = -ECANCELED };
	MUST(lock(&b, "k", WW_TABLE_SHARED, &two) == -ECANCELED && seen.count == 2 && seen.waits == 2 && seen.last.owner == 1 &&
	     seen.last.mode == WW_TABLE_EXCLUSIVE);
	seen = (struct seen){ .agrees = true };
	MUST(!lock(&b, "k", WW_TABLE_SHARED, &two) && seen.count == 1 && seen.waits == 0);
	seen = (struct seen){ .agrees = true };
	MUST(!lock(&b, "k", WW_TABLE_EXCLUSIVE, &two) && seen.count == 0);
	MUST(ww_table_see(t, "k", 1, sees, NULL) == 1 && ww_table_see(t, NULL, 0, sees, NULL) == 1);
	MUST(lock(&a, "k", WW_TABLE_SHARED, &try_it) == -EBUSY && ww_table_mark(t, &a) == 1 && !unlock(&a, "k"));
	MUST(unlock(&a, "k") == -EINVAL && ww_table_mark(t, &b) == 1);
	/* who raises its own doesn't ask others to give theirs up */
	two.by = WW_TABLE_TRIES;
	MUST(!unlock(&b, "k") && !lock(&b, "k", WW_TABLE_SHARED, &two) && !lock(&a, "k", WW_TABLE_SHARED, &one));
	MUST(lock(&b, "k", WW_TABLE_EXCLUSIVE, &two) == -EBUSY);
	/* each is shown, though the first one doesn't agree */
	seen = (struct seen){ 0 };
	ww_acquire_init(&x, &rows);
	MUST(lock(&x, "k", WW_TABLE_EXCLUSIVE, &two) == -EBUSY && seen.count == 2);
	ww_acquire_fini(&x);
	ends();
}

/* ---- polls ---- */

/* A poll asks once how it is to wait; without a waker it ends as a poll does. And it isn't one of another table, or of a mutex. */
static void asks_once(void)
{
	unsigned woken = 0;
	struct ww_waker waker = { wakes, NULL, &woken };
	struct ww_table_how poll = { .by = WW_TABLE_POLLS, .waits = waits, .data = &seen };
	struct ww_table *first = t;
	struct ww_mutex besides;

	ww_mutex_init(&besides, &rows);
	begins();
	seen = (struct seen){ .r = -ECANCELED };
	MUST(!writes(&b, "k") && lock(&a, "k", WW_TABLE_SHARED, &poll) == -ETIMEDOUT && seen.waits == 1);
	seen.waits = 0;
	poll.waker = &waker;
	MUST(lock(&a, "k", WW_TABLE_SHARED, &poll) == -EINPROGRESS && lock(&a, "k", WW_TABLE_SHARED, &poll) == -EINPROGRESS && seen.waits == 1);
	MUST(!ww_table_open(&t, &rows, 0) && lock(&a, "k", WW_TABLE_SHARED, &poll) == -EBUSY && !ww_table_close(t));
	t = first;
	MUST(!ww_acquire_end_wait(&a) && !ww_mutex_lock(&besides, &b) && ww_mutex_lock_poll(&besides, &a, &waker) == -EINPROGRESS);
	seen = (struct seen){ .agrees = true };
	poll.meets = meets;
	MUST(lock(&a, "k", WW_TABLE_SHARED, &poll) == -EBUSY && !seen.count && !ww_acquire_end_wait(&a));
	ww_mutex_unlock(&besides);
	ends();
	MUST(!ww_mutex_destroy(&besides));
}

static void polls(void)
{
	unsigned woken = 0;
	struct ww_waker waker = { wakes, NULL, &woken };
	const struct ww_table_how nobody = { .by = WW_TABLE_TRIES, .meets = meets, .data = &seen };
	struct ww_table_how one = { .owner = 1 }, poll = { .owner = 2, .by = WW_TABLE_POLLS, .waker = &waker };

	begins();
	MUST(!lock(&a, "k", WW_TABLE_EXCLUSIVE, &one) && lock(&b, "k", WW_TABLE_SHARED, &poll) == -EINPROGRESS && !woken);
	MUST(lock(&b, "k", WW_TABLE_EXCLUSIVE, &poll) == -EBUSY && lock(&b, "other", WW_TABLE_SHARED, &poll) == -EBUSY);
	MUST(writes(&b, "other") == -EBUSY && unlock(&b, "k") == -EBUSY);
	seen = (struct seen){ 0 };
	MUST(ww_table_see(t, "k", 1, sees, NULL) == 2 && seen.count == 2 && seen.waits == 1 && ww_table_close(t) == -EBUSY);
	/* nobody has it then, but b waits: so nobody is asked, and it isn't taken from anybody */
	seen = (struct seen){ .agrees = true };
	MUST(!unlock(&a, "k") && woken == 1 && lock(&a, "k", WW_TABLE_SHARED, &nobody) == -EBUSY && seen.count == 0);
	MUST(ww_table_close(t) == -EBUSY);
	MUST(!lock(&b, "k", WW_TABLE_SHARED, &poll) && ww_table_mark(t, &b) == 1);
	/* it ends without a waker, or otherwise; what was had before still is */
	MUST(!lock(&a, "k", WW_TABLE_SHARED, &one) && lock(&a, "k", WW_TABLE_EXCLUSIVE, &poll) == -EINPROGRESS);
	seen = (struct seen){ 0 };
	MUST(ww_table_see(t, "k", 1, sees, NULL) == 3 && seen.waits == 1);
	poll.waker = NULL;
	MUST(lock(&a, "k", WW_TABLE_EXCLUSIVE, &poll) == -ETIMEDOUT && ww_table_see(t, "k", 1, sees, NULL) == 2);
	poll.waker = &waker;
	MUST(lock(&a, "k", WW_TABLE_EXCLUSIVE, &poll) == -EINPROGRESS && !ww_acquire_end_wait(&a) && !writes(&a, "other"));
	MUST(ww_table_mark(t, &a) == 2 && ww_table_see(t, "k", 1, sees, NULL) == 2);
	/* after -EDEADLK the wait for what was contended is a poll, too; once it is given up, any key may be locked */
	ww_table_unlock_to(t, &b, 0);
	MUST(!writes(&b, "1") && lock(&b, "other", WW_TABLE_SHARED, &poll) == -EDEADLK && !unlock(&b, "1"));
	MUST(lock(&b, "2", WW_TABLE_EXCLUSIVE, &poll) == -EINPROGRESS && lock(&b, "2", WW_TABLE_EXCLUSIVE, NULL) == -EBUSY);
	woken = 0;
	MUST(!unlock(&a, "other") && woken == 1 && !lock(&b, "2", WW_TABLE_EXCLUSIVE, &poll));
	ends();
}

/*
 * A wait that the program ends by another call leaves nothing in the table: nor one that ends with its context, and nor where the context
 * waits first for the mutex at which it got -EDEADLK.
 */
static void ended_otherwise(void)
{
	unsigned woken = 0;
	struct ww_waker waker = { wakes, NULL, &woken };
	const struct ww_table_how one = { .owner = 1 }, poll = { .owner = 2, .by = WW_TABLE_POLLS, .waker = &waker };
	struct ww_acquire_ctx *x;

	begins();
	MUST(!lock(&b, "k", WW_TABLE_EXCLUSIVE, &one) && lock(&a, "k", WW_TABLE_EXCLUSIVE, &poll) == -EINPROGRESS);
	ww_table_unlock_to(t, &a, 0);
	MUST(ww_table_see(t, "k", 1, sees, NULL) == 2 && !ww_acquire_end_wait(&a) && ww_table_see(t, NULL, 0, sees, NULL) == 1);
	MUST(lock(&a, "k", WW_TABLE_SHARED, &poll) == -EINPROGRESS && !unlock(&b, "k") && !ww_acquire_end_wait(&a)); /* it had come first */
	MUST(!ww_table_see(t, NULL, 0, sees, NULL) && !lock(&b, "k", WW_TABLE_EXCLUSIVE, &one));
	MUST(lock(&a, "k", WW_TABLE_EXCLUSIVE, &poll) == -EINPROGRESS && !ww_acquire_end(&a) && !a.own);
	MUST(ww_table_see(t, NULL, 0, sees, NULL) == 1 && !unlock(&b, "k") && !ww_table_join(t, 1, 1, NULL, &x));
	MUST(!lock(&b, "k", WW_TABLE_EXCLUSIVE, &one) && lock(x, "k", WW_TABLE_EXCLUSIVE, &poll) == -EINPROGRESS);
	MUST(!ww_acquire_end_wait(x) && !ww_table_leave(t, 1, false) && !unlock(&b, "k"));
	MUST(!ww_table_close(t) && !ww_table_open(&t, &rows, 0));
	/* with nothing held it gets no -EDEADLK, but waits for what was contended, by a poll of the table, with which no other call goes on */
	ww_acquire_init(&a, &rows);
	MUST(!lock(&b, "1", WW_TABLE_EXCLUSIVE, &one) && !lock(&b, "2", WW_TABLE_EXCLUSIVE, &one));
	MUST(lock(&a, "1", WW_TABLE_SHARED, &poll) == -EINPROGRESS && ww_table_see(t, "1", 1, sees, NULL) == 2 && !a.acquired);
	MUST(ww_shared_mutex_await_poll(&a, NULL) == -EBUSY && ww_shared_mutex_await_poll(&a, &waker) == -EBUSY && !ww_acquire_end_wait(&a));
	/* since no call returned -EDEADLK, nothing is contended then, and any key may come next; after one of its calls did, that is so */
	MUST(ww_table_see(t, "1", 1, sees, NULL) == 1 && ww_shared_mutex_await_poll(&a, &waker) == -EINVAL);
	MUST(!lock(&a, "3", WW_TABLE_EXCLUSIVE, &poll) && lock(&a, "1", WW_TABLE_SHARED, &poll) == -EDEADLK && !unlock(&a, "3"));
	MUST(ww_shared_mutex_await_poll(&a, &waker) == -EINPROGRESS);
	MUST(lock(&a, "1", WW_TABLE_SHARED, &poll) == -EBUSY && !ww_acquire_end_wait(&a));
	MUST(lock(&a, "2", WW_TABLE_EXCLUSIVE, &poll) == -EINPROGRESS && !ww_acquire_end(&a) && ww_table_see(t, NULL, 0, sees, NULL) == 2);
	ww_acquire_init(&a, &rows);
	ends();
	MUST(!ww_table_close(t) && !ww_table_open(&t, &rows, 0));
}

/*
 * By Wait-Die. A context that got -EDEADLK doesn't wait for who has another key by now, though that has the same mutex, or the same slot;
 * nor does who retries as an owner. And a key doesn't get a mutex that such a context waits for.
 */
static void not_for_another_key(enum ww_table_mode mode)
{
	const struct timespec late = in_ms(9000);
	unsigned woken = 0;
	struct ww_waker waker = { wakes, NULL, &woken };
	const struct ww_table_how poll = { .by = WW_TABLE_POLLS, .waker = &waker };
	struct ww_acquire_ctx *x;
	struct timespec now;

	begins();
	MUST(!lock(&a, "1", mode, &try_it) && !writes(&b, "2") && lock(&b, "1", WW_TABLE_EXCLUSIVE, NULL) == -EDEADLK && !unlock(&b, "2"));
	MUST(!unlock(&a, "1") && !lock(&a, "3", mode, &try_it) && !lock(&b, "1", WW_TABLE_EXCLUSIVE, &poll) && !unlock(&b, "1"));
	/* with nothing held it waits for the one by the same mutex */
	MUST(mode == WW_TABLE_SHARED || (lock(&b, "3", WW_TABLE_SHARED, &poll) == -EINPROGRESS && !ww_acquire_end_wait(&b)));
	MUST(!writes(&b, "2") && lock(&b, "3", WW_TABLE_EXCLUSIVE, NULL) == -EDEADLK && !unlock(&b, "2"));
	MUST(lock(&b, "3", WW_TABLE_EXCLUSIVE, &poll) == -EINPROGRESS && !unlock(&a, "3") && woken == 1 && !writes(&a, "4"));
	MUST(!lock(&b, "3", WW_TABLE_EXCLUSIVE, &poll) && !unlock(&a, "4") && !lock(&a, "5", mode, &try_it));
	MUST(!ww_table_join(t, 1, 1, NULL, &x) && !writes(x, "2") && lock(x, "5", WW_TABLE_EXCLUSIVE, NULL) == -EDEADLK);
	MUST(!ww_table_leave(t, 1, true) && !unlock(&a, "5") && !lock(&a, "6", mode, &try_it) && !ww_table_join(t, 2, 1, &late, &x));
	MUST(!clock_gettime(CLOCK_MONOTONIC, &now) && now.tv_sec < late.tv_sec - 4 && !ww_table_leave(t, 2, false));
	ends();
}

/*
 * By Wait-Die. What a context got -EDEADLK for in one table, or at a mutex, a call of another table waits for first: but not once nobody
 * has that, though the lock at which it came is a slot by which others are read, or the mutex is no more; and not once the context has
 * locked another key since, also by a try.
 */
static void not_for_what_has_passed(void)
{
	unsigned woken = 0;
	struct ww_waker waker = { wakes, NULL, &woken };
	const struct ww_table_how poll = { .by = WW_TABLE_POLLS, .waker = &waker };
	struct ww_mutex *besides = malloc(sizeof *besides);
	struct ww_table *second;

	MUST(besides && !ww_table_open(&second, &rows, 0));
	begins();
	for (unsigned k = 0; k < 2; k++) {
		MUST(!reads(&a, "1") && !reads(&a, "9") && !ww_table_lock(second, &b, "2", 1, WW_TABLE_EXCLUSIVE, &try_it));
		MUST(lock(&b, "1", WW_TABLE_EXCLUSIVE, NULL) == -EDEADLK && !ww_table_unlock(second, &b, "2", 1) && (k || !unlock(&a, "1")));
		MUST(ww_table_lock(second, &b, "2", 1, WW_TABLE_EXCLUSIVE, &poll) == (k ? -EINPROGRESS : 0));
		ww_table_unlock_to(t, &a, 0);
		MUST(!ww_table_lock(second, &b, k ? "2" : "3", 1, WW_TABLE_EXCLUSIVE, &poll));
		ww_table_unlock_to(second, &b, 0);
	}
	ww_mutex_init(besides, &rows);
	MUST(!ww_mutex_lock(besides, &a) && !writes(&b, "2") && ww_mutex_lock(besides, &b) == -EDEADLK && !unlock(&b, "2"));
	ww_mutex_unlock(besides);
	MUST(!ww_mutex_destroy(besides));
	memset(besides, 0x5a, sizeof *besides);
	MUST(!lock(&b, "2", WW_TABLE_EXCLUSIVE, &poll) && !writes(&a, "1") && lock(&b, "1", WW_TABLE_SHARED, NULL) == -EDEADLK);
	MUST(!unlock(&b, "2") && !writes(&b, "2") && !unlock(&b, "2") && !lock(&b, "3", WW_TABLE_EXCLUSIVE, &poll));
	ends();
	free(besides);
	MUST(!ww_table_close(second));
}

/*
 * By Wait-Die. Two contexts share a key, and another one each, and a third one collides with one of the two. If that one has released the
 * key, the third one doesn't wait for it, though both read on; if the other one has, it does.
 */
static void not_for_another_reader(void)
{
	unsigned woken = 0, waited = 0;
	struct ww_waker waker = { wakes, NULL, &woken };
	const struct ww_table_how poll = { .by = WW_TABLE_POLLS, .waker = &waker };
	struct ww_acquire_ctx x, *who[] = { &a, &b };

	for (unsigned k = 0; k < 2; k++) {
		begins();
		ww_acquire_init(&x, &rows);
		MUST(!reads(&a, "1") && !reads(&b, "1") && !reads(&a, "8") && !reads(&b, "9") && !writes(&x, "2"));
		MUST(lock(&x, "1", WW_TABLE_EXCLUSIVE, NULL) == -EDEADLK && !unlock(&x, "2") && !unlock(who[k], "1"));
		waited += lock(&x, "3", WW_TABLE_EXCLUSIVE, &poll) == -EINPROGRESS;
		MUST(!ww_acquire_end(&x));
		ends();
	}
	MUST(waited == 1);
}

/* What a poll met and the program didn't see isn't waited for later, also once the poll is cancelled. */
static void ends_what_was_met(void)
{
	unsigned woken = 0;
	struct ww_waker waker = { wakes, NULL, &woken };
	const struct ww_table_how poll = { .by = WW_TABLE_POLLS, .waker = &waker };

	begins();
	MUST(!writes(&a, "1") && lock(&b, "1", WW_TABLE_SHARED, &poll) == -EINPROGRESS && !ww_acquire_cancel(&b));
	MUST(lock(&b, "1", WW_TABLE_SHARED, &poll) == -EINTR && !lock(&b, "3", WW_TABLE_EXCLUSIVE, &poll));
	ends();
}

/* A table stays while a poll waits for what was contended, though nobody has a key; and while an owner's context can't end. */
static void closes_later(void)
{
	unsigned woken = 0;
	struct ww_waker waker = { wakes, NULL, &woken };
	const struct ww_table_how poll = { .by = WW_TABLE_POLLS, .waker = &waker };
	struct ww_acquire_ctx *x;
	struct ww_mutex besides;

	ww_mutex_init(&besides, &rows);
	begins();
	MUST(!writes(&a, "1") && !writes(&b, "2") && lock(&b, "1", WW_TABLE_EXCLUSIVE, NULL) == -EDEADLK && !unlock(&b, "2"));
	MUST(lock(&b, "1", WW_TABLE_EXCLUSIVE, &poll) == -EINPROGRESS && !unlock(&a, "1") && woken == 1 && ww_table_close(t) == -EBUSY);
	MUST(!ww_acquire_end_wait(&b) && !ww_table_join(t, 1, 1, NULL, &x) && !ww_mutex_lock(&besides, x) && ww_table_close(t) == -EBUSY);
	ww_mutex_unlock(&besides);
	MUST(!ww_mutex_lock(&besides, &a) && ww_mutex_lock_poll(&besides, x, &waker) == -EINPROGRESS && ww_table_close(t) == -EBUSY);
	MUST(!ww_acquire_end_wait(x) && !ww_table_close(t) && !ww_table_open(&t, &rows, 0));
	ww_mutex_unlock(&besides);
	ends();
	MUST(!ww_mutex_destroy(&besides));
}

/* ---- owners ---- */

static void owners(void)
{
	unsigned woken = 0;
	struct ww_waker waker = { wakes, NULL, &woken };
	const struct ww_table_how poll = { .by = WW_TABLE_POLLS, .waker = &waker };
	struct ww_acquire_ctx *x, *y;
	struct ww_mutex besides;

	ww_mutex_init(&besides, &rows);
	MUST(ww_table_leave(t, 7, true) == -EINVAL && ww_table_leave(t, 7, false) == -EINVAL);
	MUST(!ww_table_join(t, 7, 7, NULL, &x) && !ww_table_join(t, 8, 8, NULL, &y) && x != y);
	MUST(!writes(x, "1") && !ww_table_join(t, 7, 9, NULL, &x) && ww_table_mark(t, x) == 1);
	MUST(!ww_table_join(t, 12, 7, NULL, &y) && y != x && !ww_table_leave(t, 12, false) && !ww_table_join(t, 8, 8, NULL, &y)); /* 7 hasn't left */
	/* 8 is the younger one, and after its retry as another owner it is so still, but older than 9 */
	MUST(!writes(y, "2") && lock(y, "1", WW_TABLE_EXCLUSIVE, NULL) == -EDEADLK && !ww_table_leave(t, 8, true) && !ww_table_leave(t, 8, true));
	MUST(!ww_table_join(t, 9, 9, &past, &x) && !ww_table_join(t, 10, 8, &past, &y) && !writes(x, "9"));
	MUST(ww_table_leave(t, 8, true) == -EINVAL && !ww_table_mark(t, y) && !writes(y, "2"));
	MUST(lock(y, "9", WW_TABLE_EXCLUSIVE, &until_past) == -ETIMEDOUT && lock(x, "2", WW_TABLE_EXCLUSIVE, NULL) == -EDEADLK);
	MUST(!ww_table_leave(t, 7, false) && !ww_table_leave(t, 9, true) && !ww_table_leave(t, 9, false) && !ww_table_leave(t, 10, true));
	/* it stays while its context holds anything besides, or waits */
	MUST(!ww_table_join(t, 7, 7, NULL, &x) && !ww_table_join(t, 8, 8, NULL, &y) && !ww_mutex_lock(&besides, x));
	MUST(ww_table_leave(t, 7, false) == -EBUSY && !writes(y, "8"));
	ww_mutex_unlock(&besides);
	MUST(lock(x, "8", WW_TABLE_EXCLUSIVE, &poll) == -EINPROGRESS && ww_table_leave(t, 7, true) == -EBUSY && !ww_acquire_end_wait(x));
	MUST(!ww_table_leave(t, 7, false) && !ww_table_leave(t, 8, false) && !ww_mutex_destroy(&besides));
	/* whoever is left at the end is ended */
	MUST(!ww_table_join(t, 11, 11, NULL, &x) && !writes(x, "1") && ww_table_close(t) == -EBUSY && !unlock(x, "1"));
}

/* An owner whose wait for what it collided with was ended is there still. */
static void an_owner_stays(void)
{
	struct ww_acquire_ctx *x, *y;

	MUST(!ww_table_open(&t, &ending, 0) && !ww_table_join(t, 1, 1, NULL, &x) && !ww_table_join(t, 2, 2, NULL, &y));
	MUST(!writes(x, "1") && !writes(y, "2") && lock(y, "1", WW_TABLE_EXCLUSIVE, NULL) == -EDEADLK && !ww_table_leave(t, 2, true));
	MUST(!ww_class_cancel(&ending) && ww_table_join(t, 3, 2, NULL, &y) == -EINTR && ww_table_join(t, 3, 3, NULL, &y) == -EINTR);
	MUST(!unlock(x, "1") && !ww_table_join(t, 3, 3, NULL, &y) && !ww_table_leave(t, 3, false) && !ww_table_leave(t, 1, false));
	MUST(!ww_table_close(t) && !ww_class_free(&ending));
}

/* A class has its tables until they are closed, also one of which nothing was locked yet: so it isn't freed before. */
static void stays_with_its_table(void)
{
	struct ww_table *second;

	MUST(!ww_table_open(&t, &four, 0) && ww_class_free(&four) == -EBUSY && !ww_table_open(&second, &four, 0) && !ww_table_close(t));
	MUST(ww_class_free(&four) == -EBUSY && !ww_table_close(second) && !ww_class_free(&four));
}

/* Of four contexts two are suspended at a time; of a third one that leaves nothing is kept. */
static void half_of_the_owners(void)
{
	struct ww_acquire_ctx *x;

	MUST(!ww_table_open(&t, &four, 0));
	for (uint64_t k = 1; k <= 3; k++)
		MUST(!ww_table_join(t, k, k, NULL, &x) && !ww_table_leave(t, k, true));
	MUST(ww_table_leave(t, 3, true) == -EINVAL && !ww_table_leave(t, 2, true) && !ww_table_leave(t, 1, false));
	MUST(ww_class_free(&four) == -EBUSY && !ww_table_close(t) && !ww_class_free(&four));
}

/* ---- what is refused ---- */

/*
 * In a child of a fork that came while the class was in use no table is opened. Contexts release their keys there and end, though the fork
 * came while a part of the table was locked.
 */
static void forks(void *data, const struct ww_table_user *user)
{
	struct ww_table *other;
	int status;

	(void)data, (void)user;
	if (!fork()) {
		alarm(60);
		ww_table_unlock_to(t, &b, 1);
		MUST(ww_table_open(&other, &rows, 0) == -EINVAL && !ww_acquire_end(&a) && ww_table_mark(t, &b) == 1 && !ww_acquire_end(&b));
		_exit(7);
	}
	MUST(wait(&status) > 0 && WIFEXITED(status) && WEXITSTATUS(status) == 7);
}

static void forked(void)
{
	begins();
	MUST(!writes(&a, "1") && !reads(&a, "2") && !writes(&b, "3") && !reads(&b, "2") && ww_table_see(t, "1", 1, forks, NULL) == 1);
	ends();
}

static const char *name_of(unsigned k)
{
	static char name[16];

	snprintf(name, sizeof name, "%u", k);
	return name;
}

static void names(void *data, const struct ww_table_user *user) { strncat(data, user->key, 1); }

/* Where a key is in a table, and so which keys come together, differs from table to table. */
static void seeds(void)
{
	char order[2][27] = { "", "" };

	for (unsigned k = 0; k < 2; k++) {
		MUST(!ww_table_open(&t, &rows, 0));
		begins();
		for (char key[] = "a"; *key <= 'z'; ++*key)
			MUST(!writes(&a, key));
		MUST(ww_table_see(t, NULL, 0, names, order[k]) == 26);
		ends();
		MUST(!ww_table_close(t));
	}
	MUST(strcmp(order[0], order[1]) != 0);
}

/* A context keeps the mutexes of 32 keys that it has released, for its next ones, and the table counts these. */
static void keeps(void)
{
	unsigned count = 0;

	MUST(!ww_table_open(&t, &more, 512));
	ww_acquire_init(&a, &more);
	ww_acquire_init(&b, &more);
	for (unsigned k = 0; k < 40; k++)
		MUST(!writes(&a, name_of(k)));
	ww_table_unlock_to(t, &a, 0);
	while (!writes(&b, name_of(count)))
		count++;
	MUST(count == 512 - 32 && writes(&b, name_of(count)) == -ENOSPC);
	for (; count < 512; count++)
		MUST(!writes(&a, name_of(count)));
	MUST(writes(&a, name_of(count)) == -ENOSPC);
	ends();
	MUST(!ww_table_close(t) && !ww_class_free(&more));
}

/* Where the class has no number any more a key leaves nothing. */
static void numbers(void)
{
	struct ww_mutex many[3];
	struct ww_acquire_ctx x;
	long before;

	for (unsigned k = 0; k < 3; k++)
		ww_mutex_init(&many[k], &four);
	MUST(!ww_table_open(&t, &four, 0));
	ww_acquire_init(&x, &four);
	MUST(!writes(&x, "1") && writes(&x, "2") == -ENOSPC);
	before = allocated;
	MUST(writes(&x, "2") == -ENOSPC && allocated == before && !unlock(&x, "1") && ww_table_mark(t, &x) == 0 && !writes(&x, "2"));
	/* of so few none is kept */
	MUST(!unlock(&x, "2"));
	ww_acquire_init(&a, &four);
	MUST(!writes(&a, "3") && !unlock(&a, "3"));
	ww_acquire_fini(&a);
	ww_acquire_fini(&x);
	MUST(!ww_table_close(t));
	for (unsigned k = 0; k < 3; k++)
		MUST(!ww_mutex_destroy(&many[k]));
	MUST(!ww_class_free(&four));
}

static void limit(void)
{
	MUST(!ww_table_open(&t, &rows, 3));
	begins();
	MUST(!writes(&a, "1") && !writes(&a, "2") && !writes(&b, "3") && writes(&b, "4") == -ENOSPC && reads(&a, "4") == -ENOSPC);
	MUST(writes(&b, "1") == -EBUSY && !unlock(&a, "1") && !writes(&b, "4") && ww_table_mark(t, &b) == 2);
	ends();
	MUST(!ww_table_close(t));
}

/* As many keys as that need one allocation more each: after a refused one all is as it was. */
static void memory(void)
{
	char key[] = "a key of more than forty bytes, so that it needs memory of its own: ?";
	long refused = 0;

	MUST(!ww_class_open(&rows));
	for (refuses = 0; ww_table_open(&t, &rows, 0) == -ENOMEM; refuses = ++refused)
		;
	refuses = -1;
	MUST(refused == 1);
	begins();
	for (size_t n = 0; n < 8; n++) {
		key[sizeof key - 2] = (char)('0' + n);
		for (refuses = refused = 0; writes(&a, key) == -ENOMEM; refuses = ++refused)
			MUST(ww_table_mark(t, &a) == n && ww_table_see(t, key, strlen(key), sees, NULL) == 0);
		refuses = -1;
		MUST(refused >= 2 && ww_table_mark(t, &a) == n + 1); /* a use, and an entry */
	}
	MUST(!writes(&b, "8") && !unlock(&b, "8")); /* so all that a try to read lacks is the slot */
	refuses = 0;
	MUST(reads(&b, "8") == -ENOMEM && !ww_table_see(t, "8", 1, sees, NULL));
	refuses = -1;
	ends();
	MUST(!ww_table_close(t));
}

int main(void)
{
	memory();
	limit();
	numbers();
	seeds();
	keeps();
	stays_with_its_table();
	half_of_the_owners();
	an_owner_stays();
	MUST(!ww_table_open(&t, &rows, 0));
	modes();
	raised();
	shared_no_more();
	raised_at_once();
	marks();
	all_at_once();
	refused_arguments();
	forked();
	moved_and_cancelled();
	told();
	told_beside_a_mutex();
	in_order();
	expires();
	polls();
	asks_once();
	ended_otherwise();
	closes_later();
	not_for_another_key(WW_TABLE_EXCLUSIVE);
	not_for_another_key(WW_TABLE_SHARED);
	not_for_what_has_passed();
	not_for_another_reader();
	ends_what_was_met();
	owners();
	MUST(!ww_table_close(t) && !ww_class_free(&rows) && !ww_class_free(&others));
	puts("table_calls: as ww_table.h says");
	return 0;
}
