/*
 * Threads make any call of ww_table.h, beside a model of who has which key.
 *
 * Each thread knows what it has, so each value is checked exactly; and what it shares or has to itself is so for all.  Half of the
 * contexts are the program's, the others the table's, by owners.  What was refused goes on in any thread, with its age.  A transaction
 * that expires uses nothing any more, and others take its keys from it.
 */
#include "../mutex_test.h"
#include "ww_retry.h"
#include "ww_table.h"

enum { KEYS = 24, THREADS = 6, MOST = 8 };
enum { NOTHING, SHARED, EXCLUSIVE };

static DEFINE_WW_CLASS(wound_wait);
static DEFINE_WD_CLASS(wait_die);
static struct ww_class few = { .name = "few", .contexts = 4 };
static struct ww_class *c;
static struct ww_table *t;
static long data[KEYS]; /* plain */
static unsigned writers[KEYS], readers[KEYS];
static bool expired[THREADS];
static unsigned long times = 20000, added[THREADS], told, late, moved, stolen, polled;

/* A refused transaction, which another thread goes on with. */
static struct {
	pthread_mutex_t lock;
	struct ww_retry retry;
	uint64_t owner;
} box = { .lock = PTHREAD_MUTEX_INITIALIZER };

struct mine {
	struct ww_acquire_ctx own, *x;
	struct ww_retry retry;
	uint64_t me, owner, former, owners;
	unsigned drawn;
	int has[KEYS], order[KEYS];
	size_t count;
};

static void count_one(unsigned long *it) { __atomic_fetch_add(it, 1, __ATOMIC_RELAXED); }

/* Some are longer than an entry has room for at first, and one is of no bytes. */
static size_t key_of(int k, char key[80])
{
	return k ? (size_t)sprintf(key, k % 3 ? "%d" : "a key of more than forty bytes, which is longer: %d", k) : 0;
}

static void begins_use(struct mine *m, int k, int as)
{
	if (as == EXCLUSIVE) {
		MUST(!__atomic_fetch_add(&writers[k], 1, __ATOMIC_RELAXED) && !__atomic_load_n(&readers[k], __ATOMIC_RELAXED));
		data[k]++;
		added[m->me]++;
	} else {
		__atomic_fetch_add(&readers[k], 1, __ATOMIC_RELAXED);
		MUST(!__atomic_load_n(&writers[k], __ATOMIC_RELAXED) && data[k] >= 0);
	}
}

static void ends_use(struct mine *m, int k)
{
	if (m->has[k])
		__atomic_fetch_sub(m->has[k] == EXCLUSIVE ? &writers[k] : &readers[k], 1, __ATOMIC_RELAXED);
	m->has[k] = NOTHING;
}

static void has_expired(struct mine *m)
{
	for (size_t k = 0; k < m->count; k++)
		ends_use(m, m->order[k]);
	__atomic_store_n(&expired[m->me], true, __ATOMIC_RELEASE);
}

static bool meets(void *data_, const struct ww_table_user *user)
{
	(void)data_;
	MUST(!user->waits && user->owner < THREADS);
	if (!__atomic_load_n(&expired[user->owner], __ATOMIC_ACQUIRE))
		return false;
	count_one(&stolen);
	return true;
}

static int waits(void *data_, struct ww_table_how *how)
{
	struct timespec *until = data_;

	if (how->until == until) /* its time is over, and it has looked again */
		return -ETIMEDOUT;
	*until = in_ms(1);
	how->until = until;
	return 0;
}

static void sees(void *data_, const struct ww_table_user *user)
{
	MUST(user->owner < THREADS);
	++*(size_t *)data_;
}

static void wakes(void *loop, void *task)
{
	(void)loop;
	__atomic_store_n((bool *)task, true, __ATOMIC_RELEASE);
}

static int by_polls(struct mine *m, const char *key, size_t length, enum ww_table_mode mode)
{
	bool woken;
	struct ww_waker waker = { wakes, NULL, &woken };
	struct ww_table_how how = { .owner = m->me, .by = WW_TABLE_POLLS, .waker = &waker, .meets = meets };

	for (unsigned k = 0;; k++) {
		int r;

		woken = false;
		r = ww_table_lock(t, m->x, key, length, mode, &how);
		if (r != -EINPROGRESS)
			return r;
		count_one(&polled);
		MUST(ww_table_lock(t, m->x, "other", 5, mode, &how) == -EBUSY || !m->count);
		MUST(ww_table_unlock(t, m->x, key, length) == -EBUSY);
		while (!__atomic_load_n(&woken, __ATOMIC_ACQUIRE) && k < 3)
			sched_yield(), k += !next(&m->drawn);
		if (k >= 3 || next(&m->drawn) % 4 == 0) { /* it gives up */
			bool taken_back = ww_poll_take_back(m->x, NULL);

			while (!taken_back && !__atomic_load_n(&woken, __ATOMIC_ACQUIRE))
				sched_yield();
			how.waker = NULL;
		}
	}
}

static int lock_by(struct mine *m, const char *key, size_t length, enum ww_table_mode mode, unsigned way)
{
	struct timespec until = in_ms(0);
	struct ww_table_how how = { .owner = m->me, .meets = meets };

	switch (way) {
	case 0: how.by = WW_TABLE_TRIES; break;
	case 1: how.until = &until; break;
	case 2: return by_polls(m, key, length, mode);
	case 3: how.waits = waits; how.data = &until; break;
	default: break;
	}
	return ww_table_lock(t, m->x, key, length, mode, &how);
}

static void forgets(struct mine *m, int k)
{
	size_t at = 0;

	ends_use(m, k);
	while (m->order[at] != k)
		at++;
	memmove(m->order + at, m->order + at + 1, sizeof *m->order * (--m->count - at));
}

/* Whether the transaction goes on. */
static bool locks(struct mine *m, int k, int as, unsigned way)
{
	char key[80];
	size_t length = key_of(k, key);
	int r = lock_by(m, key, length, as == EXCLUSIVE ? WW_TABLE_EXCLUSIVE : WW_TABLE_SHARED, way);

	if (m->has[k] >= as) {
		MUST(r == -EALREADY);
	} else if (r) {
		MUST((r == -EDEADLK && m->count) || (r == -EBUSY && way == 0) || (r == -ETIMEDOUT && way >= 1 && way <= 3));
		count_one(r == -EDEADLK ? &told : &late);
	} else {
		if (!m->has[k])
			m->order[m->count++] = k;
		ends_use(m, k);
		begins_use(m, k, as);
		m->has[k] = as;
	}
	return r != -EDEADLK;
}

static void back_to_mark(struct mine *m)
{
	size_t mark = next(&m->drawn) % (m->count + 1);

	MUST(ww_table_mark(t, m->x) == m->count);
	while (m->count > mark)
		ends_use(m, m->order[--m->count]);
	ww_table_unlock_to(t, m->x, mark);
	MUST(ww_table_mark(t, m->x) == mark);
}

/* Whether the transaction goes on. */
static bool any(struct mine *m)
{
	int k = (int)(next(&m->drawn) % KEYS), as = next(&m->drawn) % 2 ? EXCLUSIVE : SHARED, had = m->has[k];
	char key[80];
	size_t length = key_of(k, key), seen = 0;

	if (next(&m->drawn) % 4 == 0)
		sched_yield();
	switch (next(&m->drawn) % 16) {
	case 0:
		back_to_mark(m);
		return true;
	case 1:
	case 2:
		if (had)
			forgets(m, k);
		MUST(ww_table_unlock(t, m->x, key, length) == (had ? 0 : -EINVAL));
		return true;
	case 3:
		MUST(ww_table_see(t, key, length, sees, &seen) == seen && seen >= (had != NOTHING));
		return true;
	default:
		return locks(m, k, as, next(&m->drawn) % 8);
	}
}

static void begins(struct mine *m)
{
	if (next(&m->drawn) % 4 == 0) {
		struct ww_retry retry;
		uint64_t former;

		pthread_mutex_lock(&box.lock);
		retry = box.retry, former = box.owner;
		box.retry = m->retry, box.owner = m->former;
		m->retry = retry, m->former = former;
		pthread_mutex_unlock(&box.lock);
		count_one(&moved);
	}
	m->x = &m->own;
	m->owner = m->me + THREADS * ++m->owners;
	if (m->me % 2)
		MUST(!ww_table_join(t, m->owner, m->former ? m->former : m->owner, NULL, &m->x));
	else
		MUST(!ww_acquire_resume(m->x, c, &m->retry, NULL));
	MUST(!ww_table_mark(t, m->x));
}

static void ends(struct mine *m, bool again)
{
	while (m->count)
		ends_use(m, m->order[--m->count]);
	if (m->me % 2) {
		MUST(!ww_table_leave(t, m->owner, again));
		m->former = again ? m->owner : 0;
	} else {
		ww_table_unlock_to(t, m->x, 0);
		MUST(!m->x->acquired);
		if (!again || ww_acquire_suspend(m->x, &m->retry))
			ww_acquire_fini(m->x);
	}
	__atomic_store_n(&expired[m->me], false, __ATOMIC_RELAXED);
}

static void *work(void *arg)
{
	struct mine m = { .me = (uint64_t)(size_t)arg, .drawn = 77 + (unsigned)(size_t)arg };

	for (unsigned long k = 0; k < times; k++) {
		unsigned todo = 1 + next(&m.drawn) % MOST;
		bool goes_on = true;

		for (begins(&m); todo && goes_on; todo--)
			goes_on = any(&m);
		if (next(&m.drawn) % 16 == 0) {
			has_expired(&m);
			sched_yield();
		}
		if (!goes_on && m.count)
			MUST(ww_table_lock(t, m.x, "z", 1, WW_TABLE_SHARED, NULL) == -EDEADLK);
		ends(&m, !goes_on);
	}
	MUST(!ww_retry_drop(&m.retry));
	return NULL;
}

static void try_all(struct ww_class *of)
{
	unsigned long all = 0;
	size_t seen = 0;

	c = of;
	told = late = moved = stolen = polled = 0;
	MUST(!ww_table_open(&t, c, 0));
	in_threads(THREADS, work);
	MUST(!ww_retry_drop(&box.retry) && !ww_table_see(t, NULL, 0, sees, &seen) && !seen);
	box.owner = 0;
	for (int k = 0; k < KEYS; k++) {
		MUST(!writers[k] && !readers[k]);
		all += (unsigned long)data[k];
		data[k] = 0;
	}
	for (int k = 0; k < THREADS; k++) {
		all -= added[k];
		added[k] = 0;
	}
	MUST(!all && !ww_table_close(t) && !ww_class_free(c));
	printf("table_any %s: %lu told, %lu late, %lu elsewhere, %lu taken away, %lu polls\n", of->name, told, late, moved, stolen, polled);
	MUST(told && late && moved && stolen && polled);
}

static void *waits_once(void *arg)
{
	struct ww_acquire_ctx x;

	ww_acquire_init(&x, c);
	MUST(!ww_table_lock(t, &x, "k", 1, (size_t)arg % 2 ? WW_TABLE_SHARED : WW_TABLE_EXCLUSIVE, NULL));
	ww_table_unlock_to(t, &x, 0);
	ww_acquire_fini(&x);
	return NULL;
}

/* A table whose key threads wait for, have and release is closed once the last one is through with it, and not before. */
static void closes_behind_the_last(void)
{
	struct ww_acquire_ctx x;
	pthread_t threads[3];
	size_t seen;

	MUST(!ww_table_open(&t, c, 0));
	ww_acquire_init(&x, c);
	MUST(!ww_table_lock(t, &x, "k", 1, WW_TABLE_EXCLUSIVE, NULL));
	for (size_t k = 0; k < 3; k++)
		threads[k] = begin_thread(waits_once, (void *)k);
	while (ww_table_see(t, "k", 1, sees, (seen = 0, &seen)) < 4)
		sched_yield();
	ww_table_unlock_to(t, &x, 0);
	while (ww_table_close(t))
		;
	for (size_t k = 0; k < 3; k++)
		end_thread(threads[k]);
	ww_acquire_fini(&x);
}

int main(int count, char **words)
{
	if (count > 1)
		times = strtoul(words[1], NULL, 10);
	try_all(&wound_wait);
	try_all(&wait_die);
	try_all(&few);
	for (unsigned long k = 0; k < times / 50; k++)
		closes_behind_the_last();
	puts("table_any: who has a key has it alone, or shares it");
	return 0;
}
