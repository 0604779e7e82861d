/*
 * Four threads make any call of ww_mutex.h in any state, each with a context of its own.
 *
 * All share the mutexes.  What a call may return follows from what the calls before returned, so each value is checked
 * exactly, and every mutex is exclusive.
 */
#include "../mutex_test.h"

enum { THREADS = 4, LOCKS = 8, NONE = LOCKS };

static DEFINE_WW_CLASS(wound_wait);
static DEFINE_WD_CLASS(wait_die);
static DEFINE_WD_CLASS(other);
static struct ww_class *c;
static struct ww_mutex locks[LOCKS], alone[THREADS], its;
static unsigned long counters[LOCKS], added[THREADS][LOCKS], times = 150000, backs, stops, lates;

/* What one thread knows of its context; others cancel it as long as it runs. */
struct mine {
	struct ww_acquire_ctx x;
	unsigned count, told;
	bool own[LOCKS], runs, done, has_alone;
};
static struct mine all[THREADS];
static pthread_mutex_t running[THREADS]; /* under it a context begins, ends, and is cancelled */

static void holds(struct mine *m, unsigned n)
{
	MUST(locks[n].ctx == &m->x && !m->own[n]);
	m->own[n] = true;
	m->told = NONE;
	MUST(m->x.acquired == ++m->count);
}

static void gives(struct mine *m, unsigned n)
{
	MUST(locks[n].ctx == &m->x && ww_mutex_is_locked(&locks[n]));
	ww_mutex_unlock(&locks[n]);
	m->own[n] = false;
	MUST(m->x.acquired == --m->count);
}

static int refusal(const struct mine *m, unsigned n)
{
	if (m->own[n])
		return -EALREADY;
	return !m->runs || (m->count && m->told != NONE) ? -EINVAL : 0;
}

/* heeds: a cancel may end it; until: and a time. */
static void ends(struct mine *m, unsigned n, int refused, bool heeds, bool until, int r)
{
	if (refused) {
		MUST(r == refused);
	} else if (r == -EDEADLK) {
		MUST(m->count);
		m->told = n;
		__atomic_fetch_add(&backs, 1, __ATOMIC_RELAXED);
	} else if (r == -EINTR) {
		MUST(heeds);
		__atomic_fetch_add(&stops, 1, __ATOMIC_RELAXED);
	} else if (r == -ETIMEDOUT) {
		MUST(until);
		__atomic_fetch_add(&lates, 1, __ATOMIC_RELAXED);
	} else {
		MUST(!r);
		holds(m, n);
	}
}

static void locks_one(struct mine *m, unsigned n, unsigned way)
{
	int refused = refusal(m, n), due = m->told == n && !m->count && m->runs ? 0 : -EINVAL;
	struct timespec soon = in_ms(0);

	switch (way) {
	case 0: ends(m, n, refused, false, false, ww_mutex_lock(&locks[n], &m->x)); break;
	case 1: ends(m, n, refused, true, false, ww_mutex_lock_interruptible(&locks[n], &m->x)); break;
	case 2: ends(m, n, refused, true, true, ww_mutex_lock_until(&locks[n], &m->x, &soon)); break;
	case 3: ends(m, n, due, false, false, ww_mutex_lock_slow_checked(&locks[n], &m->x)); break;
	default: ends(m, n, due, true, false, ww_mutex_lock_slow_interruptible(&locks[n], &m->x));
	}
}

static void tries(struct mine *m, unsigned n)
{
	int refused = refusal(m, n);

	if (m->runs && ww_mutex_trylock(&locks[n], &m->x)) {
		MUST(!refused);
		holds(m, n);
	}
}

/* All that it doesn't hold of four, from this one on. */
static void locks_all(struct mine *m, unsigned n)
{
	struct ww_mutex *list[4];
	unsigned held = m->count, k;
	bool refused = false;
	int r;

	for (k = 0; k < 4; k++) {
		list[k] = &locks[(n + k) % LOCKS];
		refused |= m->own[(n + k) % LOCKS];
	}
	r = ww_mutex_lock_all(&m->x, list, 4);
	if (!m->runs || (held && m->told != NONE)) {
		MUST(r == -EINVAL || r == -EALREADY);
	} else if (r == -EDEADLK) {
		MUST(held);
		m->told = (unsigned)(m->x.contending_lock - locks);
	} else if (refused) {
		MUST(r == -EALREADY);
	} else {
		MUST(!r);
		for (k = 0; k < 4; k++) {
			MUST(!m->own[(n + k) % LOCKS]);
			m->own[(n + k) % LOCKS] = true;
		}
		m->count += 4;
		m->told = NONE;
	}
	MUST(!m->runs || m->x.acquired == m->count);
}

static void starts(size_t me, struct mine *m)
{
	if (m->runs)
		return;
	pthread_mutex_lock(&running[me]);
	ww_acquire_init(&m->x, c);
	m->runs = true;
	m->told = NONE;
	pthread_mutex_unlock(&running[me]);
}

static void finishes(size_t me, struct mine *m)
{
	bool may = m->runs && !m->count;

	pthread_mutex_lock(&running[me]);
	MUST(ww_acquire_fini_checked(&m->x) == (may ? 0 : -EINVAL));
	if (may)
		m->runs = m->done = false;
	pthread_mutex_unlock(&running[me]);
}

static void cancels(unsigned victim)
{
	int r = 0;

	pthread_mutex_lock(&running[victim]);
	if (all[victim].runs)
		r = ww_acquire_cancel(&all[victim].x);
	pthread_mutex_unlock(&running[victim]);
	MUST(!r || r == -EALREADY);
}

static void any(size_t me, struct mine *m, unsigned drawn)
{
	unsigned n = (drawn >> 8) % LOCKS;

	switch (drawn % 16) {
	case 0: case 1: starts(me, m); break;
	case 2:
		MUST(ww_acquire_done_checked(&m->x) == (m->runs && !m->done ? 0 : -EINVAL));
		m->done |= m->runs;
		break;
	case 3: finishes(me, m); break;
	case 4: case 5: case 6: case 7: locks_one(m, n, (drawn >> 12) % 3); break;
	case 8: locks_one(m, m->told != NONE && drawn >> 13 & 1 ? m->told : n, 3 + (drawn >> 12) % 2); break;
	case 9: tries(m, n); break;
	case 10:
		MUST(ww_mutex_lock(&its, &m->x) == -EINVAL);
		MUST(m->has_alone == !ww_mutex_trylock(&alone[me], NULL));
		if (m->has_alone)
			ww_mutex_unlock(&alone[me]);
		m->has_alone = !m->has_alone;
		break;
	case 11: if (m->own[n]) gives(m, n); break;
	case 12: case 13:
		for (n = 0; n < LOCKS; n++)
			if (m->own[n])
				gives(m, n);
		break;
	case 14: locks_all(m, n); break;
	default: cancels(n % THREADS);
	}
}

static void *work(void *arg)
{
	size_t me = (size_t)arg;
	struct mine *m = &all[me];
	unsigned x = 97531 + (unsigned)me;

	m->told = NONE;
	for (unsigned long i = 0; i < times; i++) {
		any(me, m, next(&x));
		if (i % 512 == 0)
			usleep(1);
		for (unsigned n = 0; n < LOCKS; n++)
			if (m->own[n]) {
				counters[n]++;
				added[me][n]++;
			}
	}
	for (unsigned n = 0; n < LOCKS; n++)
		if (m->own[n])
			gives(m, n);
	if (m->has_alone)
		ww_mutex_unlock(&alone[me]);
	m->has_alone = false;
	if (m->runs)
		finishes(me, m);
	return NULL;
}

int main(int count, char **words)
{
	struct ww_class *classes[] = { &wound_wait, &wait_die };

	if (count > 1)
		times = strtoul(words[1], NULL, 10);
	ww_mutex_init(&its, &other);
	for (unsigned k = 0; k < THREADS; k++)
		pthread_mutex_init(&running[k], NULL);
	for (unsigned kind = 0; kind < 2; kind++) {
		c = classes[kind];
		backs = stops = lates = 0;
		MUST(!ww_class_limit(c, LOCKS + THREADS, 9));
		for (unsigned n = 0; n < LOCKS; n++)
			ww_mutex_init(&locks[n], c);
		for (unsigned k = 0; k < THREADS; k++) {
			ww_mutex_init(&alone[k], c);
			/* A context that ended, though none of this class was. */
			ww_acquire_init(&all[k].x, c);
			ww_acquire_fini(&all[k].x);
		}
		in_threads(THREADS, work);
		for (unsigned n = 0; n < LOCKS; n++) {
			for (unsigned k = 0; k < THREADS; k++) {
				counters[n] -= added[k][n];
				added[k][n] = 0;
			}
			MUST(!counters[n] && !ww_mutex_destroy(&locks[n]));
		}
		for (unsigned k = 0; k < THREADS; k++)
			MUST(!ww_mutex_destroy(&alone[k]));
		MUST(backs && stops && lates && !ww_class_free(c));
		printf("any: %lu back-offs, %lu called off, %lu too late\n", backs, stops, lates);
	}
	puts("any: each answer as due, every mutex exclusive");
	return 0;
}
