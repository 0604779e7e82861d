/*
 * Four threads make any call of ww_number.h in any state, with any number, by contexts and without.
 *
 * What a call may return follows from what the calls before returned: a thread remembers what it holds, so each value
 * is checked exactly, every mutex is exclusive, and all threads come to their ends.  Meanwhile contexts end and begin,
 * and others cancel them.
 */
#include "../mutex_test.h"
#include "ww_shared.h"

enum { THREADS = 4, MUTEXES = 8, NAPS = 1024 };

static DEFINE_WW_CLASS(wound_wait);
static DEFINE_WD_CLASS(wait_die);
static struct ww_class *c;
static uint32_t numbers[MUTEXES];
static unsigned long counters[MUTEXES], added[THREADS][MUTEXES], times = 50000, backs, stops, cancels;
static pthread_barrier_t all_there;

/* A context with what keeps it there while others cancel it. */
static struct {
	pthread_mutex_t stays;
	struct ww_acquire_ctx x;
	bool begun;
} contexts[THREADS];

/* What one thread knows of its context, and of what it holds without one. */
struct mine {
	struct ww_acquire_ctx *x;
	unsigned me, count;
	bool own[MUTEXES], begun, done, told;
	bool alone[MUTEXES];
	unsigned long backs, stops, cancels; /* how often it had to back off, was cancelled, and cancelled others */
};

/* No number of the class is as great. */
enum { BEYOND = 4 * (4 * MUTEXES < 17 ? 17 : 4 * MUTEXES) };

static uint32_t number_at(unsigned n) { return n < MUTEXES ? numbers[n] : n == MUTEXES ? BEYOND : UINT32_MAX - n; }

/* For calls by address; NULL for a number that nobody has taken. */
static struct ww_mutex *mutex_at(unsigned n)
{
	struct ww_shared_mutex *m = ww_number_at(number_at(n), c);

	MUST(!m == (n >= MUTEXES));
	return m ? &m->mutex_ : NULL;
}

static void holds(struct mine *m, unsigned n)
{
	m->own[n] = true;
	m->count++;
	m->told = false;
}

static void gives(struct mine *m, unsigned n)
{
	m->count -= m->own[n];
	m->own[n] = false;
}

static void gives_all(struct mine *m)
{
	for (unsigned n = 0; n < MUTEXES; n++) {
		MUST(!m->own[n] || !ww_number_unlock(numbers[n], m->x));
		gives(m, n);
	}
	MUST(!m->x->acquired);
}

/* Why it can't take this one now, if it can't. */
static int refusal(const struct mine *m, unsigned n)
{
	if (!m->begun || n >= MUTEXES)
		return -EINVAL;
	return m->own[n] ? -EALREADY : m->told && m->count ? -EINVAL : 0;
}

/* Nobody detects a deadlock by what it holds without a context: as long as it does it says until when it waits. */
static void locks(struct mine *m, unsigned n, unsigned way)
{
	struct timespec soon = in_ms(0);
	int refused = refusal(m, n), r;

	for (unsigned k = 0; k < MUTEXES; k++)
		way = m->alone[k] ? 2 : way;
	switch (way) {
	case 0: r = ww_mutex_lock_until(mutex_at(n), m->x, NULL); break;
	case 2: r = ww_mutex_lock_until(mutex_at(n), m->x, &soon); break;
	default: r = ww_number_lock(number_at(n), m->x);
	}
	if (refused) {
		MUST(r == refused);
	} else if (r == -EDEADLK) {
		MUST(m->count);
		m->told = true;
		m->backs++;
	} else if (r == -ETIMEDOUT) {
		MUST(way == 2);
	} else if (r == -EINTR) {
		MUST(way == 0 || way == 2);
		m->stops++;
	} else {
		MUST(!r);
		holds(m, n);
	}
	MUST(!m->begun || m->x->acquired == m->count);
}

static void tries(struct mine *m, unsigned n)
{
	int refused = refusal(m, n), r = ww_number_trylock(number_at(n), m->x);

	MUST(!r || (r == 1 && !refused && !m->alone[n]));
	if (r)
		holds(m, n);
}

static void unlocks(struct mine *m, unsigned n)
{
	bool owns = n < MUTEXES && m->own[n];

	MUST(n >= MUTEXES || ww_shared_mutex_is_written_by(ww_number_at(number_at(n), c), m->x) == owns);
	MUST(ww_number_unlock(number_at(n), m->x) == (owns ? 0 : -EINVAL));
	if (owns)
		gives(m, n);
}

static void goes_alone(struct mine *m, unsigned n, bool waits)
{
	struct timespec soon = in_ms(0);
	int r;

	if (n < MUTEXES && m->alone[n]) {
		ww_mutex_unlock(mutex_at(n));
		m->alone[n] = false;
		return;
	}
	r = waits || n >= MUTEXES ? ww_mutex_lock_until(mutex_at(n), NULL, &soon) : !ww_mutex_trylock(mutex_at(n), NULL);
	MUST(n < MUTEXES || r == -EINVAL);
	if (!r) {
		MUST(!m->own[n]);
		m->alone[n] = true;
	}
}

/* It ends and begins where it holds nothing; nobody cancels it meanwhile. */
static void changes(struct mine *m)
{
	pthread_mutex_lock(&contexts[m->me].stays);
	if (m->begun)
		MUST(ww_acquire_fini_checked(m->x) == (m->count ? -EINVAL : 0));
	else
		ww_acquire_init(m->x, c);
	if (!m->count) {
		m->begun = !m->begun;
		m->done = m->told = false;
		contexts[m->me].begun = m->begun;
	}
	pthread_mutex_unlock(&contexts[m->me].stays);
}

static void has_all(struct mine *m)
{
	MUST(ww_acquire_done_checked(m->x) == (m->begun && !m->done ? 0 : -EINVAL));
	m->done |= m->begun;
}

static void cancels_one(struct mine *m, unsigned other)
{
	pthread_mutex_lock(&contexts[other].stays);
	if (contexts[other].begun) {
		int r = ww_acquire_cancel(&contexts[other].x);

		MUST(!r || r == -EALREADY);
		m->cancels += !r;
	}
	pthread_mutex_unlock(&contexts[other].stays);
}

static void any(struct mine *m, unsigned drawn)
{
	unsigned n = (drawn >> 8) % 10;

	switch (drawn % 16) {
	case 0: case 1: changes(m); break;
	case 2: has_all(m); break;
	case 3: case 4: case 5: case 6: case 7: locks(m, n, drawn >> 12 & 3); break;
	case 8: case 9: tries(m, n); break;
	case 10: case 11: unlocks(m, n); break;
	case 12: gives_all(m); break;
	case 13: goes_alone(m, n, drawn >> 12 & 1); break;
	case 14: (void)(n < MUTEXES && ww_mutex_is_locked(mutex_at(n))); break;
	default: cancels_one(m, n % THREADS);
	}
}

static void *work(void *arg)
{
	unsigned me = (unsigned)(size_t)arg, x = 54321 + me;
	struct mine m = { .x = &contexts[me].x, .me = me };

	changes(&m);
	pthread_barrier_wait(&all_there);
	for (unsigned long i = 0; i < times; i++) {
		any(&m, next(&x));
		if (i % NAPS == 0) /* with what it holds, so that others meet it */
			usleep(1);
		for (unsigned n = 0; n < MUTEXES; n++)
			if (m.own[n] || m.alone[n]) {
				counters[n]++;
				added[me][n]++;
			}
	}
	for (unsigned n = 0; n < MUTEXES; n++)
		if (m.alone[n])
			goes_alone(&m, n, false);
	if (m.begun) {
		gives_all(&m);
		changes(&m);
	}
	__atomic_fetch_add(&backs, m.backs, __ATOMIC_RELAXED);
	__atomic_fetch_add(&stops, m.stops, __ATOMIC_RELAXED);
	__atomic_fetch_add(&cancels, m.cancels, __ATOMIC_RELAXED);
	return NULL;
}

int main(int count, char **words)
{
	struct ww_class *classes[] = { &wound_wait, &wait_die };

	if (count > 1)
		times = strtoul(words[1], NULL, 10);
	pthread_barrier_init(&all_there, NULL, THREADS);
	for (unsigned me = 0; me < THREADS; me++)
		pthread_mutex_init(&contexts[me].stays, NULL);
	for (unsigned kind = 0; kind < 2; kind++) {
		c = classes[kind];
		backs = stops = cancels = 0;
		/* More contexts than may be in use, so that nobody waits for one with something held. */
		MUST(!ww_class_limit(c, MUTEXES, THREADS * (MUTEXES + 1) + 1));
		for (unsigned n = 0; n < MUTEXES; n++)
			MUST(!ww_number_take(&numbers[n], c));
		in_threads(THREADS, work);
		for (unsigned n = 0; n < MUTEXES; n++) {
			unsigned long all = 0;

			for (unsigned k = 0; k < THREADS; k++) {
				all += added[k][n];
				added[k][n] = 0;
			}
			MUST(counters[n] == all && !ww_number_put(numbers[n], c));
			counters[n] = 0;
		}
		MUST(backs && stops && stops <= cancels && !ww_class_free(c));
		printf("number_any %s: %lu back-offs, %lu called off\n", kind ? "wait-die" : "wound-wait", backs, stops);
	}
	puts("number_any: any call in any state, every mutex exclusive");
	return 0;
}
