/*
 * Crowds under load: far more threads than permits.
 *
 * Contexts that need one another to begin all begin, though there are fewer permits; sums over hot mutexes are exact
 * while a crowd's limiter tries one width after the other, and each thread gets about as far as the others; as they are
 * where threads sleep under their mutexes.  A cancel of the class ends them all.  crowd [TRANSACTIONS of each thread, at least]
 */
#include "../crowd.h"

enum { PERMITS = 2, THREADS = 24, HOT = 4, WARM = 64, QUICK = 10000, SLOW = 20, FAIR = 100 };

static DEFINE_WW_CLASS(wound_wait);
static DEFINE_WD_CLASS(wait_die);
static struct ww_class *c;
static struct ww_mutex hot[WARM];
static unsigned long sum[WARM];
static pthread_barrier_t meet;

/* Runs this in all threads, each with its number. */
static void in_many(void *(*work)(void *))
{
	pthread_t threads[THREADS];

	pthread_barrier_init(&meet, NULL, THREADS);
	for (size_t k = 0; k < THREADS; k++)
		threads[k] = begin_thread(work, (void *)k);
	for (unsigned k = 0; k < THREADS; k++)
		end_thread(threads[k]);
	pthread_barrier_destroy(&meet);
}

/* Each context waits until all others have begun, the first of its thread, and a later one. */
static void *begins_together(void *arg)
{
	for (unsigned k = 0; k < 3; k++) {
		struct ww_acquire_ctx x, y;

		is_awake();
		ww_acquire_init(&x, c);
		pthread_barrier_wait(&meet);
		ww_acquire_init(&y, c); /* who runs one waits for no permit */
		pthread_barrier_wait(&meet);
		ww_acquire_fini(&y);
		ww_acquire_fini(&x);
	}
	return arg;
}

/* ---- hot mutexes ---- */

static unsigned long made[THREADS];
static bool stops;
static unsigned hold_for, least, mutexes, quick = QUICK, to_do;

/* Once in a while it first asks for a context by a call that waits for no permit, or not for long. */
static void begin(struct ww_acquire_ctx *x, unsigned drawn)
{
	struct timespec soon = in_ms(0);
	int r = drawn % 8 == 0 ? ww_acquire_init_checked(x, c) : drawn % 8 == 1 ? ww_acquire_init_until(x, c, &soon) : -EAGAIN;

	MUST(!r || r == (drawn % 8 == 1 ? -ETIMEDOUT : -EAGAIN));
	if (r)
		ww_acquire_init(x, c);
}

static void transact(unsigned *drawn)
{
	unsigned a = next(drawn) % mutexes, b = (a + 1 + next(drawn) % (mutexes - 1)) % mutexes;
	struct ww_acquire_ctx x;

	begin(&x, next(drawn));
	ww_until_all_locked(&x) {
		int r = ww_mutex_lock(&hot[a], &x);

		ww_retry_on_contention(&x);
		MUST(!r);
		r = ww_mutex_lock(&hot[b], &x);
		ww_retry_on_contention(&x);
		MUST(!r);
	}
	if (hold_for)
		usleep(hold_for);
	sum[a]++;
	sum[b]++;
	ww_acquire_unlock_all(&x);
	ww_acquire_fini(&x);
}

static void *works(void *arg)
{
	size_t me = (size_t)arg;
	unsigned drawn = 77 * (unsigned)me + 1;

	/* All go on until the last one is there. */
	for (made[me] = 0; !__atomic_load_n(&stops, __ATOMIC_SEQ_CST);) {
		transact(&drawn);
		made[me]++;
		if (made[me] == least && !__atomic_sub_fetch(&to_do, 1, __ATOMIC_SEQ_CST))
			__atomic_store_n(&stops, true, __ATOMIC_SEQ_CST);
	}
	return NULL;
}

/* Each waits much, as this thread says: so there is a crowd whose limiter tries what is best. */
static void begins_crowd(void)
{
	uint64_t now = ww_now();

	__atomic_store_n(&c->pool->crowd.quiet_until, 0, __ATOMIC_RELAXED);
	ww_mine.counted = now;
	for (unsigned k = 0; k < 100; k++)
		ww_note_wait(c->pool, now, LEASE);
	MUST(is_crowded(c->pool));
}

/* No thread makes more than `most`, while each makes so many. */
static void storms(unsigned count, unsigned times, unsigned most, unsigned sleeps)
{
	unsigned long done = 0, counted = 0;

	mutexes = count;
	least = times;
	hold_for = sleeps;
	to_do = THREADS;
	stops = false;
	memset(sum, 0, sizeof sum);
	begins_crowd();
	in_many(works);
	for (unsigned k = 0; k < THREADS; k++) {
		done += made[k];
		MUST(made[k] < most);
	}
	for (unsigned k = 0; k < WARM; k++)
		counted += sum[k];
	MUST(counted == 2 * done && !waiting_threads(c->pool));
	set_crowded(c->pool, false);
}

/* ---- a cancel ---- */

/* Far more than permits, so some always have to wait for one, until the first of them was told to stop. */
static void *until_cancelled(void *arg)
{
	struct ww_acquire_ctx x;
	int r = 0;

	while (!r && !__atomic_load_n(&stops, __ATOMIC_SEQ_CST)) {
		is_awake(); /* on a busy machine it would pass without a permit, as who sleeps does */
		r = ww_acquire_init_until(&x, c, NULL);
		MUST(!r || r == -EINTR);
		if (r)
			__atomic_store_n(&stops, true, __ATOMIC_SEQ_CST);
		else
			ww_acquire_fini(&x);
	}
	if (r)
		__atomic_sub_fetch(&to_do, 1, __ATOMIC_SEQ_CST);
	return arg;
}

static void *cancels(void *arg)
{
	while (!__atomic_load_n(&stops, __ATOMIC_SEQ_CST)) {
		if (waiting_threads(c->pool))
			MUST(!ww_class_cancel(c));
		usleep(100);
	}
	return arg;
}

/* All end, whoever waits for a permit then. */
static void a_cancel_ends_all(void)
{
	pthread_t by;

	crowds(c, PERMITS);
	stops = false;
	to_do = THREADS;
	by = begin_thread(cancels, NULL);
	in_many(until_cancelled);
	end_thread(by);
	MUST(to_do < THREADS && !c->pool->crowd.waiting);
	set_crowded(c->pool, false);
}

static void all(struct ww_class *of)
{
	c = of;
	MUST(ww_class_crowd(c, MANY_PERMITS + 1) == -EINVAL && !ww_class_crowd(c, PERMITS) && !ww_class_crowd(c, 0));
	for (unsigned k = 0; k < WARM; k++)
		ww_mutex_init(&hot[k], c);
	MUST(ww_class_crowd(c, 1) == -EBUSY);
	crowds(c, PERMITS);
	in_many(begins_together);
	MUST(permit_waits(c));
	set_crowded(c->pool, false);
	storms(HOT, quick, FAIR * QUICK, 0);
	storms(WARM, SLOW, FAIR * SLOW, 1000);
	a_cancel_ends_all();
	for (unsigned k = 0; k < WARM; k++)
		MUST(!ww_mutex_destroy(&hot[k]));
	MUST(!ww_class_free(c));
}

int main(int count, char **words)
{
	if (count > 1)
		quick = (unsigned)atoi(words[1]);
	all(&wound_wait);
	all(&wait_die);
	puts("crowd: all get on");
	return 0;
}
