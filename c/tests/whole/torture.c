/*
 * Any legal call of contexts in loops, drawn by eight threads on six mutexes.
 *
 * Locks that wait, with a time, or until they are cancelled, trylocks, slow locks, lists, unlocks, back-offs by hand
 * and by the loop.  After each call a context holds what its calls returned, no two contexts hold one mutex, and no
 * call is refused.  The first word is how many loops each thread makes.
 */
#include "../mutex_test.h"
#include "../../lock/context.h"

enum { THREADS = 8, MUTEXES = 6, LIST = 3 };

static DEFINE_WW_CLASS(wound_wait);
static DEFINE_WD_CLASS(wait_die);
static struct ww_class *c;
static struct ww_mutex mutexes[MUTEXES];
static unsigned users[MUTEXES]; /* the thread that holds it, plus one */
static unsigned long loops = 3000, backs;

/* A context is there for its thread's life, so that others may cancel it whenever they like. */
static struct one {
	struct ww_acquire_ctx x;
	unsigned me, drawn;
	bool has[MUTEXES];
} all[THREADS];

static unsigned draw(struct one *o, unsigned of) { return next(&o->drawn) % of; }

static void got(struct one *o, unsigned k)
{
	MUST(!o->has[k] && !__atomic_exchange_n(&users[k], o->me + 1, __ATOMIC_RELAXED));
	o->has[k] = true;
}

/* Said before it is so. */
static void loses(struct one *o, unsigned k)
{
	MUST(o->has[k] && __atomic_exchange_n(&users[k], 0, __ATOMIC_RELAXED) == o->me + 1);
	o->has[k] = false;
}

static void loses_all(struct one *o)
{
	for (unsigned k = 0; k < MUTEXES; k++)
		if (o->has[k])
			loses(o, k);
}

static unsigned held(const struct one *o)
{
	unsigned count = 0;

	for (unsigned k = 0; k < MUTEXES; k++)
		count += o->has[k];
	return count;
}

/* What it acquired besides, by waiting for the contended mutex, is its own too; nothing was lost. */
static void looks(struct one *o)
{
	for (unsigned k = 0; k < MUTEXES; k++) {
		bool is = __atomic_load_n(&mutexes[k].ctx, __ATOMIC_RELAXED) == &o->x;

		if (is && !o->has[k])
			got(o, k);
		MUST(is == o->has[k]);
	}
	MUST(held(o) == o->x.acquired);
}

static void backs_off_by_hand(struct one *o, unsigned k)
{
	unsigned other = (k + 1) % MUTEXES;

	for (unsigned j = 0; j < MUTEXES; j++)
		if (o->has[j]) {
			loses(o, j);
			ww_mutex_unlock(&mutexes[j]);
		}
	switch (draw(o, 3)) {
	case 0: ww_mutex_lock_slow(&mutexes[k], &o->x); break;
	case 1: {
		int r = ww_mutex_lock(&mutexes[other], &o->x);

		MUST(!r || r == -EINTR);
		break;
	}
	default: (void)!ww_mutex_trylock(&mutexes[other], &o->x);
	}
	looks(o);
	MUST(!held(o) == ww_is_contended(&o->x));
}

/* r is what a lock call answered; whether the body goes on. */
static bool goes_on(struct one *o, unsigned k, int r, bool had, bool owed)
{
	bool ignores = o->x.state & WW_IGNORE_DUPLICATES;

	looks(o);
	switch (r) {
	case 0: MUST(o->has[k] && (!had || ignores || owed)); break;
	case -EALREADY: MUST(had && !ignores && !owed); break;
	case -EDEADLK:
		MUST(held(o) && ww_is_contended(&o->x));
		__atomic_fetch_add(&backs, 1, __ATOMIC_RELAXED);
		if (draw(o, 3) == 0)
			backs_off_by_hand(o, k);
		break;
	default: MUST(r == -EINTR || r == -ETIMEDOUT);
	}
	return !ww_is_contended(&o->x);
}

/*
 * All or none of a list: what is held before stays, unless the loop has to back off.  (A list that comes first backs off by itself; then
 * what the loop owes may go unsaid.)
 */
static bool locks_list(struct one *o, unsigned k)
{
	struct ww_mutex *list[LIST];
	unsigned before = held(o), had = 0;
	bool ignores = o->x.state & WW_IGNORE_DUPLICATES;
	int r;

	if (ww_acquire_mark(&o->x) != o->x.acquired)
		return true;
	for (unsigned j = 0; j < LIST; j++) {
		list[j] = &mutexes[(k + j) % MUTEXES];
		had += o->has[(k + j) % MUTEXES];
	}
	r = ww_mutex_lock_all(&o->x, list, LIST);
	looks(o);
	MUST(r ? held(o) - (ww_acquire_mark(&o->x) != o->x.acquired) == before : held(o) >= before + LIST - had);
	MUST(r == -EDEADLK ? before && ww_is_contended(&o->x) : r == -EALREADY ? had && !ignores : !r || r == -EINTR);
	MUST(r || !had || ignores);
	return !ww_is_contended(&o->x);
}

static bool makes(struct one *o)
{
	unsigned k = draw(o, MUTEXES);
	struct ww_mutex *m = &mutexes[k];
	bool had, owed = o->x.state & IS_PRELOCKED && o->x.prelocked == m;
	struct timespec soon = in_ms(0);

	looks(o);
	had = o->has[k];
	soon.tv_nsec += soon.tv_nsec < 999000000 ? (long)draw(o, 200) * 1000 : 0;
	switch (draw(o, 10)) {
	case 0: case 1: case 2: return goes_on(o, k, ww_mutex_lock(m, &o->x), had, owed);
	case 3: return goes_on(o, k, ww_mutex_lock_interruptible(m, &o->x), had, owed);
	case 4: return goes_on(o, k, ww_mutex_lock_until(m, &o->x, &soon), had, owed);
	case 5:
		if (ww_mutex_trylock(m, &o->x))
			MUST(!had || owed);
		break;
	case 6:
		if (had) {
			loses(o, k);
			ww_mutex_unlock(m);
		}
		break;
	case 7: return locks_list(o, k);
	case 8: MUST(ww_acquire_cancel(&all[draw(o, THREADS)].x) <= 0); break;
	default:
		if (draw(o, 4) == 0) {
			loses_all(o);
			ww_acquire_unlock_all(&o->x);
		}
	}
	looks(o);
	return !ww_is_contended(&o->x);
}

static void *works(void *arg)
{
	struct one *o = &all[(size_t)arg];

	o->me = (unsigned)(size_t)arg;
	o->drawn = 77 + 13 * o->me;
	for (unsigned long k = 0; k < loops; k++) {
		ww_acquire_init(&o->x, c);
		if (draw(o, 4) == 0)
			ww_acquire_flags(&o->x, draw(o, 4));
		ww_until_all_locked(&o->x) {
			for (unsigned n = 1 + draw(o, 12); n; n--) {
				if (!makes(o)) {
					loses_all(o);
					ww_retry_on_contention(&o->x);
				}
				/* On one processor too they meet. */
				if (draw(o, 64) == 0)
					sched_yield();
			}
		}
		MUST(!ww_is_contended(&o->x));
		loses_all(o);
		ww_acquire_unlock_all(&o->x);
		MUST(!o->x.acquired);
		ww_acquire_fini(&o->x);
	}
	return NULL;
}

/* With a context for each thread, and with fewer. */
int main(int count, char **words)
{
	struct ww_class *classes[] = { &wound_wait, &wait_die };
	const uint32_t contexts[] = { THREADS, 3 };

	if (count > 1)
		loops = strtoul(words[1], NULL, 10);
	for (unsigned k = 0; k < 4; k++) {
		c = classes[k / 2];
		backs = 0;
		MUST(!ww_class_limit(c, MUTEXES, contexts[k % 2]));
		for (unsigned n = 0; n < MUTEXES; n++)
			ww_mutex_init(&mutexes[n], c);
		in_threads(THREADS, works);
		for (unsigned n = 0; n < MUTEXES; n++)
			MUST(!users[n] && !ww_mutex_destroy(&mutexes[n]));
		MUST(backs && !ww_class_free(c));
	}
	puts("torture: what is held is what was told");
	return 0;
}
