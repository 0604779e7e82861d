/*
 * Storms of shared mutexes: threads read, write, upgrade and downgrade some of few cells.
 *
 * They do so in both kinds, in a loop, by hand or by polls, some of which end the wait and begin again.  A
 * read never sees half of a write, an upgrade finds what it read, readers and writers inside a cell are counted, and
 * what was written sums up exactly; two contexts of a thread read beside each other; and what somebody reads isn't
 * destroyed.
 *
 *	shared_storm [ROUNDS [THREADS [CELLS]]]
 */
#include "../mutex_test.h"
#include "ww_poll.h"
#include "ww_shared.h"
#include <semaphore.h>

enum { MOST = 6, MANY = 16, CELLS = 64 };
enum what { READS, WRITES, UPGRADES, DOWNGRADES };

static struct ww_class c;
static struct cell {
	struct ww_shared_mutex lock;
	long a, b;		/* equal, but amid a write */
	uint32_t inside;	/* readers, and WRITER for each writer; relaxed, so it orders nothing */
} cells[CELLS];
enum { WRITER = 1 << 16 };
static unsigned rounds = 20000, threads = 4, many = 4;
static long writes[MANY];

struct step {
	struct cell *it;
	enum what what;
	long seen;
};

static void enters(struct cell *it, bool writes)
{
	uint32_t was = __atomic_fetch_add(&it->inside, writes ? WRITER : 1, __ATOMIC_RELAXED);

	MUST(writes ? !was : was < WRITER);
}

static void leaves(struct cell *it, bool writes) { __atomic_fetch_sub(&it->inside, writes ? WRITER : 1, __ATOMIC_RELAXED); }

/* No cell twice. */
static unsigned draw(struct step *steps, unsigned *x)
{
	static const enum what drawn[] = { READS, READS, READS, READS, WRITES, UPGRADES, DOWNGRADES };
	unsigned count = 0;

	for (unsigned k = 1 + next(x) % MOST; k--;) {
		struct cell *it = &cells[next(x) % many];
		bool is_new = true;

		for (unsigned j = 0; j < count; j++)
			is_new &= steps[j].it != it;
		if (is_new)
			steps[count++] = (struct step){ .it = it, .what = drawn[next(x) % 7] };
	}
	return count;
}

enum way { LOOP, BY_HAND, BY_POLLS };

/* A thread sleeps there. A waker that comes late only makes it poll once more. */
static sem_t called[MANY];

static void call(void *loop, void *task)
{
	(void)loop;
	MUST(!sem_post(task));
}

/* A poll of a cell, or without one of the wait after -EDEADLK. */
static int poll_once(const struct step *s, bool writes, struct ww_acquire_ctx *ctx, const struct ww_waker *waker)
{
	if (!s)
		return ww_shared_mutex_await_poll(ctx, waker);
	return writes ? ww_shared_mutex_lock_poll(&s->it->lock, ctx, waker) : ww_shared_mutex_lock_shared_poll(&s->it->lock, ctx, waker);
}

/* Each fourth wait ends, and begins again. */
static int by_polls(const struct step *s, bool writes, struct ww_acquire_ctx *ctx, unsigned me)
{
	static __thread unsigned waits;
	const struct ww_waker waker = { call, NULL, &called[me] };
	int r;

	while ((r = poll_once(s, writes, ctx, &waker)) == -EINPROGRESS) {
		if (++waits % 4)
			sem_wait(&called[me]);
		else if ((r = poll_once(s, writes, ctx, NULL)) != -ETIMEDOUT)
			break;
	}
	return r;
}

static int lock(const struct step *s, bool writes, struct ww_acquire_ctx *ctx, unsigned me, enum way way)
{
	if (way == BY_POLLS)
		return by_polls(s, writes, ctx, me);
	return writes ? ww_shared_mutex_lock(&s->it->lock, ctx) : ww_shared_mutex_lock_shared(&s->it->lock, ctx);
}

/* The locks of a step; -EDEADLK. */
static int locks(struct step *s, struct ww_acquire_ctx *ctx, unsigned me, enum way way)
{
	int r = 0;

	if (s->what == READS || s->what == UPGRADES) {
		r = lock(s, false, ctx, me, way);
		if (r)
			return r;
		MUST(s->it->a == s->it->b && ww_shared_mutex_is_read_by(&s->it->lock, ctx));
		s->seen = s->it->a;
	}
	if (s->what != READS)
		r = lock(s, true, ctx, me, way);
	MUST(r || s->what != UPGRADES || s->it->a == s->seen);
	return r;
}

static void in_loop(struct step *steps, unsigned count, struct ww_acquire_ctx *ctx)
{
	ww_until_all_locked(ctx) {
		for (unsigned k = 0; k < count; k++) {
			int r = locks(&steps[k], ctx, 0, LOOP);

			ww_retry_on_contention(ctx);
			MUST(!r);
		}
	}
}

/* What one lock call got, each by one unlock; what was downgraded is read, mostly. */
static void unlock(const struct step *s, struct ww_acquire_ctx *ctx)
{
	if (ww_shared_mutex_is_written_by(&s->it->lock, ctx))
		MUST(!ww_shared_mutex_unlock(&s->it->lock, ctx));
	else
		MUST(!ww_shared_mutex_unlock_shared(&s->it->lock, ctx));
	if (s->what == UPGRADES)
		MUST(!ww_shared_mutex_unlock_shared(&s->it->lock, ctx));
}

static void by_hand(struct step *steps, unsigned count, struct ww_acquire_ctx *ctx, unsigned me, enum way way)
{
	for (unsigned k = 0; k < count; k++) {
		int r = locks(&steps[k], ctx, me, way);

		if (!r)
			continue;
		MUST(r == -EDEADLK);
		if (ww_shared_mutex_is_read_by(&steps[k].it->lock, ctx))
			MUST(!ww_shared_mutex_unlock_shared(&steps[k].it->lock, ctx));
		while (k--)
			unlock(&steps[k], ctx);
		MUST(!ctx->acquired && !(way == BY_POLLS ? by_polls(NULL, false, ctx, me) : ww_shared_mutex_await(ctx, NULL)));
	}
}

static void use(struct step *steps, unsigned count, unsigned me, unsigned *x)
{
	for (unsigned k = 0; k < count; k++)
		enters(steps[k].it, steps[k].what != READS);
	for (unsigned k = 0; k < count; k++) {
		if (steps[k].what == READS)
			continue;
		steps[k].it->a++;
		if (!(next(x) % 16))
			sched_yield();
		steps[k].it->b++;
		writes[me]++;
	}
	for (unsigned k = 0; k < count; k++)
		leaves(steps[k].it, steps[k].what != READS);
}

/* From now on it reads; or it goes on to write, if a task waits for its slot. */
static void downgrade(struct step *s, struct ww_acquire_ctx *ctx)
{
	ww_shared_mutex_downgrade(&s->it->lock, ctx);
	MUST(ww_shared_mutex_is_read_by(&s->it->lock, ctx) != ww_shared_mutex_is_written_by(&s->it->lock, ctx));
	enters(s->it, false);
	MUST(s->it->a == s->it->b && ww_shared_mutex_destroy(&s->it->lock) == -EBUSY);
	leaves(s->it, false);
}

static void transact(unsigned me, unsigned *x)
{
	struct ww_acquire_ctx ctx;
	struct step steps[MOST];
	unsigned count = draw(steps, x);
	enum way way = (enum way)(next(x) % 3);

	ww_acquire_init(&ctx, &c);
	if (way == LOOP)
		in_loop(steps, count, &ctx);
	else
		by_hand(steps, count, &ctx, me, way);
	use(steps, count, me, x);
	for (unsigned k = 0; k < count; k++)
		if (steps[k].what == DOWNGRADES)
			downgrade(&steps[k], &ctx);
	for (unsigned k = count; k-- && way != LOOP;)
		unlock(&steps[k], &ctx);
	MUST(way == LOOP || !ctx.acquired);
	ww_acquire_unlock_all(&ctx);
	ww_acquire_fini(&ctx);
}

/* Two contexts of a thread, each by its own seat, and tries. */
static void two_at_once(unsigned *x)
{
	struct ww_acquire_ctx ctx[2];
	struct cell *it = &cells[next(x) % many];

	ww_acquire_init(&ctx[0], &c);
	ww_acquire_init(&ctx[1], &c);
	if (ww_shared_mutex_trylock_shared(&it->lock, &ctx[0])) {
		if (ww_shared_mutex_trylock_shared(&it->lock, &ctx[1])) {
			MUST(it->a == it->b && !ww_shared_mutex_trylock(&it->lock, &ctx[0]));
			MUST(!ww_shared_mutex_unlock_shared(&it->lock, &ctx[1]));
		}
		MUST(!ww_shared_mutex_unlock_shared(&it->lock, &ctx[0]));
	}
	MUST(!ctx[0].acquired && !ctx[1].acquired);
	ww_acquire_fini(&ctx[1]);
	ww_acquire_fini(&ctx[0]);
}

static void *work(void *arg)
{
	unsigned me = (unsigned)(size_t)arg, x = 17 * me + 1;

	for (unsigned round = 0; round < rounds; round++) {
		transact(me, &x);
		if (!(round % 16))
			two_at_once(&x);
	}
	return NULL;
}

static void storm(int is_wait_die)
{
	long all = 0, found = 0;

	ww_class_init(&c, is_wait_die, "shared");
	memset(cells, 0, sizeof cells);
	memset(writes, 0, sizeof writes);
	for (unsigned k = 0; k < many; k++)
		ww_shared_mutex_init(&cells[k].lock, &c);
	in_threads(threads, work);
	for (unsigned k = 0; k < many; k++) {
		MUST(cells[k].a == cells[k].b && !cells[k].inside);
		found += cells[k].a;
		MUST(!ww_shared_mutex_destroy(&cells[k].lock));
	}
	for (unsigned k = 0; k < threads; k++)
		all += writes[k];
	MUST(found == all);
	MUST(!ww_class_free(&c));
}

int main(int argc, char **argv)
{
	if (argc > 1)
		rounds = (unsigned)atoi(argv[1]);
	if (argc > 2)
		threads = (unsigned)atoi(argv[2]);
	if (argc > 3)
		many = (unsigned)atoi(argv[3]);
	MUST(threads <= MANY && many <= CELLS);
	for (unsigned k = 0; k < MANY; k++)
		MUST(!sem_init(&called[k], 0, 0));
	storm(0);
	storm(1);
	printf("shared_storm: %u threads, twice %u transactions each: no half was seen, and no write lost\n", threads, rounds);
	return 0;
}
