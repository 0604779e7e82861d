/*
 * Storms of mutexes by their numbers: classes of 64, 4,096 and 65,536, exact sums, rings.
 *
 * Each call on the first, the second and the last mutex, and beyond the end.  Then storms, in which 16 threads take
 * random sets of 2, 8 and 1,000, in any order, by a loop or by back-offs of their own, and release them in the order of
 * taking, in the opposite one, or by one call.  And cycles of 2 to 16 threads, each of which takes its mutex, waits for
 * the others, and then wants that of the next one.
 */
#include "../mutex_test.h"
#include "ww_number.h"

enum { THREADS = 16, MOST = 1000, HOT = 32, ROUNDS = 100 };

static DEFINE_WW_CLASS(wound_wait);
static DEFINE_WD_CLASS(wait_die);
static struct ww_class *c;
/* The numbers of so many mutexes; each of the class is below the range. */
static uint32_t *numbers, size, range, takes;
/* budget: how often a thread takes a mutex in a storm */
static unsigned long budget = 20000, *counters, *added, backs;
static pthread_barrier_t barrier;

static void opens(struct ww_class *class_, uint32_t mutexes)
{
	c = class_;
	size = mutexes;
	range = 16 * size;
	MUST(!ww_class_limit(c, size, THREADS) && (numbers = calloc(size, sizeof *numbers)));
	for (uint32_t k = 0; k < size; k++)
		MUST(!ww_number_take(&numbers[k], c) && numbers[k] < 4 * size);
}

static void closes(void)
{
	for (uint32_t k = 0; k < size; k++)
		MUST(!ww_number_put(numbers[k], c));
	MUST(!ww_class_free(c));
	free(numbers);
}

/* Takes them in this order, except the contended one, and backs off until it has them all: how often it did. */
static unsigned long lock_each(struct ww_acquire_ctx *x, const uint32_t *list, uint32_t count)
{
	uint32_t slow = UINT32_MAX;

	for (unsigned long times = 0;; times++) {
		int r = slow != UINT32_MAX ? ww_number_lock(slow, x) : 0;
		uint32_t k;

		MUST(!r);
		for (k = 0; k < count && !r; k++)
			if (list[k] != slow)
				r = ww_number_lock(list[k], x);
		if (!r)
			return times;
		MUST(r == -EDEADLK && x->acquired);
		if (slow != UINT32_MAX)
			MUST(!ww_number_unlock(slow, x));
		for (uint32_t j = 0; j + 1 < k; j++)
			if (list[j] != slow)
				MUST(!ww_number_unlock(list[j], x));
		MUST(!x->acquired);
		slow = list[k - 1];
	}
}

static unsigned long loop_over(struct ww_acquire_ctx *x, const uint32_t *list, uint32_t count)
{
	unsigned long times = 0;

	ww_until_all_locked(x) {
		times++;
		for (uint32_t k = 0; k < count; k++) {
			int r = ww_number_lock(list[k], x);

			ww_retry_on_contention(x);
			MUST(!r);
		}
	}
	return times - 1;
}

/* ---- each call ---- */

/* No call knows one of this number. */
static void is_no_mutex(struct ww_acquire_ctx *x, uint32_t n)
{
	MUST(ww_number_lock(n, x) == -EINVAL && !ww_number_trylock(n, x) && ww_number_unlock(n, x) == -EINVAL && !ww_number_at(n, c));
	MUST(ww_number_put(n, c) == -EINVAL && !x->acquired);
}

static void is_taken_once(struct ww_acquire_ctx *x, struct ww_acquire_ctx *other, uint32_t n)
{
	for (unsigned k = 0; k < 2; k++) {
		MUST(ww_number_unlock(n, x) == -EINVAL && !(k ? !ww_number_trylock(n, x) : ww_number_lock(n, x)));
		MUST(x->acquired == 1 && ww_number_lock(n, x) == -EALREADY && !ww_number_trylock(n, x));
		MUST(!ww_number_trylock(n, other) && ww_number_unlock(n, other) == -EINVAL);
		ww_acquire_unlock_all(other); /* which holds nothing */
		MUST(!ww_number_trylock(n, other) && ww_acquire_fini_checked(x) == -EINVAL && !ww_number_unlock(n, x));
		MUST(!x->acquired && ww_number_unlock(n, x) == -EINVAL && ww_number_trylock(n, other) == 1);
		MUST(!ww_number_unlock(n, other) && !other->acquired);
	}
}

struct wait {
	struct ww_acquire_ctx x;
	uint32_t number;
};

static void *waits(void *arg)
{
	struct wait *w = arg;

	MUST(!ww_number_lock(w->number, &w->x));
	return NULL;
}

/* The older one waits for one of the younger one, which asks for one of its own, backs off, and gets it then. */
static void meet(uint32_t one, uint32_t other)
{
	struct wait older = { .number = other };
	struct ww_acquire_ctx x;
	pthread_t thread;

	ww_acquire_init(&older.x, c);
	ww_acquire_init(&x, c);
	MUST(!ww_number_lock(one, &older.x) && !ww_number_lock(other, &x));
	thread = begin_thread(waits, &older);
	while (__atomic_load_n(&older.x.own->token, __ATOMIC_SEQ_CST) < 2) /* it sleeps */
		usleep(50);
	MUST(ww_number_lock(one, &x) == -EDEADLK && ww_number_lock(one, &x) == -EINVAL && !ww_number_trylock(one, &x));
	MUST(!ww_number_unlock(other, &x));
	end_thread(thread);
	MUST(older.x.acquired == 2 && !ww_number_trylock(other, &x) && !ww_number_unlock(one, &older.x));
	MUST(!ww_number_lock(one, &x) && !ww_number_trylock(other, &x) && !ww_number_unlock(other, &older.x));
	ww_acquire_fini(&older.x);
	MUST(!ww_number_lock(other, &x) && x.acquired == 2 && !ww_number_unlock(one, &x) && !ww_number_unlock(other, &x));
	ww_acquire_fini(&x);
}

static void call(void)
{
	struct ww_acquire_ctx x, other;
	const uint32_t inside[] = { numbers[0], numbers[1], numbers[size / 2], numbers[size - 1] };
	const uint32_t beyond[] = { range, range + 1, 256 * size, WW_MAX_LOCKS, WW_MAX_LOCKS + 1, 1u << 31, UINT32_MAX };

	ww_acquire_init(&x, c);
	ww_acquire_init(&other, c);
	for (unsigned k = 0; k < sizeof beyond / sizeof *beyond; k++)
		is_no_mutex(&x, beyond[k]);
	for (unsigned k = 0; k < sizeof inside / sizeof *inside; k++)
		is_taken_once(&x, &other, inside[k]);
	ww_acquire_fini(&x);
	ww_acquire_fini(&other);
	for (unsigned k = 0; k < sizeof inside / sizeof *inside; k++)
		for (unsigned j = 0; j < sizeof inside / sizeof *inside; j++)
			if (j != k)
				meet(inside[k], inside[j]);
}

/* All of them by one context, as they are or in a loop; the last one alone is free then. */
static void take_all(bool by_loop)
{
	struct ww_acquire_ctx x, other;
	uint32_t last = numbers[size - 1];

	ww_acquire_init(&x, c);
	ww_acquire_init(&other, c);
	if (by_loop)
		ww_until_all_locked(&x)
			for (uint32_t k = 0; k + 1 < size; k++)
				MUST(!ww_number_lock(numbers[k], &x));
	else
		for (uint32_t k = 0; k + 1 < size; k++)
			MUST(!ww_number_lock(numbers[k], &x));
	MUST(x.acquired == size - 1 && ww_number_trylock(last, &other) == 1 && !ww_number_trylock(last, &x));
	MUST(!ww_number_unlock(last, &other) && !ww_number_lock(last, &x) && x.acquired == size);
	for (uint32_t k = 0; k < size; k++)
		MUST(!ww_number_trylock(numbers[k], &other) && ww_number_lock(numbers[k], &x) == -EALREADY);
	for (uint32_t k = 0; k < size && !by_loop; k++)
		MUST(!ww_number_unlock(numbers[k], &x));
	ww_acquire_unlock_all(&x);
	MUST(!x.acquired);
	ww_acquire_fini(&x);
	ww_acquire_fini(&other);
}

/* ---- storms ---- */

/* What one thread keeps of each: when it drew it last, and how often it added under it. */
struct own {
	unsigned long drawn, added;
};

/* Different ones. Of a few every other is hot: near one of the two ends; now and then the first is at the end. */
static void draw(unsigned *x, struct own *own, unsigned long time, uint32_t *list)
{
	for (uint32_t k = 0; k < takes;) {
		uint32_t at = next(x) % size, n;

		if (takes < HOT && next(x) % 2)
			at = at % 2 ? at % HOT / 2 : size - 1 - at % HOT / 2;
		if (k == 0 && time % 2 == 0)
			at = next(x) % 2 ? 0 : size - 1;
		n = numbers[at];
		if (own[n].drawn == time)
			continue;
		own[n].drawn = time;
		list[k++] = n;
	}
}

static void gives_back(struct ww_acquire_ctx *x, bool by_loop, unsigned way, const uint32_t *list)
{
	/* Outside a loop nothing lists them. */
	way = !way && !by_loop ? 1 : way;
	for (uint32_t k = 0; way && k < takes; k++)
		MUST(!ww_number_unlock(list[way == 1 ? k : takes - 1 - k], x));
	MUST(x->acquired == (way ? 0 : takes));
	ww_acquire_unlock_all(x);
	MUST(!x->acquired);
}

static void *work(void *arg)
{
	unsigned x = 97 * (unsigned)(size_t)arg + 1;
	struct own *own = calloc(range, sizeof *own);
	uint32_t list[MOST];
	unsigned long mine = 0;

	MUST(own);
	for (unsigned long i = 1; i <= budget / takes + 1; i++) {
		bool by_loop = next(&x) % 2;
		struct ww_acquire_ctx ctx;

		draw(&x, own, i, list);
		ww_acquire_init(&ctx, c);
		mine += (by_loop ? loop_over : lock_each)(&ctx, list, takes);
		ww_acquire_done(&ctx);
		if (i % 16 == 0) /* so that others meet it, also where there is one processor */
			sched_yield();
		for (uint32_t k = 0; k < takes; k++) {
			counters[list[k]]++;
			own[list[k]].added++;
		}
		gives_back(&ctx, by_loop, (unsigned)(i % 3), list);
		ww_acquire_fini(&ctx);
	}
	__atomic_fetch_add(&backs, mine, __ATOMIC_RELAXED);
	for (uint32_t k = 0; k < size; k++)
		__atomic_fetch_add(&added[numbers[k]], own[numbers[k]].added, __ATOMIC_RELAXED);
	free(own);
	return NULL;
}

static void storm(void)
{
	MUST((counters = calloc(range, sizeof *counters)) && (added = calloc(range, sizeof *added)));
	in_threads(THREADS, work);
	for (uint32_t n = 0; n < range; n++)
		MUST(counters[n] == added[n]);
	MUST(counters[numbers[0]] && counters[numbers[size - 1]]);
	free(counters);
	free(added);
}

/* ---- rings ---- */

static void *rounds(void *arg)
{
	uint32_t me = (uint32_t)(size_t)arg;
	uint32_t list[2] = { numbers[me], numbers[(me + 1) % size] }, turned[2] = { list[1], list[0] };

	for (unsigned i = 0; i < ROUNDS; i++) {
		struct ww_acquire_ctx x;
		int r;

		ww_acquire_init(&x, c);
		MUST(!ww_number_lock(list[0], &x));
		pthread_barrier_wait(&barrier);
		r = ww_number_lock(list[1], &x);
		if (r) {
			MUST(r == -EDEADLK && !ww_number_unlock(list[0], &x) && !x.acquired);
			lock_each(&x, turned, 2);
			__atomic_fetch_add(&backs, 1, __ATOMIC_RELAXED);
		}
		counters[list[0]]++;
		counters[list[1]]++;
		MUST(!ww_number_unlock(list[0], &x) && !ww_number_unlock(list[1], &x));
		ww_acquire_fini(&x);
		pthread_barrier_wait(&barrier);
	}
	return NULL;
}

/* Each ring is broken, as often as it is made. */
static void ring(void)
{
	unsigned long all[4 * THREADS] = { 0 };

	counters = all;
	backs = 0;
	pthread_barrier_init(&barrier, NULL, size);
	in_threads(size, rounds);
	for (unsigned k = 0; k < size; k++)
		MUST(all[numbers[k]] == 2ul * ROUNDS);
	MUST(backs >= ROUNDS);
	pthread_barrier_destroy(&barrier);
}

int main(int count, char **words)
{
	struct ww_class *classes[] = { &wound_wait, &wait_die };
	const uint32_t sizes[] = { 64, 4096, 65536 }, sets[] = { 2, 8, MOST };

	if (count > 1)
		budget = strtoul(words[1], NULL, 10);
	for (unsigned kind = 0; kind < 2; kind++) {
		for (uint32_t k = 2; k <= THREADS; k++) {
			opens(classes[kind], k);
			ring();
			closes();
		}
		backs = 0;
		for (unsigned k = 0; k < 3; k++) {
			opens(classes[kind], sizes[k]);
			call();
			take_all(false);
			take_all(true);
			for (unsigned j = 0; j < 3 && sets[j] < size; j++) {
				takes = sets[j];
				storm();
			}
			closes();
		}
		MUST(backs);
	}
	puts("number_storm: 64, 4,096 and 65,536 mutexes: each call on the first and the last, each counter exact, each ring broken");
	return 0;
}
