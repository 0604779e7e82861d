/*
 * Numbers of mutexes, and classes that come and go, by several threads and in forked children.
 *
 * No two mutexes have one number, and none is lost; a class that many threads first use at the same time is opened
 * once; and a fork at any moment leaves a child that works.
 */
#include "../mutex_test.h"
#include "../../lock/lock.h"
#include "ww_number.h"
#include <sys/wait.h>

/* So many numbers are enough for all threads, and with so few each takes what others put back. */
enum { THREADS = 4, ENOUGH = 8, FEW = 5, MANY = 65536 };

static DEFINE_WW_CLASS(few);
static struct ww_class opened;
static struct ww_pool *seen[THREADS];
static pthread_barrier_t begins, ends;
static bool own[MANY], over;
static unsigned rounds = 25000, openings = 200, numbers;

static struct ww_numbers bare;

/* Numbers of this test's own, of so many lines, all free. */
static void bare_of(uint32_t mutexes, uint32_t lines)
{
	static uint64_t bits[MANY / 32];
	uint64_t *at = bits;

	memset(&bare, 0, sizeof bare);
	memset(bits, 0, sizeof bits);
	bare = (struct ww_numbers){ .lock = PTHREAD_MUTEX_INITIALIZER, .mutexes = mutexes, .lines = lines, .locks = 4 * lines };
	for (unsigned level = 0; level < LEVELS; level++) {
		bare.used[level] = at;
		at += (bare.locks >> 6 * (level + 1)) + 1;
	}
}

/* Few, so that what one thread looks for others take away and put back meanwhile; or enough for all. */
static void *takes_and_gives(void *arg)
{
	unsigned x = 5 + (unsigned)(size_t)arg;

	for (unsigned k = 0; k < 5 * rounds; k++) {
		unsigned count = 1 + next(&x) % 2, taken = 0;
		uint32_t n[2];

		while (taken < count && !ww_take_number(&bare, NULL, &n[taken]))
			MUST(!__atomic_exchange_n(&own[n[taken++]], true, __ATOMIC_SEQ_CST));
		MUST(taken == count || bare.mutexes == FEW);
		for (unsigned j = 0; j < taken; j++) {
			MUST(__atomic_exchange_n(&own[n[j]], false, __ATOMIC_SEQ_CST));
			ww_give_number(&bare, n[j]);
		}
	}
	return NULL;
}

static void bare_by_threads(uint32_t of)
{
	uint32_t n, count = 0;

	bare_of(of, 4 * ENOUGH);
	in_threads(THREADS, takes_and_gives);
	while (!ww_take_number(&bare, NULL, &n)) {
		MUST(!own[n]);
		own[n] = true;
		count++;
	}
	MUST(count == of && bare.taken == of);
	memset(own, 0, sizeof own);
}

static void *takes_a_share(void *arg)
{
	uint32_t n;

	(void)arg;
	for (uint32_t k = 0; k < MANY / THREADS; k++)
		MUST(!ww_take_number(&bare, NULL, &n) && !__atomic_exchange_n(&own[n], true, __ATOMIC_RELAXED));
	return NULL;
}

/* Numbers that nobody had. */
static void fresh_by_threads(void)
{
	uint32_t n;

	for (unsigned k = 0; 1250 * k < rounds; k++) {
		memset(own, 0, sizeof own);
		bare_of(MANY, MANY / 4);
		in_threads(THREADS, takes_a_share);
		MUST(ww_take_number(&bare, NULL, &n) == -ENOSPC);
	}
	memset(own, 0, sizeof own);
}

/* ---- numbers that are left: while one thread looks whether somebody uses them, others do this ---- */

static uint32_t two[2], taken_meanwhile;
static unsigned looks;
static bool is_still_used;

/* Takes the number, which is free. */
static bool one_takes(struct ww_numbers *n, uint32_t number, const void *m)
{
	(void)m;
	MUST(looks++ || (!ww_take_number(n, NULL, &taken_meanwhile) && taken_meanwhile == number));
	return false;
}

/* And leaves it again, while it is used. */
static bool one_takes_and_leaves(struct ww_numbers *n, uint32_t number, const void *m)
{
	bool was_used = is_still_used;

	if (looks)
		return was_used;
	one_takes(n, number, m);
	is_still_used = true;
	ww_leave_used(n, number, one_takes_and_leaves);
	return was_used;
}

/* Leaves the other one, which nobody uses. */
static bool one_leaves_another(struct ww_numbers *n, uint32_t number, const void *m)
{
	(void)m;
	if (!looks++)
		ww_leave_used(n, two[1], one_leaves_another);
	return number == two[0];
}

/* Both were taken, and the first is left; then this thread gets the number, or there is none. */
static void left_then(ww_is_used *is_used, const uint32_t *gets)
{
	uint32_t n;

	memset(&bare, 0, sizeof bare);
	bare.lock = (pthread_mutex_t)PTHREAD_MUTEX_INITIALIZER;
	MUST(ww_open_numbers(&bare, 2, 0) && !ww_take_number(&bare, NULL, &two[0]) && !ww_take_number(&bare, NULL, &two[1]));
	MUST(ww_take_number(&bare, NULL, &n) == -ENOSPC);
	looks = 0;
	is_still_used = false;
	ww_leave_used(&bare, two[0], is_used);
	MUST(ww_take_number(&bare, NULL, &n) == (gets ? 0 : -ENOSPC) && (!gets || n == *gets) && bare.taken == 2);
	ww_close_numbers(&bare);
}

static void *takes_and_puts(void *arg)
{
	unsigned x = 7 + (unsigned)(size_t)arg;
	struct ww_mutex m[2];

	for (unsigned k = 0; k < rounds; k++) {
		unsigned count = 1 + next(&x) % 2;

		for (unsigned j = 0; j < count; j++) {
			if (ww_mutex_init_checked(&m[j], &few)) {
				MUST(numbers == FEW);
				count = j;
				break;
			}
			MUST(!__atomic_exchange_n(&own[m[j].number], true, __ATOMIC_SEQ_CST));
		}
		for (unsigned j = 0; j < count; j++) {
			MUST(__atomic_exchange_n(&own[m[j].number], false, __ATOMIC_SEQ_CST));
			MUST(!ww_mutex_destroy(&m[j]));
		}
	}
	return NULL;
}

static void by_threads(void)
{
	struct ww_mutex m[ENOUGH + 1];

	MUST(!ww_class_limit(&few, numbers, 1));
	in_threads(THREADS, takes_and_puts);
	for (unsigned k = 0; k < numbers; k++) {
		ww_mutex_init(&m[k], &few);
		MUST(!own[m[k].number]);
		own[m[k].number] = true;
	}
	MUST(ww_mutex_init_checked(&m[numbers], &few) == -ENOSPC && ww_class_free(&few) == -EBUSY);
	for (unsigned k = 0; k < numbers; k++) {
		own[m[k].number] = false;
		MUST(!ww_mutex_destroy(&m[k]));
	}
	MUST(!ww_class_free(&few));
}

static void as_many_as_may_be(void)
{
	static const uint32_t sizes[] = { 0, MANY };
	struct ww_mutex *m = calloc(MANY + (size_t)1, sizeof *m);

	MUST(m);
	for (unsigned k = 0; k < sizeof sizes / sizeof *sizes; k++) {
		uint32_t most = sizes[k] ? sizes[k] : MANY;

		MUST(!ww_class_limit(&few, sizes[k], 1));
		for (uint32_t n = 0; n < most; n++)
			ww_mutex_init(&m[n], &few);
		MUST(ww_mutex_init_checked(&m[most], &few) == -ENOSPC);
		for (uint32_t n = 0; n < most; n += most - 1) {
			MUST(!ww_mutex_lock(&m[n], NULL));
			ww_mutex_unlock(&m[n]);
		}
		for (uint32_t n = 0; n < most; n++)
			MUST(!ww_mutex_destroy(&m[n]));
		MUST(!ww_class_free(&few));
	}
	MUST(ww_class_limit(&few, WW_MAX_LOCKS - WW_MAX_SEATS + 1, 1) == -EINVAL);
	free(m);
}

static uintptr_t line_at(const void *words) { return (uintptr_t)words / 64; }

/*
 * The words of four numbers share a line: of so many mutexes none does so with another, and each has a number of its own;
 * and for so many at most lock calls fetch another line than that of their words.
 */
static void have_lines(uint32_t count, uint32_t alone, uint32_t wrong)
{
	struct ww_mutex *m = calloc(count + (size_t)1, sizeof *m);
	struct ww_acquire_ctx x;
	unsigned char *in, *lines;
	uint32_t locks, elsewhere = 0;

	MUST(m && !ww_class_limit(&few, count, 1));
	ww_acquire_init(&x, &few);
	locks = few.pool->numbers.locks;
	in = calloc(locks, 1);
	lines = calloc(locks / 4, 1);
	MUST(in && lines);
	for (uint32_t n = 0; n < count; n++) {
		uint32_t number;

		ww_mutex_init(&m[n], &few);
		number = m[n].number;
		MUST(number < locks && !in[number]);
		in[number] = 1;
		MUST(!lines[number / 4] || n >= alone);
		lines[number / 4] = 1;
		elsewhere += line_at(words_of(x.own) + 2 * (size_t)number) != (x.words + ww_likely_(&m[n], x.span)) / 64;
	}
	MUST(elsewhere <= wrong);
	MUST(ww_mutex_init_checked(&m[count], &few) == -ENOSPC);
	for (uint32_t n = 0; n < count; n++)
		MUST(!ww_mutex_destroy(&m[n]));
	ww_acquire_fini(&x);
	MUST(!ww_class_free(&few));
	free(m);
	free(in);
	free(lines);
}

/* The number that is taken after so many: the first ones each have a line, which others share then; and there are no gaps. */
static uint32_t lowest_after(uint32_t taken)
{
	const uint32_t apart = 1024;

	if (taken < apart)
		return 4 * taken;
	return taken < 4 * apart ? (taken - apart) / 3 * 4 + 1 + (taken - apart) % 3 : taken;
}

/* Those of ww_number.h are the lowest ones that are free, whatever numbers mutexes have by their addresses. */
static void are_low(uint32_t count)
{
	uint32_t *n = calloc(count, sizeof *n);
	struct ww_mutex m;

	MUST(n && !ww_class_limit(&few, count, 1));
	for (unsigned times = 0; times < 3; times++) {
		for (uint32_t k = 0; k < count; k++)
			MUST(!ww_number_take(&n[k], &few) && n[k] == lowest_after(k));
		for (uint32_t k = 0; k < count; k++)
			MUST(!ww_number_put(n[(k + times * count / 3) % count], &few));
	}
	ww_mutex_init(&m, &few);
	for (uint32_t k = 1; k < count; k++)
		MUST(!ww_number_take(&n[k], &few) && n[k] < 4 * count);
	for (uint32_t k = 1; k < count; k++)
		MUST(!ww_number_put(n[k], &few));
	MUST(!ww_mutex_destroy(&m) && !ww_class_free(&few));
	free(n);
}

/*
 * Nearly all numbers are taken, in a class of this size: one that was put back is found from any place, as the next free one from there
 * on, or else the first.
 */
static void are_found(uint32_t mutexes)
{
	struct ww_mutex *m = calloc(1024, sizeof *m);
	uint32_t n, locks, put[3];
	unsigned x = 3;

	memset(&bare, 0, sizeof bare);
	bare.lock = (pthread_mutex_t)PTHREAD_MUTEX_INITIALIZER;
	MUST(m && ww_open_numbers(&bare, mutexes, 0));
	locks = bare.mutexes = bare.locks; /* more than the class would give */
	while (!ww_take_number(&bare, NULL, &n))
		MUST(n < locks);
	for (unsigned k = 0; k < 20000; k++) {
		const struct ww_mutex *at = &m[next(&x) % 1024];
		uint32_t line = (uint32_t)ww_likely_(at, bare.span) / 64, best = locks;

		for (unsigned j = 0; j < 3; j++) {
			do
				put[j] = (uint32_t)((next(&x) * UINT64_C(2654435761) + next(&x)) % locks);
			while ((j > 0 && put[j] == put[0]) || (j > 1 && put[j] == put[1]));
			ww_give_number(&bare, put[j]);
		}
		for (unsigned left = 3; left; left--) {
			uint32_t from = k % 2 ? 4 * line : 0, which = 0;

			for (unsigned j = 0; j < left; j++) {
				uint32_t far = (put[j] + locks - from) % locks;

				if (!j || far < best)
					best = far, which = j;
			}
			MUST(!ww_take_number(&bare, k % 2 ? at : NULL, &n) && n == put[which]);
			put[which] = put[left - 1];
		}
	}
	MUST(bare.taken == locks);
	ww_close_numbers(&bare);
	free(m);
}

/* By the word that a list of many fetches ahead. */
static bool looks_free(const struct ww_mutex *m) { return !words_of(m->pool->seats)[2 * (size_t)m->number]; }

static struct ww_mutex owned;

static void *waits_for_it(void *arg)
{
	ww_mutex_lock(&owned, NULL);
	ww_mutex_unlock(&owned);
	return arg;
}

/* Who owns a lock, and by which timestamp, is read off its word as the library says it; a debugger finds the timestamp in the seat, too. */
static void word_says(ww_seat *s)
{
	uint64_t word = look_at(owned.pool, &owned), stamp;

	MUST(owner_of_word(word) == place_among(s) && owner_of_word(word) == owner_in(ww_look_(&s->handle, owned.number)));
	memcpy(&stamp, (const char *)s->handle.at + STAMP_AT, sizeof stamp);
	MUST(stamp == word >> (0xD4 >> word % 8 & 1 ? 15 : 8) && !stamp == !!seat_of(&owned));
}

/*
 * By each seat of a class of few and of many, with a context and without one, and with somebody who waits for it. Only contexts draw
 * timestamps, of which a word before the locks' words has the count.
 */
static void words_say_owners(uint32_t contexts)
{
	static struct ww_acquire_ctx all[4094];

	MUST(!ww_class_limit(&few, 64, contexts));
	ww_mutex_init(&owned, &few);
	for (uint32_t k = 0; k + 1 < contexts; k++)
		ww_acquire_init(&all[k], &few);
	for (uint32_t k = 0; k + 1 < contexts; k++) {
		ww_seat *s = all[k].own;
		pthread_t thread;

		MUST(!look_at(owned.pool, &owned) && !owner_of_word(0) && !ww_mutex_lock(&owned, &all[k]));
		word_says(s);
		if (k < 3 || (k > 13 && k < 19)) {
			thread = begin_thread(waits_for_it, NULL);
			awaits_waiter(&owned);
			word_says(s);
			ww_mutex_unlock(&owned);
			end_thread(thread);
		} else {
			ww_mutex_unlock(&owned);
		}
		ww_mutex_lock(&owned, NULL);
		word_says(seat_of(&owned));
		ww_mutex_unlock(&owned);
	}
	MUST(words_of(few.pool->seats)[-DRAWN_BEFORE] == contexts - 1);
	for (uint32_t k = 0; k + 1 < contexts; k++)
		ww_acquire_fini(&all[k]);
	MUST(!ww_mutex_destroy(&owned) && !ww_class_free(&few));
}

/* A few of a million: the first and the last ones, and where a second one begins to share a line. */
static void a_million(void)
{
	enum { MILLION = 1 << 20 };
	static const uint32_t some[] = { 0, 1, MILLION / 4 - 1, MILLION / 4, MILLION / 4 + 1, MILLION / 2, MILLION - 2, MILLION - 1 };
	enum { SOME = sizeof some / sizeof *some };
	struct ww_mutex *m = calloc(MILLION, sizeof *m);
	struct ww_mutex *list[SOME];
	struct ww_acquire_ctx one, other;

	MUST(m && !ww_class_limit(&few, MILLION, 2));
	for (uint32_t n = 0; n < MILLION; n++)
		ww_mutex_init(&m[n], &few);
	for (uint32_t k = 0; k < SOME; k++)
		list[k] = &m[some[k]];
	for (uint32_t out = 0; out < SOME; out++) {
		ww_acquire_init(&one, &few);
		ww_acquire_init(&other, &few);
		for (uint32_t k = 0; k < SOME; k++)
			if (k != out)
				MUST(!ww_mutex_lock(&m[some[k]], &one));
		for (uint32_t k = 0; k < SOME; k++)
			MUST(looks_free(list[k]) == (k == out) && ww_mutex_trylock(list[k], &other) == (k == out));
		for (uint32_t k = 0; k < SOME; k++)
			ww_mutex_unlock(list[k]);
		MUST(!ww_mutex_lock_all(&one, list, out) && one.acquired == out);
		for (uint32_t k = 0; k < out; k++)
			ww_mutex_unlock(list[k]);
		ww_acquire_fini(&one);
		ww_acquire_fini(&other);
	}
	for (uint32_t n = 0; n < MILLION; n++)
		MUST(!ww_mutex_destroy(&m[n]));
	MUST(!ww_class_free(&few));
	free(m);
}

static void *uses_first(void *arg)
{
	size_t me = (size_t)arg;

	for (unsigned k = 0; k < openings; k++) {
		struct ww_acquire_ctx x;

		pthread_barrier_wait(&begins);
		ww_acquire_init(&x, &opened);
		seen[me] = x.pool;
		ww_acquire_fini(&x);
		pthread_barrier_wait(&ends);
	}
	return NULL;
}

static void opened_by_all(void)
{
	pthread_t threads[THREADS];

	for (size_t k = 0; k < THREADS; k++)
		threads[k] = begin_thread(uses_first, (void *)k);
	for (unsigned k = 0; k < openings; k++) {
		MUST(!ww_class_limit(&opened, 64, 16));
		pthread_barrier_wait(&begins);
		pthread_barrier_wait(&ends);
		for (unsigned j = 0; j < THREADS; j++)
			MUST(seen[j] == opened.pool);
		MUST(!ww_class_free(&opened));
	}
	for (unsigned k = 0; k < THREADS; k++)
		end_thread(threads[k]);
}

static void *opens_and_frees(void *arg)
{
	struct ww_class it;

	(void)arg;
	while (!__atomic_load_n(&over, __ATOMIC_RELAXED)) {
		ww_class_init(&it, 0, "it");
		MUST(!ww_class_limit(&it, 4, 2) && !ww_class_open(&it) && !ww_class_free(&it));
	}
	return NULL;
}

/* The child of a fork does this, and ends well. */
static void in_a_child(void (*what)(void))
{
	pid_t child = fork();
	int status = 0;

	MUST(child >= 0);
	if (!child) {
		what();
		_exit(0);
	}
	MUST(waitpid(child, &status, 0) == child);
	if (status)
		fprintf(stderr, "a child ended by signal %d with status %d\n", WTERMSIG(status), WEXITSTATUS(status));
	MUST(!status);
}

/* The child of a fork that comes while other threads open classes opens one, too. */
static void opens_its_own(void)
{
	struct ww_class it;

	ww_class_init(&it, 1, "it");
	MUST(!ww_class_open(&it) && !ww_class_free(&it));
}

/*
 * The address sanitizer holds none of its own locks over a fork before gcc 14 and clang 18, and a child that allocates may wait for
 * one for ever: so under it no other thread runs.
 */
#ifdef __SANITIZE_ADDRESS__
static const bool is_fork_alone = true;
#else
static const bool is_fork_alone = false;
#endif

static void forks_beside_opening(void)
{
	pthread_t threads[2];

	for (unsigned k = 0; k < 2 && !is_fork_alone; k++)
		threads[k] = begin_thread(opens_and_frees, NULL);
	for (unsigned k = 0; k < 100; k++)
		in_a_child(opens_its_own);
	__atomic_store_n(&over, true, __ATOMIC_RELAXED);
	for (unsigned k = 0; k < 2 && !is_fork_alone; k++)
		end_thread(threads[k]);
}

static void gets_no_number(void)
{
	struct ww_mutex m;

	MUST(ww_mutex_init_checked(&m, &few) == -EINVAL);
}
static void gets_a_number(void)
{
	struct ww_mutex m;

	MUST(!ww_mutex_init_checked(&m, &few) && !ww_mutex_destroy(&m) && ww_class_free(&few) == -EBUSY);
}

/* A number that was put back before the fork is given in the child, unless a mutex was held then. */
static void forks_with_a_free_number(void)
{
	struct ww_mutex m[2];

	for (unsigned k = 0; k < 2; k++)
		ww_mutex_init(&m[k], &few);
	MUST(!ww_mutex_destroy(&m[0]) && !ww_mutex_lock(&m[1], NULL));
	in_a_child(gets_no_number);
	ww_mutex_unlock(&m[1]);
	in_a_child(gets_a_number);
	MUST(!ww_mutex_destroy(&m[1]) && !ww_class_free(&few));
}

int main(int count, char **words)
{
	if (count > 1)
		rounds = (unsigned)atoi(words[1]);
	pthread_barrier_init(&begins, NULL, THREADS + 1);
	pthread_barrier_init(&ends, NULL, THREADS + 1);
	left_then(one_takes, NULL);
	left_then(one_takes_and_leaves, NULL);
	left_then(one_leaves_another, &two[1]);
	fresh_by_threads();
	bare_by_threads(FEW);
	bare_by_threads(ENOUGH);
	for (numbers = ENOUGH; numbers; numbers = numbers == ENOUGH ? FEW : 0)
		by_threads();
	words_say_owners(2);
	words_say_owners(17);
	words_say_owners(4094);
	if (!SANITIZES_THREADS) { /* that sees nothing where one thread does all */
		as_many_as_may_be();
		have_lines(1, 1, 0);
		have_lines(64, 64, 16);
		have_lines(1024, 1024, 16);
		have_lines(1027, 1024, 16);
		have_lines(16384, 1024, 1600);
		are_low(1);
		are_low(1027);
		are_low(5000);
		are_found(1024);
		are_found(65536);
		are_found(300000);
		a_million();
	}
	opened_by_all();
	forks_beside_opening();
	forks_with_a_free_number();
	puts("numbers: each is one mutex's, and none is lost");
	return 0;
}
