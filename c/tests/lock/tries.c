/*
 * A retry loop that is another's: a context's tries end by ww_acquire_end_try.
 *
 * A framework takes elements from a list, and calls back: one function locks a cell, another one ends the try, and the loop is the
 * framework's.  After a try that was refused the same context comes again, and waits first.  And ww_mutex_lock_by, whose loop is
 * the library's, and what it calls another's.
 */
#include "../mutex_test.h"
#include "ww_number.h"
#include "ww_shared.h"

enum { CELLS = 12, THREADS = 4, IN_A_TRY = 4 };
static DEFINE_WD_CLASS(cells); /* in which the younger context backs off at once */
static struct ww_mutex cell[CELLS];
static uint32_t number[CELLS];
static unsigned long count[CELLS], tries, elements = 4000;

static bool by_number;

static int lock_first(struct ww_acquire_ctx *x) { return by_number ? ww_number_lock(number[0], x) : ww_mutex_lock(&cell[0], x); }
static bool is_first_locked(void)
{
	return ww_mutex_is_locked(by_number ? &ww_number_at(number[0], &cells)->mutex_ : &cell[0]);
}

/* Of the older context, which has no loop. */
static void unlock_first(struct ww_acquire_ctx *x)
{
	if (by_number)
		MUST(!ww_number_unlock(number[0], x));
	else
		ww_mutex_unlock(&cell[0]);
}

/* Where nobody else is there: what each end of a try returns and leaves. */
static void one_by_one(void)
{
	struct ww_acquire_ctx x, y;

	ww_acquire_init(&x, &cells);
	ww_acquire_init(&y, &cells);
	ww_acquire_begin_tries(&y);
	MUST(!lock_first(&x) && !ww_mutex_lock(&cell[1], &y) && lock_first(&y) == -EDEADLK && ww_is_contended(&y));
	MUST(ww_acquire_end_try(&y) && !y.acquired && !ww_is_contended(&y) && !ww_mutex_is_locked(&cell[1]));
	MUST(ww_acquire_end_try(&y)); /* once more changes nothing */
	unlock_first(&x);
	MUST(!ww_mutex_lock(&cell[1], &y) && y.acquired == 2 && ww_mutex_is_held_by(&cell[1], &y) && is_first_locked());
	MUST(!ww_acquire_end_try(&y) && !y.acquired && !is_first_locked());
	/* A function that has released all by itself is to be called again, too. */
	MUST(!lock_first(&x) && !ww_mutex_lock(&cell[1], &y) && lock_first(&y) == -EDEADLK);
	ww_mutex_unlock(&cell[1]);
	MUST(!y.acquired && ww_acquire_end_try(&y));
	unlock_first(&x);
	MUST(!ww_mutex_lock(&cell[1], &y) && y.acquired == 2 && !ww_acquire_end_try(&y));
	MUST(!lock_first(&x) && !ww_mutex_lock(&cell[1], &y));
	MUST(!(by_number ? ww_number_trylock(number[0], &y) : ww_mutex_trylock(&cell[0], &y)));
	MUST(!ww_acquire_end_try(&y) && !y.acquired);
	unlock_first(&x);
	ww_acquire_fini(&y);
	ww_acquire_fini(&x);
}

/* Locks the cells up to this one, and then returns what it is told. */
struct asks {
	int answer;
	unsigned calls;
	struct ww_acquire_ctx *older;
};

static int ask(struct ww_acquire_ctx *y, void *data)
{
	struct asks *it = data;
	int r = ww_mutex_lock(&cell[1], y);

	MUST(!r);
	it->calls++;
	if (lock_first(y) == -EDEADLK) {
		unlock_first(it->older);
		return -EDEADLK;
	}
	return it->answer;
}

static void by_a_function(void)
{
	for (int answer = -1; answer < 2; answer++) {
		struct ww_acquire_ctx x, y;
		struct asks it = { .answer = answer, .older = &x };

		ww_acquire_init(&x, &cells);
		ww_acquire_init(&y, &cells);
		MUST(!lock_first(&x) && ww_mutex_lock_by(&y, ask, &it) == answer && it.calls == 2);
		MUST(y.acquired == (answer ? 0 : 2) && ww_mutex_is_locked(&cell[1]) == !answer && is_first_locked() == !answer);
		ww_acquire_unlock_all(&y);
		ww_acquire_fini(&y);
		ww_acquire_fini(&x);
	}
}

/* ---- a framework ---- */

struct worker {
	struct ww_acquire_ctx x;
	bool has_begun;
};

static bool lock_cell(struct worker *me, unsigned k)
{
	if (!me->has_begun) {
		ww_acquire_init(&me->x, &cells);
		ww_acquire_begin_tries(&me->x);
		me->has_begun = true;
	}
	return !(by_number ? ww_number_lock(number[k], &me->x) : ww_mutex_lock(&cell[k], &me->x));
}

static void unlock_cells(struct worker *me)
{
	if (!ww_acquire_end_try(&me->x)) {
		ww_acquire_fini(&me->x);
		me->has_begun = false;
	}
}

static bool change(struct worker *me, const unsigned *list)
{
	__atomic_fetch_add(&tries, 1, __ATOMIC_RELAXED);
	for (unsigned k = 0; k < IN_A_TRY; k++)
		if (!lock_cell(me, list[k]))
			return false;
	for (unsigned k = 0; k < IN_A_TRY; k++)
		count[list[k]]++;
	return true;
}

static void *works(void *arg)
{
	unsigned drawn = 3 + (unsigned)(size_t)arg;
	struct worker me = { 0 };

	for (unsigned long k = 0; k < elements; k++) {
		unsigned from = next(&drawn), step = next(&drawn) % 2 ? 1 : 5, list[IN_A_TRY];
		bool is_done;

		for (unsigned j = 0; j < IN_A_TRY; j++)
			list[j] = (from + j * step) % CELLS;
		do {
			is_done = change(&me, list);
			unlock_cells(&me);
		} while (!is_done);
	}
	return NULL;
}

int main(int words, char **word)
{
	pthread_t threads[THREADS];
	unsigned long sum = 0;

	if (words > 1)
		elements = strtoul(word[1], NULL, 10);
	for (unsigned k = 0; k < CELLS; k++) {
		MUST(!ww_number_take(&number[k], &cells));
		ww_mutex_init(&cell[k], &cells);
	}
	for (size_t by = 0; by < 2; by++) {
		by_number = by;
		one_by_one();
		by_a_function();
		for (size_t k = 0; k < THREADS; k++)
			threads[k] = begin_thread(works, (void *)k);
		for (unsigned k = 0; k < THREADS; k++)
			end_thread(threads[k]);
	}
	for (unsigned k = 0; k < CELLS; k++) {
		sum += count[k];
		MUST(!ww_mutex_destroy(&cell[k]) && !ww_number_put(number[k], &cells));
	}
	MUST(sum == 2 * THREADS * IN_A_TRY * elements && !ww_class_free(&cells));
	MUST(tries < 4 * 2 * THREADS * elements);
	puts("tries: each ends by one call, and one that is made again waits first");
	return 0;
}
