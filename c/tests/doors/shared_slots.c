/*
 * Slots of readers: which marks there are, and where, and slots of one bit.
 *
 * Two threads that look at slots of one bit don't meet.
 */
#include "../mutex_test.h"
#include "../../lock/context.h"
#include "ww_shared.h"

/* So many readers that two slots have one bit; and mutexes of a class in which marks don't fill their last word. */
enum { READERS = MANY_BITS + 2, MUTEXES = 70, IN_VAIN = 2000, TIMES = 20000 };

static DEFINE_WW_CLASS(c);
static const struct timespec past = { 0, 0 };

/* The mutex of a number, for calls by address. */
static struct ww_shared_mutex *shared_at(uint32_t n) { return ww_number_at(n, &c); }

/* How many words the slot has marks in; each once, and each of the class's. */
static uint32_t words_of_marks(const struct ww_slot *d)
{
	size_t words = (size_t)((const uint64_t *)(const void *)d->nonzero - d->marks);
	uint32_t marked = 0;

	MUST(words * MARKS_IN_A_WORD >= c.pool->numbers.locks && (words - 1) * MARKS_IN_A_WORD < c.pool->numbers.locks);
	for (size_t k = 0; k < words; k++)
		marked += d->marks[k] != 0;
	MUST(d->nonzero_count == marked);
	for (uint32_t k = 0; k < d->nonzero_count; k++)
		MUST(d->marks[d->nonzero[k]]);
	return marked;
}

/* Of each mutex, as often as it is read; and none where a try to read was in vain. */
static void marks_are_counted(void)
{
	struct ww_acquire_ctx x, y;
	uint32_t numbers[MUTEXES - 2], words;

	for (unsigned k = 0; k < MUTEXES - 2; k++)
		MUST(!ww_number_take(&numbers[k], &c));
	ww_acquire_init(&x, &c);
	ww_acquire_init(&y, &c);
	MUST(!ww_shared_mutex_lock_until(shared_at(numbers[0]), &y, NULL));
	for (unsigned k = 1; k < 4 * (MUTEXES - 3); k++)
		MUST(!ww_shared_mutex_lock_shared_until(shared_at(numbers[1 + k % (MUTEXES - 3)]), &x, NULL));
	words = words_of_marks(x.own->slot);
	for (unsigned k = 0; k < IN_VAIN; k++)
		MUST(ww_shared_mutex_lock_shared_until(shared_at(numbers[0]), &x, &past) == -ETIMEDOUT);
	MUST(words_of_marks(x.own->slot) == words && !ww_shared_mutex_is_read_by(shared_at(numbers[0]), &x));
	ww_acquire_end_reads(&x);
	for (unsigned k = 0; k < IN_VAIN; k++)
		MUST(ww_shared_mutex_lock_shared_until(shared_at(numbers[0]), &x, &past) == -ETIMEDOUT && !words_of_marks(x.own->slot));
	MUST(!ww_number_unlock(numbers[0], &y) && !ww_shared_mutex_lock_shared_until(shared_at(numbers[0]), &x, NULL) && words_of_marks(x.own->slot) == 1);
	ww_acquire_end_reads(&x);
	ww_acquire_fini(&y);
	ww_acquire_fini(&x);
	for (unsigned k = 0; k < MUTEXES - 2; k++)
		MUST(!ww_number_put(numbers[k], &c));
}

/* A context that got -EDEADLK is told so no more once it has come to its slot again: then it reads at once. */
static void is_told_until_its_slot(void)
{
	static DEFINE_WD_CLASS(dies);
	struct ww_acquire_ctx x, y;
	struct ww_shared_mutex m, n;

	ww_shared_mutex_init(&m, &dies);
	ww_shared_mutex_init(&n, &dies);
	ww_acquire_init(&x, &dies);
	ww_acquire_init(&y, &dies);
	MUST(!ww_shared_mutex_lock(&m, &x) && !ww_shared_mutex_lock_shared(&n, &y));
	MUST(ww_shared_mutex_lock(&m, &y) == -EDEADLK && y.state & IS_TOLD);
	ww_acquire_end_reads(&y);
	MUST(!ww_shared_mutex_unlock(&m, &x) && !ww_shared_mutex_await(&y, NULL));
	MUST(!ww_shared_mutex_lock_shared(&n, &y) && !(y.state & IS_TOLD));
	ww_acquire_end_reads(&y);
	ww_acquire_fini(&y);
	ww_acquire_fini(&x);
	MUST(!ww_shared_mutex_destroy(&m) && !ww_shared_mutex_destroy(&n) && !ww_class_free(&dies));
}

/* The first of those whose slots have one bit, and the last one. */
static void all_slots_of_a_bit_count(void)
{
	static struct ww_acquire_ctx readers[READERS];
	struct ww_acquire_ctx writes;
	struct ww_shared_mutex m;

	ww_shared_mutex_init(&m, &c);
	for (unsigned k = 0; k < READERS; k++) {
		ww_acquire_init(&readers[k], &c);
		MUST(!ww_shared_mutex_lock_shared(&m, &readers[k]));
	}
	MUST(readers[0].own->slot->bit == readers[MANY_BITS].own->slot->bit);
	ww_acquire_init(&writes, &c);
	for (unsigned k = 0; k < READERS; k++) {
		if (k != 0 && k != MANY_BITS)
			ww_acquire_end_reads(&readers[k]);
	}
	for (unsigned k = 0; k < 2; k++) {
		MUST(ww_shared_mutex_destroy(&m) == -EBUSY && ww_shared_mutex_lock_until(&m, &writes, &past) == -ETIMEDOUT);
		ww_acquire_end_reads(&readers[k ? 0 : MANY_BITS]);
	}
	MUST(!ww_shared_mutex_lock_until(&m, &writes, &past) && !ww_shared_mutex_unlock(&m, &writes) && !ww_shared_mutex_destroy(&m));
	ww_acquire_fini(&writes);
	for (unsigned k = 0; k < READERS; k++)
		ww_acquire_fini(&readers[k]);
}

static struct ww_shared_mutex read_by_one;

/* It looks who uses a mutex by the spare seat, which the class has once. */
static void *destroys(void *arg)
{
	struct ww_shared_mutex own;

	for (unsigned k = 0; k < TIMES; k++) {
		ww_shared_mutex_init(&own, &c);
		MUST(!ww_shared_mutex_destroy(&own) && ww_shared_mutex_destroy(&read_by_one) == -EBUSY);
	}
	return arg;
}

/* Nobody is turned away where one looks only, but a trylock. */
static void lookers_do_not_meet(void)
{
	struct ww_acquire_ctx x, y;
	pthread_t threads[2];

	ww_shared_mutex_init(&read_by_one, &c);
	ww_acquire_init(&x, &c);
	MUST(!ww_shared_mutex_lock_shared(&read_by_one, &x));
	for (unsigned k = 0; k < 2; k++)
		threads[k] = begin_thread(destroys, NULL);
	for (unsigned k = 0; k < TIMES; k++) {
		ww_acquire_init(&y, &c);
		MUST(!ww_shared_mutex_lock_shared(&read_by_one, &y) && !ww_shared_mutex_unlock_shared(&read_by_one, &y));
		ww_acquire_fini(&y);
	}
	for (unsigned k = 0; k < 2; k++)
		end_thread(threads[k]);
	ww_acquire_end_reads(&x);
	ww_acquire_fini(&x);
	MUST(!ww_shared_mutex_destroy(&read_by_one));
}

int main(void)
{
	MUST(!ww_class_limit(&c, MUTEXES, 0) && !ww_class_open(&c) && c.pool->numbers.locks % MARKS_IN_A_WORD);
	is_told_until_its_slot();
	marks_are_counted();
	MUST(!ww_class_free(&c) && !ww_class_limit(&c, 2 * READERS, READERS + 4));
	all_slots_of_a_bit_count();
	lookers_do_not_meet();
	MUST(!ww_class_free(&c));
	puts("shared_slots: each mark where it belongs, and each slot looked at");
	return 0;
}
