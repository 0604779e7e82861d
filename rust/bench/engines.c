/* engines.c - the transactions of main.rs in C: by ww_mutex.h, written out as the kernel's documents do, and by ww_number.h. */
#include "ww_number.h"
#include <stdlib.h>

enum { MOST = 8 };

struct object {
	struct ww_mutex lock;
	unsigned long value;
} __attribute__((aligned(64)));

struct plain {
	uint32_t lock;
	unsigned long value;
} __attribute__((aligned(64)));

static DEFINE_WW_CLASS(class_);
static DEFINE_WW_CLASS(numbers);
static struct object *objects;
static struct plain *plains;

/* So many objects of both interfaces. */
void engines_open(unsigned count)
{
	objects = aligned_alloc(64, count * sizeof *objects);
	plains = aligned_alloc(64, count * sizeof *plains);
	if (!objects || !plains)
		abort();
	for (unsigned k = 0; k < count; k++) {
		ww_mutex_init(&objects[k].lock, &class_);
		if (ww_number_take(&plains[k].lock, &numbers))
			abort();
		objects[k].value = plains[k].value = 0;
	}
}

/* So many different ones of `count`: for all engines, so that it costs each the same. */
__attribute__((noinline)) void engines_draw(unsigned long *x, unsigned takes, unsigned count, unsigned *list)
{
	for (unsigned k = 0; k < takes;) {
		unsigned drawn, j = 0;

		*x = *x * 6364136223846793005u + 1442695040888963407u;
		drawn = (unsigned)((*x >> 33) % count);
		while (j < k && list[j] != drawn)
			j++;
		if (j == k)
			list[k++] = drawn;
	}
}

static void by_mutexes(const unsigned *list, unsigned takes)
{
	struct ww_acquire_ctx x;
	unsigned slow = takes, k;

	ww_acquire_init(&x, &class_);
	for (;;) {
		int r = 0;

		for (k = 0; k < takes && !r; k++)
			if (k != slow)
				r = ww_mutex_lock(&objects[list[k]].lock, &x);
		if (!r)
			break;
		k--;
		for (unsigned j = 0; j < k; j++)
			if (j != slow)
				ww_mutex_unlock(&objects[list[j]].lock);
		if (slow < takes)
			ww_mutex_unlock(&objects[list[slow]].lock);
		slow = k;
		ww_mutex_lock_slow(&objects[list[slow]].lock, &x);
	}
	for (k = 0; k < takes; k++)
		objects[list[k]].value++;
	for (k = 0; k < takes; k++)
		ww_mutex_unlock(&objects[list[k]].lock);
	ww_acquire_fini(&x);
}

static void by_numbers(const unsigned *list, unsigned takes)
{
	struct ww_acquire_ctx x;
	unsigned slow = takes, k;

	ww_acquire_init(&x, &numbers);
	for (;;) {
		int r = 0;

		for (k = 0; k < takes && !r; k++)
			if (k != slow)
				r = ww_number_lock(plains[list[k]].lock, &x);
		if (!r)
			break;
		k--;
		for (unsigned j = 0; j < k; j++)
			if (j != slow)
				ww_number_unlock(plains[list[j]].lock, &x);
		if (slow < takes)
			ww_number_unlock(plains[list[slow]].lock, &x);
		slow = k;
		if (ww_number_lock(plains[list[slow]].lock, &x))
			abort();
	}
	for (k = 0; k < takes; k++)
		plains[list[k]].value++;
	for (k = 0; k < takes; k++)
		ww_number_unlock(plains[list[k]].lock, &x);
	ww_acquire_fini(&x);
}

/* So many transactions. */
void engines_go(int by_number, unsigned takes, unsigned count, unsigned long seed, unsigned long times)
{
	unsigned long x = seed;
	unsigned list[MOST];

	for (unsigned long k = 0; k < times; k++) {
		engines_draw(&x, takes, count, list);
		if (by_number)
			by_numbers(list, takes);
		else
			by_mutexes(list, takes);
	}
}
