/* lists.c - the loads: which locks a transaction takes. */
#include "simulate.h"
#include <stdlib.h>
#include <string.h>

/* Each transaction takes so many of the locks; `tenths`: lock k is drawn as often as 1 / k^(tenths / 10). */
static const struct load {
	const char *name;
	unsigned takes, of, tenths;
	bool is_own;	/* each thread has so many of its own */
	unsigned long_; /* how many thread 0 takes, if that is more */
	bool is_tpcc;	/* see draw_tpcc */
} loads[] = {
	{ .name = "own", .takes = 2, .of = 64, .is_own = true },
	{ .name = "2of64", .takes = 2, .of = 64 },
	{ .name = "8of64", .takes = 8, .of = 64 },
	{ .name = "2of4096", .takes = 2, .of = 4096 },
	{ .name = "16zipf6", .takes = 16, .of = 60000, .tenths = 6 },
	{ .name = "16zipf8", .takes = 16, .of = 60000, .tenths = 8 },
	{ .name = "4zipf9", .takes = 4, .of = 60000, .tenths = 9 },
	{ .name = "scan", .takes = 2, .of = 4096, .long_ = 256 },
	{ .name = "tpcc", .of = 16384, .is_tpcc = true },
};

static const struct load *load;
static double *sums; /* of what is drawn how often, up to each lock */
static uint64_t drawn[MOST_THREADS];

/* xorshift */
uint64_t draw_number(unsigned thread)
{
	uint64_t *d = &drawn[thread];

	*d ^= *d << 13;
	*d ^= *d >> 7;
	*d ^= *d << 17;
	return *d;
}

static double power(double of, unsigned exponent)
{
	double p = 1;

	while (exponent--)
		p *= of;
	return p;
}

/* k^(tenths / 10) by Newton from a number above it, since libm's pow isn't the same on all processors in its last digit. */
static double root(unsigned k, unsigned tenths)
{
	double of = power(k, tenths), r = k, next = k;

	do {
		r = next;
		next = r - (r - of / power(r, 9)) / 10;
	} while (next < r);
	return r;
}

static void sum_up(void)
{
	double sum = 0;

	sums = calloc(load->of, sizeof *sums);
	for (unsigned k = 0; k < load->of; k++)
		sums[k] = sum += 1 / root(k + 1, load->tenths);
}

bool open_lists(const char *name, uint64_t seed)
{
	for (load = loads; strcmp(load->name, name); load++)
		if (load + 1 == loads + sizeof loads / sizeof *loads)
			return false;
	if (load->tenths)
		sum_up();
	for (unsigned k = 0; k < thread_count; k++) {
		drawn[k] = 0x9e3779b97f4a7c15u * (k + 7 + 1000 * seed);
		for (unsigned n = 0; n < 20; n++)
			draw_number(k);
	}
	return true;
}

unsigned all_locks(void) { return load->is_own ? load->of * thread_count : load->of; }

/* Where the ones that are drawn often lie is no order of their ranks. */
static unsigned draw_ranked(unsigned thread)
{
	double at = (double)(draw_number(thread) >> 11) * 0x1p-53 * sums[load->of - 1];
	unsigned from = 0, to = load->of - 1;

	while (from < to) {
		unsigned middle = (from + to) / 2;

		if (sums[middle] > at)
			to = middle;
		else
			from = middle + 1;
	}
	return (unsigned)(from * (uint64_t)2654435761u % load->of);
}

static unsigned draw_lock(unsigned thread)
{
	if (load->tenths)
		return draw_ranked(thread);
	return (unsigned)(draw_number(thread) % load->of) + (load->is_own ? thread * load->of : 0);
}

static bool has(const struct list *list, unsigned lock)
{
	for (unsigned k = 0; k < list->count; k++)
		if (list->at[k] == lock)
			return true;
	return false;
}

/* As in TPC-C with four houses: every other transaction a payment by a customer, the rest orders of ten items of a district. */
static void draw_tpcc(struct list *list, unsigned thread)
{
	enum { HOUSES = 4, DISTRICTS = 40, CUSTOMERS = 4096, ITEMS = 10 };
	unsigned district = (unsigned)(draw_number(thread) % DISTRICTS), first_item = HOUSES + DISTRICTS + CUSTOMERS;

	list->count = 0;
	if (draw_number(thread) % 2) {
		list->at[list->count++] = district % HOUSES;
		list->at[list->count++] = HOUSES + district;
		list->at[list->count++] = HOUSES + DISTRICTS + (unsigned)(draw_number(thread) % CUSTOMERS);
		return;
	}
	list->at[list->count++] = HOUSES + district;
	while (list->count <= ITEMS) {
		unsigned item = first_item + (unsigned)(draw_number(thread) % (load->of - first_item));

		if (!has(list, item))
			list->at[list->count++] = item;
	}
}

void draw_list(struct list *list, unsigned thread)
{
	unsigned takes = thread == 0 && load->long_ ? load->long_ : load->takes;

	if (load->is_tpcc) {
		draw_tpcc(list, thread);
		return;
	}
	list->count = 0;
	while (list->count < takes) {
		unsigned lock = draw_lock(thread);

		if (!has(list, lock))
			list->at[list->count++] = lock;
	}
}
