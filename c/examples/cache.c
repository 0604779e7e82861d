/*
 * A cache that threads read beside each other: a lookup reads the rates and an entry, in any order with others, and if the entry is
 * of older rates it comes to write that, and computes it anew. Meanwhile another thread changes the rates.
 */
#include <ww_shared.h>
#include <pthread.h>
#include <stdio.h>
#include <stdlib.h>

enum { READERS = 3, ENTRIES = 16, LOOKUPS = 20000, CHANGES = 300 };

static DEFINE_WW_CLASS(cache);

static struct {
	struct ww_shared_mutex lock;
	long version; /* under the lock, as what follows it below */
} rates = { .lock = WW_SHARED_MUTEX_INIT(&cache) };

static struct entry {
	struct ww_shared_mutex lock;
	long version, price; /* of which rates it is */
	long computed;
} entries[ENTRIES];

static long price_of(long of, long version) { return 100 * of + version; }

/* Reads both; where the entry is old, it writes it: nobody else does between the two. 0, or an error. */
static int lock_both(struct entry *e, struct ww_acquire_ctx *ctx)
{
	int err = ww_shared_mutex_lock_shared(&rates.lock, ctx);

	if (!err)
		err = ww_shared_mutex_lock_shared(&e->lock, ctx);
	if (!err && e->version != rates.version)
		err = ww_shared_mutex_lock(&e->lock, ctx);
	return err;
}

static long look_up(long of)
{
	struct entry *e = &entries[of];
	struct ww_acquire_ctx ctx;
	long price = -1;
	int err = 0;

	ww_acquire_init(&ctx, &cache);
	ww_until_all_locked(&ctx) {
		err = lock_both(e, &ctx);
		ww_retry_on_contention(&ctx); /* after -EDEADLK it begins again, with nothing held or read */
	}
	if (!err && e->version != rates.version) {
		e->price = price_of(of, rates.version);
		e->version = rates.version;
		e->computed++;
		ww_shared_mutex_downgrade(&e->lock, &ctx); /* from here on others may read it, too */
	}
	if (!err && e->price == price_of(of, rates.version))
		price = e->price;
	ww_acquire_unlock_all(&ctx);
	ww_acquire_fini(&ctx);
	return price;
}

/* A context of one lock, by hand: while it waits for readers it holds the mutex, so it may get -EDEADLK too. */
static void change_rates(void)
{
	struct ww_acquire_ctx ctx;
	int err;

	ww_acquire_init(&ctx, &cache);
	while ((err = ww_shared_mutex_lock(&rates.lock, &ctx)) == -EDEADLK)
		if (ww_shared_mutex_await(&ctx, NULL))
			abort();
	if (err)
		abort();
	rates.version++;
	ww_shared_mutex_unlock(&rates.lock, &ctx);
	ww_acquire_fini(&ctx);
}

static void *looks_up(void *arg)
{
	unsigned x = (unsigned)(size_t)arg + 1;

	for (int k = 0; k < LOOKUPS; k++) {
		x = x * 1664525u + 1013904223u;
		if (look_up(x >> 16 & (ENTRIES - 1)) < 0)
			return &entries;
	}
	return NULL;
}

int main(void)
{
	pthread_t threads[READERS];
	long computed = 0;
	void *failed;

	for (int k = 0; k < ENTRIES; k++)
		ww_shared_mutex_init(&entries[k].lock, &cache);
	rates.version = 1;
	for (size_t k = 0; k < READERS; k++)
		if (pthread_create(&threads[k], NULL, looks_up, (void *)k))
			return 1;
	for (int k = 0; k < CHANGES; k++)
		change_rates();
	for (int k = 0; k < READERS; k++)
		if (pthread_join(threads[k], &failed) || failed)
			return 1;
	for (int k = 0; k < ENTRIES; k++) {
		computed += entries[k].computed;
		if (ww_shared_mutex_destroy(&entries[k].lock))
			return 1;
	}
	if (computed < ENTRIES || computed > ENTRIES * (CHANGES + 1) || ww_shared_mutex_destroy(&rates.lock) || ww_class_free(&cache))
		return 1;
	printf("cache: %d lookups, each of the rates that it read, beside %d changes\n", READERS * LOOKUPS, CHANGES);
	return 0;
}
