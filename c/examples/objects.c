/*
 * Objects with a mutex of their own, found on the way: each buffer names the one that
 * it was copied from, and a thread acquires a buffer and all its origins, which others
 * acquire from other ends.  One thread at a time puts a buffer behind another one.
 */
#include <ww_mutex.h>
#include <pthread.h>
#include <stdio.h>
#include <stdlib.h>

enum { THREADS = 4, BUFFERS = 50, TIMES = 5000 };

struct buffer {
	struct ww_mutex lock;
	struct buffer *origin;	/* under the lock, as the count is */
	unsigned long count;
};

static DEFINE_WW_CLASS(buffers);
static struct buffer all[BUFFERS];

/*
 * A buffer and its origins, at most so many; err is what the last lock call answered.
 * If buffers were destroyed by threads that take them out of their chains, each would count
 * its references, as ww_until_all_locked says in ww_mutex.h.
 */
static int lock_chain(struct ww_acquire_ctx *ctx, struct buffer *first, struct buffer **chain, unsigned most, unsigned *count)
{
	int err = 0;

	ww_until_all_locked(ctx) {
		*count = 0;
		for (struct buffer *b = first; b && *count < most; b = b->origin) {
			err = ww_mutex_lock(&b->lock, ctx);
			ww_retry_on_contention(ctx);
			if (err)
				break;
			chain[(*count)++] = b;
		}
	}
	return err;
}

static void *work(void *arg)
{
	unsigned x = 7 + 13 * (unsigned)(size_t)arg, count;
	struct buffer *chain[5];

	for (unsigned k = 0; k < TIMES; k++) {
		struct ww_acquire_ctx ctx;

		x = x * 1664525u + 1013904223u;
		ww_acquire_init(&ctx, &buffers);
		/* A ring of buffers ends where it comes back to the first. */
		int err = lock_chain(&ctx, &all[(x >> 8) % BUFFERS], chain, 5, &count);

		if (err && err != -EALREADY)
			abort();
		ww_acquire_done(&ctx);
		for (unsigned j = 0; j < count; j++)
			chain[j]->count++;
		chain[count - 1]->origin = &all[(x >> 20) % BUFFERS];
		ww_acquire_unlock_all(&ctx);
		ww_acquire_fini(&ctx);
	}
	return NULL;
}

int main(void)
{
	pthread_t threads[THREADS];
	unsigned long sum = 0;

	for (unsigned k = 0; k < BUFFERS; k++) {
		ww_mutex_init(&all[k].lock, &buffers);
		all[k].origin = k ? &all[k - 1] : NULL;
	}
	for (size_t k = 0; k < THREADS; k++)
		if (pthread_create(&threads[k], NULL, work, (void *)k))
			return 1;
	for (size_t k = 0; k < THREADS; k++)
		pthread_join(threads[k], NULL);
	for (unsigned k = 0; k < BUFFERS; k++) {
		sum += all[k].count;
		ww_mutex_destroy(&all[k].lock);
	}
	printf("objects: %s\n", sum >= (unsigned long)THREADS * TIMES ? "each transaction got its buffers" : "some are missing");
	return sum < (unsigned long)THREADS * TIMES || ww_class_free(&buffers);
}
