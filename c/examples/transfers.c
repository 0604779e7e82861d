/* Four threads move money between accounts, which may lie anywhere: each has its mutex by a number. */
#include <ww_number.h>
#include <pthread.h>
#include <stdio.h>
#include <string.h>

enum { THREADS = 4, ACCOUNTS = 16, TIMES = 50000 };

struct account {
	uint32_t lock; /* a number, so an account may be copied and moved */
	long money;
};

static DEFINE_WD_CLASS(bank);
static struct account accounts[ACCOUNTS];
static int ended; /* threads that did all they were to do */

/* Moves 1, with both locks held: 0, or why it couldn't. */
static int transfer(struct account *from, struct account *to)
{
	struct ww_acquire_ctx ctx;
	int r = 0;

	ww_acquire_init(&ctx, &bank);
	ww_until_all_locked(&ctx) { /* after -EDEADLK an older context goes first, and this one begins again */
		r = ww_number_lock(from->lock, &ctx);
		if (!r)
			r = ww_number_lock(to->lock, &ctx);
	}
	if (!r) {
		from->money -= 1;
		to->money += 1;
	}
	ww_acquire_unlock_all(&ctx);
	ww_acquire_fini(&ctx);
	return r;
}

static void *work(void *arg)
{
	unsigned x = (unsigned)(size_t)arg + 1;
	int r = 0;

	for (int i = 0; i < TIMES && !r; i++) {
		x = x * 1664525u + 1013904223u;
		struct account *from = &accounts[x >> 8 & 15], *to = &accounts[x >> 16 & 15];

		if (from != to)
			r = transfer(from, to);
	}
	if (r)
		fprintf(stderr, "transfers: %s\n", strerror(-r));
	else
		__atomic_fetch_add(&ended, 1, __ATOMIC_RELAXED);
	return NULL;
}

int main(void)
{
	pthread_t threads[THREADS];
	long sum = 0;

	for (int k = 0; k < ACCOUNTS; k++)
		if (ww_number_take(&accounts[k].lock, &bank))
			return 1;
	for (size_t k = 0; k < THREADS; k++)
		if (pthread_create(&threads[k], NULL, work, (void *)k))
			return 1;
	for (size_t k = 0; k < THREADS; k++)
		pthread_join(threads[k], NULL);
	for (int k = 0; k < ACCOUNTS; k++) {
		sum += accounts[k].money;
		if (ww_number_put(accounts[k].lock, &bank))
			return 1;
	}
	printf("transfers: the sum is %ld\n", sum);
	return sum || ended != THREADS || ww_class_free(&bank);
}
