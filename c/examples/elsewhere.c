/*
 * elsewhere.c - one transfer as it is with mutexes in the order of their addresses, with mutexes that are tried, and with
 * contexts: ../PORTING.md has the lines side by side.
 */
#include <pthread.h>
#include <sched.h>
#include <stdio.h>
#include <ww_mutex.h>

enum { ACCOUNTS = 8, THREADS = 4, TIMES = 20000 };

struct plain {
	pthread_mutex_t lock;
	long money;
	struct plain *heir; /* under the lock, as the money is */
};

struct account {
	struct ww_mutex lock;
	long money;
	struct account *heir;
};

static struct plain plain[ACCOUNTS];
static DEFINE_WW_CLASS(accounts);
static struct account bank[ACCOUNTS];

static void transfer_sorted(struct plain *from, struct plain *to, long money)
{
	struct plain *first = from < to ? from : to, *second = from < to ? to : from;

	pthread_mutex_lock(&first->lock);
	pthread_mutex_lock(&second->lock);
	from->money -= money;
	to->money += money;
	pthread_mutex_unlock(&second->lock);
	pthread_mutex_unlock(&first->lock);
}

static void transfer(struct account *from, struct account *to, long money)
{
	struct ww_mutex *both[] = { &from->lock, &to->lock };
	struct ww_acquire_ctx ctx;

	ww_acquire_init(&ctx, &accounts);
	if (!ww_mutex_lock_all(&ctx, both, 2)) {
		from->money -= money;
		to->money += money;
		ww_acquire_unlock_all(&ctx);
	}
	ww_acquire_fini(&ctx);
}

static void bequeath_tried(struct plain *from)
{
	pthread_mutex_lock(&from->lock);
	while (pthread_mutex_trylock(&from->heir->lock)) { /* may fail again and again */
		pthread_mutex_unlock(&from->lock);
		sched_yield();
		pthread_mutex_lock(&from->lock);
	}
	from->heir->money += from->money;
	from->money = 0;
	pthread_mutex_unlock(&from->heir->lock);
	pthread_mutex_unlock(&from->lock);
}

static void bequeath(struct account *from)
{
	struct ww_acquire_ctx ctx;
	int err;

	ww_acquire_init(&ctx, &accounts);
	ww_until_all_locked(&ctx) {
		err = ww_mutex_lock(&from->lock, &ctx);
		if (!err)
			err = ww_mutex_lock(&from->heir->lock, &ctx);
		ww_retry_on_contention(&ctx);
	}
	if (!err) {
		from->heir->money += from->money;
		from->money = 0;
	}
	ww_acquire_unlock_all(&ctx);
	ww_acquire_fini(&ctx);
}

static void *work(void *arg)
{
	unsigned x = (unsigned)(size_t)arg;

	for (int k = 0; k < TIMES; k++) {
		unsigned from = (x = x * 1664525u + 1013904223u) >> 29, to = (from + 1 + (x >> 20) % (ACCOUNTS - 1)) % ACCOUNTS;

		transfer_sorted(&plain[from], &plain[to], 1);
		transfer(&bank[from], &bank[to], 1);
		if (k % 16 == 0) {
			bequeath_tried(&plain[from]);
			bequeath(&bank[from]);
		}
	}
	return NULL;
}

int main(void)
{
	pthread_t threads[THREADS];
	long sums[2] = { 0, 0 };

	for (int k = 0; k < ACCOUNTS; k++) {
		pthread_mutex_init(&plain[k].lock, NULL);
		ww_mutex_init(&bank[k].lock, &accounts);
		plain[k].heir = &plain[(k + 3) % ACCOUNTS];
		bank[k].heir = &bank[(k + 3) % ACCOUNTS];
		plain[k].money = bank[k].money = 100;
	}
	for (size_t k = 0; k < THREADS; k++)
		if (pthread_create(&threads[k], NULL, work, (void *)(k + 1)))
			return 1;
	for (int k = 0; k < THREADS; k++)
		pthread_join(threads[k], NULL);
	for (int k = 0; k < ACCOUNTS; k++) {
		sums[0] += plain[k].money;
		sums[1] += bank[k].money;
	}
	printf("elsewhere: the sums are %ld and %ld\n", sums[0], sums[1]);
	return sums[0] != 100 * ACCOUNTS || sums[1] != 100 * ACCOUNTS;
}
