/*
 * Two threads move money between two accounts, one from the first to the second and one back, and each locks its source first.  With
 * plain mutexes they soon deadlock; with libww the younger one gives way each time.
 */
#define _DEFAULT_SOURCE
#include <pthread.h>
#include <stdatomic.h>
#include <stdio.h>
#include <time.h>
#include <ww_mutex.h>

#define TRANSFERS 200000 /* of each thread */

static pthread_mutex_t plain[2] = { PTHREAD_MUTEX_INITIALIZER, PTHREAD_MUTEX_INITIALIZER };
static DEFINE_WW_CLASS(accounts);
static struct ww_mutex lock[2];
static long money[2]; /* of each account, under its mutex */
static atomic_ulong locked[2]; /* how many plain mutexes each thread has locked: odd while it holds one and wants the other */
static pthread_barrier_t begin;

/* Where a program looks up which account comes next, for half a microsecond or so. */
static void find_target(void)
{
	for (volatile int k = 0; k < 300; k++)
		;
}

static void *transfer_plainly(void *arg)
{
	size_t source = (size_t)arg, target = 1 - source;

	for (pthread_barrier_wait(&begin);;) {
		pthread_mutex_lock(&plain[source]);
		locked[source]++;
		find_target();
		pthread_mutex_lock(&plain[target]);
		locked[source]++;
		money[source]--;
		money[target]++;
		pthread_mutex_unlock(&plain[target]);
		pthread_mutex_unlock(&plain[source]);
	}
	return NULL;
}

static void *transfer(void *arg)
{
	size_t source = (size_t)arg, target = 1 - source;
	struct ww_acquire_ctx ctx;
	int err;

	pthread_barrier_wait(&begin);
	for (int k = 0; k < TRANSFERS; k++) {
		ww_acquire_init(&ctx, &accounts);
		ww_until_all_locked(&ctx) {
			err = ww_mutex_lock(&lock[source], &ctx);
			find_target();
			if (!err)
				err = ww_mutex_lock(&lock[target], &ctx);
		}
		money[source]--;
		money[target]++;
		ww_acquire_unlock_all(&ctx);
		ww_acquire_fini(&ctx);
	}
	return NULL;
}

/* If each thread holds one mutex at a moment, each waits for the other's forever. */
static int is_deadlocked(void)
{
	unsigned long first = locked[0];

	return first % 2 && locked[1] % 2 && locked[0] == first;
}

int main(void)
{
	struct timespec millisecond = { 0, 1000000 };
	struct ww_class_counts counts;
	pthread_t threads[2];

	pthread_barrier_init(&begin, NULL, 2);
	for (size_t k = 0; k < 2; k++)
		if (pthread_create(&threads[k], NULL, transfer_plainly, (void *)k))
			return 1;
	while (!is_deadlocked())
		nanosleep(&millisecond, NULL);
	printf("pthread_mutex: deadlocked after %lu transfers\n", (locked[0] + locked[1] - 2) / 2);

	for (size_t k = 0; k < 2; k++)
		ww_mutex_init(&lock[k], &accounts);
	for (size_t k = 0; k < 2; k++)
		if (pthread_create(&threads[k], NULL, transfer, (void *)k))
			return 1;
	for (int k = 0; k < 2; k++)
		pthread_join(threads[k], NULL);
	ww_class_stats(&accounts, &counts);
	printf("ww_mutex: %d transfers, %lu deadlocks avoided\n", 2 * TRANSFERS, (unsigned long)counts.back_offs);
	return money[0] + money[1] != 0;
}
