#include <pthread.h>
#include <stdio.h>
#include <ww_mutex.h>

struct account {
	struct ww_mutex lock;
	long money; /* under the lock */
};

static DEFINE_WW_CLASS(accounts);
static struct account bank[8];

/* 0, or -EALREADY where both are the same account. */
static int transfer(struct account *from, struct account *to, long money)
{
	struct ww_acquire_ctx ctx;
	int err = 0;

	ww_acquire_init(&ctx, &accounts);
	ww_until_all_locked(&ctx) {
		err = ww_mutex_lock(&from->lock, &ctx);
		if (!err)
			err = ww_mutex_lock(&to->lock, &ctx);
	}
	if (!err) {
		from->money -= money;
		to->money += money;
	}
	ww_acquire_unlock_all(&ctx);
	ww_acquire_fini(&ctx);
	return err;
}

static void *work(void *arg)
{
	unsigned x = (unsigned)(size_t)arg;

	for (int k = 0; k < 100000; k++, x = x * 1103515245u + 12345u)
		transfer(&bank[x >> 16 & 7], &bank[x >> 24 & 7], 1);
	return NULL;
}

int main(void)
{
	pthread_t threads[4];
	long sum = 0;

	for (int k = 0; k < 8; k++)
		ww_mutex_init(&bank[k].lock, &accounts);
	for (size_t k = 0; k < 4; k++)
		if (pthread_create(&threads[k], NULL, work, (void *)(k + 1)))
			return 1;
	for (int k = 0; k < 4; k++)
		pthread_join(threads[k], NULL);
	for (int k = 0; k < 8; k++)
		sum += bank[k].money;
	printf("after 400,000 transfers the sum is %ld, and 0 is right\n", sum);
	return sum != 0;
}
