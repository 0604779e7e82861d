/*
 * port.c - code of a driver as it is in the kernel, first method of its ww-mutex-design.rst, and around it what stands here for
 * the kernel: threads, and a signal.  cc -I c/include -I c/include/ww_kernel FILE c/out/libww.a -pthread
 */
#include <linux/ww_mutex.h>
#include <pthread.h>
#include <sched.h>
#include <stdio.h>
#include <stdlib.h>

/* ---- the driver ---- */

static DEFINE_WW_CLASS(ww_class);

struct obj {
	struct ww_mutex lock;
	long data;
};

static int lock_objs(struct obj **list, int count, struct ww_acquire_ctx *ctx)
{
	struct obj *res_obj = NULL;
	int i, contended = -1, ret;

	ww_acquire_init(ctx, &ww_class);
retry:
	for (i = 0; i < count; i++) {
		if (list[i] == res_obj) {
			res_obj = NULL;
			continue;
		}
		ret = ww_mutex_lock_interruptible(&list[i]->lock, ctx);
		if (ret < 0) {
			contended = i;
			goto err;
		}
	}
	ww_acquire_done(ctx);
	return 0;

err:
	while (i--)
		ww_mutex_unlock(&list[i]->lock);
	if (res_obj)
		ww_mutex_unlock(&res_obj->lock);
	if (ret == -EDEADLK) {
		/* we lost out in a seqno race, lock and retry.. */
		ret = ww_mutex_lock_slow_interruptible(&list[contended]->lock, ctx);
		res_obj = list[contended];
		if (!ret)
			goto retry;
	}
	ww_acquire_fini(ctx);
	return ret;
}

static void unlock_objs(struct obj **list, int count, struct ww_acquire_ctx *ctx)
{
	for (int i = 0; i < count; i++)
		ww_mutex_unlock(&list[i]->lock);
	ww_acquire_fini(ctx);
}

/* ---- what stands for the kernel ---- */

enum { OBJECTS = 8, THREADS = 4, TIMES = 20000 };
static struct obj objects[OBJECTS], busy;
static int served, interrupted;

/* Its last call waits for an object that somebody keeps, until a signal comes. */
static void *task(void *arg)
{
	unsigned x = 1 + (unsigned)(size_t)arg;
	struct obj *last[] = { &busy };
	struct ww_acquire_ctx ctx;

	for (int n = 0; n < TIMES; n++) {
		unsigned a = (x = x * 1664525u + 1013904223u) >> 29, b = (a + 1 + (x >> 20) % (OBJECTS - 1)) % OBJECTS;
		struct obj *list[] = { &objects[a], &objects[b] };

		if (lock_objs(list, 2, &ctx))
			abort();
		list[0]->data--;
		list[1]->data++;
		unlock_objs(list, 2, &ctx);
	}
	__atomic_add_fetch(&served, 1, __ATOMIC_SEQ_CST);
	if (lock_objs(last, 1, &ctx) == -EINTR)
		__atomic_add_fetch(&interrupted, 1, __ATOMIC_SEQ_CST);
	return NULL;
}

int main(void)
{
	pthread_t threads[THREADS];
	struct ww_acquire_ctx keeper;
	struct obj *kept[] = { &busy };
	long sum = 0;

	for (int i = 0; i < OBJECTS; i++)
		ww_mutex_init(&objects[i].lock, &ww_class);
	ww_mutex_init(&busy.lock, &ww_class);
	if (lock_objs(kept, 1, &keeper))
		abort();
	for (size_t i = 0; i < THREADS; i++)
		if (pthread_create(&threads[i], NULL, task, (void *)i))
			abort();
	while (__atomic_load_n(&served, __ATOMIC_SEQ_CST) < THREADS)
		sched_yield();
	if (ww_class_cancel(&ww_class)) /* a signal to all of them; to one of them: ww_acquire_cancel */
		abort();
	for (int i = 0; i < THREADS; i++)
		pthread_join(threads[i], NULL);
	unlock_objs(kept, 1, &keeper);
	for (int i = 0; i < OBJECTS; i++)
		sum += objects[i].data;
	printf("port: the sum is %ld, and %d of %d were interrupted\n", sum, interrupted, THREADS);
	return sum || interrupted != THREADS;
}
