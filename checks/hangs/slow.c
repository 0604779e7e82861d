/* slow.c - a program that waits in each way, for checks/check_gdb, which finds the lines by what stands in angle brackets. */
#define _GNU_SOURCE
#include <pthread.h>
#include <semaphore.h>
#include <stdlib.h>
#include <unistd.h>
#include <ww_poll.h>

static DEFINE_WW_CLASS(pages);
static DEFINE_WW_CLASS(few);
static struct ww_mutex held, lent, page[2];
static sem_t woken;

static void *holds(void *arg)
{
	for (;; usleep(1000)) {
		(void)ww_mutex_lock(&held, NULL);
		(void)ww_mutex_lock(&lent, NULL);
		usleep(20000);
		ww_mutex_unlock(&lent);
		ww_mutex_unlock(&held); /* <lets go> */
	}
	return arg;
}
static void *waits(void *arg)
{
	for (;;) {
		(void)ww_mutex_lock(&held, NULL); /* <waits> */
		ww_mutex_unlock(&held);
	}
	return arg;
}
/* A task, which this thread polls once it was woken. */
static void wakes(void *loop, void *task) { (void)loop, (void)sem_post(task); }
static void *polls(void *arg)
{
	const struct ww_waker waker = { .wake = wakes, .task = &woken };
	struct ww_acquire_ctx x;

	for (;; usleep(1000)) {
		ww_acquire_init(&x, &pages);
		while (ww_mutex_lock_poll(&lent, &x, &waker) == -EINPROGRESS) /* <polls> */
			(void)sem_wait(&woken);
		ww_mutex_unlock(&lent);
		ww_acquire_fini(&x);
	}
	return arg;
}
static void *moves(void *arg)
{
	struct ww_mutex *two[2] = { &page[arg != NULL], &page[!arg] };
	struct ww_acquire_ctx x;

	for (;;) {
		ww_acquire_init(&x, &pages);
		if (ww_mutex_lock(two[0], &x)) /* <first> */
			abort();
		usleep(1000);
		if (ww_mutex_lock(two[1], &x) == -EDEADLK) { /* <backs off> */
			ww_mutex_unlock(two[0]);
			if (ww_mutex_lock_all(&x, two, 2)) /* <all> */
				abort();
		}
		usleep(2000);
		ww_acquire_unlock_all(&x);
		ww_acquire_fini(&x);
	}
	return arg;
}
static void *begins(void *arg)
{
	struct ww_acquire_ctx x;

	for (;;) {
		ww_acquire_init(&x, &few); /* <begins> */
		usleep(3000);
		ww_acquire_fini(&x);
	}
	return arg;
}

int main(void)
{
	static void *(*const all[])(void *) = { holds, waits, polls, moves, moves, begins, begins, begins };
	pthread_t it;

	if (ww_class_limit(&few, 10, 1))
		abort();
	ww_mutex_init(&held, &pages);
	ww_mutex_init(&lent, &pages);
	ww_mutex_init(&page[0], &pages);
	ww_mutex_init(&page[1], &pages);
	for (size_t k = 0; k < sizeof all / sizeof *all; k++)
		if (pthread_create(&it, NULL, all[k], k == 3 ? (void *)&woken : NULL))
			abort();
	pause();
}
