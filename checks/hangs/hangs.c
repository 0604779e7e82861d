/* hangs.c - a program that hangs in the way that its word says, for checks/check_gdb.  It prints a line once all its threads sleep. */
#define _GNU_SOURCE
#include <pthread.h>
#include <stdio.h>
#include <stdlib.h>
#include <string.h>
#include <unistd.h>
#include <ww_poll.h>
#include <ww_retry.h>
#include <ww_shared.h>

enum { MANY = 200 };
struct account {
	char owner[20];
	struct ww_mutex lock;
};
static DEFINE_WW_CLASS(forks);
static DEFINE_WW_CLASS(accounts);
static DEFINE_WW_CLASS(pages);
static DEFINE_WW_CLASS(files);
static DEFINE_WD_CLASS(users);
static DEFINE_WW_CLASS(few);
static struct ww_mutex fork_[3], file, user;
static struct account *account[4];
static struct ww_shared_mutex index_, page[4];
static struct {
	int kind;
	struct ww_mutex lock;
} queue[2];
static struct ww_acquire_ctx kept[4]; /* on no stack */
static pthread_barrier_t all;

static void thread(const char *name, void *(*runs)(void *), size_t arg)
{
	pthread_t it;

	if (pthread_create(&it, NULL, runs, (void *)arg))
		abort();
	(void)pthread_setname_np(it, name); /* unless it has ended */
}
static void until(struct ww_class *c, unsigned long waits)
{
	struct ww_class_counts counts = { 0 };

	for (; counts.lock_waits + counts.context_waits < waits; ww_class_stats(c, &counts))
		usleep(1000);
}
static void must(int r)
{
	if (r)
		abort();
}
static void *sleeps(void)
{
	for (;;)
		pause();
	return NULL;
}

/* Three threads in a ring of locks with NULL; a thread with a context and a task wait behind them. Another context is suspended. */
static void *eats(void *arg)
{
	size_t me = (size_t)arg;

	must(ww_mutex_lock(&fork_[me], NULL));
	pthread_barrier_wait(&all);
	return (void *)(size_t)ww_mutex_lock(&fork_[(me + 1) % 3], NULL);
}
static void *is_guest(void *arg)
{
	struct ww_acquire_ctx ctx;

	(void)arg;
	ww_acquire_init(&ctx, &forks);
	return (void *)(size_t)ww_mutex_lock(&fork_[0], &ctx);
}
static void wakes_nobody(void *loop, void *task) { (void)loop, (void)task; }
static void ring(void)
{
	const struct ww_waker waker = { .wake = wakes_nobody, .task = &kept[1] };
	struct ww_seek seek = { 0 };
	struct ww_retry retry = { 0 };

	for (int k = 0; k < 3; k++)
		ww_mutex_init(&fork_[k], &forks);
	ww_mutex_name(&fork_[2], "the third fork");
	for (size_t k = 0; k < 3; k++)
		thread("eater", eats, k);
	until(&forks, 3);
	thread("guest", is_guest, 0);
	must(ww_acquire_init_poll(&kept[1], &forks, &seek, &waker));
	if (ww_mutex_lock_poll(&fork_[1], &kept[1], &waker) != -EINPROGRESS)
		abort();
	until(&forks, 5);
	ww_acquire_init(&kept[2], &forks);
	must(ww_acquire_suspend(&kept[2], &retry));
}

/* A context forgot an unlock, and its thread goes on elsewhere, with a lock with NULL; another waits for it, and a third for that. */
static void *forgets(void *arg)
{
	ww_acquire_init(&kept[0], &accounts);
	must(ww_mutex_lock(&account[0]->lock, &kept[0]));
	must(ww_mutex_lock(&account[1]->lock, &kept[0]));
	must(ww_mutex_lock(&account[3]->lock, NULL));
	ww_mutex_unlock(&account[0]->lock);
	pthread_barrier_wait(&all);
	(void)arg;
	return sleeps();
}
static void *moves(void *arg)
{
	struct ww_mutex *two[2] = { &account[arg ? 2 : 0]->lock, &account[arg ? 1 : 2]->lock };
	struct ww_acquire_ctx ctx;

	ww_acquire_init(&ctx, &accounts);
	return (void *)(size_t)ww_mutex_lock_all(&ctx, two, 2);
}
static void forgot(void)
{
	for (int k = 0; k < 4; k++) {
		account[k] = calloc(1, sizeof *account[k]);
		ww_mutex_init(&account[k]->lock, &accounts);
	}
	pthread_barrier_init(&all, NULL, 2);
	thread("forgetful", forgets, 0);
	pthread_barrier_wait(&all);
	thread("mover 1", moves, 1);
	until(&accounts, 1);
	thread("mover 2", moves, 0);
	until(&accounts, 2);
}

/* A reader never ends; a writer waits for it, and a late reader for the writer. */
static void *reads(void *arg)
{
	struct ww_acquire_ctx ctx;

	ww_acquire_init(&ctx, &pages);
	must(ww_shared_mutex_lock_shared(&index_, &ctx));
	must(ww_shared_mutex_lock_shared(&page[2], &ctx));
	pthread_barrier_wait(&all);
	(void)arg;
	return sleeps();
}
static void *writes(void *arg)
{
	struct ww_acquire_ctx ctx;

	ww_acquire_init(&ctx, &pages);
	(void)arg;
	return (void *)(size_t)ww_shared_mutex_lock(&index_, &ctx);
}
static void reader(void)
{
	must(ww_class_limit(&pages, 100, 0)); /* so numbers may be greater than that */
	ww_shared_mutex_init(&index_, &pages);
	for (int k = 0; k < 4; k++)
		ww_shared_mutex_init(&page[k], &pages);
	pthread_barrier_init(&all, NULL, 2);
	thread("endless", reads, 0);
	pthread_barrier_wait(&all);
	thread("writer", writes, 0);
	until(&pages, 1);
	thread("late", reads, 1);
	until(&pages, 2);
}

/* Many threads behind one holder, which waits for nothing of this library. */
static void *holds(void *arg)
{
	struct ww_acquire_ctx ctx;

	ww_acquire_init(&ctx, &files);
	must(ww_mutex_lock(&queue[1].lock, &ctx));
	pthread_barrier_wait(&all);
	(void)arg;
	return sleeps();
}
static void *waits(void *arg)
{
	struct ww_acquire_ctx ctx;

	ww_acquire_init(&ctx, &files);
	(void)arg;
	return (void *)(size_t)ww_mutex_lock(&queue[1].lock, &ctx);
}
static void many(void)
{
	must(ww_class_crowd(&files, WW_NO_CROWD));
	ww_mutex_init(&queue[1].lock, &files);
	pthread_barrier_init(&all, NULL, 2);
	thread("holder", holds, 0);
	pthread_barrier_wait(&all);
	for (size_t k = 0; k < MANY; k++)
		thread("worker", waits, k);
	until(&files, MANY);
}

/* Two classes in opposite order; and a class whose contexts were all left. */
static void *one(void *arg)
{
	struct ww_acquire_ctx x, y;

	ww_acquire_init(&x, arg ? &files : &users);
	must(ww_mutex_lock(arg ? &file : &user, &x));
	pthread_barrier_wait(&all);
	ww_acquire_init(&y, arg ? &users : &files);
	return (void *)(size_t)ww_mutex_lock(arg ? &user : &file, &y);
}
static void *leaks(void *arg)
{
	struct ww_acquire_ctx x;

	ww_acquire_init(&x, &few);
	return arg ? sleeps() : NULL;
}
static void classes(void)
{
	must(ww_class_limit(&few, 100, 2));
	must(ww_class_limit(&users, 5, 0));
	ww_mutex_init(&file, &files);
	ww_mutex_init(&user, &users);
	ww_mutex_name(&user, "the user of this test"); /* which compiles to nothing without the debug library */
	pthread_barrier_init(&all, NULL, 2);
	thread("user", one, 0);
	thread("file", one, 1);
	for (size_t k = 0; k < 4; k++)
		thread("leaks", leaks, k);
	until(&files, 1);
	until(&users, 1);
	until(&few, 2);
}

int main(int count, char **words)
{
	static const struct {
		const char *name;
		void (*hangs)(void);
	} ways[] = { { "ring", ring }, { "forgot", forgot }, { "reader", reader }, { "many", many }, { "classes", classes } };

	pthread_barrier_init(&all, NULL, 3);
	for (size_t k = 0; k < sizeof ways / sizeof *ways; k++)
		if (count > 1 && !strcmp(words[1], ways[k].name))
			ways[k].hangs();
	usleep(200000); /* who has begun to wait sleeps soon */
	puts("it hangs");
	fflush(stdout);
	sleeps();
}
