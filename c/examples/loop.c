/* Two event loops of a thread each move money between accounts by 200 tasks, which wait for locks without a thread. */
#define _GNU_SOURCE
#include <ww_poll.h>
#include <pthread.h>
#include <stdio.h>
#include <string.h>
#include <sys/epoll.h>
#include <sys/eventfd.h>
#include <unistd.h>

enum { LOOPS = 2, TASKS = 100, ACCOUNTS = 16, TIMES = 300 };

struct account {
	struct ww_mutex lock;
	long money; /* under the lock */
};

struct task {
	struct ww_woken woken;	/* first, so that it is where the task is */
	struct ww_acquire_ctx ctx;
	struct ww_seek seek;
	struct account *from, *to, *one, *other; /* the last two in the order in which it locks them */
	enum { BEGINS, LOCKS_ONE, LOCKS_OTHER } state;
	unsigned random, done;
};

/* It watches a descriptor, as it might watch others. */
struct loop {
	int epoll;
	struct ww_event event;
	struct task tasks[TASKS];
	unsigned left;
};

static DEFINE_WW_CLASS(bank);
static struct account accounts[ACCOUNTS];
static struct loop loops[LOOPS];

static void draw(struct task *it)
{
	it->random = it->random * 1664525u + 1013904223u;
	it->from = &accounts[it->random >> 8 & 15];
	it->to = &accounts[(it->random >> 8 & 15) ^ (1 + (it->random >> 16) % 15)];
	it->one = it->from;
	it->other = it->to;
	it->state = BEGINS;
}

/* The older context has to go first: the one that it couldn't get is locked first from now on. */
static void back_off(struct task *it)
{
	struct account *was = it->one;

	ww_mutex_unlock(&was->lock);
	it->one = it->other;
	it->other = was;
	it->state = LOCKS_ONE;
}

/* The next poll of a task: 0, -EINPROGRESS, or what else it may return. */
static int poll_once(struct task *it, const struct ww_waker *waker)
{
	switch (it->state) {
	case BEGINS: return ww_acquire_init_poll(&it->ctx, &bank, &it->seek, waker);
	case LOCKS_ONE: return ww_mutex_lock_poll(&it->one->lock, &it->ctx, waker);
	default: return ww_mutex_lock_poll(&it->other->lock, &it->ctx, waker);
	}
}

static void transfer(struct task *it)
{
	it->from->money--;
	it->to->money++;
	ww_mutex_unlock(&it->from->lock);
	ww_mutex_unlock(&it->to->lock);
	ww_acquire_fini(&it->ctx);
	it->done++;
	draw(it);
}

/* As far as it goes without a wait. From -EINPROGRESS on this loop alone goes on with it, once it is woken. */
static void go_on(struct loop *loop, struct task *it)
{
	const struct ww_waker waker = { ww_event_wake, &loop->event, &it->woken };

	while (it->done < TIMES) {
		int r = poll_once(it, &waker);

		if (r == -EINPROGRESS)
			return;
		if (r == -EDEADLK)
			back_off(it);
		else if (r)
			fprintf(stderr, "loop: %s\n", strerror(-r));
		else if (it->state == LOCKS_OTHER)
			transfer(it);
		else
			it->state++;
	}
	loop->left--;
}

static void *run(void *arg)
{
	struct loop *loop = arg;

	while (loop->left) {
		struct epoll_event ready;
		eventfd_t count;

		if (epoll_wait(loop->epoll, &ready, 1, -1) != 1 || eventfd_read(loop->event.descriptor, &count))
			continue;
		for (struct ww_woken *it = ww_event_take(&loop->event), *next; it; it = next) {
			next = it->next;
			go_on(loop, (struct task *)it);
		}
	}
	return NULL;
}

static int set_up(struct loop *loop, unsigned seed)
{
	struct epoll_event reads = { .events = EPOLLIN };

	*loop = (struct loop){ .epoll = epoll_create1(0), .event.descriptor = eventfd(0, EFD_NONBLOCK), .left = TASKS };
	if (loop->epoll < 0 || loop->event.descriptor < 0 || epoll_ctl(loop->epoll, EPOLL_CTL_ADD, loop->event.descriptor, &reads))
		return -1;
	for (unsigned k = 0; k < TASKS; k++) {
		loop->tasks[k].random = seed + k;
		draw(&loop->tasks[k]);
		ww_event_wake(&loop->event, &loop->tasks[k].woken);
	}
	return 0;
}

int main(void)
{
	pthread_t threads[LOOPS];
	long sum = 0;

	for (unsigned k = 0; k < ACCOUNTS; k++)
		ww_mutex_init(&accounts[k].lock, &bank);
	for (unsigned k = 0; k < LOOPS; k++)
		if (set_up(&loops[k], 1000 * k))
			return 1;
	for (unsigned k = 0; k < LOOPS; k++)
		if (pthread_create(&threads[k], NULL, run, &loops[k]))
			return 1;
	for (unsigned k = 0; k < LOOPS; k++) {
		pthread_join(threads[k], NULL);
		close(loops[k].event.descriptor);
		close(loops[k].epoll);
	}
	for (unsigned k = 0; k < ACCOUNTS; k++) {
		sum += accounts[k].money;
		if (ww_mutex_destroy(&accounts[k].lock))
			return 1;
	}
	printf("loop: the sum is %ld\n", sum);
	return sum || ww_class_free(&bank);
}
