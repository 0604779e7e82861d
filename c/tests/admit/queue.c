/*
 * Who comes while a context is about to be handed over, and threads that use many classes.
 *
 * Contexts are handed out in turn, and none is lost.  A thread that comes while another one is about to hand over a
 * context that just ended, which comes by a wrapper (ld --wrap), gets none before those that wait.  And a thread that
 * uses more classes than it can keep seats of, again and again, leaves each class with as many contexts as it had; of
 * ten classes it keeps them.
 */
#include "../mutex_test.h"
#include "../../admit/seat.h"
#include <semaphore.h>

static struct ww_class c;
static struct ww_acquire_ctx first;

/* ---- nobody is passed ---- */

/* A thread stops here before it locks this for the first time, or for a later one. */
static __thread unsigned stops;
static sem_t stopped, goes_on, may_end;

int __real_pthread_mutex_lock(pthread_mutex_t *lock);
int __wrap_pthread_mutex_lock(pthread_mutex_t *lock);
int __wrap_pthread_mutex_lock(pthread_mutex_t *lock)
{
	if (stops && !--stops) {
		sem_post(&stopped);
		sem_wait(&goes_on);
	}
	return __real_pthread_mutex_lock(lock);
}

static unsigned come;

static void *waits_long(void *arg)
{
	struct ww_acquire_ctx x;

	ww_acquire_init(&x, &c);
	come++;
	sem_wait(&may_end);
	ww_acquire_fini(&x);
	return arg;
}

static void *ends_and_stops(void *arg)
{
	stops = 1;
	ww_acquire_fini(arg);
	if (stops) { /* it locked nothing, so it has handed over */
		stops = 0;
		sem_post(&stopped);
		sem_wait(&goes_on);
	}
	return arg;
}

static uint64_t waiting(void)
{
	struct ww_class_counts counts;

	ww_class_stats(&c, &counts);
	return counts.context_waits;
}

/* Whether it was handed over already or not, whoever comes between has no context. */
static void comes_between(unsigned way)
{
	struct timespec soon = in_ms(5), past = in_ms(0);
	struct ww_acquire_ctx x;
	struct ww_mutex m;
	int r = 0;

	switch (way) {
	case 0: r = ww_acquire_init_checked(&x, &c); MUST(r == -EAGAIN); return;
	case 1: r = ww_acquire_init_until(&x, &c, &soon); MUST(r == -ETIMEDOUT); return;
	case 2: r = ww_acquire_init_until(&x, &c, &past); MUST(r == -ETIMEDOUT); return;
	default:
		m = (struct ww_mutex)WW_MUTEX_INIT(&c);
		r = ww_mutex_lock_until(&m, NULL, &soon);
		MUST(r == -ETIMEDOUT && !ww_mutex_trylock(&m, NULL) && !ww_mutex_destroy(&m));
	}
}

static void nobody_is_passed(void)
{
	for (unsigned k = 0; k < 20; k++) {
		pthread_t ends, long_;
		uint64_t before;

		ww_class_init(&c, k / 4 % 2, "one");
		MUST(!ww_class_limit(&c, 4, 1));
		ww_acquire_init(&first, &c);
		come = 0;
		before = waiting();
		long_ = begin_thread(waits_long, NULL);
		while (waiting() == before)
			usleep(100);
		usleep(1000);
		ends = begin_thread(ends_and_stops, &first);
		sem_wait(&stopped);
		comes_between(k % 4);
		sem_post(&goes_on);
		end_thread(ends);
		sem_post(&may_end);
		end_thread(long_);
		MUST(come == 1);
		ww_acquire_init(&first, &c);
		ww_acquire_fini(&first);
		MUST(!ww_class_free(&c));
	}
}

enum { MOST = 1400 };
static struct ww_acquire_ctx all[MOST];

/* As many as one thread can begin at a time. */
static unsigned begins_all(struct ww_class *of)
{
	unsigned count = 0;

	while (count < MOST && !ww_acquire_init_checked(&all[count], of))
		count++;
	MUST(count < MOST);
	return count;
}

static unsigned calls;
static void is_called(void *loop, void *task)
{
	MUST(!loop && task == &calls);
	calls++;
}

/*
 * Nor is a thread that waits passed by a task, where the context that just ended is one of those that tasks have: by one that
 * comes, or by one that was called for it before.
 */
static void no_task_passes(bool was_called)
{
	const struct ww_waker waker = { is_called, NULL, &calls };
	struct ww_acquire_ctx *its = NULL, x;
	struct ww_seek seek = { 0 };
	unsigned count;
	pthread_t ends, long_;
	uint64_t before;

	ww_class_init(&c, 0, "tasks");
	MUST(!ww_class_open_with(&c, false));
	count = begins_all(&c);
	for (unsigned k = 0; k < count; k++)
		if (all[k].own == c.pool->tasks.seats)
			its = &all[k];
	MUST(its);
	its->own->lease = c.pool->tasks.due = UINT64_MAX;
	calls = come = 0;
	if (was_called) {
		MUST(ww_acquire_init_poll(&x, &c, &seek, &waker) == -EINPROGRESS && !calls);
		ww_acquire_fini(its);
		MUST(calls == 1 && !ww_acquire_init_checked(its, &c) && its->own == c.pool->tasks.seats);
	}
	before = waiting();
	long_ = begin_thread(waits_long, NULL);
	while (waiting() == before)
		usleep(100);
	usleep(1000);
	ends = begin_thread(ends_and_stops, its);
	sem_wait(&stopped);
	MUST(ww_acquire_init_poll(&x, &c, &seek, &waker) == -EINPROGRESS);
	sem_post(&goes_on);
	end_thread(ends);
	sem_post(&may_end);
	end_thread(long_);
	MUST(come == 1 && ww_acquire_init_poll(&x, &c, &seek, NULL) <= 0);
	if (x.own)
		ww_acquire_fini(&x);
	for (unsigned k = 0; k < count; k++)
		if (&all[k] != its)
			ww_acquire_fini(&all[k]);
	MUST(!ww_class_free(&c));
}

/* ---- none is lost ---- */

enum { CLASSES = 13, ROUNDS = 300 };
static struct ww_class classes[CLASSES];

/* The thread's own comes first, and those that tasks may have, too, come last. */
static unsigned contexts_of(struct ww_class *of)
{
	unsigned count = begins_all(of);
	const struct ww_pool *p = of->pool;

	for (unsigned k = 1; k <= p->threads.count - p->tasks.count; k++)
		MUST(all[k].own->of == &p->threads);
	for (unsigned k = 0; k < count; k++)
		ww_acquire_fini(&all[k]);
	return count;
}

static void *uses_in_turn(void *arg)
{
	for (unsigned k = 0; k < ROUNDS * CLASSES; k++) {
		struct ww_acquire_ctx x;

		ww_acquire_init(&x, &classes[k % CLASSES]);
		ww_acquire_fini(&x);
	}
	return arg;
}

static void *counts(void *count)
{
	for (unsigned k = 0; k < CLASSES; k++)
		((unsigned *)count)[k] = contexts_of(&classes[k]);
	return NULL;
}

static void none_is_lost(void)
{
	unsigned before[CLASSES], after[CLASSES];

	for (unsigned k = 0; k < CLASSES; k++) {
		ww_class_init(&classes[k], k % 2, "many");
		MUST(!ww_class_limit(&classes[k], 4, 0));
	}
	end_thread(begin_thread(counts, before));
	for (unsigned k = 0; k < 2; k++)
		end_thread(begin_thread(uses_in_turn, NULL));
	end_thread(begin_thread(counts, after));
	for (unsigned k = 0; k < CLASSES; k++)
		MUST(before[k] == after[k] && before[k] >= 1024 && !ww_class_free(&classes[k]));
}

/* ---- a thread has a seat of its own in each class, whatever others do meanwhile ---- */

enum { KEEPS = 10 };
static const struct ww_seat *seats[KEEPS];

static void uses_ten(void)
{
	for (unsigned k = 0; k < KEEPS; k++) {
		struct ww_acquire_ctx x;

		ww_acquire_init(&x, &classes[k]);
		MUST(!seats[k] || seats[k] == x.own);
		seats[k] = x.own;
		ww_acquire_fini(&x);
	}
}

static void *has_others(void *arg)
{
	for (unsigned k = 0; k < KEEPS; k++) {
		struct ww_acquire_ctx x;

		ww_acquire_init(&x, &classes[k]);
		MUST(x.own != seats[k]);
		ww_acquire_fini(&x);
	}
	return arg;
}

static void ten_are_own(void)
{
	for (unsigned k = 0; k < KEEPS; k++) {
		ww_class_init(&classes[k], k % 2, "own");
		MUST(!ww_class_limit(&classes[k], 4, 0));
		seats[k] = NULL;
	}
	for (unsigned k = 0; k < 3; k++) {
		uses_ten();
		end_thread(begin_thread(has_others, NULL));
	}
	uses_ten();
	for (unsigned k = 0; k < KEEPS; k++)
		MUST(!ww_class_free(&classes[k]));
}

int main(void)
{
	MUST(!sem_init(&stopped, 0, 0) && !sem_init(&goes_on, 0, 0) && !sem_init(&may_end, 0, 0));
	nobody_is_passed();
	no_task_passes(false);
	no_task_passes(true);
	none_is_lost();
	ten_are_own();
	puts("queue: nobody is passed, and no context is lost");
	return 0;
}
