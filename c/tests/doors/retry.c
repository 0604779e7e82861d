/*
 * What a suspended context keeps, and what it counts for: each answer of ww_retry.h.
 *
 * Its age, in another thread, after the thread ended that began it, and in a child of a fork; the wait for the mutex at which it got
 * -EDEADLK, also once that is gone and its number is another's; and one of the seats, which no admission takes for one that runs.  Of
 * copies of a value one works, in their own class alone, and none once its class was freed.
 */
#include "../crowd.h"
#include "ww_number.h"
#include "ww_poll.h"
#include "ww_retry.h"
#include "ww_shared.h"
#include <sys/wait.h>

static struct ww_class c = { .name = "retry" };
static struct ww_mutex a, b;
static struct ww_retry none;

static unsigned long in_use(void)
{
	struct ww_class_counts counts;

	ww_class_stats(&c, &counts);
	return counts.contexts;
}

static void *in_thread(void *(*work)(void *), void *arg)
{
	end_thread(begin_thread(work, arg));
	return arg;
}

struct call {
	struct ww_acquire_ctx *x;
	struct ww_retry *retry;
	int r;
};
static void *resumes(void *arg)
{
	struct call *it = arg;

	it->r = ww_acquire_resume(it->x, &c, it->retry, NULL);
	return NULL;
}

static void is_woken(void *loop, void *task) { MUST(!loop && task); }

/* By a poll, so that it comes into the queue for certain: then a younger context that has the mutex is to give way. */
static void awaits_for_a_moment(struct ww_acquire_ctx *old, struct ww_mutex *m)
{
	const struct ww_waker waker = { is_woken, NULL, m };

	MUST(ww_mutex_lock_poll(m, old, &waker) == -EINPROGRESS && !ww_acquire_end_wait(old));
}

/* It is older than a context that began while it was suspended: that waits for it, and gives way. */
static void keeps_its_age(void)
{
	struct ww_acquire_ctx old, young;
	struct ww_retry retry = none;
	struct call call = { .x = &old, .retry = &retry };

	ww_acquire_init(&old, &c);
	MUST(!ww_acquire_suspend(&old, &retry) && in_use() == 1);
	memset(&old, 0xee, sizeof old);
	ww_acquire_init(&young, &c);
	MUST(!ww_mutex_lock(&a, &young));
	in_thread(resumes, &call);
	MUST(!call.r && !memcmp(&retry, &none, sizeof none) && !ww_mutex_lock(&b, &old));
	awaits_for_a_moment(&old, &a);
	MUST(ww_mutex_lock(&b, &young) == -EDEADLK);
	ww_mutex_unlock(&a);
	ww_mutex_unlock(&b);
	ww_acquire_fini(&old);
	ww_acquire_fini(&young);
}

/* One that was in a loop, and had flags: it is in none, and has none. */
static void goes_on_by_hand(void)
{
	struct ww_retry retry = none;
	struct ww_acquire_ctx x;

	ww_acquire_init(&x, &c);
	ww_acquire_flags(&x, WW_IGNORE_DUPLICATES | WW_INTERRUPTIBLE);
	ww_acquire_begin_tries(&x);
	MUST(!ww_acquire_suspend(&x, &retry) && !ww_acquire_resume(&x, &c, &retry, NULL) && !x.state && x.gives == x.own);
	ww_acquire_begin_tries(&x);
	MUST(!ww_mutex_lock(&a, &x) && ww_mutex_lock(&a, &x) == -EALREADY);
	MUST(!ww_acquire_end(&x));
}

/* Of a context that holds `a`: it got -EDEADLK at `at`, which an older one has; both release nothing yet. */
static void is_told(struct ww_acquire_ctx *young, struct ww_acquire_ctx *old, struct ww_mutex *at)
{
	MUST(!ww_mutex_lock(at, old) && !ww_mutex_lock(&a, young));
	awaits_for_a_moment(old, &a);
	MUST(ww_mutex_lock(at, young) == -EDEADLK);
}

/* If it got -EDEADLK at a mutex that another context reads, it waits for that one's reads. */
static void waits_for_readers(void)
{
	struct ww_acquire_ctx old, young;
	struct ww_retry retry = none;
	struct ww_shared_mutex read;
	struct timespec soon;

	ww_shared_mutex_init(&read, &c);
	ww_acquire_init(&old, &c);
	ww_acquire_init(&young, &c);
	MUST(!ww_shared_mutex_lock_shared(&read, &old) && !ww_mutex_lock(&a, &young));
	awaits_for_a_moment(&old, &a);
	MUST(ww_shared_mutex_lock(&read, &young) == -EDEADLK);
	ww_mutex_unlock(&a);
	MUST(!young.acquired && !ww_acquire_suspend(&young, &retry));
	soon = in_ms(20);
	MUST(ww_acquire_resume(&young, &c, &retry, &soon) == -ETIMEDOUT);
	ww_acquire_end_reads(&old);
	MUST(!ww_acquire_resume(&young, &c, &retry, NULL));
	ww_acquire_fini(&young);
	ww_acquire_fini(&old);
	MUST(!ww_shared_mutex_destroy(&read));
}

/* It waits for the contended mutex, by its number; a time limit leaves the value, and who asks for others first keeps the age. */
static void waits_first(void)
{
	struct ww_acquire_ctx old, young, other;
	struct ww_retry retry = none, copy;
	struct call call = { .x = &young, .retry = &retry };
	struct timespec soon;
	pthread_t thread;

	MUST(!ww_mutex_destroy(&b) && (ww_mutex_init(&b, &c), true)); /* so its number was put back before */
	ww_acquire_init(&old, &c);
	ww_acquire_init(&young, &c);
	is_told(&young, &old, &b);
	MUST(ww_acquire_suspend(&young, &retry) == -EINVAL && young.acquired == 1);
	ww_mutex_unlock(&a);
	MUST(!ww_acquire_suspend(&young, &retry) && ww_acquire_suspend(&young, &retry) == -EINVAL);
	soon = in_ms(20);
	MUST(ww_acquire_resume(&young, &c, &retry, &soon) == -ETIMEDOUT && !young.own && retry.ticket_);
	thread = begin_thread(resumes, &call);
	awaits_waiter(&b);
	MUST(ww_mutex_destroy(&b) == -EBUSY && !ww_acquire_cancel(&young));
	end_thread(thread);
	MUST(call.r == -EINTR && retry.ticket_);
	thread = begin_thread(resumes, &call);
	awaits_waiter(&b);
	ww_mutex_unlock(&b);
	end_thread(thread);
	MUST(!call.r && !young.acquired && !ww_mutex_is_locked(&b) && !b.waiters);
	MUST(!ww_acquire_suspend(&young, &retry) && !ww_mutex_lock(&b, &old));
	MUST(!ww_acquire_resume(&young, &c, &retry, NULL)); /* it has waited before */
	ww_mutex_unlock(&b);

	is_told(&young, &old, &b); /* by hand it waits itself, before it is suspended */
	ww_mutex_unlock(&a);
	ww_mutex_unlock(&b);
	ww_mutex_lock_slow(&b, &young);
	ww_mutex_unlock(&b);
	MUST(!ww_acquire_suspend(&young, &retry) && !ww_mutex_lock(&b, &old) && !ww_acquire_resume(&young, &c, &retry, NULL));
	ww_mutex_unlock(&b);

	is_told(&young, &old, &b);
	ww_mutex_unlock(&a);
	MUST(!ww_acquire_suspend(&young, &retry));
	copy = retry;
	ww_retry_at_once(&retry);
	MUST(!ww_acquire_resume(&young, &c, &retry, NULL) && ww_mutex_is_locked(&b) && !ww_mutex_lock(&a, &young));
	MUST(ww_acquire_resume(&other, &c, &copy, NULL) == -EINVAL && !other.own && ww_retry_drop(&copy) == -EINVAL);
	ww_mutex_unlock(&a);
	ww_mutex_unlock(&b);
	ww_acquire_fini(&young);
	ww_acquire_fini(&old);
}

static void counts(void *loop, void *task)
{
	MUST(!loop);
	++*(unsigned *)task;
}

/* A context of which nobody waits or is counted any more, but by what is suspended. */
static void leaves_nothing(const struct ww_acquire_ctx *x, uint32_t suspended)
{
	MUST(!(b.waiters & 0xffffff) && c.pool->suspended == suspended && (!x->own || !x->acquired));
}

/* By polls it waits without a thread. What ends the wait leaves the value, or the context, and always the age. */
static void resumes_by_polls(void)
{
	static struct ww_class other_class = { .name = "other" };
	unsigned woken = 0;
	const struct ww_waker waker = { counts, NULL, &woken };
	struct ww_acquire_ctx old, young, other;
	struct ww_retry retry = none, copy;
	struct ww_seek seek = { 0 }, another = { 0 };

	MUST(!ww_acquire_resume_poll(&other, &c, &retry, &seek, &waker)); /* zeros */
	MUST(!ww_acquire_suspend(&other, &retry) && (copy = retry, true)); /* nothing to wait for */
	MUST(ww_acquire_resume_poll(&other, &other_class, &retry, &seek, &waker) == -EINVAL && !other.own && retry.ticket_);
	MUST(!ww_acquire_resume_poll(&other, &c, &retry, NULL, NULL) && !memcmp(&retry, &none, sizeof none));
	MUST(ww_acquire_resume_poll(&young, &c, &copy, &seek, &waker) == -EINVAL && !young.own);
	leaves_nothing(&other, 0);
	ww_acquire_fini(&other);

	ww_acquire_init(&old, &c);
	ww_acquire_init(&young, &c);
	is_told(&young, &old, &b);
	ww_mutex_unlock(&a);
	MUST(!ww_acquire_suspend(&young, &retry) && (copy = retry, true));
	MUST(ww_acquire_resume_poll(&young, &c, &retry, &seek, &waker) == -EINPROGRESS && !memcmp(&retry, &none, sizeof none));
	MUST(ww_acquire_resume_poll(&other, &c, &copy, &another, &waker) == -EINVAL && ww_acquire_resume(&other, &c, &copy, NULL) == -EINVAL);
	MUST(ww_retry_drop(&copy) == -EINVAL && !ww_retry_drop(&retry) && ww_mutex_destroy(&b) == -EBUSY && ww_class_free(&c) == -EBUSY);
	MUST(ww_mutex_lock_poll(&a, &young, &waker) == -EBUSY && ww_mutex_lock_poll(&b, &young, &waker) == -EBUSY);
	MUST(ww_shared_mutex_await_poll(&young, &waker) == -EBUSY && ww_acquire_suspend(&young, &copy) == -EBUSY && !woken);
	MUST(ww_acquire_resume_poll(&young, &c, &retry, &seek, &waker) == -EINPROGRESS && ww_poll_take_back(&young, &seek));
	MUST(ww_acquire_resume_poll(&young, &c, &retry, &seek, &waker) == -EINPROGRESS && !woken);
	/* without a waker it ends the wait, and the value names the context */
	MUST(ww_acquire_resume_poll(&young, &c, &retry, &seek, NULL) == -ETIMEDOUT && !young.own && retry.ticket_ && !seek.seat_);
	leaves_nothing(&young, 1);
	MUST(ww_acquire_resume_poll(&young, &c, &retry, NULL, &waker) == -ETIMEDOUT && ww_acquire_resume_poll(&young, &c, &retry, NULL, NULL) == -ETIMEDOUT);
	/* a cancel, too */
	woken = 0;
	MUST(ww_acquire_resume_poll(&young, &c, &retry, &seek, &waker) == -EINPROGRESS && !ww_acquire_cancel(&young) && woken == 1);
	MUST(ww_acquire_resume_poll(&young, &c, &retry, &seek, &waker) == -EINTR && !young.own && retry.ticket_);
	leaves_nothing(&young, 1);
	/* by another call the context goes on */
	MUST(ww_acquire_resume_poll(&young, &c, &retry, &seek, &waker) == -EINPROGRESS && !ww_acquire_end_wait(&young) && !ww_mutex_lock(&a, &young));
	ww_mutex_unlock(&a);
	leaves_nothing(&young, 0);
	MUST(!ww_acquire_suspend(&young, &retry) && !ww_acquire_resume_poll(&young, &c, &retry, &seek, &waker) && ww_mutex_is_locked(&b));
	ww_mutex_unlock(&b);
	/* it waits until the mutex is free, and keeps its age: it is younger than the one that has the mutex still */
	is_told(&young, &old, &b);
	ww_mutex_unlock(&a);
	woken = 0;
	MUST(!ww_acquire_suspend(&young, &retry) && ww_acquire_resume_poll(&young, &c, &retry, &seek, &waker) == -EINPROGRESS);
	ww_mutex_unlock(&b);
	MUST(woken == 1 && !ww_acquire_resume_poll(&young, &c, &retry, &seek, &waker) && !ww_mutex_is_locked(&b));
	leaves_nothing(&young, 0);
	/* it ends amid the wait */
	is_told(&young, &old, &b);
	ww_mutex_unlock(&a);
	MUST(!ww_acquire_suspend(&young, &retry) && ww_acquire_resume_poll(&young, &c, &retry, &seek, &waker) == -EINPROGRESS);
	MUST(!ww_acquire_end(&young) && !young.own && in_use() == 1 && !ww_retry_drop(&retry));
	leaves_nothing(&young, 0);
	ww_mutex_unlock(&b);
	ww_acquire_fini(&old);
}

/* The contended mutex is gone, and another one has its number, by which nobody waits. */
static void is_gone(bool by_number, bool in_same_place)
{
	struct ww_acquire_ctx old, young, other;
	struct ww_mutex here, there, *m = &here, *next = in_same_place ? &here : &there;
	struct ww_retry retry = none;
	struct timespec soon;
	uint32_t number;

	if (by_number)
		MUST(!ww_number_take(&number, &c) && (m = next = &ww_number_at(number, &c)->mutex_));
	else
		ww_mutex_init(m, &c), number = m->number;
	ww_acquire_init(&old, &c);
	ww_acquire_init(&young, &c);
	ww_acquire_init(&other, &c);
	is_told(&young, &old, m);
	ww_mutex_unlock(&a);
	MUST(!ww_acquire_suspend(&young, &retry));
	MUST(by_number ? !ww_number_unlock(number, &old) && !ww_number_put(number, &c) && !ww_number_take(&number, &c) :
		(ww_mutex_unlock(m), !ww_mutex_destroy(m)));
	if (!by_number)
		for (ww_mutex_init(next, &c); !in_same_place && next->number != number; ww_mutex_init(next, &c))
			MUST(!ww_mutex_destroy(next) && (number = next->number, true));
	MUST(!ww_mutex_lock(next, &other));
	soon = in_ms(10000);
	MUST(by_number ? !ww_acquire_resume_poll(&young, &c, &retry, NULL, NULL) : !ww_acquire_resume(&young, &c, &retry, &soon));
	MUST(!(next->waiters & 0xffff));
	MUST(by_number ? !ww_number_unlock(number, &other) && !ww_number_put(number, &c) : (ww_mutex_unlock(next), !ww_mutex_destroy(next)));
	ww_acquire_fini(&other);
	ww_acquire_fini(&young);
	ww_acquire_fini(&old);
}

static void *suspends_one(void *arg)
{
	struct ww_acquire_ctx x;

	ww_acquire_init(&x, &c);
	MUST(!ww_acquire_suspend(&x, arg));
	ww_acquire_init(&x, &c); /* the thread's own seat is in use */
	MUST(!ww_mutex_lock(&a, &x));
	ww_mutex_unlock(&a);
	ww_acquire_fini(&x);
	return NULL;
}

/* The thread that began it has ended; and what is dropped leaves nothing. */
static void outlives_threads(void)
{
	struct ww_retry retry = none;

	for (unsigned k = 0; k < 300; k++) {
		in_thread(suspends_one, &retry);
		MUST(in_use() == 1 && ww_class_free(&c) == -EBUSY && !ww_retry_drop(&retry) && !retry.ticket_ && !in_use());
	}
}

/* Contexts that back off by themselves share an age, but for one that is suspended. */
static void shares_no_age(void)
{
	struct ww_acquire_ctx x, y;
	struct ww_retry retry = none;

	for (unsigned k = 0; k < 40; k++) {
		ww_acquire_init(&x, &c);
		ww_acquire_begin_tries(&x);
		MUST(!ww_mutex_lock(&a, &x) && !ww_acquire_end_try(&x));
		if (k % 3 == 0) {
			MUST(!ww_acquire_suspend(&x, &retry));
			ww_acquire_init(&y, &c);
			MUST(!ww_mutex_lock(&a, &y));
			ww_mutex_unlock(&a);
			ww_acquire_fini(&y);
			MUST(!ww_acquire_resume(&x, &c, &retry, NULL) && !ww_mutex_lock(&a, &x));
			ww_mutex_unlock(&a);
		}
		ww_acquire_fini(&x);
	}
}

/*
 * Once a context was suspended, the next one of its thread has an age of its own: so it is younger than what began in between, which
 * in Wait-Die waits for it and gets no -EDEADLK.
 */
static void leaves_no_age(void)
{
	const struct ww_waker waker = { is_woken, NULL, &b };
	struct ww_acquire_ctx first, between, last;
	struct ww_retry retry = none;
	const ww_seat *own;

	ww_acquire_init(&first, &c);
	ww_acquire_begin_tries(&first);
	MUST(!ww_mutex_lock(&a, &first) && !ww_acquire_end_try(&first));
	own = first.own;
	MUST(!ww_acquire_suspend(&first, &retry));
	ww_acquire_init(&between, &c);
	MUST(!ww_mutex_lock(&a, &between) && !ww_acquire_resume(&first, &c, &retry, NULL));
	ww_acquire_fini(&first);
	ww_acquire_init(&last, &c);
	ww_acquire_begin_tries(&last);
	MUST(last.own == own && !ww_mutex_lock(&b, &last));
	MUST(ww_mutex_lock_poll(&b, &between, &waker) == -EINPROGRESS && !ww_acquire_end_wait(&between));
	ww_mutex_unlock(&a);
	ww_acquire_fini(&between);
	MUST(!ww_acquire_end_try(&last));
	ww_acquire_fini(&last);
}

static void *begins(void *arg)
{
	ww_acquire_init(arg, &c);
	return NULL;
}

/* Who is suspended before it locks anything has an age of its own, though its seat rests: so it is younger than what began before it. */
static void draws_its_age(void)
{
	const struct ww_waker waker = { is_woken, NULL, &b };
	struct ww_acquire_ctx x, between;
	struct ww_retry retry = none;

	ww_acquire_init(&x, &c);
	ww_acquire_begin_tries(&x);
	MUST(!ww_mutex_lock(&a, &x) && !ww_acquire_end_try(&x));
	ww_acquire_fini(&x);
	in_thread(begins, &between);
	ww_acquire_init(&x, &c);
	MUST(!ww_acquire_suspend(&x, &retry) && !ww_acquire_resume(&x, &c, &retry, NULL));
	MUST(!ww_mutex_lock(&a, &between) && !ww_mutex_lock(&b, &x));
	MUST(ww_mutex_lock_poll(&b, &between, &waker) == -EINPROGRESS && !ww_acquire_end_wait(&between));
	ww_mutex_unlock(&a);
	ww_mutex_unlock(&b);
	ww_acquire_fini(&between);
	ww_acquire_fini(&x);
}

/* Half may be suspended. Then others begin as before; and what is suspended in place of another value drops that. */
static void has_a_bound(void)
{
	static struct ww_retry many[4096];
	struct ww_acquire_ctx x;
	unsigned count = 0;
	int r;

	for (;; count++) {
		ww_acquire_init(&x, &c);
		r = ww_acquire_suspend(&x, &many[count]);
		if (r)
			break;
	}
	MUST(r == -EAGAIN && x.own && count == (c.contexts ? c.contexts : 1024 + 256) / 2);
	MUST(ww_acquire_suspend(&x, &many[0]) == -EAGAIN && in_use() == count + 1); /* what the value names stays, too */
	ww_acquire_fini(&x);
	MUST(!ww_retry_drop(&many[0]));
	ww_acquire_init(&x, &c);
	MUST(!ww_acquire_suspend(&x, &many[0]) && in_use() == count);
	for (unsigned k = 0; k < count; k++)
		MUST(!ww_retry_drop(&many[k]));
	ww_acquire_init(&x, &c);
	MUST(!ww_acquire_suspend(&x, &many[0]));
	ww_acquire_init(&x, &c);
	MUST(!ww_acquire_suspend(&x, &many[0]) && in_use() == 1 && !ww_retry_drop(&many[0]));
}

/* No admission takes it for one that runs: neither where tasks wait for their turn, nor in a crowd. */
static void is_not_admitted(void)
{
	static struct ww_retry many[1024];
	const struct ww_waker waker = { is_woken, NULL, &a };
	struct ww_acquire_ctx x;
	struct ww_seek seek = { 0 };
	struct ww_class_counts counts;
	unsigned open;

	c.pool->tasks.due = UINT64_MAX; /* so the limiter, which goes by time, finds no other number meanwhile */
	ww_class_stats(&c, &counts);
	open = (unsigned)counts.task_contexts;
	for (unsigned k = 0; k < open; k++)
		MUST(!ww_acquire_init_poll(&x, &c, NULL, &waker) && !ww_acquire_suspend(&x, &many[k]));
	MUST(!ww_acquire_init_poll(&x, &c, &seek, &waker)); /* as many may run as before */
	ww_class_stats(&c, &counts);
	MUST(counts.task_contexts == (2 * open < c.pool->tasks.count ? 2 * open : c.pool->tasks.count));
	ww_acquire_fini(&x);
	MUST(!ww_acquire_resume(&x, &c, &many[0], NULL));
	ww_acquire_fini(&x);
	for (unsigned k = 1; k < open; k++)
		MUST(!ww_retry_drop(&many[k]));
	ww_class_stats(&c, &counts);
	MUST(counts.task_contexts == open);
	c.pool->tasks.due = 0;

	crowds(&c, 1);
	is_awake();
	ww_acquire_init(&x, &c);
	MUST(ww_mine.permit.it && !ww_acquire_suspend(&x, &many[0]));
	ww_mine.permit.begins = 0;
	ww_mine.permit.ends = 0; /* its lease is over, and its thread begins the next one by a permit */
	ww_mine.permit.it->ends = 0;
	is_awake();
	ww_acquire_init(&x, &c);
	MUST(ww_mine.permit.it && ww_mine.permit.ends);
	ww_acquire_fini(&x);
	MUST(!ww_retry_drop(&many[0]));
	set_crowded(c.pool, false);
}

/* In both processes; and while another context runs the class is lost in the child, where the value can be dropped. */
static void forks(void)
{
	struct ww_acquire_ctx x, y;
	struct ww_retry retry = none;
	int status;

	ww_acquire_init(&x, &c);
	MUST(!ww_acquire_suspend(&x, &retry));
	for (unsigned is_used = 0; is_used < 2; is_used++) {
		if (is_used)
			ww_acquire_init(&y, &c);
		if (!fork()) {
			MUST(ww_acquire_resume(&x, &c, &retry, NULL) == (is_used ? -EINVAL : 0));
			if (is_used)
				MUST(!ww_retry_drop(&retry) && ww_acquire_init_checked(&x, &c) == -EINVAL);
			else
				MUST(!ww_mutex_lock(&a, &x) && (ww_mutex_unlock(&a), ww_acquire_fini(&x), ww_acquire_init(&x, &c), true));
			_exit(7);
		}
		MUST(wait(&status) > 0 && WIFEXITED(status) && WEXITSTATUS(status) == 7);
	}
	ww_acquire_fini(&y);
	MUST(!ww_acquire_resume(&x, &c, &retry, NULL));
	ww_acquire_fini(&x);
}

/* What else is refused. */
static void misuses(void)
{
	static struct ww_class other = { .name = "other" };
	struct timespec no_time = { 0, 1000000000 };
	struct ww_acquire_ctx x = { 0 }, y;
	struct ww_retry retry = none, copy, wrong = { 1, 1, 1 }, beyond = { .ticket_ = 1, .seat_ = UINT32_MAX };
	const struct ww_waker waker = { is_woken, NULL, &a };

	MUST(ww_acquire_suspend(&x, &retry) == -EINVAL && !ww_retry_drop(&retry) && ww_retry_drop(&wrong) == -EINVAL);
	MUST(ww_acquire_resume(&y, &c, &beyond, NULL) == -EINVAL && ww_retry_drop(&beyond) == -EINVAL);
	MUST(!ww_acquire_resume(&x, &c, &retry, NULL) && !ww_mutex_lock(&a, &x));
	ww_acquire_init(&y, &c);
	MUST(ww_mutex_lock_poll(&a, &y, &waker) == -EINPROGRESS && ww_acquire_suspend(&y, &retry) == -EBUSY);
	MUST(!ww_acquire_end(&y));
	ww_mutex_unlock(&a);
	MUST(!ww_acquire_suspend(&x, &retry));
	copy = retry;
	MUST(ww_acquire_resume(&x, &c, &retry, &no_time) == -EINVAL && !x.own && retry.ticket_);
	MUST(ww_acquire_resume(&x, &other, &retry, NULL) == -EINVAL && !ww_class_open(&other));
	MUST(ww_acquire_resume(&x, &other, &retry, NULL) == -EINVAL && !ww_class_free(&other) && retry.ticket_);
	MUST(!ww_acquire_resume(&x, &c, &retry, NULL) && ww_acquire_resume(&y, &c, &copy, NULL) == -EINVAL && ww_retry_drop(&copy) == -EINVAL);
	MUST(!ww_acquire_suspend(&x, &retry) && ww_retry_drop(&copy) == -EINVAL && !ww_retry_drop(&retry));
}

static void of_class(uint32_t contexts, bool is_wait_die)
{
	struct ww_retry copy = none, retry = none;
	struct ww_acquire_ctx x;

	c.is_wait_die = is_wait_die;
	MUST(!ww_class_limit(&c, 0, contexts));
	ww_mutex_init(&a, &c);
	ww_mutex_init(&b, &c);
	if (!is_wait_die) {
		keeps_its_age();
		goes_on_by_hand();
		waits_for_readers();
		waits_first();
		resumes_by_polls();
		for (unsigned k = 0; k < 3; k++)
			is_gone(k == 2, k);
	}
	outlives_threads();
	shares_no_age();
	if (is_wait_die) {
		leaves_no_age();
		draws_its_age();
	}
	has_a_bound();
	if (!contexts)
		is_not_admitted();
	misuses();
	forks();
	ww_acquire_init(&x, &c);
	MUST(!ww_acquire_suspend(&x, &retry) && !ww_mutex_destroy(&a) && !ww_mutex_destroy(&b) && ww_class_free(&c) == -EBUSY);
	copy = retry;
	MUST(!ww_acquire_resume(&x, &c, &retry, NULL));
	ww_acquire_fini(&x);
	MUST(!in_use() && !ww_class_free(&c));
	MUST(ww_acquire_resume(&x, &c, &copy, NULL) == -EINVAL && ww_retry_drop(&copy) == -EINVAL);
	MUST(!ww_class_open(&c) && ww_acquire_resume(&x, &c, &copy, NULL) == -EINVAL && !ww_class_free(&c));
}

int main(void)
{
	of_class(0, false);
	of_class(8, false);
	of_class(0, true);
	return 0;
}
