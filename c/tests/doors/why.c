/*
 * Who is in the way: each answer of ww_why.h.
 *
 * After -EDEADLK and a time limit, at mutexes of each kind: where the call ended, who has that, and who wants what the context has; the
 * cycle of waits, if there is one; who has a mutex, reads it or waits for it, also without a context; labels, which end with their
 * contexts; and counts, of this context alone.
 */
#include "../mutex_test.h"
#include "ww_number.h"
#include "ww_poll.h"
#include "ww_retry.h"
#include "ww_shared.h"
#include "ww_why.h"

enum { OLD = 1, YOUNG = 2, THIRD = 3 };
static struct ww_class c;
static struct ww_mutex a, b, m;
static struct ww_shared_mutex s;
static struct ww_acquire_ctx old, young, third;
static struct ww_why why;

static void begin_all(void)
{
	ww_acquire_init(&old, &c);
	ww_acquire_init(&young, &c);
	ww_acquire_init(&third, &c);
	MUST(!ww_acquire_label(&old, OLD) && !ww_acquire_label(&young, YOUNG) && !ww_acquire_label(&third, THIRD));
}
static void end_all(void)
{
	ww_acquire_fini(&old);
	ww_acquire_fini(&young);
	ww_acquire_fini(&third);
}

static bool is(const struct ww_place *at, const struct ww_mutex *lock, uint64_t label, enum ww_part part)
{
	return at->mutex == lock && (!lock || at->number == lock->number) && at->by.label == label && at->by.part == part;
}

/* How many have it or wait for it, and whether this one does so among them. */
static size_t users(const struct ww_mutex *lock, uint64_t label, enum ww_part part)
{
	struct ww_user all[8];
	size_t count = ww_mutex_users(lock, all, 8);

	MUST(count <= 8 && ww_mutex_users(lock, NULL, 0) == count);
	for (size_t k = 0; k < count; k++)
		if (all[k].label == label && all[k].part == part)
			return count;
	return 0;
}

struct call {
	struct ww_acquire_ctx *x;
	struct ww_mutex *m;
};
static void *locks(void *arg)
{
	struct call *it = arg;

	MUST(!ww_mutex_lock(it->m, it->x));
	return NULL;
}
static pthread_t waits(struct call *it)
{
	pthread_t thread = begin_thread(locks, it);

	awaits_waiter(it->m);
	return thread;
}

/* It got nowhere yet, and then it meets an older one, which waits for what it has. */
static void two_meet(void)
{
	struct call call = { &old, &a };
	struct ww_acquire_counts counts;
	struct ww_place path[4];
	pthread_t thread;
	uint64_t waits_before = 0;

	begin_all();
	MUST(!ww_acquire_why(&young, &why) && is(&why.at, NULL, 0, WW_NOBODY) && is(&why.wanted, NULL, 0, WW_NOBODY));
	MUST(!ww_acquire_count(&young, &counts) && !counts.waits && !counts.back_offs && !counts.waited_ns);
	MUST(!ww_mutex_lock(&b, &old) && !ww_mutex_lock(&a, &young));
	for (counts.waited_ns = 0; !c.is_wait_die && counts.waited_ns < 1000000;) { /* its time may come before it waits */
		struct timespec soon = in_ms(20);

		MUST(ww_mutex_lock_until(&b, &young, &soon) == -ETIMEDOUT && !ww_acquire_why(&young, &why) && is(&why.at, &b, OLD, WW_HOLDS));
		MUST(is(&why.wanted, NULL, 0, WW_NOBODY) && !ww_acquire_cycle(&young, path, 4));
		MUST(!ww_acquire_count(&young, &counts) && counts.waits == ++waits_before && !counts.back_offs);
	}
	thread = waits(&call);
	MUST(users(&a, OLD, WW_WAITS) == 2 && users(&a, YOUNG, WW_HOLDS) == 2 && users(&b, OLD, WW_HOLDS) == 1 && !users(&m, 0, WW_WAITS));
	MUST(ww_mutex_lock(&b, &young) == -EDEADLK && !ww_acquire_why(&young, &why));
	MUST(is(&why.at, &b, OLD, WW_HOLDS) && is(&why.wanted, &a, OLD, WW_WAITS) && why.at.by.place == why.wanted.by.place);
	MUST(ww_acquire_cycle(&young, path, 4) == 2 && is(&path[0], &b, OLD, WW_HOLDS) && is(&path[1], &a, YOUNG, WW_HOLDS));
	MUST(!ww_acquire_cycle(&young, path, 1));
	MUST(!ww_acquire_count(&young, &counts) && counts.waits == waits_before + 1 && counts.back_offs == 1);
	MUST(c.is_wait_die || counts.waited_ns >= 1000000);
	ww_mutex_unlock(&a);
	end_thread(thread);
	MUST(!ww_acquire_why(&young, &why) && is(&why.wanted, NULL, 0, WW_NOBODY));
	ww_mutex_unlock(&a);
	ww_mutex_unlock(&b);
	MUST(!ww_acquire_why(&young, &why) && is(&why.at, &b, 0, WW_NOBODY) && !ww_acquire_cycle(&young, path, 4));
	MUST(!ww_acquire_count(&old, &counts) && counts.waits == 1 && !counts.back_offs);
	end_all();
}

/* A chain is no cycle, though the one in the middle has to give way. */
static void three_meet(void)
{
	struct call call = { &old, &a };
	struct ww_place path[4];
	pthread_t thread;

	begin_all();
	MUST(!ww_mutex_lock(&m, &old) && !ww_mutex_lock(&a, &young) && !ww_mutex_lock(&b, &third));
	thread = waits(&call);
	MUST(!ww_acquire_why(&third, &why) && is(&why.at, NULL, 0, WW_NOBODY) && is(&why.wanted, NULL, 0, WW_NOBODY));
	MUST(ww_mutex_lock(&b, &young) == -EDEADLK && !ww_acquire_cycle(&young, path, 4) && !ww_acquire_why(&young, &why));
	MUST(is(&why.at, &b, THIRD, WW_HOLDS) && is(&why.wanted, &a, OLD, WW_WAITS));
	ww_mutex_unlock(&b);
	ww_mutex_unlock(&a);
	end_thread(thread);
	ww_mutex_unlock(&a);
	ww_mutex_unlock(&m);
	end_all();
}

/* The mutex of number 0 is one like any other, and its holder knows who waits for it. */
static void waits_for_the_first(void)
{
	uint32_t number;
	struct call call = { &old, NULL };
	pthread_t thread;

	MUST(!ww_number_take(&number, &c) && !number);
	call.m = &ww_number_at(number, &c)->mutex_;
	begin_all();
	MUST(!ww_number_lock(number, &young) && !ww_acquire_why(&young, &why) && !why.wanted.mutex);
	thread = begin_thread(locks, &call);
	for (unsigned k = 0; k < 5000 && !why.wanted.mutex; k++)
		MUST(!usleep(1000) && !ww_acquire_why(&young, &why));
	MUST(is(&why.wanted, call.m, OLD, WW_WAITS) && users(call.m, OLD, WW_WAITS) == 2);
	MUST(!ww_number_unlock(number, &young));
	end_thread(thread);
	MUST(!ww_number_unlock(number, &old) && !ww_number_put(number, &c));
	end_all();
}

/* Readers are named, though each waits for the other's slot. */
static void readers_meet(void)
{
	struct timespec soon = in_ms(20);
	struct ww_place path[4];

	begin_all();
	MUST(!ww_shared_mutex_lock_shared(&s, &old) && !ww_shared_mutex_lock_shared(&s, &third));
	MUST(users(&s.mutex_, OLD, WW_READS) == 2 && users(&s.mutex_, THIRD, WW_READS) == 2);
	if (!c.is_wait_die) {
		MUST(ww_shared_mutex_lock_until(&s, &young, &soon) == -ETIMEDOUT && !ww_acquire_why(&young, &why));
		MUST(why.at.mutex == &s.mutex_ && (why.at.by.label == OLD || why.at.by.label == THIRD) && !ww_acquire_cycle(&young, path, 4));
	}
	MUST(!ww_shared_mutex_unlock_shared(&s, &old) && !ww_shared_mutex_unlock_shared(&s, &third));
	MUST(!ww_shared_mutex_lock(&s, &old) && users(&s.mutex_, OLD, WW_HOLDS) == 1 && !ww_shared_mutex_unlock(&s, &old));
	end_all();
}

static void is_woken(void *loop, void *task) { MUST(!loop && task); }

static void *begins(void *arg)
{
	ww_acquire_init(arg, &c);
	return NULL;
}

/* Who has a label has an age of its own, though its seat rests: in Wait-Die what began before it waits for it, and gets no -EDEADLK. */
static void labelled_has_its_age(void)
{
	const struct ww_waker waker = { is_woken, NULL, &b };

	ww_acquire_init(&old, &c);
	ww_acquire_begin_tries(&old);
	MUST(!ww_mutex_lock(&a, &old) && !ww_acquire_end_try(&old));
	ww_acquire_fini(&old);
	end_thread(begin_thread(begins, &third));
	ww_acquire_init(&young, &c);
	MUST(!ww_acquire_label(&young, YOUNG) && !ww_mutex_lock(&a, &third) && !ww_mutex_lock(&b, &young));
	MUST(ww_mutex_lock_poll(&b, &third, &waker) == -EINPROGRESS && !ww_acquire_end_wait(&third));
	ww_mutex_unlock(&a);
	ww_mutex_unlock(&b);
	ww_acquire_fini(&third);
	ww_acquire_fini(&young);
}

/* A label ends with its context, and goes on with one that is suspended. */
static void labels_end(void)
{
	const struct ww_waker waker = { is_woken, NULL, &a };
	struct ww_retry retry = { 0 };
	struct ww_acquire_counts counts;
	struct call call = { NULL, &a };
	uint32_t number;
	pthread_t thread;

	for (unsigned k = 0; k < 40; k++) {
		ww_acquire_init(&old, &c);
		if (k % 3 == 0)
			ww_acquire_begin_tries(&old);
		if (k % 2)
			MUST(!ww_acquire_label(&old, OLD));
		MUST(!ww_mutex_lock(&a, &old) && users(&a, k % 2 ? OLD : 0, WW_HOLDS) == 1);
		ww_mutex_unlock(&a);
		if (k % 4 < 2)
			ww_acquire_fini(&old);
		else
			MUST(!ww_acquire_end(&old));
	}
	ww_acquire_init(&old, &c);
	MUST(!ww_acquire_label(&old, OLD) && !ww_acquire_suspend(&old, &retry) && !ww_acquire_resume(&old, &c, &retry, NULL));
	MUST(!ww_number_take(&number, &c) && !ww_number_lock(number, &old) && users(&ww_number_at(number, &c)->mutex_, OLD, WW_HOLDS) == 1);
	MUST(!ww_number_unlock(number, &old) && !ww_number_put(number, &c) && !ww_mutex_lock(&a, &old));
	thread = waits(&call); /* without a context */
	MUST(users(&a, 0, WW_WAITS) == 2);
	ww_acquire_init(&young, &c);
	MUST(ww_mutex_lock_poll(&a, &young, &waker) == -EINPROGRESS && ww_acquire_why(&young, &why) == -EBUSY && users(&a, 0, WW_WAITS) == 3);
	MUST(!ww_acquire_cycle(&young, NULL, 0) && !ww_acquire_end(&young));
	ww_mutex_unlock(&a);
	end_thread(thread);
	ww_mutex_unlock(&a);
	ww_acquire_fini(&old);
	MUST(ww_acquire_label(&old, OLD) == -EINVAL && ww_acquire_why(&old, &why) == -EINVAL && ww_acquire_count(&old, &counts) == -EINVAL);
	MUST(!ww_acquire_cycle(&old, NULL, 0));
}

int main(void)
{
	for (unsigned kind = 0; kind < 2; kind++) {
		c.is_wait_die = (int)kind;
		ww_mutex_init(&a, &c);
		ww_mutex_init(&b, &c);
		ww_mutex_init(&m, &c);
		ww_shared_mutex_init(&s, &c);
		two_meet();
	two_meet(); /* by the same seats, but of what others counted by these nothing counts */
		if (!kind)
			three_meet();
		waits_for_the_first();
		readers_meet();
		labels_end();
		if (c.is_wait_die)
			labelled_has_its_age();
		MUST(!ww_mutex_destroy(&a) && !ww_mutex_destroy(&b) && !ww_mutex_destroy(&m) && !ww_shared_mutex_destroy(&s));
		MUST(!ww_mutex_users(&a, NULL, 0) && !ww_class_free(&c));
	}
	return 0;
}
