/*
 * Mutexes by their numbers: what each call of ww_number.h returns, how they mix with those of ww_mutex.h.
 *
 * Also which context gets -EDEADLK, and sums by threads.  Compiled with -DWW_DEBUG, over the debug library: which calls
 * that reports.
 */
#include "../mutex_test.h"
#include "ww_shared.h"
#include <sys/wait.h>

static DEFINE_WW_CLASS(wound_wait);
static DEFINE_WD_CLASS(wait_die);
static struct ww_class *c;
enum { COUNT = 4, BEYOND = 4 * 17 }; /* no number of the class is as great */
static uint32_t n[COUNT];
static struct ww_acquire_ctx x, y;
static const struct timespec past = { 0, 0 };

/* The mutex of a number, for calls by address. */
static struct ww_shared_mutex *shared_at(uint32_t n) { return ww_number_at(n, c); }
static struct ww_mutex *mutex_at(uint32_t n) { return &ww_number_at(n, c)->mutex_; }

/* So that the debug library makes nothing up. */
static void begins(struct ww_acquire_ctx *ctx)
{
	ww_acquire_init(ctx, c);
	ctx->deadlock_inject_countdown = ~0u;
}

static void takes(void)
{
	for (unsigned k = 0; k < COUNT; k++)
		MUST(!ww_number_take(&n[k], c));
}

static void puts_back(void)
{
	for (unsigned k = 0; k < COUNT; k++)
		MUST(!ww_number_put(n[k], c));
}

/* ---- numbers ---- */

static void are_of_one_pool(void)
{
	struct ww_mutex m;
	uint32_t other;

	takes();
	for (unsigned k = 0; k < COUNT; k++)
		for (unsigned j = 0; j < k; j++)
			MUST(n[j] != n[k]);
	MUST(ww_number_take(&other, c) == -ENOSPC && ww_mutex_init_checked(&m, c) == -ENOSPC);
	MUST(ww_class_free(c) == -EBUSY && !ww_number_put(n[0], c));
	MUST(!ww_mutex_init_checked(&m, c) && ww_number_take(&other, c) == -ENOSPC);
	MUST(!ww_mutex_destroy(&m) && !ww_number_take(&n[0], c));
	puts_back();
	MUST(!ww_class_free(c));
}

/* A number that is left comes free by itself: at once, or when nobody holds or reads it any more. */
static void leaves(void)
{
	uint32_t other;

	takes();
	begins(&x);
	ww_number_leave(n[1], c);
	MUST(!ww_number_take(&other, c) && other == n[1] && !ww_number_lock(n[0], &x));
	ww_number_leave(n[0], c);
	MUST(ww_number_take(&other, c) == -ENOSPC && ww_class_free(c) == -EBUSY && ww_shared_mutex_is_written_by(shared_at(n[0]), &x));
	MUST(!ww_number_unlock(n[0], &x) && !ww_number_take(&other, c) && other == n[0] && ww_number_take(&other, c) == -ENOSPC);
	MUST(!ww_shared_mutex_lock_shared_until(shared_at(n[0]), &x, NULL) && !ww_shared_mutex_lock_shared_until(shared_at(n[1]), &x, NULL));
	ww_number_leave(n[0], c);
	MUST(ww_number_take(&other, c) == -ENOSPC && ww_shared_mutex_is_read_by(shared_at(n[0]), &x));
	ww_acquire_end_reads(&x);
	MUST(!ww_number_take(&other, c) && other == n[0]);
	/* By its place, too. */
	MUST(ww_shared_mutex_trylock_shared(ww_number_at(n[0], c), &x) == 1 && ww_shared_mutex_is_read_by(shared_at(n[0]), &x));
	MUST(!ww_number_at(BEYOND, c));
	ww_number_leave(n[0], c);
	ww_acquire_end_reads(&x);
	ww_acquire_fini(&x);
	MUST(!ww_number_put(n[1], c) && !ww_number_put(n[2], c) && !ww_number_put(n[3], c) && !ww_class_free(c));
}

/* By the calls of shared mutexes contexts read it beside each other, and none writes it meanwhile. */
static void is_read(void)
{
	MUST(!ww_number_take(&n[0], c));
	begins(&x);
	begins(&y);
	MUST(ww_shared_mutex_trylock_shared(shared_at(n[0]), &x) == 1 && ww_shared_mutex_trylock_shared(shared_at(n[0]), &y) == 1);
	MUST(!ww_shared_mutex_trylock(shared_at(n[0]), &y) && !ww_shared_mutex_unlock_shared(shared_at(n[0]), &x) && !x.acquired);
	MUST(ww_shared_mutex_trylock(shared_at(n[0]), &y) == 1 && !ww_shared_mutex_trylock_shared(shared_at(n[0]), &x));
	MUST(!ww_number_unlock(n[0], &y) && ww_shared_mutex_trylock_shared(shared_at(n[0]), &x) == 1);
	ww_acquire_end_reads(&x);
	ww_acquire_end_reads(&y);
	ww_acquire_fini(&x);
	ww_acquire_fini(&y);
	MUST(!ww_number_put(n[0], c) && !ww_class_free(c));
}

/* By hand nothing lists what it holds. */
static void unlock_each(struct ww_acquire_ctx *by)
{
	for (unsigned k = 0; k < COUNT; k++)
		if (ww_shared_mutex_is_written_by(shared_at(n[k]), by))
			MUST(!ww_number_unlock(n[k], by));
}

/* ---- one context ---- */

static void by_a_context(void)
{
	begins(&x);
	MUST(!ww_shared_mutex_is_written_by(shared_at(n[0]), &x) && !ww_mutex_is_locked(mutex_at(n[0])));
	MUST(!ww_number_lock(n[0], &x) && x.acquired == 1 && ww_shared_mutex_is_written_by(shared_at(n[0]), &x) && ww_mutex_is_locked(mutex_at(n[0])));
	MUST(ww_number_lock(n[0], &x) == -EALREADY && !ww_number_trylock(n[0], &x) && x.acquired == 1);
	MUST(ww_number_put(n[0], c) == -EBUSY && ww_shared_mutex_is_written_by(shared_at(n[0]), &x));
	MUST(!ww_mutex_lock_until(mutex_at(n[1]), &x, &past) && !ww_mutex_lock_until(mutex_at(n[2]), &x, NULL));
	MUST(ww_number_trylock(n[3], &x) == 1 && x.acquired == 4);
	for (unsigned k = 0; k < COUNT; k++)
		MUST(!mutex_at(n[k])->ctx /* since a context may move */ && ww_mutex_is_held_by(mutex_at(n[k]), &x));
	MUST(!ww_mutex_is_held_by(mutex_at(n[0]), &y) && !ww_mutex_is_held_by(mutex_at(n[0]), NULL));
	MUST(!ww_number_unlock(n[1], &x) && x.acquired == 3 && !ww_mutex_is_locked(mutex_at(n[1])));
	MUST(!ww_mutex_is_held_by(mutex_at(n[1]), &x));
	ww_acquire_done(&x);
	unlock_each(&x);
	MUST(!x.acquired && !ww_mutex_is_locked(mutex_at(n[0])));
	ww_acquire_unlock_all(&x);
	ww_acquire_fini(&x);
}

/* A mutex at such an address that it gets the number, where that is free. */
static struct ww_mutex *as_for(uint32_t number)
{
	static struct ww_mutex any[1024];
	struct ww_mutex *m = any;

	begins(&x);
	while (ww_likely_(m, x.span) / 64 != number / 4)
		MUST(++m < any + 1024);
	ww_acquire_fini(&x);
	return m;
}

/* A number that was never taken, was put back before, or is a mutex's with an address: nobody gets any of these twice. */
static void puts_no_other_back(void)
{
	struct ww_mutex *m;

	MUST(ww_number_put(0, c) == -EINVAL && ww_number_put(COUNT - 1, c) == -EINVAL);
	takes();
	MUST(!ww_number_put(n[0], c) && ww_number_put(n[0], c) == -EINVAL && ww_number_at(n[0], c));
	m = as_for(n[0]);
	ww_mutex_init(m, c);
	MUST(m->number == n[0] && ww_number_put(n[0], c) == -EINVAL);
	MUST(!ww_mutex_lock(m, NULL) && ww_number_put(n[0], c) == -EINVAL);
	ww_mutex_unlock(m);
	MUST(!ww_mutex_destroy(m) && ww_number_put(n[0], c) == -EINVAL && !ww_number_take(&n[0], c));
	puts_back();
}

/* The debug library reports each of these, which changes nothing. */
static void refuses(void)
{
	struct timespec none = { 0, -1 };

	MUST(ww_number_put(BEYOND, c) == -EINVAL);
	begins(&x);
	MUST(ww_number_lock(BEYOND, &x) == -EINVAL && ww_mutex_lock_until(mutex_at(n[0]), &x, &none) == -EINVAL);
	MUST(ww_number_unlock(n[0], &x) == -EINVAL && ww_number_unlock(BEYOND, &x) == -EINVAL && !x.acquired);
	ww_acquire_fini(&x);
	MUST(ww_number_lock(n[0], &x) == -EINVAL && ww_mutex_lock_until(mutex_at(n[0]), &x, NULL) == -EINVAL);
	MUST(!ww_number_trylock(n[0], &x) && ww_number_unlock(n[0], &x) == -EINVAL && !ww_shared_mutex_is_written_by(shared_at(n[0]), &x));
	ww_acquire_unlock_all(&x);
	MUST(!ww_mutex_is_locked(mutex_at(n[0])));
}

/* A number that was never taken: the call that is compiled into callers locks it like any other, and each other call refuses it. */
static void was_never_taken(void)
{
	uint32_t it = 0;
	int r;

	while (ww_number_at(it, c))
		it++;
	begins(&x);
	begins(&y);
	r = ww_number_lock(it, &x);
	MUST((!r && x.acquired == 1) || (r == -EINVAL && !x.acquired));
	MUST(ww_number_lock(it, &y) == -EINVAL && !ww_number_trylock(it, &y) && !y.acquired);
	MUST(r || (!ww_number_unlock(it, &x) && !x.acquired));
	ww_acquire_fini(&x);
	ww_acquire_fini(&y);
}

/* In a loop they are listed with the others: duplicates, trylocks, releases one by one, marks, and what is left behind it. */
/* Memory that is all zero is no context, nor is one that has ended. */
static void no_context(void)
{
	struct ww_acquire_ctx z;

	memset(&z, 0, sizeof z);
	for (unsigned k = 0; k < 2; k++) {
		MUST(!ww_number_trylock(n[0], &z) && ww_number_lock(n[0], &z) == -EINVAL && ww_number_unlock(n[0], &z) == -EINVAL);
		MUST(ww_mutex_lock_until(mutex_at(n[0]), &z, &past) == -EINVAL && !ww_shared_mutex_is_written_by(shared_at(n[0]), &z) && !ww_mutex_is_locked(mutex_at(n[0])));
		ww_acquire_unlock_all(&z);
		begins(&z);
		ww_acquire_fini(&z);
	}
}

static void in_a_loop(void)
{
	struct ww_mutex m;
	size_t mark;

	MUST(!ww_number_put(n[3], c));
	ww_mutex_init(&m, c);
	begins(&x);
	ww_until_all_locked(&x) {
		MUST(!ww_number_lock(n[0], &x) && ww_number_lock(n[0], &x) == -EALREADY && !ww_number_trylock(n[0], &x));
		mark = ww_acquire_mark(&x);
		MUST(!ww_mutex_lock(&m, &x) && ww_number_trylock(n[1], &x) == 1 && !ww_mutex_lock_until(mutex_at(n[2]), &x, &past));
		ww_retry_on_contention(&x);
		MUST(x.acquired == 4 && ww_shared_mutex_is_written_by(shared_at(n[1]), &x) && ww_mutex_is_locked(mutex_at(n[2])));
		MUST(!ww_number_unlock(n[1], &x) && ww_number_unlock(n[1], &x) == -EINVAL && x.acquired == 3);
		MUST(!ww_number_lock(n[1], &x) && ww_number_put(n[1], c) == -EBUSY);
		ww_acquire_unlock_to(&x, mark);
		MUST(x.acquired == 1 && ww_shared_mutex_is_written_by(shared_at(n[0]), &x) && !ww_mutex_is_locked(&m) && !ww_mutex_is_locked(mutex_at(n[1])));
		ww_acquire_flags(&x, WW_IGNORE_DUPLICATES);
		MUST(!ww_number_lock(n[1], &x) && !ww_mutex_lock(&m, &x) && !ww_number_lock(n[0], &x) && x.acquired == 3);
	}
	MUST(!ww_number_lock(n[2], &x) && !ww_number_unlock(n[0], &x) && x.acquired == 3);
	ww_acquire_unlock_all(&x);
	MUST(!x.acquired && !ww_mutex_is_locked(mutex_at(n[2])) && !ww_mutex_is_locked(&m));
	ww_acquire_fini(&x);
	MUST(!ww_mutex_destroy(&m) && !ww_number_take(&n[3], c));
}

/* An address that a call of ww_mutex.h leaves, and an unlock by number keeps, says nothing. */
static void leaves_an_address(void)
{
	begins(&x);
	MUST(!ww_mutex_lock(mutex_at(n[0]), &x) && ww_shared_mutex_is_written_by(shared_at(n[0]), &x));
	MUST(!ww_number_unlock(n[0], &x) && !ww_shared_mutex_is_written_by(shared_at(n[0]), &x));
	ww_until_all_locked(&x)
		MUST(!ww_shared_mutex_is_written_by(shared_at(n[0]), &x) && ww_number_unlock(n[0], &x) == -EINVAL);
	ww_acquire_unlock_all(&x);
	ww_acquire_fini(&x);
}

/* The context that is in its way ends, and the loop goes back: the number at which that was comes first. */
static void backs_off_in_a_loop(void)
{
	unsigned bodies = 0;

	begins(&y);
	begins(&x);
	MUST(!ww_number_lock(n[0], &y));
	if (c != &wait_die)
		unlock_each(&y);
	ww_until_all_locked(&x) {
		bodies++;
		MUST(!ww_number_lock(n[1], &x) && ww_mutex_is_held_by(mutex_at(n[0]), &x) == (bodies == 2));
		MUST(!ww_shared_mutex_is_written_by(shared_at(n[0]), &x)); /* which it has yet to ask for */
		if (ww_number_lock(n[0], &x))
			MUST(ww_is_contended(&x) && ww_number_lock(n[2], &x) == -EINVAL && !ww_number_unlock(n[0], &y));
		ww_retry_on_contention(&x);
		MUST(!ww_number_trylock(n[0], &x) && !ww_number_lock(n[2], &x));
	}
	MUST(bodies == (c == &wait_die ? 2 : 1) && x.acquired == 3);
	ww_acquire_unlock_all(&x);
	ww_acquire_fini(&x);
	ww_acquire_fini(&y);
}

/* Outside a loop they stand beside each other, and one may begin then. */
static void goes_with_addresses(void)
{
	struct ww_mutex m, other;

	MUST(!ww_number_put(n[2], c) && !ww_number_put(n[3], c));
	ww_mutex_init(&m, c);
	ww_mutex_init(&other, c);
	begins(&x);
	MUST(!ww_number_lock(n[0], &x) && !ww_mutex_lock(&m, &x) && ww_number_trylock(n[1], &x) && x.acquired == 3);
	MUST(!ww_number_unlock(n[0], &x));
	ww_mutex_unlock(&m);
	MUST(!ww_number_unlock(n[1], &x) && !x.acquired);
	ww_until_all_locked(&x) {
		MUST(!ww_mutex_lock(&m, &x) && !ww_mutex_lock(&other, &x));
		ww_mutex_unlock(&m);
	}
	ww_acquire_unlock_all(&x);
	MUST(!x.acquired);
	ww_acquire_fini(&x);
	begins(&x);
	MUST(!ww_mutex_lock_all(&x, (struct ww_mutex *[]){ &m, &other }, 2));
	ww_mutex_unlock(&other);
	ww_mutex_unlock(&m);
	ww_acquire_fini(&x);
	MUST(!ww_mutex_destroy(&m) && !ww_mutex_destroy(&other) && !ww_number_take(&n[2], c) && !ww_number_take(&n[3], c));
}

/* ---- without a context ---- */

static void without_one(void)
{
	MUST(!ww_mutex_lock_until(mutex_at(n[0]), NULL, NULL) && ww_mutex_is_locked(mutex_at(n[0])) && ww_number_put(n[0], c) == -EBUSY);
	MUST(!ww_mutex_trylock(mutex_at(n[0]), NULL) && ww_mutex_lock_until(mutex_at(n[0]), NULL, &past) == -ETIMEDOUT);
	MUST(ww_mutex_trylock(mutex_at(n[1]), NULL) == 1);
	/* All contexts are in use. */
	MUST(ww_acquire_init_checked(&x, c) == -EAGAIN && !ww_mutex_trylock(mutex_at(n[2]), NULL));
	ww_mutex_unlock(mutex_at(n[0]));
	begins(&x);
	MUST(!ww_number_lock(n[0], &x) && !ww_number_trylock(n[1], &x));
	MUST(ww_mutex_lock_until(mutex_at(n[1]), &x, &past) == -ETIMEDOUT && x.acquired == 1);
	ww_mutex_unlock(mutex_at(n[1]));
	MUST(!ww_mutex_lock_until(mutex_at(n[1]), &x, &past) && x.acquired == 2);
	unlock_each(&x);
	ww_acquire_fini(&x);
}

/* ---- waits ---- */

static void *locks_another(void *unused)
{
	MUST(!ww_number_lock(n[1], &x) && x.acquired == 1);
	ww_acquire_unlock_all(&x);
	return unused;
}

/* The number for which a loop waits first is left meanwhile: its body can't ask for that, so the loop doesn't hold it on. */
static void is_left_amid_a_wait(void)
{
	enum { WAITERS = 0xffff, OF_A_LOOP = 2 /* it counts itself, and so does its wait */ };
	pthread_t thread;

	begins(&y);
	begins(&x);
	MUST(!ww_number_lock(n[0], &y));
	ww_acquire_begin_tries(&x);
	MUST(!ww_number_lock(n[1], &x) && ww_number_lock(n[0], &x) == -EDEADLK && ww_acquire_end_try(&x));
	thread = begin_thread(locks_another, NULL);
	while ((__atomic_load_n(&mutex_at(n[0])->waiters, __ATOMIC_SEQ_CST) & WAITERS) != OF_A_LOOP)
		usleep(100);
	ww_number_leave(n[0], c);
	MUST(!ww_number_unlock(n[0], &y));
	end_thread(thread);
	MUST(!ww_number_take(&n[0], c));
	ww_acquire_fini(&x);
	ww_acquire_fini(&y);
}

/* A number that was put back, or left, and that another one has by now, is nothing for which a loop waits that backed off at it. */
static void is_anothers_after(bool by_leaving)
{
	uint32_t again;

	begins(&y);
	begins(&x);
	MUST(!ww_number_lock(n[0], &y));
	ww_acquire_begin_tries(&x);
	MUST(!ww_number_lock(n[1], &x) && ww_number_lock(n[0], &x) == -EDEADLK && ww_acquire_end_try(&x));
	if (by_leaving)
		ww_number_leave(n[0], c);
	MUST(!ww_number_unlock(n[0], &y) && (by_leaving || !ww_number_put(n[0], c)));
	MUST(!ww_number_take(&again, c) && again == n[0] && !ww_number_lock(again, &y));
	MUST(!ww_mutex_lock_until(mutex_at(n[1]), &x, &past) && x.acquired == 1 && !ww_acquire_end_try(&x));
	MUST(!ww_number_unlock(again, &y));
	ww_acquire_fini(&x);
	ww_acquire_fini(&y);
}

static void is_anothers(void)
{
	is_anothers_after(false);
	is_anothers_after(true);
}

/* It waits for n[0], which another holds, with n[1] held. */
static void *waits(void *arg)
{
	long *told = arg;

	ww_acquire_init(&y, c);
	y.deadlock_inject_countdown = ~0u;
	MUST(!ww_number_lock(n[1], &y));
	__atomic_store_n(told, 1, __ATOMIC_SEQ_CST);
	MUST(ww_mutex_lock_until(mutex_at(n[0]), &y, NULL) == -EINTR && y.acquired == 1 && ww_shared_mutex_is_written_by(shared_at(n[1]), &y));
	__atomic_store_n(told, 2, __ATOMIC_SEQ_CST);
	MUST(!ww_number_lock(n[0], &y) && !ww_number_unlock(n[0], &y) && !ww_number_unlock(n[1], &y));
	ww_acquire_fini(&y);
	return NULL;
}

/* A lone lock is nobody's elder, so that the context waits in both kinds; the cancel meets its wait, or is there before. */
static void is_called_off(void)
{
	long told = 0;

	MUST(!ww_mutex_lock_until(mutex_at(n[0]), NULL, NULL));
	pthread_t thread = begin_thread(waits, &told);

	while (!__atomic_load_n(&told, __ATOMIC_SEQ_CST))
		usleep(100);
	MUST(ww_number_put(n[0], c) == -EBUSY && !ww_acquire_cancel(&y));
	while (__atomic_load_n(&told, __ATOMIC_SEQ_CST) < 2)
		usleep(100);
	ww_mutex_unlock(mutex_at(n[0]));
	end_thread(thread);
}

static void *waits_for_a_context(void *arg)
{
	MUST(!ww_mutex_lock_until(mutex_at(n[0]), NULL, NULL));
	ww_mutex_unlock(mutex_at(n[0]));
	return arg;
}

static uint64_t context_waits(void)
{
	struct ww_class_counts counts;

	ww_class_stats(c, &counts);
	return counts.context_waits;
}

/* All contexts are in use, and a thread waits for one, for this number: nobody else gets that meanwhile. */
static void is_awaited_without_a_context(void)
{
	uint64_t before = context_waits();
	pthread_t thread;

	ww_acquire_init(&x, c);
	ww_acquire_init(&y, c);
	thread = begin_thread(waits_for_a_context, NULL);
	while (context_waits() == before)
		usleep(100);
	MUST(!ww_mutex_is_locked(mutex_at(n[0])) && ww_number_put(n[0], c) == -EBUSY && !ww_number_put(n[1], c));
	ww_acquire_fini(&y);
	end_thread(thread);
	ww_acquire_fini(&x);
	MUST(!ww_number_take(&n[1], c) && !ww_number_put(n[0], c) && !ww_number_take(&n[0], c));
}

/* Told to end by pthread_cancel before: so it would end at the first call at which such a thread ends. */
static void *is_told_to_end(void *arg)
{
	ww_acquire_init(&y, c);
	MUST(!pthread_cancel(pthread_self()));
	MUST(!ww_number_lock(n[0], &y) && !ww_number_unlock(n[0], &y));
	ww_acquire_fini(&y);
	return arg;
}

/* It ends after its calls, though it sleeps during one. */
static void is_no_end_of_thread(void)
{
	pthread_t thread;
	void *ended;

	MUST(!ww_mutex_lock_until(mutex_at(n[0]), NULL, NULL));
	thread = begin_thread(is_told_to_end, n);
	usleep(20000);
	ww_mutex_unlock(mutex_at(n[0]));
	MUST(!pthread_join(thread, &ended) && ended == n);
}

/* After -EDEADLK another comes first, which the debug library tells. */
static void another_comes_first(void)
{
	begins(&y);
	begins(&x);
	MUST(!ww_number_lock(n[0], &y) && !ww_number_lock(n[1], &x) && ww_number_lock(n[0], &x) == -EDEADLK);
	MUST(!ww_number_unlock(n[1], &x) && !ww_number_lock(n[1], &x) && !ww_number_unlock(n[1], &x));
	ww_acquire_fini(&x);
	unlock_each(&y);
	ww_acquire_fini(&y);
}

/* Each holds what the other wants next: the younger one gets -EDEADLK, and waits for that one first. */
static pthread_barrier_t both;
static void *goes_against(void *arg)
{
	unsigned me = (unsigned)(size_t)arg;
	struct ww_acquire_ctx mine;
	long backs = 0;

	begins(&mine);
	MUST(!ww_number_lock(n[me], &mine));
	pthread_barrier_wait(&both);
	int r = ww_number_lock(n[!me], &mine);

	if (r) {
		unsigned first = !me;

		MUST(r == -EDEADLK && mine.acquired == 1);
		MUST(!ww_number_trylock(n[2 + me], &mine) && !ww_number_unlock(n[me], &mine));
		/* By a call like any other, and one that may end early. */
		MUST(!(me ? ww_number_lock(n[first], &mine) : ww_mutex_lock_until(mutex_at(n[first]), &mine, NULL)));
		/* The older one may still be releasing the other. */
		while ((r = ww_number_lock(n[!first], &mine)) == -EDEADLK) {
			MUST(!ww_number_unlock(n[first], &mine));
			first = !first;
			MUST(!ww_number_lock(n[first], &mine));
		}
		MUST(!r);
		backs++;
	}
	MUST(mine.acquired == 2);
	unlock_each(&mine);
	ww_acquire_fini(&mine);
	return (void *)backs;
}

static void has_one_victim(void)
{
	for (unsigned k = 0; k < 50; k++) {
		pthread_t threads[2];
		void *told[2];

		MUST(!pthread_barrier_init(&both, NULL, 2));
		for (size_t me = 0; me < 2; me++)
			threads[me] = begin_thread(goes_against, (void *)me);
		for (unsigned me = 0; me < 2; me++)
			MUST(!pthread_join(threads[me], &told[me]));
		MUST((told[0] == NULL) != (told[1] == NULL));
		MUST(!pthread_barrier_destroy(&both));
	}
}

/* ---- sums ---- */

enum { THREADS = 4, TIMES = 3000 };
static unsigned long sums[COUNT], added[THREADS];

static int acquires(unsigned *drawn, struct ww_acquire_ctx *mine, uint32_t number)
{
	struct timespec soon = in_ms(0);

	switch (next(drawn) % 4) {
	case 0: return ww_mutex_lock_until(mutex_at(number), mine, &soon);
	case 1: return ww_number_trylock(number, mine) ? 0 : ww_number_lock(number, mine);
	default: return ww_number_lock(number, mine);
	}
}

/* Two of them, in any order. */
static void transacts(unsigned *drawn, unsigned long *count)
{
	unsigned one = next(drawn) % COUNT, other = (one + 1 + next(drawn) % (COUNT - 1)) % COUNT;
	struct ww_acquire_ctx mine;
	int r;

	ww_acquire_init(&mine, c);
	MUST(!(r = ww_number_lock(n[one], &mine)));
	while ((r = acquires(drawn, &mine, n[other])) == -EDEADLK) {
		unsigned first = other;

		MUST(!ww_number_unlock(n[one], &mine));
		other = one;
		one = first;
		MUST(!ww_number_lock(n[one], &mine));
	}
	sums[one]++;
	(*count)++;
	if (!r) {
		sums[other]++;
		(*count)++;
		MUST(!ww_number_unlock(n[other], &mine));
	} else {
		MUST(r == -ETIMEDOUT);
	}
	unlock_each(&mine);
	ww_acquire_fini(&mine);
}

static void adds_alone(unsigned *drawn, unsigned long *count)
{
	unsigned one = next(drawn) % COUNT;

	if (next(drawn) % 2) {
		if (!ww_mutex_trylock(mutex_at(n[one]), NULL))
			return;
	} else {
		MUST(!ww_mutex_lock_until(mutex_at(n[one]), NULL, NULL));
	}
	sums[one]++;
	(*count)++;
	ww_mutex_unlock(mutex_at(n[one]));
}

static void *adds(void *arg)
{
	size_t me = (size_t)arg;
	unsigned drawn = (unsigned)me + 1;

	for (unsigned k = 0; k < TIMES; k++)
		(next(&drawn) % 4 ? transacts : adds_alone)(&drawn, &added[me]);
	return NULL;
}

static void sums_are_exact(void)
{
	unsigned long all = 0, seen = 0;

	memset(sums, 0, sizeof sums);
	memset(added, 0, sizeof added);
	in_threads(THREADS, adds);
	for (unsigned k = 0; k < THREADS; k++)
		all += added[k];
	for (unsigned k = 0; k < COUNT; k++)
		seen += sums[k];
	MUST(all == seen && all >= THREADS * TIMES / 2);
}

/* ---- a forked child ---- */

static void in_a_child(void)
{
	uint32_t number;
	pid_t child;
	int status;

	begins(&x);
	MUST(!ww_number_lock(n[0], &x) && !ww_number_lock(n[1], &x) && !ww_mutex_lock_until(mutex_at(n[2]), NULL, NULL));
	MUST((child = fork()) >= 0);
	if (!child) {
		MUST(ww_number_take(&number, c) == -EINVAL && !ww_number_put(n[3], c));
		MUST(ww_mutex_lock_until(mutex_at(n[3]), NULL, NULL) == -EINVAL && !ww_mutex_trylock(mutex_at(n[3]), NULL));
		MUST(!ww_number_unlock(n[1], &x) && x.acquired == 1);
		/* It would have to wait, and lets go what it holds. */
		MUST(ww_number_lock(n[2], &x) == -EINVAL && !ww_shared_mutex_is_written_by(shared_at(n[0]), &x));
		MUST(!ww_number_unlock(n[0], &x) && !x.acquired && !ww_acquire_fini_checked(&x));
		ww_mutex_unlock(mutex_at(n[2]));
		_exit(0);
	}
	MUST(waitpid(child, &status, 0) == child && WIFEXITED(status) && !WEXITSTATUS(status));
	ww_mutex_unlock(mutex_at(n[2]));
	unlock_each(&x);
	ww_acquire_fini(&x);
}

/* How many calls of `what` are reported as misuse. */
static void tells(void (*what)(void), unsigned long count)
{
#ifdef WW_DEBUG
	unsigned long before = ww_debug_faults();

	what();
	MUST(ww_debug_faults() - before == count);
#else
	(void)count;
	what();
#endif
}

static void all_of(struct ww_class *class_)
{
	c = class_;
	MUST(!ww_class_limit(c, COUNT, 2));
	tells(puts_no_other_back, 6);
	tells(are_of_one_pool, 0);
	tells(leaves, 0);
	tells(is_read, 0);
	takes();
	tells(by_a_context, 0);
	tells(refuses, 9);
	tells(was_never_taken, 3);
	no_context();
	tells(in_a_loop, 1);
	tells(leaves_an_address, 1);
	tells(backs_off_in_a_loop, c == &wait_die);
	tells(goes_with_addresses, 0);
	tells(without_one, 0);
	tells(is_called_off, 0);
	tells(is_awaited_without_a_context, 0);
	tells(is_no_end_of_thread, 0);
	tells(has_one_victim, 0);
	if (c == &wait_die)
		tells(another_comes_first, 1);
	if (c == &wait_die)
		tells(is_left_amid_a_wait, 0);
	if (c == &wait_die)
		tells(is_anothers, 0);
	tells(in_a_child, 0);
	puts_back();
	MUST(!ww_class_free(c) && !ww_class_limit(c, COUNT, THREADS));
	takes();
	tells(sums_are_exact, 0);
	puts_back();
	MUST(!ww_class_free(c));
}

int main(void)
{
	all_of(&wound_wait);
	all_of(&wait_die);
	return 0;
}
