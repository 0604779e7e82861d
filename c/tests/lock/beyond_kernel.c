/*
 * What ww_mutex.h has beyond the kernel's: waits that end at a time or by a cancel, and loops.
 *
 * In a loop contexts acquire many mutexes and back off by themselves.
 */
#include "../mutex_test.h"

static DEFINE_WW_CLASS(wound_wait);
static DEFINE_WD_CLASS(wait_die);
static struct ww_class *c;
static struct ww_mutex a, b, list[8];

static long ms_since(const struct timespec *from)
{
	struct timespec now = in_ms(0);

	return (now.tv_sec - from->tv_sec) * 1000 + (now.tv_nsec - from->tv_nsec) / 1000000;
}

/* ---- a time ---- */

static void *waits_until(void *arg)
{
	struct timespec from = in_ms(0), until = in_ms(20);
	struct ww_acquire_ctx x;

	(void)arg;
	MUST(ww_mutex_lock_until(&a, NULL, &until) == -ETIMEDOUT && ms_since(&from) >= 20);
	ww_acquire_init(&x, c);
	MUST(!ww_mutex_lock(&b, &x));
	until = in_ms(20);
	MUST(ww_mutex_lock_until(&a, &x, &from) == -ETIMEDOUT && ww_mutex_lock_until(&a, &x, &until) == -ETIMEDOUT);
	MUST(x.acquired == 1 && b.ctx == &x && !ww_mutex_lock(&list[0], &x)); /* what was held still is, and it goes on */
	ww_mutex_unlock(&list[0]);
	ww_mutex_unlock(&b);
	ww_acquire_fini(&x);
	return NULL;
}

static void ends_at_a_time(void)
{
	struct ww_acquire_ctx x;
	struct timespec past = { 0, 0 };

	ww_acquire_init(&x, c);
	MUST(!ww_mutex_lock_until(&a, &x, &past) && ww_mutex_lock_until(&a, &x, &past) == -EALREADY);
	/* It holds nothing the other wants to die for: the other is younger, and waits for nobody while it holds b. */
	ww_mutex_unlock(&a);
	ww_acquire_fini(&x);
	MUST(!ww_mutex_lock_until(&a, NULL, &past));
	end_thread(begin_thread(waits_until, NULL));
	ww_mutex_unlock(&a);
}

/* Where time runs out just as the lock comes, either is answered, and nothing is left over for the seat's next wait. */
static unsigned racers;
static void *races(void *arg)
{
	unsigned long *lates = arg;

	for (unsigned k = 0; k < 400 || !*lates; k++) {
		struct timespec soon = in_ms(0);
		struct ww_acquire_ctx x;
		int r;

		soon.tv_nsec += k % 40 * 10000;
		if (soon.tv_nsec >= 1000000000) {
			soon.tv_nsec -= 1000000000;
			soon.tv_sec++;
		}
		ww_acquire_init(&x, c);
		r = ww_mutex_lock_until(&a, &x, &soon);
		MUST(!r || r == -ETIMEDOUT);
		*lates += !!r;
		if (r)
			MUST(!ww_mutex_lock_interruptible(&a, &x)); /* nobody calls this one off */
		ww_mutex_unlock(&a);
		ww_acquire_fini(&x);
	}
	__atomic_fetch_sub(&racers, 1, __ATOMIC_SEQ_CST);
	return NULL;
}

static void races_with_time(void)
{
	unsigned long lates[3] = { 0 };
	pthread_t threads[3];

	racers = 3;
	for (unsigned k = 0; k < 3; k++)
		threads[k] = begin_thread(races, &lates[k]);
	for (unsigned k = 0; __atomic_load_n(&racers, __ATOMIC_SEQ_CST); k++) {
		MUST(!ww_mutex_lock(&a, NULL));
		usleep(k % 8 * 30);
		ww_mutex_unlock(&a);
		usleep(20);
	}
	for (unsigned k = 0; k < 3; k++)
		end_thread(threads[k]);
	MUST(lates[0] && lates[1] && lates[2]);
}

/* A time is heeded with all contexts in use. */
static void *waits_in_vain(void *ctx)
{
	struct timespec soon = in_ms(1);

	MUST(ww_mutex_lock_until(&a, ctx, &soon) == -ETIMEDOUT);
	return NULL;
}

static void ends_with_all_in_use(void)
{
	struct ww_acquire_ctx all[16];
	pthread_t thread;

	for (unsigned k = 0; k < 16; k++)
		MUST(!ww_acquire_init_checked(&all[k], c));
	MUST(!ww_mutex_lock(&a, &all[0]));
	thread = begin_thread(waits_in_vain, &all[1]);
	end_thread(thread);
	ww_mutex_unlock(&a);
	for (unsigned k = 0; k < 16; k++)
		ww_acquire_fini(&all[k]);
}

/* ---- a cancel ---- */

static struct ww_acquire_ctx victim;

static void *is_called_off(void *arg)
{
	(void)arg;
	MUST(ww_mutex_lock_interruptible(&a, &victim) == -EINTR && victim.acquired == 1);
	MUST(ww_mutex_lock(&a, &victim) == 0); /* not this one, whether a cancel is pending or not */
	ww_mutex_unlock(&a);
	return NULL;
}

static void calls_off(void)
{
	struct ww_acquire_ctx x;
	pthread_t thread;
	int r;

	ww_acquire_init(&victim, c);
	ww_acquire_init(&x, c);
	MUST(!ww_mutex_lock(&b, &victim) && !ww_mutex_lock(&a, &x));
	for (unsigned k = 0; k < 2; k++) {
		thread = begin_thread(is_called_off, NULL);
		if (k)
			awaits_waiter(&a);
		MUST(!ww_acquire_cancel(&victim));
		while ((r = ww_acquire_cancel(&victim)) == -EALREADY)
			usleep(100);
		MUST(!r);
		ww_mutex_unlock(&a);
		end_thread(thread);
		MUST(ww_acquire_cancel(&victim) == -EALREADY && !ww_mutex_lock(&a, &x));
		MUST(ww_mutex_lock_interruptible(&a, &victim) == -EINTR);
	}
	MUST(!ww_mutex_lock_interruptible(&list[0], &victim) && !ww_acquire_cancel(&victim));
	MUST(!ww_mutex_lock_interruptible(&list[1], &victim)); /* without a wait nothing is cancelled */
	ww_mutex_unlock(&list[0]);
	ww_mutex_unlock(&list[1]);
	ww_mutex_unlock(&b);
	ww_acquire_fini(&victim); /* with its cancel */
	ww_mutex_unlock(&a);
	ww_acquire_fini(&x);
}

static void *isnt_called_off(void *arg)
{
	(void)arg;
	for (unsigned k = 0; k < 16; k++) {
		struct ww_acquire_ctx x;

		ww_acquire_init(&x, c);
		MUST(!ww_mutex_lock_interruptible(&a, &x));
		ww_mutex_unlock(&a);
		ww_acquire_fini(&x);
	}
	return NULL;
}

/* A cancel that found no wait ends with its context, and its seat's next context hears nothing of it. */
static void forgets_cancels(void)
{
	struct ww_acquire_ctx all[16];
	struct timespec past = { 0, 0 };
	pthread_t thread;

	MUST(!ww_mutex_lock(&a, NULL));
	for (unsigned k = 0; k < 16 - 1; k++) {
		ww_acquire_init(&all[k], c);
		MUST(!ww_acquire_cancel(&all[k]) && (k % 2 || k == 16 - 2 || ww_mutex_lock_until(&a, &all[k], &past) == -EINTR));
	}
	for (unsigned k = 0; k < 16 - 1; k++)
		ww_acquire_fini(&all[k]);
	thread = begin_thread(isnt_called_off, NULL);
	awaits_waiter(&a);
	ww_mutex_unlock(&a);
	end_thread(thread);
}

/* A cancel or a time ends a slow lock too, which is then asked for again. */
static void slowly(void)
{
	struct timespec past = { 0, 0 }, none = { 0, -1 };
	struct ww_acquire_ctx older, x;

	if (!c->is_wait_die)
		return;
	ww_acquire_init(&older, c);
	ww_acquire_init(&x, c);
	MUST(!ww_mutex_lock(&a, &older) && !ww_mutex_lock(&b, &x) && ww_mutex_lock(&a, &x) == -EDEADLK);
	ww_mutex_unlock(&b);
	for (unsigned k = 0; k < 3; k++)
		MUST(!ww_acquire_cancel(&x) && ww_mutex_lock_slow_interruptible(&a, &x) == -EINTR);
	MUST(ww_mutex_lock_slow_until(&a, &x, &past) == -ETIMEDOUT && ww_mutex_lock_slow_until(&a, &x, &none) == -EINVAL);
	MUST(!ww_acquire_cancel(&x) && ww_mutex_lock_slow_until(&a, &x, &past) == -EINTR);
	MUST(ww_mutex_lock_slow_until(&b, &x, &past) == -EINVAL && !x.acquired);
	ww_mutex_unlock(&a);
	MUST(!ww_mutex_lock_slow_until(&a, &x, &past) && ww_mutex_lock_slow_until(&a, &x, &past) == -EINVAL);
	ww_mutex_unlock(&a);
	ww_acquire_fini(&x);
	ww_acquire_fini(&older);
}

/* ---- many ---- */

static void takes_all(void)
{
	struct ww_mutex *locks[9];
	struct ww_acquire_ctx x, older;
	unsigned k;

	for (k = 0; k < 8; k++)
		locks[k] = &list[7 * k % 8];
	locks[8] = &list[3];
	ww_acquire_init(&older, c);
	ww_acquire_init(&x, c);
	MUST(!ww_mutex_lock_all(&x, locks, 0) && !ww_mutex_lock_all(&x, locks, 8) && x.acquired == 8);
	MUST(ww_mutex_lock_all(&x, locks, 1) == -EALREADY && x.acquired == 8);
	for (k = 0; k < 8; k++)
		ww_mutex_unlock(&list[k]);
	MUST(ww_mutex_lock_all(&x, locks, 9) == -EALREADY && !x.acquired);
	ww_acquire_flags(&x, WW_IGNORE_DUPLICATES);
	MUST(!ww_mutex_lock_all(&x, locks, 9) && x.acquired == 8 && !ww_mutex_lock_all(&x, locks, 9) && x.acquired == 8);
	/* Behind it too, since the context is as in a loop. */
	MUST(!ww_mutex_lock(&list[0], &x) && x.acquired == 8);
	for (k = 1; k < 8; k++)
		ww_mutex_unlock(&list[k]);
	MUST(x.acquired == 1 && !ww_mutex_lock(&a, &older));
	locks[4] = &a;
	if (c->is_wait_die) {
		MUST(ww_mutex_lock_all(&x, locks, 8) == -EDEADLK && x.acquired == 1 && list[0].ctx == &x);
		ww_mutex_unlock(&list[0]);
		ww_acquire_flags(&x, WW_INTERRUPTIBLE);
		MUST(!ww_acquire_cancel(&x) && ww_mutex_lock_all(&x, locks, 8) == -EINTR && !x.acquired);
		MUST(!ww_acquire_cancel(&x) && ww_mutex_lock_interruptible(&a, &x) == -EINTR);
	} else {
		ww_mutex_unlock(&list[0]);
	}
	ww_mutex_unlock(&a);
	MUST(!ww_mutex_lock_all(&x, locks, 8) && x.acquired == 8);
	for (k = 0; k < 8; k++)
		ww_mutex_unlock(locks[k]);
	ww_acquire_done(&x);
	MUST(!ww_mutex_lock_all(&x, locks, 8) && x.acquired == 8 && ww_mutex_lock_all(NULL, locks, 8) == -EINVAL);
	for (k = 0; k < 8; k++)
		ww_mutex_unlock(locks[k]);
	ww_acquire_fini(&x);
	ww_acquire_fini(&older);
	MUST(ww_mutex_lock_all(&x, locks, 8) == -EINVAL);
}

static void *gives_soon(void *arg)
{
	(void)arg;
	awaits_waiter(&a);
	ww_mutex_unlock(&a);
	return NULL;
}

/* The body begins again, and the mutex that was waited for is held already. */
static void tries_again(void)
{
	struct ww_acquire_ctx older, x;
	unsigned bodies = 0, ends = 0;
	pthread_t thread = pthread_self();
	int r = 0;

	ww_acquire_init(&older, c);
	ww_acquire_init(&x, c);
	MUST(!ww_mutex_lock(&a, &older));
	if (!c->is_wait_die)
		ww_mutex_unlock(&a);
	ww_until_all_locked(&x) {
		bodies++;
		for (unsigned k = 0; k < 4; k++) {
			r = ww_mutex_lock(k == 2 ? &a : &list[k], &x);
			ww_retry_on_contention(&x);
			MUST(!r);
			if (bodies == 1 && k == 1 && c->is_wait_die)
				thread = begin_thread(gives_soon, NULL);
		}
		MUST(ww_mutex_lock(&a, &x) == -EALREADY && ww_mutex_trylock(&list[2], &x));
		ends++;
	}
	MUST(ends == 1 && bodies == (c->is_wait_die ? 2 : 1) && x.acquired == 5);
	ww_mutex_unlock(&list[0]);
	ww_mutex_unlock(&list[3]);
	ww_acquire_unlock_all(&x);
	MUST(!x.acquired);
	if (c->is_wait_die)
		end_thread(thread);

	/* Flags; a body that is left, and goes on where it likes. */
	ww_acquire_flags(&x, WW_IGNORE_DUPLICATES | WW_INTERRUPTIBLE);
	ww_until_all_locked(&x, second) {
		struct ww_mutex *locks[] = { &list[1], &list[2], &list[1] };

		MUST(!ww_mutex_lock(&list[1], &x) && !ww_mutex_lock(&list[1], &x) && !ww_mutex_lock(&list[2], &x));
		MUST(!ww_mutex_lock_all(&x, locks, 3) && x.acquired == 2);
		ww_retry_on_contention(&x, second);
		ww_acquire_flags(&x, 0);
		MUST(ww_mutex_lock(&list[1], &x) == -EALREADY && ww_mutex_lock_all(&x, locks, 2) == -EALREADY && x.acquired == 2);
		break;
	}
	ww_mutex_unlock(&list[2]);
	ww_acquire_unlock_all(&x);
	MUST(!x.acquired && !ww_mutex_lock(&list[0], &x));
	ww_mutex_unlock(&list[0]);
	ww_acquire_fini(&x);
	ww_acquire_fini(&older);
}

/* An interruptible loop: a cancel ends the wait for the contended mutex, and the first lock call returns that. */
static void is_interrupted(void)
{
	struct ww_acquire_ctx older, x;
	unsigned bodies = 0;
	int r = 0;

	if (!c->is_wait_die)
		return;
	ww_acquire_init(&older, c);
	ww_acquire_init(&x, c);
	ww_acquire_flags(&x, WW_INTERRUPTIBLE);
	MUST(!ww_mutex_lock(&a, &older));
	ww_until_all_locked(&x) {
		bodies++;
		r = ww_mutex_lock(&b, &x);
		if (r)
			break;
		r = ww_mutex_lock(&a, &x);
		MUST(r == -EDEADLK && ww_is_contended(&x) && !ww_acquire_cancel(&x));
		ww_retry_on_contention(&x);
	}
	MUST(r == -EINTR && bodies == 2 && !x.acquired);
	ww_acquire_fini(&x);
	ww_mutex_unlock(&a);
	ww_acquire_fini(&older);
}

int main(void)
{
	struct ww_class *classes[] = { &wound_wait, &wait_die };

	for (unsigned kind = 0; kind < 2; kind++) {
		c = classes[kind];
		MUST(!ww_class_limit(c, 0, 16) && !ww_class_crowd(c, WW_NO_CROWD));
		ww_mutex_init(&a, c);
		ww_mutex_init(&b, c);
		for (unsigned k = 0; k < 8; k++)
			ww_mutex_init(&list[k], c);
		ends_at_a_time();
		races_with_time();
		ends_with_all_in_use();
		calls_off();
		forgets_cancels();
		slowly();
		takes_all();
		tries_again();
		is_interrupted();
		MUST(!ww_mutex_destroy(&a) && !ww_mutex_destroy(&b));
		for (unsigned k = 0; k < 8; k++)
			MUST(!ww_mutex_destroy(&list[k]));
		MUST(!ww_class_free(c));
	}
	puts("beyond_kernel: times, cancels, and many at once");
	return 0;
}
