/*
 * Waits, and what comes right after them.
 *
 * They sleep; a cancel or their time ends them, even if contexts are scarce; ww_mutex_destroy sees them all the time;
 * and the last of several threads may destroy and free what they waited for, as it may free a class once its last
 * context has ended.
 */
#include "../mutex_test.h"
#include <sys/resource.h>

static DEFINE_WW_CLASS(wound_wait);
static DEFINE_WD_CLASS(wait_die);
static struct ww_class *c;
static struct ww_mutex a;
static struct ww_acquire_ctx x;
static bool over, holds;

/* ---- calls for it, from this thread while that one waits ---- */

static void *waits_in_a_loop(void *arg)
{
	int r = 0;

	(void)arg;
	ww_until_all_locked(&x) {
		r = ww_mutex_lock(&a, &x);
		ww_retry_on_contention(&x);
	}
	MUST(r == -EINTR);
	return NULL;
}

static void *waits_for_long(void *arg)
{
	struct timespec late = in_ms(1000000);

	(void)arg;
	MUST(ww_mutex_lock_until(&a, &x, &late) == -EINTR);
	return NULL;
}

/* Each wait of a loop that was said to be interruptible, and one whose time is far off. */
static void are_called_off(void)
{
	void *(*const waits[])(void *) = { waits_in_a_loop, waits_for_long };

	MUST(!ww_mutex_lock(&a, NULL));
	for (unsigned k = 0; k < 20; k++) {
		pthread_t thread;

		ww_acquire_init(&x, c);
		ww_acquire_flags(&x, WW_INTERRUPTIBLE);
		thread = begin_thread(waits[k % 2], NULL);
		if (k % 4 < 2)
			awaits_waiter(&a);
		MUST(!ww_acquire_cancel(&x));
		end_thread(thread);
		ww_acquire_fini(&x);
	}
	ww_mutex_unlock(&a);
}

/* ---- asked for by more threads than there are contexts ---- */

enum { SLICE = 10000 };

static bool is_over(void) { return __atomic_load_n(&over, __ATOMIC_RELAXED); }

static void *begins_and_sleeps(void *arg)
{
	struct ww_acquire_ctx y;

	while (!is_over()) {
		ww_acquire_init(&y, c);
		for (size_t slept = 0; slept < (size_t)arg && !is_over(); slept += SLICE)
			usleep(SLICE);
		ww_acquire_fini(&y);
	}
	return NULL;
}

static void *cancels(void *arg)
{
	usleep(10000);
	MUST(!ww_acquire_cancel(arg));
	return NULL;
}

/* Each of the others has its context for longer than all of this may take. */
static void with_few_contexts(void)
{
	enum { OTHERS = 24, SLEEP = 6000000 };
	struct timespec begun = in_ms(0), now;
	struct ww_acquire_ctx y;
	pthread_t threads[OTHERS];

	over = false;
	ww_acquire_init(&y, c);
	ww_acquire_init(&x, c);
	MUST(!ww_mutex_lock(&a, &y));
	for (unsigned k = 0; k < OTHERS; k++)
		threads[k] = begin_thread(begins_and_sleeps, (void *)SLEEP);
	usleep(20000);
	for (unsigned k = 0; k < 20; k++) {
		struct timespec soon = in_ms(10);

		if (k % 2) {
			pthread_t thread = begin_thread(cancels, &x);

			MUST(ww_mutex_lock_interruptible(&a, &x) == -EINTR);
			end_thread(thread);
		} else {
			MUST(ww_mutex_lock_until(&a, &x, &soon) == -ETIMEDOUT);
		}
	}
	now = in_ms(0);
	MUST((now.tv_sec - begun.tv_sec) * 1000 + (now.tv_nsec - begun.tv_nsec) / 1000000 < 20 * SLEEP / 1000);
	__atomic_store_n(&over, true, __ATOMIC_RELAXED);
	ww_mutex_unlock(&a);
	ww_acquire_fini(&x);
	ww_acquire_fini(&y);
	for (unsigned k = 0; k < OTHERS; k++)
		end_thread(threads[k]);
}

/* ---- and that sleep ---- */

static void *waits(void *arg)
{
	(void)arg;
	MUST(!ww_mutex_lock(&a, NULL));
	ww_mutex_unlock(&a);
	return NULL;
}

static long used_ms(void)
{
	struct rusage used;

	MUST(!getrusage(RUSAGE_SELF, &used));
	return (used.ru_utime.tv_sec + used.ru_stime.tv_sec) * 1000 + (used.ru_utime.tv_usec + used.ru_stime.tv_usec) / 1000;
}

static void sleep_meanwhile(void)
{
	pthread_t thread;
	long used;

	MUST(!ww_mutex_lock(&a, NULL));
	thread = begin_thread(waits, NULL);
	awaits_waiter(&a);
	usleep(50000);
	used = used_ms();
	usleep(1000000);
	MUST(used_ms() - used < 50);
	ww_mutex_unlock(&a);
	end_thread(thread);
}

/* ---- from the first moment of a wait to the last one ---- */

static struct ww_mutex brief;

static void *waits_then_holds(void *arg)
{
	struct ww_acquire_ctx y;

	(void)arg;
	ww_acquire_init(&y, c);
	MUST(!ww_mutex_lock(&brief, &y));
	for (volatile unsigned j = 0; j < 2000; j++)
		;
	__atomic_store_n(&holds, true, __ATOMIC_SEQ_CST);
	ww_mutex_unlock(&brief);
	ww_acquire_fini(&y);
	return NULL;
}

/* A waiter becomes the holder: at no moment is it neither. */
static void are_seen(void)
{
	for (unsigned k = 0; k < 250; k++) {
		pthread_t thread;

		holds = false;
		ww_mutex_init(&brief, c);
		MUST(!ww_mutex_lock(&brief, NULL));
		thread = begin_thread(waits_then_holds, NULL);
		while (!__atomic_load_n(&brief.waiters, __ATOMIC_SEQ_CST))
			sched_yield();
		ww_mutex_unlock(&brief);
		while (ww_mutex_destroy(&brief) == -EBUSY)
			;
		MUST(__atomic_load_n(&holds, __ATOMIC_SEQ_CST));
		end_thread(thread);
	}
}

/* ---- what the last of several threads destroys and frees ---- */

enum { USERS = 4 };
static struct object {
	struct ww_mutex lock;
	unsigned users, count; /* under the lock */
} *object;
static unsigned handovers = 2000;
static pthread_barrier_t made, used;

static void *uses_once(struct object *o, unsigned way)
{
	struct ww_acquire_ctx y;
	struct timespec soon;
	bool last;

	if (way < 3)
		ww_acquire_init(&y, c);
	switch (way) {
	case 0: MUST(!ww_mutex_lock(&o->lock, &y)); break;
	case 1:
		ww_until_all_locked(&y)
			MUST(!ww_mutex_lock(&o->lock, &y));
		break;
	case 2:
		do
			soon = in_ms(0);
		while (ww_mutex_lock_until(&o->lock, &y, &soon) == -ETIMEDOUT);
		break;
	default: MUST(!ww_mutex_lock(&o->lock, NULL));
	}
	o->count++;
	last = --o->users == 0;
	ww_mutex_unlock(&o->lock);
	if (last) {
		MUST(o->count == USERS && !ww_mutex_destroy(&o->lock));
		memset(o, 0xee, sizeof *o);
		free(o);
	}
	if (way < 3)
		ww_acquire_fini(&y);
	return NULL;
}

static void *uses_each(void *arg)
{
	for (unsigned k = 0; k < handovers; k++) {
		pthread_barrier_wait(&made);
		uses_once(object, ((unsigned)(size_t)arg + k) % 4);
		pthread_barrier_wait(&used);
	}
	return NULL;
}

static void are_handed_on(void)
{
	pthread_t threads[USERS];

	for (size_t k = 0; k < USERS; k++)
		threads[k] = begin_thread(uses_each, (void *)k);
	for (unsigned k = 0; k < handovers; k++) {
		object = malloc(sizeof *object);
		MUST(object);
		ww_mutex_init(&object->lock, c);
		object->users = USERS;
		object->count = 0;
		pthread_barrier_wait(&made);
		pthread_barrier_wait(&used);
	}
	for (unsigned k = 0; k < USERS; k++)
		end_thread(threads[k]);
}

/* ---- and a class, asked until nobody uses it ---- */

static void *begins_one(void *arg)
{
	struct ww_acquire_ctx y;

	ww_acquire_init(&y, arg);
	__atomic_store_n(&holds, true, __ATOMIC_SEQ_CST);
	ww_acquire_fini(&y);
	return NULL;
}

/* While a thread ends its last context: with seats that are shared, too. */
static void class_is_freed_at_once(bool shared)
{
	for (unsigned k = 0; k < 200; k++) {
		struct ww_acquire_ctx y;
		struct ww_class it;
		pthread_t thread;

		ww_class_init(&it, 0, "it");
		MUST(!ww_class_limit(&it, 1, 1));
		if (shared) {
			ww_acquire_init(&y, &it);
			MUST(ww_acquire_init_checked(&x, &it) == -EAGAIN);
			ww_acquire_fini(&y);
		}
		holds = false;
		thread = begin_thread(begins_one, &it);
		while (!__atomic_load_n(&holds, __ATOMIC_SEQ_CST))
			;
		while (ww_class_free(&it) == -EBUSY)
			;
		end_thread(thread);
	}
}

int main(int count, char **words)
{
	struct ww_class *classes[] = { &wound_wait, &wait_die };

	if (count > 1)
		handovers = (unsigned)atoi(words[1]);
	pthread_barrier_init(&made, NULL, USERS + 1);
	pthread_barrier_init(&used, NULL, USERS + 1);
	for (unsigned kind = 0; kind < 2; kind++) {
		c = classes[kind];
		MUST(!ww_class_limit(c, 16, 5));
		ww_mutex_init(&a, c);
		are_called_off();
		with_few_contexts();
		sleep_meanwhile();
		are_seen();
		are_handed_on();
		MUST(!ww_mutex_destroy(&a) && !ww_class_free(c));
	}
	class_is_freed_at_once(false);
	class_is_freed_at_once(true);
	puts("waits: each ended as it had to");
	return 0;
}
