/*
 * A look for deadlocks makes no sleep at a guard longer.
 *
 * The debug library looks now and then while a thread sleeps for a mutex.  A thread that finds a guard shut naps for
 * some microseconds, and not until the next look.  That a guard is shut for a while comes by a wrapper (ld --wrap).
 */
#ifndef WW_DEBUG
#define WW_DEBUG
#endif
#include "../mutex_test.h"
#include "ww_number.h"
#include "ww_steps.h"

enum { INTERVAL = 6000, SHUT = 16 }; /* of the looks, in milliseconds; and for so many tries */

static DEFINE_WW_CLASS(c);
static struct ww_mutex m;
static uint32_t number;
static bool held;

static __thread unsigned shut;
int32_t __real_ww_go_on_(ww_handle *s);
int32_t __wrap_ww_go_on_(ww_handle *s);
int32_t __wrap_ww_go_on_(ww_handle *s) { return shut && shut-- ? WW_AWAITS : __real_ww_go_on_(s); }

static void *holds(void *arg)
{
	struct ww_acquire_ctx x;

	ww_acquire_init(&x, &c);
	MUST(!ww_mutex_lock(&m, &x) && !ww_number_lock(number, &x));
	__atomic_store_n(&held, true, __ATOMIC_SEQ_CST);
	usleep(1000);
	ww_mutex_unlock(&m);
	MUST(!ww_number_unlock(number, &x));
	ww_acquire_fini(&x);
	return arg;
}

static long milliseconds(void)
{
	struct timespec now = in_ms(0);

	return now.tv_sec * 1000 + now.tv_nsec / 1000000;
}

static int locks(struct ww_acquire_ctx *x, unsigned way)
{
	struct timespec late = in_ms(60000);
	int r = 0;

	switch (way) {
	case 0: return ww_mutex_lock(&m, x);
	case 1: return ww_mutex_lock_interruptible(&m, x);
	case 2: return ww_mutex_lock_until(&m, x, &late);
	case 3: return ww_mutex_lock(&m, NULL);
	default: r = ww_number_lock(number, x); return r ? r : ww_number_unlock(number, x);
	}
}

int main(void)
{
	ww_debug_check_interval(INTERVAL);
	ww_mutex_init(&m, &c);
	MUST(!ww_number_take(&number, &c));
	for (unsigned way = 0; way < 5; way++) {
		struct ww_acquire_ctx x;
		pthread_t thread;
		long from;

		held = false;
		thread = begin_thread(holds, NULL);
		while (!__atomic_load_n(&held, __ATOMIC_SEQ_CST))
			sched_yield();
		ww_acquire_init(&x, &c);
		x.deadlock_inject_countdown = ~0u;
		shut = SHUT;
		from = milliseconds();
		MUST(!locks(&x, way));
		shut = 0;
		MUST(milliseconds() - from < INTERVAL * 5 / 6);
		if (way < 4)
			ww_mutex_unlock(&m);
		ww_acquire_fini(&x);
		end_thread(thread);
	}
	MUST(!ww_mutex_destroy(&m) && !ww_number_put(number, &c) && !ww_class_free(&c));
	puts("naps: a look for deadlocks makes no sleep longer");
	return 0;
}
