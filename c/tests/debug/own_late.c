/*
 * The debug library makes no sleep longer: a thread whose own seat is in use looks at that each millisecond, as in the other library.
 *
 * The thread waits for a context, while all others are in use, and its own is used by one that another thread ends.
 */
#ifndef WW_DEBUG
#define WW_DEBUG
#endif
#include "../mutex_test.h"

enum { MANY = 2000, SOON = 3000 }; /* contexts; and milliseconds: a long wait would be reported after ten seconds */

static DEFINE_WW_CLASS(boxes);
static struct ww_acquire_ctx all[MANY], moves, waits;
static unsigned step;

static void comes(unsigned to)
{
	while (__atomic_load_n(&step, __ATOMIC_SEQ_CST) != to)
		usleep(100);
}

static void *has_its_own(void *arg)
{
	ww_acquire_init(&moves, &boxes);
	__atomic_store_n(&step, 1, __ATOMIC_SEQ_CST);
	comes(2);
	ww_acquire_init(&waits, &boxes);
	ww_acquire_fini(&waits);
	return arg;
}

int main(void)
{
	pthread_t thread = begin_thread(has_its_own, NULL);
	struct timespec late, now;
	unsigned count = 0;

	comes(1);
	while (!ww_acquire_init_checked(&all[count], &boxes))
		count++;
	__atomic_store_n(&step, 2, __ATOMIC_SEQ_CST);
	usleep(100000);
	late = in_ms(SOON);
	ww_acquire_fini(&moves);
	end_thread(thread);
	now = in_ms(0);
	MUST(now.tv_sec < late.tv_sec || (now.tv_sec == late.tv_sec && now.tv_nsec < late.tv_nsec));
	while (count--)
		ww_acquire_fini(&all[count]);
	puts("own_late: no sleep is longer");
	return 0;
}
