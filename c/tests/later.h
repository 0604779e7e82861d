/*
 * later.h - a clock that a test sets, and who looks at it.  A thread that waits until a time that has come by the system's
 * clock looks again and again; so where the test's is behind, it can be known that each thread that waits has looked.
 */
#ifndef LATER_H
#define LATER_H
#include "test.h"
#include <time.h>

/* Linked in place of the system's clock, which is ahead of that by so much. */
static time_t ahead;
/* How often each thread has looked that waits, or 0 if there is none; and that of this thread. */
static unsigned looks[4];
static __thread unsigned *my_looks;
/* More often than a wait looks before it first sleeps. */
enum { OFTEN = 1000 };

int __real_clock_gettime(clockid_t clock, struct timespec *at);
int __wrap_clock_gettime(clockid_t clock, struct timespec *at);
int __wrap_clock_gettime(clockid_t clock, struct timespec *at)
{
	int r = __real_clock_gettime(clock, at);

	at->tv_sec += __atomic_load_n(&ahead, __ATOMIC_SEQ_CST);
	if (my_looks)
		__atomic_fetch_add(my_looks, 1, __ATOMIC_SEQ_CST);
	return r;
}

/* This thread comes to wait; and it has waited. */
static void comes_to_look(void)
{
	for (unsigned k = 0; !my_looks; k++) {
		unsigned nobody = 0;

		MUST(k < sizeof looks / sizeof *looks);
		if (__atomic_compare_exchange_n(&looks[k], &nobody, 1, false, __ATOMIC_SEQ_CST, __ATOMIC_SEQ_CST))
			my_looks = &looks[k];
	}
}

static void has_looked(void)
{
	unsigned *mine = my_looks;

	my_looks = NULL;
	__atomic_store_n(mine, 0, __ATOMIC_SEQ_CST);
}

/* Each thread that waits has looked since. */
static void each_has_looked(void)
{
	for (unsigned k = 0; k < sizeof looks / sizeof *looks; k++) {
		unsigned before = __atomic_load_n(&looks[k], __ATOMIC_SEQ_CST), now = before;

		while (now && now - before < OFTEN) {
			usleep(1000);
			now = __atomic_load_n(&looks[k], __ATOMIC_SEQ_CST);
		}
	}
}
#endif
