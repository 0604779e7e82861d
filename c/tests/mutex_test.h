/* What the tests of ww_mutex.h share. A program may include both headers. */
#ifndef MUTEX_TEST_H
#define MUTEX_TEST_H
#include "test.h"
#include "ww_mutex.h"
#include <string.h>
#include <unistd.h>

/* Whether the debug library tells by which calls a program came somewhere. */
#ifdef __has_include
#if __has_include(<execinfo.h>)
#define HAS_BACKTRACE true
#endif
#endif
#ifndef HAS_BACKTRACE
#define HAS_BACKTRACE false
#endif

/* So many milliseconds from now, on the monotonic clock. */
static inline struct timespec in_ms(long ms)
{
	struct timespec at;

	clock_gettime(CLOCK_MONOTONIC, &at);
	at.tv_nsec += ms * 1000000;
	at.tv_sec += at.tv_nsec / 1000000000;
	at.tv_nsec %= 1000000000;
	return at;
}

/* Somebody waits for it, as far as can be seen from here. */
static inline void awaits_waiter(const struct ww_mutex *m)
{
	while (!__atomic_load_n(&m->waiters, __ATOMIC_SEQ_CST))
		usleep(100);
	usleep(2000);
}

static inline pthread_t begin_thread(void *(*work)(void *), void *arg)
{
	pthread_t thread;

	MUST(!pthread_create(&thread, NULL, work, arg));
	return thread;
}

static inline void end_thread(pthread_t thread) { MUST(!pthread_join(thread, NULL)); }
#endif
