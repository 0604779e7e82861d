/*
 * sleep.c - the clock, sleeps on a futex, and the token of a seat. The user of a seat, a thread or a task, sleeps on the token:
 *
 *	token		its next state, and which step makes it
 *	NOTHING		ARMED, with the number of this wait: the user leaves a waker, by an exchange (ww_arm)
 *			TOKEN: another thread wakes the seat, by an exchange (ww_unpark)
 *	ARMED		TOKEN: another thread wakes the seat, by an exchange, and then calls the waker (ww_unpark)
 *			NOTHING: a poll takes its waker back, by an exchange (ww_disarm); or the thread's time limit has
 *			passed, by a store (ww_park)
 *	TOKEN		NOTHING: the user goes on, or doesn't go to sleep after all, by a store (ww_park, ww_arm)
 *
 * No wake-up is lost: the thread that wakes and the one that goes to sleep both exchange the token, and whichever comes second
 * sees what the first one left. A store of NOTHING may erase a token that came just before. That does no harm, since the user looks
 * at its lock after the store, and so sees what it would have been woken for.
 */
#define _GNU_SOURCE
#include "sleep.h"
#include "message.h"
#include "process.h"
#include <errno.h>
#include <linux/futex.h>
#include <sched.h>
#include <sys/syscall.h>
#include <unistd.h>

_Static_assert(sizeof(ww_seat) == 192 && offsetof(ww_seat, waits) == 64 && offsetof(ww_seat, ticket) == 128, "a seat has three cache lines");
_Static_assert(offsetof(ww_seat, handle) == 0, "a seat begins with its handle");

/*
 * MOST_PAUSES is the largest number of pauses between two looks at a word: a look takes the cache line from the thread that writes
 * the word. Every WW_LOOKS looks the clock is read, too. A program of the search of schedules sets WW_LOOKS itself.
 */
#ifndef WW_LOOKS
#define WW_LOOKS 16
#endif
enum { MOST_PAUSES = 8 };
/*
 * A thread that has waited for this many nanoseconds to enter a guard sleeps for as many before each further try, since the thread
 * inside the guard may need its processor.
 */
enum { SHORT_SLEEP = 50000 };

/* On AArch64, `isb` waits for some cycles; `yield` does nothing on a core that has one hardware thread. */
void ww_pause(unsigned count)
{
	for (unsigned i = 0; i < count; i++)
#ifdef __x86_64__
		__builtin_ia32_pause();
#else
		__asm__ volatile("isb" ::: "memory");
#endif
}

void ww_futex_wait(uint32_t *word, uint32_t is, const struct timespec *until)
{
	if (!syscall(SYS_futex, word, FUTEX_WAIT_BITSET_PRIVATE, is, ww_debug_sleeps(until), NULL, FUTEX_BITSET_MATCH_ANY) ||
	    errno != EAGAIN)
		ww_mine.sleeps++;
}

bool ww_futex_wake(uint32_t *word) { return syscall(SYS_futex, word, FUTEX_WAKE_PRIVATE, 1, NULL, NULL, 0) > 0; }

bool ww_has_come(const struct timespec *until)
{
	struct timespec now;

	clock_gettime(CLOCK_MONOTONIC, &now);
	return now.tv_sec != until->tv_sec ? now.tv_sec > until->tv_sec : now.tv_nsec >= until->tv_nsec;
}

uint64_t ww_now(void)
{
	struct timespec now;

	clock_gettime(CLOCK_MONOTONIC, &now);
	return (uint64_t)now.tv_sec * 1000000000 + (uint64_t)now.tv_nsec;
}

/* A sleep on a futex, and not nanosleep: pthread_cancel would end the thread inside nanosleep, in the middle of the library's call. */
static void sleep_briefly(void)
{
	const struct timespec until = timespec_of(ww_now() + SHORT_SLEEP);
	uint32_t nobody_wakes = 0;

	ww_futex_wait(&nobody_wakes, 0, &until);
}

bool ww_stays_awake(unsigned *looks, uint64_t until)
{
	unsigned look = ++*looks;

	ww_pause(look < MOST_PAUSES ? look : MOST_PAUSES);
	if (look % WW_LOOKS || ww_now() < until)
		return true;
	--*looks;
	return false;
}

void ww_await_guard(unsigned *looks, uint64_t *until)
{
	if (!*until)
		*until = ww_now() + SHORT_SLEEP;
	if (!ww_stays_awake(looks, *until))
		sleep_briefly();
}

/* The token of the seat's present wait while its waker hasn't been called. */
static uint32_t armed(const ww_seat *s) { return ARMED | s->armed << 2; }

/*
 * Leaves a waker, which the next thread that wakes the seat calls. It returns false if the seat was woken before, and then takes
 * that token. The stores are relaxed, since a thread that reads the waker uses it only if it finds this token both before and after
 * it has read. In the proved protocol of drivers this is the move `parks`, or `rises` if the seat was woken before.
 */
bool ww_arm(ww_seat *s, const struct ww_waker *waker)
{
	uint32_t was = NOTHING;

	__atomic_store_n(&s->waker.wake, waker->wake, __ATOMIC_RELAXED);
	__atomic_store_n(&s->waker.loop, waker->loop, __ATOMIC_RELAXED);
	__atomic_store_n(&s->waker.task, waker->task, __ATOMIC_RELAXED);
	s->armed++;
	if (__atomic_compare_exchange_n(&s->token, &was, armed(s), false, __ATOMIC_SEQ_CST, __ATOMIC_SEQ_CST))
		return true;
	__atomic_store_n(&s->token, NOTHING, __ATOMIC_SEQ_CST);
	return false;
}

bool ww_disarm(ww_seat *s)
{
	uint32_t was = armed(s);

	return __atomic_compare_exchange_n(&s->token, &was, NOTHING, false, __ATOMIC_SEQ_CST, __ATOMIC_SEQ_CST);
}

/*
 * The waker of a thread that sleeps on its seat's token. It only passes the token's address to the system, and reads nothing there,
 * since the thread may have gone on, and freed the memory, before the waker is called. The address of what the thread has for itself is
 * for a debugger alone, which sees by it which thread sleeps.
 */
static void wake_thread(void *mine, void *token)
{
	(void)mine;
	ww_futex_wake(token);
}

/*
 * Sleeps until another thread wakes the seat, or until the time limit has passed. A thread that cancels the wait wakes the seat, too.
 * If the seat was woken before this call, the call returns at once, so no wake-up is lost. The last store is the move `rises` of the
 * proved protocol of drivers.
 */
void ww_park(ww_seat *s, uint64_t awake, const struct timespec *until)
{
	const struct ww_waker thread = { .wake = wake_thread, .loop = &ww_mine, .task = &s->token };

	for (unsigned looks = 0; __atomic_load_n(&s->token, __ATOMIC_SEQ_CST) != TOKEN && ww_stays_awake(&looks, awake);)
		;
	(void)this_thread();
	ww_mine.since = awake;
	if (!ww_arm(s, &thread))
		return;
	while (__atomic_load_n(&s->token, __ATOMIC_SEQ_CST) == armed(s) && !(until && ww_has_come(until)))
		ww_futex_wait(&s->token, armed(s), until);
	__atomic_store_n(&s->token, NOTHING, __ATOMIC_SEQ_CST);
}

/*
 * Leaves a token, and returns the waker of the wait that it ended, which is empty if nobody waited. The waker is read before the
 * exchange, since afterwards the seat's user may go on and wait again, or give the seat to another user. Each wait has a number of
 * its own in the token. So if the exchange finds the token unchanged, then the waker that was read is that wait's, and was stored
 * before the token was; this is why relaxed loads suffice. The exchange is the move `wakes` of the proved protocol of drivers.
 */
struct ww_waker ww_leave_token(ww_seat *s)
{
	uint32_t was = __atomic_load_n(&s->token, __ATOMIC_SEQ_CST);
	struct ww_waker waker = { 0 };

	DTRACE_PROBE1(ww, wake, s);
	do {
		if (was >= ARMED) {
			waker.wake = __atomic_load_n(&s->waker.wake, __ATOMIC_RELAXED);
			waker.loop = __atomic_load_n(&s->waker.loop, __ATOMIC_RELAXED);
			waker.task = __atomic_load_n(&s->waker.task, __ATOMIC_RELAXED);
		}
	} while (!__atomic_compare_exchange_n(&s->token, &was, TOKEN, false, __ATOMIC_SEQ_CST, __ATOMIC_SEQ_CST));
	return was >= ARMED ? waker : (struct ww_waker){ 0 };
}

void ww_unpark(ww_seat *s) { call_waker(ww_leave_token(s)); }

