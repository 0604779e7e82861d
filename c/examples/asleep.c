/*
 * What nobody promises: that a waiter gets its lock.  Two contexts take one
 * lock by turns, each within its one context; a third, younger than both, stands
 * behind them in the list, and sleeps for as long as they go on.  All calls are
 * made step by step in one thread, so each run is the same.
 */
#include <ww_steps.h>
#include <stdio.h>

enum { OLDEST, SECOND, YOUNGEST, SEATS };
enum { LOCK, LOCKS };
enum { TIMES = 100000 };

static ww_handle seats[SEATS];
static long woken[SEATS];

/* Steps until the seat has to sleep, or its call has come to its end. */
static int go_on(int seat)
{
	int answer;

	do {
		answer = ww_go_on_(&seats[seat]);
		for (int k; (k = ww_next_wake_(&seats[seat])) >= 0;)
			woken[k]++;
	} while (answer > 0 && answer != WW_SLEEPS);
	return answer;
}

static int lock(int seat)
{
	int answer = ww_lock_(&seats[seat], LOCK, false);

	return answer > 0 ? go_on(seat) : answer;
}

static int unlock(int seat)
{
	int answer = ww_unlock_(&seats[seat], LOCK);

	return answer > 0 ? go_on(seat) : answer;
}

/* The holder releases the lock, which wakes the other; that one takes it, and the first one comes again. */
static bool take_turns(void)
{
	for (int k = 0; k < TIMES; k++) {
		int holder = k % 2 ? SECOND : OLDEST, other = k % 2 ? OLDEST : SECOND;

		if (unlock(holder) || go_on(other) || lock(holder) != WW_SLEEPS)
			return false;
	}
	return true;
}

/* Once the two stop, the youngest gets the lock. */
static bool stop(void)
{
	int holder = TIMES % 2 ? SECOND : OLDEST, other = TIMES % 2 ? OLDEST : SECOND;

	return !unlock(holder) && !go_on(other) && !unlock(other) && !go_on(YOUNGEST) && !unlock(YOUNGEST);
}

static bool run(uint32_t kind)
{
	ww_world world = { 0 };
	bool good;

	if (ww_open_world_(kind, LOCKS, 1, SEATS, &world))
		return false;
	for (uint16_t k = 0; k < SEATS; k++) {
		woken[k] = 0;
		if (ww_open_seat_(&world, k, &seats[k]) || ww_begin_(&seats[k]))
			return false;
	}
	ww_close_world_(&world);
	if (lock(OLDEST) || lock(YOUNGEST) != WW_SLEEPS || lock(SECOND) != WW_SLEEPS || !take_turns())
		return false;
	printf("asleep, %s: the lock was taken %d times, and the youngest woken %ld times\n",
	       kind == WW_WOUND_WAIT ? "Wound-Wait" : "Wait-Die", TIMES, woken[YOUNGEST]);
	good = woken[YOUNGEST] == 0 && stop();
	for (int k = 0; k < SEATS; k++)
		good = !ww_end_(&seats[k]) && !ww_close_(&seats[k]) && good;
	return good;
}

int main(void)
{
	return !run(WW_WOUND_WAIT) || !run(WW_WAIT_DIE);
}
