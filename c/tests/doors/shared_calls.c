/*
 * Shared mutexes: what each call of ww_shared.h returns, how they mix with those of ww_mutex.h.
 *
 * Also what ends a wait of a reader or a writer, which context gets -EDEADLK, and what a loop does after it.  Compiled
 * with -DWW_DEBUG: which calls the debug library reports.
 */
#include "../mutex_test.h"
#include "ww_poll.h"
#include "ww_shared.h"
#include "../said.h"
#include "../../admit/class.h" /* behind those, whose calls say where they are */
#include <signal.h>
#include <sys/wait.h>

static DEFINE_WW_CLASS(wound_wait);
static DEFINE_WD_CLASS(wait_die);
static struct ww_class *c;
static struct ww_shared_mutex m, n;
static struct ww_mutex plain;
static struct ww_acquire_ctx x, y; /* x is older */
static const struct timespec past = { 0, 0 };

/* The mutex of a number, for calls by address. */
static struct ww_shared_mutex *shared_at(uint32_t n) { return ww_number_at(n, c); }
static struct ww_mutex *mutex_at(uint32_t n) { return &ww_number_at(n, c)->mutex_; }

/* So that the debug library makes nothing up. */
static void begins(struct ww_acquire_ctx *ctx)
{
	ww_acquire_init(ctx, c);
	ctx->deadlock_inject_countdown = ~0u;
}

static void begin_both(void)
{
	begins(&x);
	begins(&y);
}

static void end_both(void)
{
	MUST(!x.acquired && !y.acquired);
	ww_acquire_fini(&y);
	ww_acquire_fini(&x);
}

static int reads(struct ww_shared_mutex *it, struct ww_acquire_ctx *by) { return ww_shared_mutex_lock_shared(it, by); }
static int writes(struct ww_shared_mutex *it, struct ww_acquire_ctx *by) { return ww_shared_mutex_lock(it, by); }
/* One unlock ends one thing, and what the other one ends it refuses: of a mutex that is written and read, first the write. */
static void unlocks(struct ww_shared_mutex *it, struct ww_acquire_ctx *by)
{
	MUST(!(ww_shared_mutex_is_written_by(it, by) ? ww_shared_mutex_unlock(it, by) : ww_shared_mutex_unlock_shared(it, by)));
}

/* How many calls the debug library has reported, in its own build. */
static unsigned long faults(void)
{
#ifdef WW_DEBUG
	return ww_debug_faults();
#else
	return 0;
#endif
}
enum {
#ifdef WW_DEBUG
	TOLD = 1,
#else
	TOLD = 0,
#endif
};

/* What `by` can have now. */
static bool can_read(struct ww_shared_mutex *it, struct ww_acquire_ctx *by)
{
	bool can = ww_shared_mutex_trylock_shared(it, by);

	if (can)
		unlocks(it, by);
	return can;
}

static bool can_write(struct ww_shared_mutex *it, struct ww_acquire_ctx *by)
{
	bool can = ww_shared_mutex_trylock(it, by);

	if (can)
		unlocks(it, by);
	return can;
}

/* ---- by hand ---- */

static void read_beside_each_other(void)
{
	begin_both();
	MUST(!reads(&m, &x) && !reads(&m, &y) && !reads(&n, &x));
	MUST(ww_shared_mutex_is_read_by(&m, &x) && ww_shared_mutex_is_read_by(&m, &y) && !ww_shared_mutex_is_read_by(&n, &y));
	MUST(x.acquired == 1 && !ww_shared_mutex_is_written_by(&m, &x));
	MUST(!can_write(&m, &x) && !can_write(&m, &y) && can_write(&n, &x) && !can_write(&n, &y));
	unlocks(&m, &y);
	MUST(can_write(&m, &x));
	unlocks(&m, &x);
	MUST(!can_write(&m, &y) && x.acquired == 1); /* reads end together */
	unlocks(&n, &x);
	MUST(can_write(&m, &y) && can_write(&n, &y));
	end_both();
}

/* Whoever reads or writes it, and wherever else it reads. */
static void says_whether_it_is_locked(void)
{
	begin_both();
	MUST(!ww_shared_mutex_is_locked(&m) && !reads(&m, &x) && !reads(&m, &y) && ww_shared_mutex_is_locked(&m));
	MUST(!ww_shared_mutex_is_locked(&n) && !reads(&n, &y));
	unlocks(&m, &x);
	MUST(ww_shared_mutex_is_locked(&m)); /* until y's reads have ended */
	ww_acquire_end_reads(&y);
	MUST(!ww_shared_mutex_is_locked(&m) && !ww_shared_mutex_is_locked(&n));
	MUST(!writes(&m, &x) && ww_shared_mutex_is_locked(&m));
	ww_shared_mutex_downgrade(&m, &x);
	MUST(ww_shared_mutex_is_locked(&m) && can_read(&m, &y));
	unlocks(&m, &x);
	MUST(!ww_shared_mutex_is_locked(&m) && can_write(&m, &y));
	end_both();
	MUST(!ww_shared_mutex_is_locked(&(struct ww_shared_mutex)WW_SHARED_MUTEX_INIT(c)));
}

static void each_read_has_an_unlock(void)
{
	unsigned long before = faults();

	begin_both();
	MUST(!reads(&m, &x) && !reads(&m, &x) && can_read(&m, &x));
	unlocks(&m, &x);
	MUST(!can_write(&m, &y) && ww_shared_mutex_unlock_shared(&n, &x) == -EINVAL);
	unlocks(&m, &x);
	MUST(can_write(&m, &y) && ww_shared_mutex_unlock_shared(&m, &x) == -EINVAL && ww_shared_mutex_unlock(&n, &x) == -EINVAL);
	MUST(faults() == before + 3 * TOLD);
	end_both();
}

static void write_alone(void)
{
	begin_both();
	MUST(!writes(&m, &x) && writes(&m, &x) == -EALREADY && ww_shared_mutex_is_written_by(&m, &x));
	MUST(!can_read(&m, &y) && !can_write(&m, &y) && ww_shared_mutex_lock_shared_until(&m, &y, &past) == -ETIMEDOUT);
	MUST(ww_shared_mutex_lock_until(&m, &y, &past) == -ETIMEDOUT && !y.acquired);
	MUST(!reads(&m, &x)); /* what it writes it may read, and goes on reading */
	unlocks(&m, &x);
	MUST(ww_shared_mutex_is_read_by(&m, &x) && can_read(&m, &y) && !can_write(&m, &y));
	unlocks(&m, &x);
	end_both();
}

static void upgrades(void)
{
	begin_both();
	MUST(!reads(&m, &x) && !reads(&m, &y));
	MUST(ww_shared_mutex_lock_until(&m, &x, &past) == -ETIMEDOUT && ww_shared_mutex_is_read_by(&m, &x) && can_read(&m, &y));
	unlocks(&m, &y);
	MUST(!writes(&m, &x) && !can_read(&m, &y));
	unlocks(&m, &x);
	MUST(can_read(&m, &y) && !can_write(&m, &y));
	unlocks(&m, &x);
	MUST(can_write(&m, &y));
	end_both();
}

static void downgrades(void)
{
	unsigned long before = faults();

	begin_both();
	MUST(!writes(&m, &x));
	ww_acquire_done(&x);
	ww_shared_mutex_downgrade(&m, &x);
	MUST(ww_shared_mutex_is_read_by(&m, &x) && !ww_shared_mutex_is_written_by(&m, &x) && can_read(&m, &y) && !can_write(&m, &y));
	MUST(ww_acquire_done_checked(&x) == -EINVAL); /* as it was before */
	unlocks(&m, &x);
	MUST(can_write(&m, &y) && faults() == before);
	end_both();
}

static void stay_while_used(void)
{
	unsigned long before = faults();

	begin_both();
	MUST(!reads(&m, &x) && ww_shared_mutex_destroy(&m) == -EBUSY && faults() == before + TOLD && !ww_shared_mutex_destroy(&n));
	ww_shared_mutex_init(&n, c);
	unlocks(&m, &x);
	MUST(!reads(&n, &x) && !ww_shared_mutex_destroy(&m)); /* what it read before doesn't matter */
	unlocks(&n, &x);
	ww_shared_mutex_init(&m, c);
	MUST(!writes(&m, &x) && ww_shared_mutex_destroy(&m) == -EBUSY);
	unlocks(&m, &x);
	end_both();
	MUST(!ww_shared_mutex_destroy(&m) && ww_shared_mutex_destroy(&m) == -EINVAL);
	m = (struct ww_shared_mutex)WW_SHARED_MUTEX_INIT(c);
}

static void refuse_misuse(void)
{
	static const struct timespec none = { 0, -1 };
	static DEFINE_WW_CLASS(other);
	struct ww_acquire_ctx of_other;

	begin_both();
	ww_acquire_init(&of_other, &other);
	MUST(reads(&m, NULL) == -EINVAL && writes(&m, NULL) == -EINVAL && !ww_shared_mutex_trylock_shared(&m, NULL));
	MUST(ww_shared_mutex_await(NULL, NULL) == -EINVAL);
	MUST(reads(&m, &of_other) == -EINVAL && writes(&m, &of_other) == -EINVAL);
	MUST(ww_shared_mutex_lock_shared_until(&m, &x, &none) == -EINVAL && ww_shared_mutex_lock_until(&m, &x, &none) == -EINVAL);
	ww_acquire_fini(&of_other);
	MUST(!ww_class_free(&other));
	end_both();
	MUST(reads(&m, &x) == -EINVAL && writes(&m, &x) == -EINVAL && !ww_shared_mutex_is_read_by(&m, &x));
}

static void end_by_a_cancel(void)
{
	begin_both();
	MUST(!writes(&m, &x) && !reads(&n, &x));
	MUST(!ww_acquire_cancel(&y) && ww_shared_mutex_lock_shared_until(&m, &y, NULL) == -EINTR);
	MUST(!ww_acquire_cancel(&y) && ww_shared_mutex_lock_until(&n, &y, NULL) == -EINTR);
	ww_acquire_flags(&y, WW_INTERRUPTIBLE);
	MUST(!ww_acquire_cancel(&y) && reads(&m, &y) == -EINTR && !y.acquired);
	MUST(!ww_acquire_cancel(&y) && writes(&n, &y) == -EINTR && !y.acquired);
	unlocks(&m, &x);
	unlocks(&n, &x);
	end_both();
}

/* ---- -EDEADLK ---- */

static uint32_t both_read;

/* The younger one gives way, whichever comes first. */
static void *upgrade(void *arg)
{
	struct ww_acquire_ctx *ctx = arg;
	int r;

	MUST(!reads(&m, ctx));
	__atomic_fetch_add(&both_read, 1, __ATOMIC_SEQ_CST);
	while (__atomic_load_n(&both_read, __ATOMIC_SEQ_CST) < 2)
		sched_yield();
	r = writes(&m, ctx);
	MUST(r == (ctx == &y ? -EDEADLK : 0) && ww_shared_mutex_is_read_by(&m, ctx));
	if (!r)
		unlocks(&m, ctx);
	unlocks(&m, ctx);
	while (r) { /* again if the older one, which wrote, still reads */
		MUST(r == -EDEADLK && !ctx->acquired && !ww_shared_mutex_await(ctx, NULL));
		r = writes(&m, ctx);
		if (!r)
			MUST(ww_shared_mutex_unlock_shared(&m, ctx) == -EINVAL && !ww_shared_mutex_unlock(&m, ctx));
	}
	return NULL;
}

static void one_of_two_upgrades_gives_way(void)
{
	pthread_t thread;

	both_read = 0;
	begin_both();
	thread = begin_thread(upgrade, &y);
	upgrade(&x);
	end_thread(thread);
	end_both();
}

/* By Wait-Die a younger context gets it at once. */
static void a_loop_goes_on_after_a_writer(void)
{
	begin_both();
	MUST(!writes(&m, &x));
	ww_until_all_locked(&y) {
		MUST(!reads(&n, &y) && !ww_mutex_lock(&plain, &y));
		if (!ww_shared_mutex_is_written_by(&m, &x)) {
			MUST(!reads(&m, &y) && y.acquired == 2);
			break;
		}
		MUST(reads(&m, &y) == -EDEADLK && ww_is_contended(&y) && ww_shared_mutex_is_read_by(&n, &y));
		MUST(reads(&n, &y) == -EINVAL && !ww_shared_mutex_trylock_shared(&n, &y) && writes(&n, &y) == -EINVAL);
		unlocks(&m, &x);
		ww_retry_on_contention(&y);
	}
	MUST(can_read(&m, &x) && !can_write(&n, &x));
	ww_acquire_unlock_all(&y);
	MUST(can_write(&n, &x));
	end_both();
}

/* The slot at which it collided isn't kept; what was written before stays so while the context has to back off. */
static void a_loop_goes_on_after_a_reader(void)
{
	bool again = false;

	begin_both();
	MUST(!reads(&m, &x));
	ww_until_all_locked(&y) {
		MUST(!writes(&n, &y) && y.acquired == 1);
		if (again)
			break;
		MUST(writes(&m, &y) == -EDEADLK && !ww_shared_mutex_is_written_by(&m, &y) && can_write(&m, &x));
		ww_shared_mutex_downgrade(&n, &y);
		MUST(ww_shared_mutex_is_written_by(&n, &y));
		again = true;
		unlocks(&m, &x);
		ww_retry_on_contention(&y);
	}
	MUST(!writes(&m, &y) && y.acquired == 2);
	ww_acquire_unlock_all(&y);
	end_both();
}

/* By hand, too, it acquires nothing while it still reads; once it reads nothing, the core says the same. */
static void whoever_was_told_reads_no_more(void)
{
	begin_both();
	MUST(!writes(&m, &x) && !reads(&n, &y) && writes(&m, &y) == -EDEADLK);
	MUST(reads(&n, &y) == -EINVAL && !ww_shared_mutex_trylock_shared(&n, &y) && writes(&n, &y) == -EINVAL);
	MUST(ww_shared_mutex_lock_shared_poll(&n, &y, NULL) == -EINVAL && ww_shared_mutex_lock_shared_until(&n, &y, &past) == -EINVAL);
	unlocks(&n, &y);
	unlocks(&m, &x);
	MUST(!ww_shared_mutex_await(&y, NULL) && !reads(&n, &y) && !reads(&m, &y));
	ww_acquire_end_reads(&y);
	MUST(!writes(&m, &x) && !writes(&n, &y) && writes(&m, &y) == -EDEADLK);
	unlocks(&n, &y);
	unlocks(&m, &x);
	MUST(!ww_shared_mutex_await(&y, NULL) && !writes(&n, &y));
	ww_shared_mutex_downgrade(&n, &y); /* by which it comes to its slot */
	MUST(ww_shared_mutex_is_read_by(&n, &y) && !reads(&m, &y));
	ww_acquire_end_reads(&y);
	end_both();
}

/* What it collided with nobody has said, wherever the context lies. */
static void whoever_was_not_told_awaits_nothing(void)
{
	memset(&x, 0x5a, sizeof x);
	begin_both();
	MUST(ww_shared_mutex_await(&x, NULL) == -EINVAL && ww_shared_mutex_await_poll(&x, NULL) == -EINVAL);
	end_both();
}

/* Behind a back-off the context has its lock until the body asks for it, and hasn't waited for those who read it. */
static void owed_is_not_written(void)
{
	struct ww_shared_mutex *it;
	uint32_t number;

	MUST(!ww_number_take(&number, c));
	it = shared_at(number);
	begin_both();
	MUST(!writes(&m, &x));
	ww_until_all_locked(&y, of_a_mutex) {
		MUST(!writes(&n, &y)); /* so that it may have to back off */
		if (ww_shared_mutex_is_written_by(&m, &x)) {
			MUST(writes(&m, &y) == -EDEADLK);
			ww_shared_mutex_downgrade(&m, &x);
			ww_retry_on_contention(&y, of_a_mutex);
		}
		MUST(!ww_mutex_lock(&plain, &y) && !ww_shared_mutex_is_written_by(&m, &y) && ww_shared_mutex_is_read_by(&m, &x));
		ww_acquire_end_reads(&x);
		MUST(!writes(&m, &y) && ww_shared_mutex_is_written_by(&m, &y));
	}
	ww_acquire_unlock_all(&y);
	ww_acquire_fini(&y);
	begins(&y);
	MUST(!ww_shared_mutex_lock_until(it, &x, NULL));
	ww_until_all_locked(&y, of_a_number) {
		MUST(!writes(&n, &y));
		if (ww_shared_mutex_is_written_by(it, &x)) {
			MUST(ww_shared_mutex_lock_until(it, &y, NULL) == -EDEADLK && !ww_number_unlock(number, &x));
			MUST(!ww_shared_mutex_lock_shared_until(it, &x, NULL));
			ww_retry_on_contention(&y, of_a_number);
		}
		MUST(!ww_mutex_lock(&plain, &y) && !ww_shared_mutex_is_written_by(it, &y) && ww_shared_mutex_is_read_by(it, &x));
		ww_acquire_end_reads(&x);
		MUST(!ww_shared_mutex_lock_until(it, &y, NULL) && ww_shared_mutex_is_written_by(it, &y));
	}
	ww_acquire_unlock_all(&y);
	end_both();
	MUST(!ww_number_put(number, c));
}

/* ---- in a loop ---- */

static void reads_are_listed(void)
{
	size_t mark;

	begin_both();
	ww_acquire_flags(&y, WW_IGNORE_DUPLICATES);
	ww_until_all_locked(&y) {
		MUST(!ww_mutex_lock(&plain, &y) && (mark = ww_acquire_mark(&y)) == 1);
		MUST(!reads(&m, &y) && !reads(&m, &y) && !writes(&n, &y) && !writes(&n, &y) && !reads(&n, &y) && y.acquired == 3);
	}
	MUST(!can_write(&m, &x) && !can_read(&n, &x));
	ww_acquire_unlock_to(&y, mark);
	MUST(y.acquired == 1 && can_write(&m, &x) && can_write(&n, &x) && ww_mutex_is_held_by(&plain, &y));
	MUST(!reads(&n, &y) && !can_write(&n, &x) && can_write(&m, &x));
	ww_acquire_unlock_all(&y);
	end_both();
}

/* What was written before a mark is read behind it, whether the context's reads began before that or not. */
static void a_downgrade_keeps_its_place(bool reads_more)
{
	size_t mark;

	begin_both();
	ww_until_all_locked(&y) {
		MUST(!writes(&m, &y) && (mark = ww_acquire_mark(&y)) == 1 && (!reads_more || !reads(&n, &y)) && !ww_mutex_lock(&plain, &y));
	}
	ww_shared_mutex_downgrade(&m, &y);
	MUST(y.acquired == 2);
	ww_acquire_unlock_to(&y, mark);
	MUST(y.acquired == 1 && ww_shared_mutex_is_read_by(&m, &y) && !can_write(&m, &x) && ww_mutex_trylock(&plain, &x));
	ww_mutex_unlock(&plain);
	ww_acquire_unlock_all(&y);
	MUST(can_write(&m, &x));
	end_both();
}

/* By ww_number_lock it waits for no reader. */
static void who_has_it_waits_for_its_readers(void)
{
	struct ww_shared_mutex *it;
	uint32_t number;

	MUST(!ww_number_take(&number, c));
	it = shared_at(number);
	begin_both();
	MUST(!reads(it, &x));
	ww_acquire_flags(&y, WW_IGNORE_DUPLICATES);
	ww_until_all_locked(&y) {
		MUST(!ww_number_lock(number, &y) && ww_shared_mutex_lock_until(it, &y, &past) == -ETIMEDOUT && y.acquired == 1);
		ww_acquire_end_reads(&x);
		MUST(!ww_shared_mutex_lock_until(it, &y, &past) && y.acquired == 1);
	}
	ww_acquire_unlock_all(&y);
	end_both();
	MUST(!ww_number_put(number, c));
}

/* By Wait-Die; it acquires the mutex, and then finds the reader. */
static void a_vain_trylock_takes_no_wait_back(void)
{
	begin_both();
	MUST(!ww_mutex_lock(&plain, &x) && !reads(&m, &x));
	ww_acquire_begin_tries(&y);
	MUST(!writes(&n, &y) && ww_mutex_lock(&plain, &y) == -EDEADLK && ww_acquire_end_try(&y));
	MUST(!can_write(&m, &y) && ww_shared_mutex_lock_until(&n, &y, &past) == -ETIMEDOUT && !y.acquired);
	ww_mutex_unlock(&plain);
	MUST(!ww_shared_mutex_lock_until(&n, &y, &past) && y.acquired == 2 && !ww_acquire_end_try(&y));
	ww_acquire_end_reads(&x);
	end_both();
}

/* By Wait-Die. A number that was put back meanwhile may be that of a slot. */
static void nobody_waits_first_for_what_is_gone(void)
{
	bool again = false;
	uint32_t number;

	MUST(!ww_number_take(&number, c));
	begin_both();
	MUST(!ww_number_lock(number, &x));
	ww_until_all_locked(&y) {
		MUST(!ww_mutex_lock(&plain, &y) && y.acquired == 1);
		if (again)
			break;
		MUST(ww_number_lock(number, &y) == -EDEADLK && !ww_number_unlock(number, &x) && !ww_number_put(number, c));
		again = true;
		ww_retry_on_contention(&y);
	}
	ww_acquire_unlock_all(&y);
	end_both();
}

/* By Wait-Die. Nor for who takes the number next, be it locked by that, or not. */
static void nobody_waits_first_for_a_stranger(bool is_held)
{
	const struct timespec past = { 0, 0 };
	uint32_t number, again;
	bool is_second = false;

	MUST(!ww_number_take(&number, c));
	begin_both();
	MUST(!ww_number_lock(number, &x));
	ww_until_all_locked(&y) {
		MUST(!ww_mutex_lock_until(&plain, &y, &past) && y.acquired == 1);
		if (is_second)
			break;
		is_second = true;
		MUST(ww_number_lock(number, &y) == -EDEADLK && !ww_number_unlock(number, &x) && !ww_number_put(number, c));
		while (!ww_number_take(&again, c) && again != number)
			MUST(!ww_number_put(again, c));
		MUST(!is_held || !ww_number_lock(number, &x));
		ww_retry_on_contention(&y);
	}
	MUST(is_held ? !ww_number_unlock(number, &x) : ww_number_trylock(number, &x) && !ww_number_unlock(number, &x));
	MUST(!ww_number_put(number, c));
	ww_acquire_unlock_all(&y);
	end_both();
}

/* By hand the same, by a wait and by a poll. */
static void nobody_awaits_a_stranger(bool polls)
{
	const struct timespec past = { 0, 0 };
	uint32_t number, again;

	MUST(!ww_number_take(&number, c));
	begin_both();
	MUST(!ww_number_lock(number, &x) && !ww_mutex_lock(&plain, &y) && ww_number_lock(number, &y) == -EDEADLK);
	ww_mutex_unlock(&plain);
	MUST(!ww_number_unlock(number, &x) && !ww_number_put(number, c));
	while (!ww_number_take(&again, c) && again != number)
		MUST(!ww_number_put(again, c));
	MUST(!ww_number_lock(number, &x));
	MUST(!(polls ? ww_shared_mutex_await_poll(&y, NULL) : ww_shared_mutex_await(&y, &past)) && !y.acquired && !ww_mutex_lock(&plain, &y));
	ww_mutex_unlock(&plain);
	MUST(!ww_number_unlock(number, &x) && !ww_number_put(number, c));
	end_both();
}

/* ---- whose a read is ---- */

/* One that was never locked has no number yet, and one of another class may have the same. */
static void others_are_not_read(void)
{
	static DEFINE_WW_CLASS(other_class);
	struct ww_shared_mutex never = WW_SHARED_MUTEX_INIT(c), other;
	struct ww_acquire_ctx alone;
	unsigned long before = faults();
	uint32_t number;

	begin_both();
	MUST(!reads(&m, &x) && !reads(&n, &x));
	never.mutex_.number = m.mutex_.number;
	MUST(!ww_shared_mutex_is_read_by(&never, &x) && !ww_shared_mutex_is_written_by(&never, &x) && ww_shared_mutex_unlock(&never, &x) == -EINVAL &&
	     ww_shared_mutex_unlock_shared(&never, &x) == -EINVAL);
	ww_shared_mutex_init(&other, &other_class);
	ww_acquire_init(&alone, &other_class);
	number = other.mutex_.number;
	other.mutex_.number = m.mutex_.number;
	MUST(!ww_shared_mutex_is_read_by(&other, &x) && ww_shared_mutex_unlock_shared(&other, &x) == -EINVAL && ww_shared_mutex_unlock_shared(&m, &alone) == -EINVAL);
	other.mutex_.number = number;
	ww_acquire_fini(&alone);
	MUST(x.acquired == 1 && !can_write(&m, &y) && !can_write(&n, &y) && faults() == before + 4 * TOLD);
	ww_acquire_end_reads(&x);
	end_both();
	MUST(!ww_shared_mutex_destroy(&other) && !ww_class_free(&other_class));
}

/* Until the context is through with its reads its slot has the mark, by which the next mutex of that number would be read. */
static void numbers_stay_while_read(void)
{
	struct ww_shared_mutex *it;
	uint32_t number;

	MUST(!ww_number_take(&number, c));
	it = shared_at(number);
	begin_both();
	MUST(!ww_shared_mutex_lock_shared_until(it, &x, NULL) && ww_number_put(number, c) == -EBUSY && !reads(&m, &x));
	ww_acquire_end_reads(&x);
	MUST(!ww_shared_mutex_lock_shared_until(it, &x, NULL) && !ww_shared_mutex_lock_until(it, &x, NULL) && ww_number_put(number, c) == -EBUSY);
	MUST(!ww_number_unlock(number, &x) && ww_number_put(number, c) == -EBUSY);
	ww_acquire_end_reads(&x);
	MUST(!reads(&m, &x) && !ww_number_put(number, c)); /* what it read before doesn't matter */
	unlocks(&m, &x);
	end_both();
}

/* ---- by number ---- */

static void numbers_are_read(void)
{
	struct ww_shared_mutex *it;
	uint32_t number;

	MUST(!ww_number_take(&number, c));
	it = shared_at(number);
	begin_both();
	MUST(!ww_shared_mutex_lock_shared_until(it, &x, NULL) && !ww_shared_mutex_lock_shared_until(it, &y, NULL));
	MUST(ww_shared_mutex_is_read_by(it, &x) && !ww_shared_mutex_is_written_by(it, &x));
	MUST(ww_shared_mutex_lock_until(it, &x, &past) == -ETIMEDOUT && !reads(&m, &y));
	ww_acquire_end_reads(&y);
	MUST(!y.acquired && can_write(&m, &x));
	MUST(!ww_shared_mutex_lock_until(it, &x, NULL) && ww_shared_mutex_is_written_by(it, &x));
	MUST(ww_shared_mutex_lock_until(it, &x, NULL) == -EALREADY);
	MUST(ww_shared_mutex_lock_shared_until(it, &y, &past) == -ETIMEDOUT && !y.acquired);
	MUST(!ww_number_unlock(number, &x) && !ww_shared_mutex_lock_shared_until(it, &y, &past));
	ww_acquire_end_reads(&x);
	ww_acquire_end_reads(&y);
	MUST(!ww_shared_mutex_lock_until(it, &y, NULL) && ww_shared_mutex_lock_shared_until(it, &y, NULL) == -EALREADY);
	MUST(!ww_shared_mutex_is_read_by(it, &y) && y.acquired == 1 && ww_shared_mutex_is_written_by(it, &y));
	MUST(ww_shared_mutex_lock_shared_until(it, &x, &past) == -ETIMEDOUT && !ww_number_unlock(number, &y) && !y.acquired);
	MUST(!shared_at(number + 1));
	end_both();
	MUST(!ww_number_put(number, c));
}

/* ---- by polls ---- */

static int calls;

static void count_call(void *loop, void *task)
{
	MUST(loop == &calls);
	++*(int *)task;
}

static const struct ww_waker waker = { count_call, &calls, &calls };

/* Whether its waker was called, since this was asked before. */
static bool was_called(void)
{
	int once = calls;

	calls = 0;
	MUST(once <= 1);
	return once;
}

static int polls_read(struct ww_shared_mutex *it, struct ww_acquire_ctx *by) { return ww_shared_mutex_lock_shared_poll(it, by, &waker); }
static int polls_write(struct ww_shared_mutex *it, struct ww_acquire_ctx *by) { return ww_shared_mutex_lock_poll(it, by, &waker); }

static void a_reader_polls(void)
{
	begin_both();
	MUST(!polls_read(&n, &y) && !polls_read(&n, &y) && !polls_read(&n, &x) && !was_called());
	unlocks(&n, &y);
	unlocks(&n, &y);
	unlocks(&n, &x);
	MUST(!polls_write(&m, &y) && polls_write(&m, &y) == -EALREADY && polls_read(&m, &x) == -EINPROGRESS && x.acquired == 1);
	MUST(polls_read(&m, &x) == -EINPROGRESS && ww_poll_take_back(&x, NULL) && polls_read(&m, &x) == -EINPROGRESS);
	unlocks(&m, &y);
	MUST(was_called() && !ww_shared_mutex_is_read_by(&m, &x) && !polls_read(&m, &x) && ww_shared_mutex_is_read_by(&m, &x));
	MUST(!can_write(&m, &y) && can_read(&m, &y));
	unlocks(&m, &x);
	MUST(can_write(&m, &y));
	end_both();
}

static void a_writer_polls(void)
{
	begin_both();
	MUST(!polls_read(&m, &x) && !polls_read(&m, &y));
	MUST(polls_write(&m, &x) == -EINPROGRESS && can_read(&m, &y)); /* which it reads already */
	MUST(!ww_shared_mutex_is_written_by(&m, &x) && ww_shared_mutex_is_read_by(&m, &x));
	unlocks(&m, &y);
	MUST(was_called() && !polls_write(&m, &x) && ww_shared_mutex_is_written_by(&m, &x) && !can_read(&m, &y));
	unlocks(&m, &x);
	MUST(ww_shared_mutex_is_read_by(&m, &x));
	unlocks(&m, &x);
	MUST(can_write(&m, &y) && !was_called());
	end_both();
}

/* It leaves neither a mark nor a slot, nor the mutex; what it had before stays. */
static void a_poll_ends(void)
{
	begin_both();
	MUST(!writes(&m, &y) && polls_read(&m, &x) == -EINPROGRESS);
	MUST(ww_shared_mutex_lock_shared_poll(&m, &x, NULL) == -ETIMEDOUT && !x.acquired);
	MUST(ww_shared_mutex_lock_shared_poll(&m, &x, NULL) == -ETIMEDOUT && ww_shared_mutex_lock_poll(&m, &x, NULL) == -ETIMEDOUT);
	MUST(!polls_read(&n, &x) && polls_read(&m, &x) == -EINPROGRESS && !ww_acquire_cancel(&x) && was_called());
	MUST(polls_read(&m, &x) == -EINTR && x.acquired == 1 && ww_shared_mutex_is_read_by(&n, &x));
	unlocks(&m, &y);
	MUST(can_write(&m, &y) && !can_write(&n, &y) && !was_called());
	unlocks(&n, &x);
	MUST(!reads(&n, &y) && polls_write(&n, &x) == -EINPROGRESS && ww_shared_mutex_lock_poll(&n, &x, NULL) == -ETIMEDOUT && !x.acquired);
	MUST(can_read(&n, &x) && !reads(&n, &x) && polls_write(&n, &x) == -EINPROGRESS);
	MUST(ww_shared_mutex_lock_poll(&n, &x, NULL) == -ETIMEDOUT && ww_shared_mutex_is_read_by(&n, &x));
	unlocks(&n, &x);
	unlocks(&n, &y);
	MUST(can_write(&n, &y) && !was_called());
	end_both();
}

/* Any other call, and a poll of anything else. */
static void refuse_others_amid_a_poll(void)
{
	unsigned long before = faults();

	begin_both();
	MUST(!reads(&m, &y) && !reads(&n, &y) && polls_write(&m, &x) == -EINPROGRESS);
	for (unsigned k = 0;; k++) {
		MUST(polls_read(&m, &x) == -EBUSY && polls_write(&n, &x) == -EBUSY && polls_read(&n, &x) == -EBUSY && reads(&n, &x) == -EBUSY);
		MUST(reads(&m, &x) == -EBUSY && !ww_shared_mutex_trylock_shared(&n, &x) && ww_shared_mutex_await_poll(&x, &waker) == -EBUSY);
		MUST(ww_mutex_lock_poll(&plain, &x, &waker) == -EBUSY && ww_acquire_fini_checked(&x) == -EBUSY);
		MUST(ww_shared_mutex_await(&x, NULL) == -EBUSY);
		if (k)
			break;
		unlocks(&m, &y);
		unlocks(&n, &y);
	}
	MUST(was_called() && !polls_write(&m, &x) && x.acquired == 1);
	unlocks(&m, &x);
	MUST(!ww_mutex_lock(&plain, &y) && ww_mutex_lock_poll(&plain, &x, &waker) == -EINPROGRESS && polls_write(&m, &x) == -EBUSY);
	ww_mutex_unlock(&plain);
	MUST(was_called() && !ww_mutex_lock_poll(&plain, &x, &waker));
	ww_mutex_unlock(&plain);
	MUST(!writes(&m, &y) && !reads(&n, &x) && !reads(&n, &x) && polls_read(&m, &x) == -EINPROGRESS && reads(&n, &x) == -EBUSY);
	MUST(ww_shared_mutex_unlock(&n, &x) == -EBUSY && ww_shared_mutex_unlock_shared(&n, &x) == -EBUSY);
	MUST(ww_shared_mutex_lock_shared_poll(&m, &x, NULL) == -ETIMEDOUT && !writes(&n, &x));
	MUST(polls_read(&m, &x) == -EINPROGRESS && reads(&n, &x) == -EBUSY && !ww_shared_mutex_trylock_shared(&n, &x));
	unlocks(&m, &y);
	MUST(was_called() && !polls_read(&m, &x));
	unlocks(&m, &x);
	unlocks(&n, &x);
	unlocks(&n, &x);
	unlocks(&n, &x);
	MUST(ww_shared_mutex_await_poll(&x, &waker) == -EINVAL);
	MUST(polls_read(&m, NULL) == -EINVAL && polls_write(&m, NULL) == -EINVAL && ww_shared_mutex_await_poll(NULL, &waker) == -EINVAL);
	MUST(faults() == before + 24 * TOLD);
	end_both();
}

/* By Wait-Die a younger context gets it at once; as a task it waits, holding nothing, and begins again. */
static void a_poll_backs_off(void)
{
	begin_both();
	MUST(!writes(&m, &x) && !polls_read(&n, &y) && polls_read(&m, &y) == -EDEADLK && ww_shared_mutex_is_read_by(&n, &y));
	unlocks(&n, &y);
	MUST(ww_shared_mutex_await_poll(&y, &waker) == -EINPROGRESS && ww_shared_mutex_await_poll(&y, NULL) == -ETIMEDOUT);
	MUST(ww_shared_mutex_await_poll(&y, &waker) == -EINPROGRESS && polls_write(&m, &y) == -EBUSY);
	unlocks(&m, &x);
	MUST(was_called() && !ww_shared_mutex_await_poll(&y, &waker) && !y.acquired && !polls_read(&m, &y));
	unlocks(&m, &y);
	MUST(!reads(&m, &x) && !polls_write(&n, &y) && polls_write(&m, &y) == -EDEADLK && y.acquired == 1 && can_write(&m, &x));
	unlocks(&n, &y);
	MUST(ww_shared_mutex_await_poll(&y, &waker) == -EINPROGRESS); /* for the reader's slot */
	unlocks(&m, &x);
	MUST(was_called() && !ww_shared_mutex_await_poll(&y, &waker) && !y.acquired && !polls_write(&m, &y));
	unlocks(&m, &y);
	end_both();
}

/* One call ends a context in whatever state it is, and the same call again changes nothing. */
static void begins_anew(struct ww_acquire_ctx *ctx)
{
	MUST(!ww_acquire_end(ctx) && !ctx->acquired && ww_acquire_end(ctx) == -EINVAL);
	begins(ctx);
}

static void is_ended(struct ww_acquire_ctx *ctx, struct ww_acquire_ctx *other)
{
	begins_anew(ctx);
	MUST(can_write(&m, other) && can_write(&n, other) && !ww_mutex_is_locked(&plain));
}

static void one_call_ends_it(void)
{
	begin_both();
	begins_anew(&x);
	is_ended(&y, &x);
	MUST(!reads(&m, &y) && !writes(&n, &y) && !ww_mutex_lock(&plain, &y));
	is_ended(&y, &x);
	MUST(!ww_acquire_cancel(&y) && !ww_acquire_done_checked(&y));
	is_ended(&y, &x);
	MUST(!reads(&m, &x) && !reads(&m, &y) && polls_write(&m, &x) == -EINPROGRESS);
	begins_anew(&x);
	is_ended(&y, &x); /* the younger one again */
	calls = 0;
	ww_until_all_locked(&y) MUST(!reads(&m, &y) && !ww_mutex_lock(&plain, &y));
	is_ended(&y, &x);
	for (unsigned k = 0; k < 2 && c->is_wait_die; k++) {
		MUST(!writes(&n, &x) && ww_tries_begin_(&y) == &y && !reads(&m, &y) && writes(&n, &y) == -EDEADLK);
		if (k) { /* it isn't told any more, but waits first, in vain */
			ww_back_off_(&y);
			MUST(ww_shared_mutex_lock_until(&m, &y, &past) == -ETIMEDOUT);
		}
		begins_anew(&y);
		MUST(can_write(&m, &x));
		unlocks(&n, &x);
	}
	end_both();
}

/* By numbers a context may lie elsewhere; where it was is of no use then. */
static struct ww_acquire_ctx moved;

static void moves(struct ww_acquire_ctx *ctx)
{
	moved = *ctx;
	memset(ctx, 0x55, sizeof *ctx);
}

static void moves_back(void)
{
	x = moved;
	memset(&moved, 0x55, sizeof moved);
}

/* A task that waits for its own slot counts at the mutex that it asks for: y's task has that slot next, and hasn't polled. */
static void mutexes_stay_while_tasks_come_to_read(void)
{
	uint32_t number;

	MUST(!ww_number_take(&number, c));
	for (unsigned by_number = 0; by_number < 2; by_number++) {
		int r;

		begin_both();
		MUST(!reads(&m, &x) && polls_write(&m, &y) == -EINPROGRESS);
		for (;;) {
			ww_acquire_end_reads(&x);
			MUST(was_called());
			r = by_number ? ww_shared_mutex_lock_shared_poll(shared_at(number), &x, &waker) : polls_read(&n, &x);
			if (r)
				break;
			MUST(polls_write(&m, &y) == -EINPROGRESS);
		}
		MUST(r == -EINPROGRESS && (by_number ? ww_number_put(number, c) : ww_shared_mutex_destroy(&n)) == -EBUSY);
		MUST(!polls_write(&m, &y) && was_called());
		MUST(!(by_number ? ww_shared_mutex_lock_shared_poll(shared_at(number), &x, &waker) : polls_read(&n, &x)) && x.acquired == 1);
		ww_acquire_end_reads(&x);
		unlocks(&m, &y);
		end_both();
	}
	MUST(!ww_number_put(number, c));
}

/* Only this thread could poll the task that has y's slot next. */
static void a_downgrade_waits_for_no_task(void)
{
	begin_both();
	MUST(!reads(&m, &y) && polls_write(&m, &x) == -EINPROGRESS);
	unlocks(&m, &y);
	MUST(was_called() && !writes(&n, &y));
	ww_shared_mutex_downgrade(&n, &y);
	MUST(ww_shared_mutex_is_written_by(&n, &y) && !polls_write(&m, &x));
	ww_shared_mutex_downgrade(&n, &y);
	MUST(ww_shared_mutex_is_read_by(&n, &y) && can_read(&n, &x) && !can_write(&n, &x));
	unlocks(&m, &x);
	unlocks(&n, &y);
	end_both();
}

/* By its seat it reads on, and whoever writes waits for it: it moves while it polls for an upgrade, or before that. */
static void moved_contexts_read_on(void)
{
	struct ww_shared_mutex *it;
	uint32_t number;

	MUST(!ww_number_take(&number, c));
	it = shared_at(number);
	for (unsigned polls = 0; polls < 2; polls++) {
		begin_both();
		MUST(!ww_shared_mutex_lock_shared_until(it, &x, NULL));
		if (polls)
			MUST(!ww_shared_mutex_lock_shared_until(it, &y, NULL) && ww_shared_mutex_lock_poll(it, &x, &waker) == -EINPROGRESS);
		moves(&x);
		ww_acquire_end_reads(&y);
		MUST(ww_shared_mutex_is_read_by(it, &moved) && (polls || !ww_shared_mutex_lock_shared_until(it, &moved, NULL)));
		MUST(!(polls ? ww_shared_mutex_lock_poll(it, &moved, &waker) : ww_shared_mutex_lock_until(it, &moved, &past)));
		MUST(ww_shared_mutex_is_written_by(it, &moved) && !ww_number_unlock(number, &moved) && ww_shared_mutex_is_read_by(it, &moved));
		MUST(ww_shared_mutex_lock_until(it, &y, &past) == -ETIMEDOUT && moved.acquired == 1);
		moves_back();
		ww_acquire_end_reads(&x);
		MUST(!ww_shared_mutex_lock_until(it, &y, &past) && !ww_number_unlock(number, &y));
		calls = 0;
		end_both();
	}
	MUST(!ww_number_put(number, c));
}

static uint32_t its_number;
static int wrote;

static uint64_t lock_waits(void)
{
	struct ww_class_counts counts;

	ww_class_stats(c, &counts);
	return counts.lock_waits;
}

/* Where x was. */
static void *writes_there(void *arg)
{
	begins(&x);
	MUST(!ww_shared_mutex_lock_until(shared_at(its_number), &x, NULL));
	__atomic_store_n(&wrote, 1, __ATOMIC_SEQ_CST);
	MUST(!ww_number_unlock(its_number, &x));
	ww_acquire_fini(&x);
	return arg;
}

static void waits_until(uint64_t waits)
{
	while (lock_waits() < waits && !__atomic_load_n(&wrote, __ATOMIC_SEQ_CST))
		usleep(100);
	MUST(!__atomic_load_n(&wrote, __ATOMIC_SEQ_CST));
}

/* A context that waits for readers moves; another one begins where it was, and waits for these, too. */
static void moved_writers_leave_no_name(void)
{
	uint64_t before;
	pthread_t thread;

	MUST(!ww_number_take(&its_number, c));
	wrote = 0;
	begins(&y);
	begins(&x);
	MUST(!ww_shared_mutex_lock_shared_until(shared_at(its_number), &y, NULL) && ww_shared_mutex_lock_poll(shared_at(its_number), &x, &waker) == -EINPROGRESS);
	moves(&x);
	before = lock_waits();
	thread = begin_thread(writes_there, NULL);
	waits_until(before + 1);
	MUST(!ww_acquire_end_wait(&moved));
	waits_until(before + 2);
	ww_acquire_end_reads(&y);
	end_thread(thread);
	MUST(wrote && !moved.acquired);
	calls = 0;
	ww_acquire_fini(&moved);
	ww_acquire_fini(&y);
	MUST(!ww_number_put(its_number, c));
}

static void numbers_are_polled(void)
{
	struct ww_shared_mutex *it;
	uint32_t number;

	MUST(!ww_number_take(&number, c));
	it = shared_at(number);
	begin_both();
	MUST(!ww_shared_mutex_lock_poll(it, &y, &waker) && ww_shared_mutex_is_written_by(it, &y));
	MUST(ww_shared_mutex_lock_shared_poll(it, &x, &waker) == -EINPROGRESS && !ww_number_unlock(number, &y) && was_called());
	MUST(!ww_shared_mutex_lock_shared_poll(it, &x, &waker) && ww_shared_mutex_is_read_by(it, &x));
	ww_acquire_end_reads(&x);
	MUST(!ww_shared_mutex_lock_shared_poll(it, &y, &waker));
	MUST(ww_shared_mutex_lock_poll(it, &x, &waker) == -EINPROGRESS);
	MUST(ww_shared_mutex_lock_until(it, &x, NULL) == -EBUSY && !ww_number_trylock(number, &x));
	MUST(ww_shared_mutex_lock_poll(it, &x, NULL) == -ETIMEDOUT && !x.acquired);
	MUST(ww_shared_mutex_lock_poll(it, &x, &waker) == -EINPROGRESS);
	ww_acquire_end_reads(&y);
	MUST(was_called() && !ww_shared_mutex_lock_poll(it, &x, &waker) && !ww_number_unlock(number, &x));
	MUST(!ww_shared_mutex_lock_shared_poll(it, &x, &waker) && !ww_shared_mutex_lock_poll(it, &x, &waker));
	MUST(ww_shared_mutex_lock_poll(it, &x, &waker) == -EALREADY && !ww_number_unlock(number, &x));
	ww_acquire_end_reads(&x);
	MUST(!ww_shared_mutex_lock_poll(it, &x, &waker) && !ww_number_unlock(number, &x) && !ww_shared_mutex_lock_shared_until(it, &y, NULL));
	MUST(ww_shared_mutex_lock_poll(it, &x, NULL) == -ETIMEDOUT && !x.acquired); /* again, and there are readers */
	ww_acquire_end_reads(&y);
	MUST(!ww_shared_mutex_lock_shared_poll(it, &x, &waker) && !ww_shared_mutex_lock_shared_poll(it, &y, &waker));
	MUST(ww_shared_mutex_lock_poll(it, &x, &waker) == -EINPROGRESS);
	moves(&x); /* amid a wait, and as it reads */
	MUST(ww_shared_mutex_lock_poll(it, &moved, &waker) == -EINPROGRESS && moved.acquired == 2);
	MUST(ww_shared_mutex_lock_poll(it, &moved, NULL) == -ETIMEDOUT && moved.acquired == 1);
	MUST(!ww_shared_mutex_lock_shared_poll(it, &moved, &waker) && moved.acquired == 1);
	moves_back();
	ww_acquire_end_reads(&x);
	ww_acquire_end_reads(&y);
	MUST(!x.acquired);
	end_both();
	MUST(!ww_number_put(number, c) && !was_called());
}

/* ---- each call, with each wrong argument ---- */

enum { READ, READ_UNTIL, TRY_READ, READ_POLL, WRITE, WRITE_UNTIL, TRY_WRITE, WRITE_POLL, CALLS };
static const struct timespec no_time = { 0, 1000000000 };

/* A trylock says no more than that it is refused. */
static int makes(unsigned call, struct ww_shared_mutex *it, struct ww_acquire_ctx *by, const struct timespec *until, int refused)
{
	switch (call) {
	case READ: return ww_shared_mutex_lock_shared(it, by);
	case READ_UNTIL: return ww_shared_mutex_lock_shared_until(it, by, until);
	case TRY_READ: return ww_shared_mutex_trylock_shared(it, by) ? 0 : refused;
	case READ_POLL: return ww_shared_mutex_lock_shared_poll(it, by, &waker);
	case WRITE: return ww_shared_mutex_lock(it, by);
	case WRITE_UNTIL: return ww_shared_mutex_lock_until(it, by, until);
	case TRY_WRITE: return ww_shared_mutex_trylock(it, by) ? 0 : refused;
	default: return ww_shared_mutex_lock_poll(it, by, &waker);
	}
}

/* Each of them, but those whose bits are in `except`, of a mutex and of one by number. */
static void all_refuse(uint32_t number, struct ww_acquire_ctx *by, const struct timespec *until, int why, unsigned except)
{
	unsigned acquired = by ? by->acquired : 0;

	for (unsigned call = 0; call < CALLS; call++) {
		if (except >> call & 1)
			continue;
		MUST(makes(call, &m, by, until, why) == why && makes(call, shared_at(number), by, until, why) == why);
		MUST(!by || by->acquired == acquired);
	}
}

static void each_call_refuses(void)
{
	enum { TIMED = 1 << READ_UNTIL | 1 << WRITE_UNTIL };
	static DEFINE_WW_CLASS(other_class);
	struct ww_acquire_ctx of_other;
	uint32_t number;

	MUST(!ww_number_take(&number, c));
	all_refuse(number, NULL, NULL, -EINVAL, 0);
	begin_both();
	ww_acquire_init(&of_other, &other_class);
	all_refuse(number, &of_other, NULL, -EINVAL, 0);
	ww_acquire_fini(&of_other);
	all_refuse(number, &of_other, NULL, -EINVAL, 0);
	all_refuse(number, &x, &no_time, -EINVAL, ~(unsigned)TIMED);
	MUST(!ww_mutex_lock(&plain, &y) && ww_mutex_lock_poll(&plain, &x, &waker) == -EINPROGRESS);
	all_refuse(number, &x, NULL, -EBUSY, 0);
	MUST(!ww_acquire_end_wait(&x) && !reads(&n, &x));
	if (c->is_wait_die) { /* and y begins anew, as the younger one */
		ww_mutex_unlock(&plain);
		ww_acquire_fini(&y);
		begins(&y);
		MUST(!writes(&m, &x) && !reads(&n, &y) && writes(&m, &y) == -EDEADLK);
		all_refuse(number, &y, NULL, -EINVAL, 0);
		ww_acquire_end_reads(&y);
		unlocks(&m, &x);
	} else {
		ww_mutex_unlock(&plain);
	}
	ww_acquire_end_reads(&x);
	end_both();
	MUST(!ww_number_put(number, c) && !ww_class_free(&other_class));
}

/* ---- without a book ---- */

/* What a wait ends as, if nothing came of it: the context has what it had, and another one what it asked for. */
static void ends_its_wait(void)
{
	MUST(polls_read(&n, &x) == -EBUSY && !ww_acquire_end_wait(&x) && !ww_acquire_end_wait(&x));
}

/* Whatever it waits for, named by nobody: a lock, a read at its own slot and in its turn, a write, an upgrade, by number too. */
static void waits_end_by_themselves(void)
{
	uint32_t number;

	MUST(!ww_number_take(&number, c));
	begin_both();
	MUST(!ww_acquire_end_wait(&x) && !ww_mutex_lock(&plain, &y) && ww_mutex_lock_poll(&plain, &x, &waker) == -EINPROGRESS);
	ends_its_wait();
	MUST(!ww_number_lock(number, &y) && ww_mutex_lock_poll(mutex_at(number), &x, &waker) == -EINPROGRESS);
	ends_its_wait();
	MUST(!ww_number_unlock(number, &y) && !writes(&m, &y) && polls_read(&m, &x) == -EINPROGRESS);
	ends_its_wait();
	MUST(!x.acquired && !reads(&n, &x) && polls_read(&m, &x) == -EINPROGRESS);
	ends_its_wait();
	MUST(x.acquired == 1 && ww_shared_mutex_is_read_by(&n, &x) && polls_write(&m, &x) == -EINPROGRESS);
	ends_its_wait();
	unlocks(&m, &y);
	MUST(!polls_read(&m, &y) && polls_write(&m, &x) == -EINPROGRESS);
	ends_its_wait();
	MUST(!polls_read(&m, &x) && polls_write(&m, &x) == -EINPROGRESS);
	ends_its_wait();
	MUST(can_read(&m, &y) && ww_shared_mutex_is_read_by(&m, &x) && x.acquired == 1);
	MUST(!ww_shared_mutex_lock_shared_until(shared_at(number), &y, NULL) && ww_shared_mutex_lock_poll(shared_at(number), &x, &waker) == -EINPROGRESS);
	ends_its_wait();
	ww_acquire_end_reads(&x);
	ww_acquire_end_reads(&y);
	MUST(polls_write(&m, &y) == 0 && polls_read(&m, &x) == -EINPROGRESS);
	unlocks(&m, &y);
	ends_its_wait(); /* which has come to the mutex by then */
	MUST(!x.acquired && can_write(&m, &y) && polls_write(&m, &y) == 0 && polls_write(&m, &x) == -EINPROGRESS);
	unlocks(&m, &y);
	ends_its_wait();
	MUST(!x.acquired && can_write(&m, &y) && !writes(&m, &y) && polls_read(&m, &x) == -EINPROGRESS && !ww_acquire_cancel(&x));
	MUST(ww_acquire_end_wait(&x) == -EINTR && !x.acquired);
	unlocks(&m, &y);
	ww_mutex_unlock(&plain);
	calls = 0;
	end_both();
	MUST(ww_acquire_end_wait(&x) == -EINVAL && !ww_number_put(number, c));
}

/* In tries a context lists what it holds, whatever that is and by which call it came. */
static void all_is_released(void)
{
	uint32_t numbers[2];

	MUST(!ww_number_take(&numbers[0], c) && !ww_number_take(&numbers[1], c));
	begin_both();
	ww_acquire_begin_tries(&x);
	ww_acquire_begin_tries(&y);
	MUST(!ww_mutex_lock(&plain, &x) && !writes(&m, &x) && !reads(&n, &x) && !reads(&n, &x) && !ww_number_lock(numbers[0], &x));
	MUST(!ww_shared_mutex_lock_shared_until(shared_at(numbers[1]), &x, NULL) && ww_shared_mutex_lock_poll(shared_at(numbers[1]), &x, &waker) == 0 && x.acquired == 5);
	ww_acquire_unlock_all(&x);
	MUST(!x.acquired && !ww_mutex_is_locked(&plain) && can_write(&m, &y) && can_write(&n, &y) && ww_number_trylock(numbers[0], &y));
	MUST(!ww_shared_mutex_lock_until(shared_at(numbers[1]), &y, NULL) && ww_mutex_trylock(&plain, &y));
	ww_acquire_unlock_all(&y);
	ww_acquire_unlock_all(&y);
	MUST(!writes(&m, &y) && !ww_mutex_lock(&plain, &x) && polls_read(&m, &x) == -EINPROGRESS && !ww_acquire_end_wait(&x));
	ww_acquire_unlock_all(&x);
	ww_acquire_unlock_all(&y);
	end_both();
	MUST(!ww_number_put(numbers[0], c) && !ww_number_put(numbers[1], c) && !was_called());
}

/* ---- who reads ---- */

static void readers_are_printed(void)
{
	uint32_t first = m.mutex_.number < n.mutex_.number ? m.mutex_.number : n.mutex_.number;
	char *words, both[80], one[80];

	begin_both();
	MUST(!reads(&m, &x) && !reads(&n, &x) && !reads(&m, &y));
	words = printed(c);
	snprintf(both, sizeof both, " reads mutex %u, mutex %u; for that it holds mutex ", first, m.mutex_.number + n.mutex_.number - first);
	snprintf(one, sizeof one, " reads mutex %u; for that it holds mutex ", m.mutex_.number);
	MUST(strstr(words, both) && strstr(words, one) && !strstr(strstr(words, one) + 1, one));
	free(words);
	unlocks(&m, &y);
	ww_acquire_end_reads(&x);
	end_both();
}

#ifdef WW_DEBUG
static DEFINE_WW_CLASS(second_class);
static struct ww_mutex of_second;
static pthread_barrier_t both_hold;

/* Reads, and waits for what is held by the other thread, which waits to write; until a cancel. */
static void *reads_and_waits(void *arg)
{
	struct ww_acquire_ctx of_its;
	int r;

	ww_acquire_init(&of_its, &second_class);
	MUST(!reads(&m, &x));
	pthread_barrier_wait(&both_hold);
	r = ww_mutex_lock_until(&of_second, &of_its, NULL);
	MUST(!r || r == -EINTR);
	if (!r) /* the other one was quicker */
		ww_mutex_unlock(&of_second);
	unlocks(&m, &x);
	ww_acquire_fini(&of_its);
	return arg;
}

static void *holds_and_writes(void *arg)
{
	struct ww_acquire_ctx of_its;
	int r;

	ww_acquire_init(&of_its, &second_class);
	MUST(!ww_mutex_lock(&of_second, &of_its));
	pthread_barrier_wait(&both_hold);
	r = ww_shared_mutex_lock_until(&m, &y, NULL);
	MUST(!r || r == -EINTR);
	if (!r) /* likewise */
		unlocks(&m, &y);
	ww_mutex_unlock(&of_second);
	ww_acquire_fini(&of_its);
	return arg;
}

/* What the debug library says until it has warned of this. */
static void deadlocks_name_readers(void)
{
	char words[8192] = "", reader[80];
	FILE *said = tmpfile();
	int standard_error = dup(2);
	pthread_t threads[2];

	begins(&y);
	begins(&x);
	ww_mutex_init(&of_second, &second_class);
	ww_debug_check_interval(20);
	MUST(said && standard_error >= 0 && dup2(fileno(said), 2) == 2 && !pthread_barrier_init(&both_hold, NULL, 2));
	threads[0] = begin_thread(reads_and_waits, NULL);
	threads[1] = begin_thread(holds_and_writes, NULL);
	snprintf(reader, sizeof reader, " reads mutex %u; for that it holds mutex ", m.mutex_.number);
	while (!strstr(words, reader)) {
		usleep(1000);
		fflush(stderr);
		MUST(!fseek(said, 0, SEEK_SET));
		words[fread(words, 1, sizeof words - 1, said)] = 0;
		without_addresses(words);
	}
	MUST(dup2(standard_error, 2) == 2 && strstr(words, "no class detects this deadlock of 2 threads"));
	MUST(!ww_class_cancel(c) && !ww_class_cancel(&second_class));
	end_thread(threads[0]);
	end_thread(threads[1]);
	MUST(!fclose(said) && !close(standard_error) && !pthread_barrier_destroy(&both_hold));
	end_both();
	MUST(!ww_mutex_destroy(&of_second) && !ww_class_free(&second_class));
}
#endif

/* ---- limits ---- */

/* A class of so many mutexes has as many, whoever reads: half of them are made before all contexts read, and half after that. */
static void readers_take_no_mutexes(uint32_t mutexes, uint32_t contexts)
{
	enum { ALL = 1024 + 1 }; /* and this thread's own */
	static struct ww_acquire_ctx readers[ALL];
	struct ww_shared_mutex *all = calloc(mutexes, sizeof *all);
	struct ww_class few;
	struct ww_mutex other;
	unsigned count = 0;

	ww_class_init(&few, 0, "few");
	MUST(all && !ww_class_limit(&few, mutexes, contexts));
	for (uint32_t k = 0; k < mutexes; k++) {
		if (k == mutexes / 2)
			for (; count < ALL && !ww_acquire_init_checked(&readers[count], &few); count++)
				MUST(ww_shared_mutex_trylock_shared(&all[count % k], &readers[count]) == 1);
		MUST(!ww_shared_mutex_init_checked(&all[k], &few));
	}
	MUST(count == (contexts ? contexts : ALL) && ww_mutex_init_checked(&other, &few) == -ENOSPC);
	while (count--) {
		ww_acquire_end_reads(&readers[count]);
		ww_acquire_fini(&readers[count]);
	}
	MUST(ww_mutex_init_checked(&other, &few) == -ENOSPC);
	for (uint32_t k = 0; k < mutexes; k++)
		MUST(!ww_shared_mutex_destroy(&all[k]));
	MUST(!ww_class_free(&few)); /* slots don't keep it open */
	free(all);
}

/* ---- children of a fork ---- */

/* By which signal it ends, or 0. */
static int ends_in_a_child(void (*does)(void))
{
	pid_t child = fork();
	int status;

	MUST(child >= 0);
	if (!child) {
		close(2); /* a message may be due */
		does();
		_exit(0);
	}
	MUST(waitpid(child, &status, 0) == child);
	return WIFSIGNALED(status) ? WTERMSIG(status) : 0;
}

static void downgrades_m(void) { ww_shared_mutex_downgrade(&m, &x); }
static void destroys_n(void)
{
	if (ww_shared_mutex_destroy(&n))
		abort();
}
/* Where it would wait, and after that, it acquires nothing; but without the debug library it reads more beside what it reads. */
static struct ww_shared_mutex third;
static void reads_more(void)
{
	if (writes(&n, &x) != -EINVAL || writes(&third, &x) != -EINVAL || reads(&third, &x) != (TOLD ? -EINVAL : 0))
		abort();
	ww_acquire_end_reads(&x);
	if (reads(&third, &x) != -EINVAL)
		abort();
}
static void wake_nobody(void *loop, void *task) { (void)loop, (void)task; }

/* Nor does a downgrade go on amid a poll. */
static void a_child_waits_for_nobody(void)
{
	const struct ww_waker waker = { wake_nobody, NULL, NULL };
	struct ww_mutex *slot;

	begin_both();
	MUST(!reads(&m, &x));
	unlocks(&m, &x);
	MUST(!writes(&m, &x) && !reads(&n, &y));
	slot = &x.own->slot->mutex;
	MUST(ww_mutex_trylock(slot, &y)); /* as a writer comes there, */
	slot->ctx = NULL;		  /* who leaves no word */
	MUST(!ends_in_a_child(downgrades_m) && !ends_in_a_child(destroys_n));
	slot->ctx = &y;
	ww_mutex_unlock(slot);
	MUST(ww_shared_mutex_lock_poll(&n, &x, &waker) == -EINPROGRESS && ends_in_a_child(downgrades_m) == SIGABRT);
	MUST(ww_shared_mutex_lock_poll(&n, &x, NULL) == -ETIMEDOUT);
	unlocks(&m, &x);
	ww_shared_mutex_init(&third, c);
	MUST(!reads(&m, &x) && !ends_in_a_child(reads_more) && !ww_shared_mutex_destroy(&third));
	unlocks(&m, &x);
	unlocks(&n, &y);
	end_both();
}

/*
 * Of a class of so many, where two more are for slots: of the most, the last word of marks has few.  Reads that fail leave
 * nothing at a slot.
 */
enum { MOST = 66010 };
static void all_of_a_class_are_read(uint32_t count)
{
	static DEFINE_WW_CLASS(whole);
	static uint32_t numbers[MOST];

	c = &whole;
	MUST(!ww_class_limit(&whole, count + 2, 2));
	for (uint32_t k = 0; k < count; k++)
		MUST(!ww_number_take(&numbers[k], &whole));
	ww_acquire_init(&x, &whole);
	ww_acquire_init(&y, &whole);
	MUST(!ww_shared_mutex_lock_until(shared_at(numbers[0]), &y, NULL) && !ww_shared_mutex_lock_shared_until(shared_at(numbers[count - 1]), &x, NULL));
	for (uint32_t k = 0; k < 1000; k++)
		MUST(ww_shared_mutex_lock_shared_until(shared_at(numbers[0]), &x, &past) == -ETIMEDOUT);
	MUST(!ww_number_unlock(numbers[0], &y));
	for (uint32_t k = 0; k < count; k++) {
		MUST(!ww_shared_mutex_is_read_by(shared_at(numbers[k]), &x) || k == count - 1);
		MUST(!ww_shared_mutex_lock_shared_until(shared_at(numbers[k]), &x, NULL) && !ww_shared_mutex_lock_shared_until(shared_at(numbers[k]), &y, NULL));
	}
	ww_acquire_end_reads(&y);
	for (uint32_t k = 0; k < count; k += 1 + count / 1000)
		MUST(ww_shared_mutex_is_read_by(shared_at(numbers[k]), &x) && ww_shared_mutex_lock_until(shared_at(numbers[k]), &y, &past) == -ETIMEDOUT);
	ww_acquire_end_reads(&x);
	for (uint32_t k = 0; k < count; k++)
		MUST(!ww_shared_mutex_lock_until(shared_at(numbers[k]), &y, NULL) && !ww_number_unlock(numbers[k], &y) && !ww_number_put(numbers[k], &whole));
	ww_acquire_fini(&x);
	ww_acquire_fini(&y);
	MUST(!ww_class_free(&whole));
}

/* What a context has read stays so, however often it read: here a read that fails comes behind the last one. */
static void reads_are_more_than_32_bits_count(void)
{
	begin_both();
	MUST(!reads(&m, &x) && !writes(&n, &y));
	x.own->slot->reads = UINT32_MAX;
	MUST(!reads(&m, &x) && ww_shared_mutex_lock_shared_until(&n, &x, &past) == -ETIMEDOUT && !ww_shared_mutex_trylock(&m, &y));
	ww_acquire_end_reads(&x);
	unlocks(&n, &y);
	end_both();
}

static void of(struct ww_class *class)
{
	c = class;
	ww_shared_mutex_init(&m, c);
	ww_shared_mutex_init(&n, c);
	ww_mutex_init(&plain, c);
	read_beside_each_other();
	says_whether_it_is_locked();
	each_read_has_an_unlock();
	write_alone();
	upgrades();
	downgrades();
	stay_while_used();
	refuse_misuse();
	end_by_a_cancel();
	one_of_two_upgrades_gives_way();
	a_reader_polls();
	a_writer_polls();
	a_poll_ends();
	refuse_others_amid_a_poll();
	whoever_was_not_told_awaits_nothing();
	others_are_not_read();
	numbers_stay_while_read();
	reads_are_more_than_32_bits_count();
	if (!c->is_wait_die) {
		who_has_it_waits_for_its_readers();
		mutexes_stay_while_tasks_come_to_read();
		moved_writers_leave_no_name();
	}
	one_call_ends_it();
	moved_contexts_read_on();
	numbers_are_polled();
	each_call_refuses();
	waits_end_by_themselves();
	all_is_released();
	readers_are_printed();
	if (c->is_wait_die) {
		a_poll_backs_off();
		whoever_was_told_reads_no_more();
		owed_is_not_written();
		a_downgrade_waits_for_no_task();
		a_loop_goes_on_after_a_writer();
		a_loop_goes_on_after_a_reader();
		a_vain_trylock_takes_no_wait_back();
		nobody_waits_first_for_what_is_gone();
		nobody_waits_first_for_a_stranger(true);
		nobody_waits_first_for_a_stranger(false);
		nobody_awaits_a_stranger(false);
		nobody_awaits_a_stranger(true);
	}
	reads_are_listed();
	a_downgrade_keeps_its_place(false);
	a_downgrade_keeps_its_place(true);
	numbers_are_read();
	a_child_waits_for_nobody();
#ifdef WW_DEBUG
	deadlocks_name_readers(); /* at last, since it cancels the class */
#endif
	MUST(!ww_shared_mutex_destroy(&m) && !ww_shared_mutex_destroy(&n) && !ww_mutex_destroy(&plain) && !ww_class_free(c));
}

/* In any order: each may be written from then on, and all others not before; but a writer that came before waits for all. */
static void *writes_first(void *arg)
{
	struct ww_shared_mutex *it = arg;
	struct ww_acquire_ctx z;

	begins(&z);
	MUST(!ww_shared_mutex_lock(it, &z) && !ww_shared_mutex_unlock(it, &z));
	ww_acquire_fini(&z);
	return NULL;
}
static void reads_end_one_by_one(void)
{
	enum { MANY = 400 };
	static struct ww_class of_many;
	static struct ww_shared_mutex list[MANY];
	unsigned drawn = 7, left = MANY;
	bool is_over[MANY] = { false };
	pthread_t thread;

	c = &of_many;
	MUST(!ww_class_limit(c, MANY + 4, 4));
	for (unsigned k = 0; k < MANY; k++)
		ww_shared_mutex_init(&list[k], c);
	begin_both();
	for (unsigned k = 0; k < MANY; k++)
		MUST(!ww_shared_mutex_lock_shared(&list[k], &x));
	while (left--) {
		unsigned k = left & 1 ? next(&drawn) % MANY : left, other = next(&drawn) % MANY;

		while (is_over[k])
			k = (k + 1) % MANY;
		MUST(!ww_shared_mutex_end_read(&list[k], &x) && ww_shared_mutex_end_read(&list[k], &x) == -EINVAL && x.acquired == !!left);
		is_over[k] = true;
		MUST(!ww_shared_mutex_is_read_by(&list[k], &x) && ww_shared_mutex_trylock(&list[k], &y) && !ww_shared_mutex_unlock(&list[k], &y));
		MUST(!ww_shared_mutex_lock_poll(&list[k], &y, NULL) && !ww_shared_mutex_unlock(&list[k], &y));
		MUST(ww_shared_mutex_trylock(&list[other], &y) == is_over[other]);
		if (is_over[other])
			MUST(!ww_shared_mutex_unlock(&list[other], &y));
	}
	MUST(!ww_shared_mutex_lock_shared(&list[0], &x) && !ww_shared_mutex_lock_shared(&list[1], &x) && !ww_shared_mutex_lock(&list[2], &x));
	thread = begin_thread(writes_first, &list[0]);
	awaits_waiter(&list[0].mutex_);
	MUST(!ww_shared_mutex_end_read(&list[0], &x) && ww_shared_mutex_is_locked(&list[0]));
	MUST(!ww_shared_mutex_unlock_shared(&list[1], &x));
	end_thread(thread);
	ww_shared_mutex_downgrade(&list[2], &x);
	MUST(!ww_shared_mutex_end_read(&list[2], &x) && !x.acquired);
	end_both();
	for (unsigned k = 0; k < MANY; k++)
		MUST(!ww_shared_mutex_destroy(&list[k]));
	MUST(!ww_class_free(c));
}

int main(void)
{
	reads_end_one_by_one();
	of(&wound_wait);
	of(&wait_die);
	readers_take_no_mutexes(2, 1);
	readers_take_no_mutexes(3, 70);
	readers_take_no_mutexes(64, 0);
	all_of_a_class_are_read(190);
	all_of_a_class_are_read(MOST);
	puts("shared_calls: readers beside each other, or one writer");
	return 0;
}
