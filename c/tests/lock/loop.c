/*
 * Each row of the table of a loop's states at the head of loop.c.
 *
 * A context is brought into the state, makes the call, which has to return what the table says, and is then in the
 * state that the table says.
 */
#include "../mutex_test.h"
#include "../../lock/loop.h"
#include "ww_shared.h"

enum state { EASE, OWES, TOLD, TOLD_OWES, TOLD_BARE, FIRST, EASE_BARE };
enum call { LOCK, HEED, UNTIL, SLOW, TRY, UNLOCK, UNLOCK_ALL, BACK_OFF, ALL, AGAIN, TWICE };
/* `it` is where -EDEADLK came last, or what is owed; `held` is another that the context holds, where it holds one. */
enum which { IT, HELD, FREE, TAKEN, OWED };
static const char *const states[] = { "ease", "owes", "told", "told, owes", "told, bare", "first", "ease, bare" };

struct row {
	enum state from;
	enum call call;
	enum which which;
	bool it_is_free; /* or else an older context holds it */
	int answer;
	enum state then;
	unsigned flags;
};

static const struct row rows[] = {
	{ EASE, LOCK, FREE, true, 0, EASE, 0 },
	{ EASE, UNTIL, FREE, true, 0, EASE, 0 },
	{ EASE, TRY, FREE, true, 1, EASE, 0 },
	{ EASE, TRY, TAKEN, true, 0, EASE, 0 },
	{ EASE, TRY, HELD, true, 0, EASE, 0 },
	{ EASE, LOCK, TAKEN, true, -EDEADLK, TOLD, 0 },
	{ EASE, HEED, TAKEN, true, -EINTR, EASE, 0 },
	{ EASE, LOCK, TAKEN, true, -EINTR, EASE, WW_INTERRUPTIBLE },
	{ EASE, LOCK, HELD, true, -EALREADY, EASE, 0 },
	{ EASE, LOCK, HELD, true, 0, EASE, WW_IGNORE_DUPLICATES },
	{ EASE, SLOW, FREE, true, -EINVAL, EASE, 0 },
	{ EASE, UNLOCK, HELD, true, 0, EASE_BARE, 0 },
	{ EASE, UNLOCK_ALL, IT, true, 0, EASE_BARE, 0 },
	{ EASE, ALL, FREE, true, 0, EASE, 0 },
	{ EASE, ALL, HELD, true, -EALREADY, EASE, 0 },
	{ EASE, ALL, HELD, true, 0, EASE, WW_IGNORE_DUPLICATES },
	{ EASE, ALL, TAKEN, true, -EDEADLK, TOLD, 0 },
	{ EASE, ALL, TAKEN, true, -EINTR, EASE, WW_INTERRUPTIBLE },

	{ OWES, LOCK, IT, true, 0, EASE, 0 },
	{ OWES, UNTIL, IT, true, 0, EASE, 0 },
	{ OWES, TRY, IT, true, 1, EASE, 0 },
	{ OWES, LOCK, FREE, true, 0, OWES, 0 },
	{ OWES, TRY, FREE, true, 1, OWES, 0 },
	{ OWES, TRY, TAKEN, true, 0, OWES, 0 },
	{ OWES, LOCK, HELD, true, -EALREADY, OWES, 0 },
	{ OWES, LOCK, HELD, true, 0, OWES, WW_IGNORE_DUPLICATES },
	{ OWES, LOCK, TAKEN, true, -EDEADLK, TOLD_OWES, 0 },
	{ OWES, HEED, TAKEN, true, -EINTR, OWES, 0 },
	{ OWES, SLOW, IT, true, -EINVAL, OWES, 0 },
	{ OWES, UNLOCK, IT, true, 0, OWES, 0 },
	{ OWES, AGAIN, IT, true, 0, EASE, 0 },
	{ OWES, TWICE, IT, true, -EALREADY, EASE, 0 },
	{ OWES, UNLOCK_ALL, IT, true, 0, EASE_BARE, 0 },
	{ OWES, ALL, FREE, true, 0, OWES, 0 },
	{ OWES, ALL, IT, true, 0, EASE, 0 },
	{ OWES, ALL, HELD, true, -EALREADY, OWES, 0 },
	{ OWES, ALL, TAKEN, true, -EDEADLK, TOLD_OWES, 0 },
	{ OWES, ALL, TAKEN, true, -EINTR, OWES, WW_INTERRUPTIBLE },

	{ TOLD, LOCK, HELD, false, -EALREADY, TOLD, 0 },
	{ TOLD, LOCK, HELD, false, 0, TOLD, WW_IGNORE_DUPLICATES },
	{ TOLD, LOCK, IT, false, -EINVAL, TOLD, 0 },
	{ TOLD, LOCK, IT, true, -EINVAL, TOLD, 0 },
	{ TOLD, LOCK, FREE, false, -EINVAL, TOLD, 0 },
	{ TOLD, UNTIL, FREE, false, -EINVAL, TOLD, 0 },
	{ TOLD, SLOW, IT, true, -EINVAL, TOLD, 0 },
	{ TOLD, TRY, IT, true, 0, TOLD, 0 },
	{ TOLD, TRY, FREE, false, 0, TOLD, 0 },
	{ TOLD, UNLOCK, HELD, false, 0, TOLD_BARE, 0 },
	{ TOLD, UNLOCK_ALL, IT, false, 0, TOLD_BARE, 0 },
	{ TOLD, ALL, FREE, false, -EINVAL, TOLD, 0 },
	{ TOLD, BACK_OFF, IT, false, 0, FIRST, 0 },

	{ TOLD_OWES, LOCK, OWED, false, 0, TOLD, 0 },
	{ TOLD_OWES, TRY, OWED, false, 1, TOLD, 0 },
	{ TOLD_OWES, LOCK, HELD, false, -EALREADY, TOLD_OWES, 0 },
	{ TOLD_OWES, LOCK, FREE, false, -EINVAL, TOLD_OWES, 0 },
	{ TOLD_OWES, TRY, FREE, false, 0, TOLD_OWES, 0 },
	{ TOLD_OWES, SLOW, IT, true, -EINVAL, TOLD_OWES, 0 },
	{ TOLD_OWES, UNLOCK_ALL, IT, false, 0, TOLD_BARE, 0 },
	{ TOLD_OWES, BACK_OFF, IT, false, 0, FIRST, 0 },

	{ TOLD_BARE, LOCK, IT, true, 0, EASE, 0 },
	{ TOLD_BARE, LOCK, FREE, false, 0, EASE, 0 },
	{ TOLD_BARE, UNTIL, IT, false, -ETIMEDOUT, TOLD_BARE, 0 },
	{ TOLD_BARE, HEED, IT, false, -EINTR, TOLD_BARE, 0 },
	{ TOLD_BARE, SLOW, IT, true, 0, EASE, 0 },
	{ TOLD_BARE, SLOW, FREE, false, -EINVAL, TOLD_BARE, 0 },
	{ TOLD_BARE, TRY, IT, false, 0, TOLD_BARE, 0 },
	{ TOLD_BARE, TRY, FREE, false, 1, EASE, 0 },
	{ TOLD_BARE, ALL, FREE, false, 0, EASE, 0 },
	{ TOLD_BARE, BACK_OFF, IT, false, 0, FIRST, 0 },

	{ FIRST, LOCK, IT, true, 0, EASE, 0 },
	{ FIRST, UNTIL, IT, true, 0, EASE, 0 },
	{ FIRST, UNTIL, IT, false, -ETIMEDOUT, FIRST, 0 },
	{ FIRST, UNTIL, FREE, false, -ETIMEDOUT, FIRST, 0 },
	{ FIRST, HEED, IT, false, -EINTR, FIRST, 0 },
	{ FIRST, HEED, FREE, false, -EINTR, FIRST, 0 },
	{ FIRST, LOCK, FREE, false, -EINTR, FIRST, WW_INTERRUPTIBLE },
	{ FIRST, LOCK, FREE, true, 0, OWES, 0 },
	{ FIRST, LOCK, TAKEN, true, -EDEADLK, TOLD_OWES, 0 },
	{ FIRST, HEED, TAKEN, true, -EINTR, OWES, 0 },
	{ FIRST, SLOW, IT, true, 0, EASE, 0 },
	{ FIRST, SLOW, FREE, false, -EINVAL, FIRST, 0 },
	{ FIRST, TRY, IT, true, 1, EASE, 0 },
	{ FIRST, TRY, IT, false, 0, FIRST, 0 },
	{ FIRST, TRY, FREE, false, 1, EASE, 0 },
	{ FIRST, UNLOCK_ALL, IT, false, 0, EASE_BARE, 0 },
	{ FIRST, ALL, IT, true, 0, EASE, 0 },
	{ FIRST, ALL, FREE, true, 0, OWES, 0 },
	{ FIRST, ALL, FREE, false, -EINTR, FIRST, WW_INTERRUPTIBLE },
	{ FIRST, ALL, TAKEN, true, -EINTR, OWES, WW_INTERRUPTIBLE },

	{ EASE_BARE, LOCK, FREE, false, 0, EASE, 0 },
	{ EASE_BARE, UNTIL, IT, false, -ETIMEDOUT, EASE_BARE, 0 },
	{ EASE_BARE, SLOW, IT, true, 0, EASE, 0 },
	{ EASE_BARE, SLOW, FREE, false, -EINVAL, EASE_BARE, 0 },
	{ EASE_BARE, TRY, IT, false, 0, EASE_BARE, 0 },
	{ EASE_BARE, ALL, TAKEN, false, -EINTR, EASE_BARE, WW_INTERRUPTIBLE },
};

static DEFINE_WD_CLASS(wait_die);
static struct ww_mutex it, held, owed, unheld, taken;
static struct ww_acquire_ctx older, x;

/* As a loop's end, or ww_retry_on_contention, has it. */
static void backs_off(void)
{
	MUST(ww_is_contended(&x));
	ww_back_off_(&x);
	MUST(!x.acquired);
}

static void is_told_at(struct ww_mutex *m) { MUST(ww_mutex_lock(m, &x) == -EDEADLK && ww_is_contended(&x)); }

/* With `owed` waited for first, and `held` acquired. */
static void comes_to_owe(struct ww_mutex *m)
{
	MUST(!ww_mutex_lock(m, &older) && !ww_mutex_lock(&held, &x));
	is_told_at(m);
	backs_off();
	ww_mutex_unlock(m);
	MUST(!ww_mutex_lock(&held, &x) && x.acquired == 2);
}

/* The older context holds `taken`, and `it` too where the state is that -EDEADLK came there. */
static void comes_to(enum state state)
{
	ww_tries_begin_(&x);
	/* The empty handle by which its unlocks are answered is its own. */
	MUST(x.gives == x.empty_);
	switch (state) {
	case EASE: MUST(!ww_mutex_lock(&held, &x)); return;
	case OWES: comes_to_owe(&it); return;
	case TOLD_OWES: comes_to_owe(&owed); break;
	default: MUST(!ww_mutex_lock(&held, &x));
	}
	MUST(!ww_mutex_lock(&it, &older));
	is_told_at(&it);
	if (state == TOLD_BARE)
		ww_mutex_unlock(&held);
	if (state == FIRST || state == EASE_BARE)
		backs_off();
	if (state == EASE_BARE)
		ww_acquire_unlock_all(&x);
}

static enum state state_of(void)
{
	bool told = x.state & HAS_TO_BACK_OFF, first = x.state & WAITS_FIRST, owes = x.state & IS_PRELOCKED;

	MUST(told + first < 2 && told == ww_is_contended(&x) && !(first && (owes || x.acquired)));
	if (told)
		return !x.acquired ? TOLD_BARE : owes ? TOLD_OWES : TOLD;
	return first ? FIRST : owes ? OWES : x.acquired ? EASE : EASE_BARE;
}

static int makes(const struct row *row, struct ww_mutex *m)
{
	struct timespec soon = in_ms(2);

	switch (row->call) {
	case LOCK: return ww_mutex_lock(m, &x);
	case HEED: return ww_mutex_lock_interruptible(m, &x);
	case UNTIL: return ww_mutex_lock_until(m, &x, &soon);
	case SLOW: return ww_mutex_lock_slow_checked(m, &x);
	case TRY: return ww_mutex_trylock(m, &x);
	case UNLOCK: return ww_mutex_unlock_checked(m);
	case UNLOCK_ALL: ww_acquire_unlock_all(&x); return 0;
	case AGAIN: ww_mutex_unlock(m); return ww_mutex_lock(m, &x);
	case TWICE: MUST(!ww_mutex_lock(m, &x)); return ww_mutex_lock(m, &x);
	case BACK_OFF: backs_off(); return 0;
	default: return ww_mutex_lock_all(&x, &m, 1);
	}
}

static void walks(const struct row *row)
{
	struct ww_mutex *all[] = { &it, &held, &unheld, &taken, &owed };
	struct ww_mutex *m = all[row->which];
	bool cancels = row->answer == -EINTR, was_held;
	unsigned before;
	int r;

	ww_acquire_init(&older, &wait_die);
	MUST(!ww_mutex_lock(&taken, &older));
	ww_acquire_init(&x, &wait_die);
	comes_to(row->from);
	MUST(state_of() == row->from);
	ww_acquire_flags(&x, row->flags | WW_MAY_BE_OLDER); /* which changes nothing in a loop */
	if (row->it_is_free && it.ctx == &older)
		ww_mutex_unlock(&it);
	if (cancels)
		MUST(!ww_acquire_cancel(&x));
	before = x.acquired;
	was_held = m->ctx == &x;
	r = makes(row, m);
	if (r != row->answer || state_of() != row->then) {
		fprintf(stderr, "row %d, from %s: %d in place of %d, then %s in place of %s\n", (int)(row - rows), states[row->from], r,
			row->answer, states[state_of()], states[row->then]);
		exit(1);
	}
	/* What it returned is so: it holds what its calls returned, and besides only what it waited for first. */
	if (row->call <= TRY || row->call == ALL) {
		bool got = row->call == TRY ? r == 1 : r == 0;

		MUST((m->ctx == &x) == (got || was_held));
		MUST(x.acquired == before + (got && !was_held) + (row->from == FIRST && it.ctx == &x && m != &it));
	}
	/* What it owes isn't counted, as long as it holds that. */
	MUST(ww_acquire_mark(&x) == x.acquired - (x.state & IS_PRELOCKED && x.prelocked->ctx == &x));
	/* Nothing came behind this mark, so nothing is released; with the mark of nothing all would be. */
	before = x.acquired;
	if (ww_acquire_mark(&x))
		ww_acquire_unlock_to(&x, ww_acquire_mark(&x));
	MUST(x.acquired == before);
	/* Behind it all that it had to do can be done, and the loop ends. */
	if (row->then == FIRST || row->then == TOLD_BARE || row->then == TOLD || row->then == TOLD_OWES) {
		ww_acquire_flags(&x, 0);
		ww_acquire_unlock_all(&x);
		if (x.contending_lock->ctx == &older)
			ww_mutex_unlock(x.contending_lock);
		MUST(!ww_mutex_lock(x.contending_lock, &x) && !ww_is_contended(&x));
	}
	MUST(!ww_mutex_lock_all(&x, (struct ww_mutex *[]){ NULL }, 0));
	ww_acquire_unlock_all(&x);
	MUST(!x.acquired && !it.ctx + (it.ctx == &older) == 1);
	if (it.ctx)
		ww_mutex_unlock(&it);
	if (taken.ctx)
		ww_mutex_unlock(&taken);
	/* And the context goes on as any other. */
	MUST(!ww_mutex_lock(&it, &x) && !ww_mutex_lock(&held, &x) && !ww_mutex_lock(&unheld, &x) && !ww_mutex_lock(&taken, &x));
	ww_acquire_unlock_all(&x);
	ww_acquire_fini(&x);
	ww_acquire_fini(&older);
}

/* The arguments of a loop are evaluated once. */
static void is_told_once(void)
{
	unsigned times = 0, bodies = 0;

	ww_acquire_init(&older, &wait_die);
	MUST(!ww_mutex_lock(&it, &older));
	ww_acquire_init(&x, &wait_die);
	ww_until_all_locked((times++, &x)) {
		MUST(!ww_mutex_lock(&held, &x));
		if (!bodies++) {
			MUST(ww_mutex_lock(&it, &x) == -EDEADLK);
			ww_mutex_unlock(&it);
		}
		ww_retry_on_contention(&x);
	}
	MUST(times == 1 && bodies == 2);
	ww_acquire_unlock_all(&x);
	ww_acquire_fini(&x);
	ww_acquire_fini(&older);
}

/* No call succeeds by what a context keeps of loops alone: the library has to have the lock for it, and it has to be in one. */
static void asks_the_library(void)
{
	ww_acquire_init(&x, &wait_die);
	x.state |= IS_PRELOCKED;
	x.prelocked = &held;
	MUST(!ww_mutex_lock(&held, &x) && !ww_accept_held(&x, &held, true) && ww_mutex_trylock(&held, &x) == 0);
	ww_mutex_unlock(&held);
	ww_until_all_locked(&x) {
		x.state |= IS_PRELOCKED;
		x.prelocked = &held;
		MUST(!ww_accept_held(&x, &held, true) && !ww_mutex_lock(&unheld, &x) && ww_mutex_lock(&unheld, &x) == -EALREADY);
	}
	ww_acquire_unlock_all(&x);
	ww_acquire_fini(&x);
}

/* The quick way is open again behind a wait for a slot, by which somebody else read: the body never asks for that. */
static void owes_no_slot(void)
{
	static DEFINE_WD_CLASS(readers);
	struct ww_shared_mutex s;
	struct ww_mutex m;
	unsigned bodies = 0;

	ww_shared_mutex_init(&s, &readers);
	ww_mutex_init(&m, &readers);
	ww_acquire_init(&older, &readers);
	MUST(!ww_shared_mutex_lock_shared(&s, &older));
	ww_acquire_init(&x, &readers);
	ww_until_all_locked(&x) {
		MUST(!ww_mutex_lock(&m, &x));
		if (bodies++) {
			MUST(x.pool == readers.pool && x.acquired == 1);
		} else {
			MUST(ww_shared_mutex_lock(&s, &x) == -EDEADLK);
			ww_acquire_end_reads(&older);
		}
		ww_retry_on_contention(&x);
		MUST(!ww_shared_mutex_lock(&s, &x));
	}
	MUST(bodies == 2);
	ww_acquire_unlock_all(&x);
	ww_acquire_fini(&x);
	ww_acquire_fini(&older);
	MUST(!ww_shared_mutex_destroy(&s) && !ww_mutex_destroy(&m) && !ww_class_free(&readers));
}

/* Once x waits for `it`, which it came to owe: lets it have that, but not the next one, and ends its wait for that. */
static void *interrupts(void *arg)
{
	ww_acquire_init(&older, &wait_die);
	MUST(!ww_mutex_lock(&it, &older));
	awaits_waiter(&it);
	ww_mutex_lock(&taken, NULL);
	ww_mutex_unlock(&it);
	awaits_waiter(&taken);
	MUST(!ww_acquire_cancel(&x));
	while (__atomic_load_n(&taken.waiters, __ATOMIC_SEQ_CST))
		sched_yield();
	ww_mutex_unlock(&taken);
	ww_acquire_fini(&older);
	return arg;
}

/* A list that backs off by itself, and then fails, leaves the loop with the back-off that it had to make before. */
static void list_leaves_that_it_was_told(void)
{
	ww_acquire_init(&older, &wait_die);
	MUST(!ww_mutex_lock(&taken, &older));
	ww_acquire_init(&x, &wait_die);
	comes_to(TOLD_BARE);
	ww_acquire_flags(&x, WW_INTERRUPTIBLE);
	MUST(!ww_acquire_cancel(&x) && ww_mutex_lock_all(&x, (struct ww_mutex *[]){ &held, &taken }, 2) == -EINTR);
	MUST(state_of() == TOLD_BARE && x.contending_lock == &it && !held.ctx);
	ww_acquire_flags(&x, 0);
	ww_acquire_unlock_all(&x);
	ww_mutex_unlock(&it);
	ww_mutex_unlock(&taken);
	MUST(!ww_mutex_lock(&it, &x) && it.ctx == &x);
	ww_acquire_unlock_all(&x);
	ww_acquire_fini(&x);
	ww_acquire_fini(&older);
}

/* A list that fails while it owes a mutex leaves nothing of that. */
static void list_owes_no_more(void)
{
	struct ww_mutex *const list[] = { &held, &taken, &it };
	pthread_t thread;

	thread = begin_thread(interrupts, NULL);
	while (!ww_mutex_is_locked(&it))
		sched_yield();
	ww_acquire_init(&x, &wait_die);
	ww_acquire_flags(&x, WW_INTERRUPTIBLE);
	MUST(ww_mutex_lock_all(&x, list, 3) == -EINTR && !x.acquired && !held.ctx && !it.ctx);
	end_thread(thread);
	MUST(!ww_mutex_lock(&it, &x) && ww_acquire_mark(&x) == 1 && ww_mutex_lock(&it, &x) == -EALREADY);
	ww_mutex_unlock(&it);
	ww_acquire_fini(&x);
}

int main(void)
{
	struct ww_mutex *all[] = { &it, &held, &owed, &unheld, &taken };

	MUST(!ww_class_limit(&wait_die, 5, 3));
	for (unsigned k = 0; k < 5; k++)
		ww_mutex_init(all[k], &wait_die);
	for (unsigned k = 0; k < sizeof rows / sizeof *rows; k++)
		walks(&rows[k]);
	is_told_once();
	asks_the_library();
	owes_no_slot();
	list_leaves_that_it_was_told();
	list_owes_no_more();
	for (unsigned k = 0; k < 5; k++)
		MUST(!ww_mutex_destroy(all[k]));
	MUST(!ww_class_free(&wait_die));
	printf("loop: %d rows of a loop's states\n", (int)(sizeof rows / sizeof *rows));
	return 0;
}
