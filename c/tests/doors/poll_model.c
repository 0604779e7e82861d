/*
 * One thread makes drawn calls of a few contexts beside the rules: poll_model [SEEDS [FIRST]]
 *
 * Polls make it possible that one thread plays several contexts that wait. After each call the rules say what it returned, and whose
 * wakers it called. At the end each context that waits polls only if it was woken, so a lost wake-up is found. Contexts acquire by
 * hand, mutexes of both kinds, also without a context. A failure says the seed.
 */
#include "rules.h"
#include "ww_shared.h"
#include "ww_why.h"

enum { CONTEXTS = 6, MUTEXES = 3, NUMBERS = 2, ALL = MUTEXES + NUMBERS, STEPS = 500 };

struct one {
	struct ww_acquire_ctx x;
	bool begun;
	int seat;
	unsigned wakes; /* how often its waker was called since it began */
	bool lost[ALL];	/* the mutex at which it got -EDEADLK was destroyed, or put back */
};

static struct ww_class c;
static struct one all[CONTEXTS];
static struct ww_mutex plain[MUTEXES];
static uint32_t numbers[NUMBERS];
static const struct timespec past = { 1, 0 };

static void counts(void *nothing, void *task)
{
	(void)nothing;
	((struct one *)task)->wakes++;
}

static bool is_number(int n) { return n >= MUTEXES; }
static uint32_t number_of(int n) { return numbers[n - MUTEXES]; }
static struct ww_mutex *at(int n) { return is_number(n) ? &ww_number_at(number_of(n), &c)->mutex_ : &plain[n]; }
static bool waits(const struct one *me) { return by(me->seat)->at; }

/* ---- a context that doesn't wait ---- */

static int calls(struct one *me, int n, unsigned how, bool slow)
{
	struct ww_waker waker = { counts, NULL, me };

	if (slow)
		return how ? ww_mutex_lock_slow_until(at(n), &me->x, &past) : ww_mutex_lock_slow_checked(at(n), &me->x);
	switch (how) {
	case 0: return ww_mutex_lock_poll(at(n), &me->x, NULL);
	case 1: return ww_mutex_lock_until(at(n), &me->x, &past);
	case 2: return is_number(n) ? ww_number_lock(number_of(n), &me->x) : ww_mutex_lock(at(n), &me->x);
	default: return ww_mutex_lock_poll(at(n), &me->x, &waker);
	}
}

static void locks(struct one *me, int n, unsigned how, bool slow)
{
	static struct rules was;
	bool owes = !slow || (by(me->seat)->told == n + 1 && !by(me->seat)->held);
	int r;

	was = now;
	r = owes ? asks(n, me->seat, slow ? how : how < 2, slow ? how : how != 2) : has(n, me->seat) && by(me->seat)->told ? -EALREADY : -EINVAL;
	if (r == ASLEEP && (how == 2 || slow)) { /* it would wait forever */
		now = was;
		how = 1;
		r = asks(n, me->seat, true, true);
	}
	me->lost[n] &= r != -EDEADLK;
	if (slow && !owes)
		MUST(calls(me, n, how, slow) == -EINVAL);
	else
		IS(calls(me, n, how, slow), r == ASLEEP ? -EINPROGRESS : r);
}

static void locks_slowly(struct one *me, int n)
{
	if (!me->lost[n])
		locks(me, n, draw(2), true);
}

static void tries_it(struct one *me, int n)
{
	int r = tries(n, me->seat);

	IS(is_number(n) && draw(2) ? ww_number_trylock(number_of(n), &me->x) : ww_mutex_trylock(at(n), &me->x), !r);
}

static void unlocks(struct one *me, int n)
{
	bool held = has(n, me->seat);

	if (!held && !is_number(n) && now.locks[n].owner)
		return;
	if (held)
		gives(n, me->seat);
	IS(is_number(n) ? ww_number_unlock(number_of(n), &me->x) : ww_mutex_unlock_checked(at(n)), held ? 0 : -EINVAL);
}

static void ends(struct one *me)
{
	if (by(me->seat)->held) {
		IS(ww_acquire_fini_checked(&me->x), -EINVAL);
		return;
	}
	IS(draw(2) ? ww_acquire_end(&me->x) : ww_acquire_fini_checked(&me->x), 0);
	me->begun = false;
	by(me->seat)->cancelled = false;
}

static void begins(struct one *me)
{
	struct by *it;
	int r = draw(2) ? -ETIMEDOUT : ww_acquire_init_poll(&me->x, &c, NULL, NULL);

	/* a poll gets no seat if the limiter finds fewer contexts of tasks best, as on a slow machine */
	IS(r == -ETIMEDOUT ? ww_acquire_init_checked(&me->x, &c) : r, 0);
	me->begun = true;
	me->seat = seat_by(&me->x);
	it = by(me->seat);
	*it = (struct by){ .stamp = ++now.last_stamp, .token = it->token };
	me->wakes = 0;
	memset(me->lost, 0, sizeof me->lost);
	IS(ww_acquire_label(&me->x, (uint64_t)(me - all) + 1), 0);
}

/* ---- a context that waits ---- */

static void polls_on(struct one *me, unsigned how)
{
	struct ww_waker waker = { counts, NULL, me };
	int n = by(me->seat)->at - 1, other = (int)draw(ALL), r;

	if (how < 2) {
		IS(ww_number_unlock(number_of(MUTEXES), &me->x), -EBUSY);
		IS(ww_mutex_lock_until(at(other), &me->x, &past), -EBUSY);
		IS(ww_mutex_trylock(at(other), &me->x), 0);
		IS(ww_number_trylock(number_of(MUTEXES), &me->x), 0);
		IS(ww_number_lock(number_of(MUTEXES), &me->x), -EBUSY);
		MUST(ww_acquire_fini_checked(&me->x));
		if (other != n)
			IS(ww_mutex_lock_poll(at(other), &me->x, &waker), -EBUSY);
		if (has(other, me->seat))
			IS(is_number(other) ? ww_number_unlock(number_of(other), &me->x) : ww_mutex_unlock_checked(at(other)), -EBUSY);
		return;
	}
	if (how == 2) {
		IS(ww_poll_take_back(&me->x, NULL), by(me->seat)->armed);
		by(me->seat)->armed = false;
		return;
	}
	r = asks_again(me->seat, how < 6);
	me->lost[n] &= r != -EDEADLK;
	if (how == 3) {
		if (!r)
			gives(n, me->seat);
		IS(ww_acquire_end_wait(&me->x), r == -ETIMEDOUT ? 0 : r);
	} else {
		IS(ww_mutex_lock_poll(at(n), &me->x, how < 6 ? NULL : &waker), r == ASLEEP ? -EINPROGRESS : r);
	}
}

static void cancels_it(struct one *me)
{
	bool was = by(me->seat)->cancelled;

	IS(ww_acquire_cancel(&me->x), was ? -EALREADY : 0);
	if (!was)
		cancels(me->seat);
}

/* ---- without a context ---- */

static void alone(int n)
{
	struct lock *l = &now.locks[n];

	if (l->owner == ALONE) {
		MUST(ww_mutex_is_held_by(at(n), NULL));
		IS(ww_mutex_trylock(at(n), NULL), 0);
		gives(n, ALONE);
		ww_mutex_unlock(at(n));
	} else if (draw(2)) {
		IS(ww_mutex_trylock(at(n), NULL), !is_taken(n));
		l->owner = is_taken(n) ? l->owner : ALONE;
	} else {
		bool busy = is_taken(n), gets = !l->owner;

		if (busy)
			now.waits++;
		if (gets) {
			l->owner = ALONE;
			signs(l, ALONE);
		}
		IS(ww_mutex_lock_until(at(n), NULL, &past), gets ? 0 : -ETIMEDOUT);
	}
}

/* ---- what calls say of others ---- */

static void looks(void)
{
	struct ww_class_counts said;
	struct ww_acquire_counts own;
	struct ww_user users[16];
	int n = (int)draw(ALL);

	ww_class_stats(&c, &said);
	IS(said.lock_waits, now.waits);
	IS(said.back_offs, now.back_offs);
	IS(ww_mutex_is_locked(at(n)), is_taken(n));
	IS(ww_mutex_is_held_by(at(n), NULL), now.locks[n].owner == ALONE);
	IS(ww_mutex_users(at(n), users, 16), (now.locks[n].owner && !now.locks[n].pickup) + now.locks[n].count);
	for (struct one *it = all; it < all + CONTEXTS; it++) {
		if (!it->begun)
			continue;
		IS(ww_mutex_is_held_by(at(n), &it->x), has(n, it->seat));
		IS(it->x.acquired, by(it->seat)->held);
		IS(ww_acquire_count(&it->x, &own), 0);
		IS(own.waits, by(it->seat)->waits);
		IS(own.back_offs, by(it->seat)->back_offs);
	}
}

static void destroys(int n)
{
	int r = is_taken(n) ? -EBUSY : 0;

	IS(is_number(n) ? ww_number_put(number_of(n), &c) : ww_mutex_destroy(at(n)), r);
	if (r)
		return;
	IS(is_number(n) ? ww_number_take(&numbers[n - MUTEXES], &c) : ww_mutex_init_checked(at(n), &c), 0);
	for (struct one *it = all; it < all + CONTEXTS; it++)
		it->lost[n] = true;
}

/* ---- runs ---- */

static void steps(void)
{
	struct one *me = &all[draw(CONTEXTS)];
	int n = (int)draw(ALL);
	unsigned what = draw(32);

	if (what == 0)
		looks();
	else if (what == 1)
		destroys(n);
	else if (what < 4)
		alone(n);
	else if (!me->begun)
		begins(me);
	else if (what == 4)
		cancels_it(me);
	else if (waits(me))
		polls_on(me, draw(16));
	else if (what < 18)
		locks(me, n, draw(6), false);
	else if (what < 20)
		locks_slowly(me, by(me->seat)->told && draw(4) ? by(me->seat)->told - 1 : n);
	else if (what < 23)
		tries_it(me, n);
	else if (what < 30)
		unlocks(me, n);
	else
		ends(me);
	for (const struct one *it = all; it < all + CONTEXTS; it++)
		if (it->begun)
			IS(it->wakes, by(it->seat)->wakes);
}

/* Each context ends, and goes on with a wait only once its waker was called. */
static void drains(void)
{
	int left = CONTEXTS;

	for (int n = 0; n < ALL; n++)
		if (now.locks[n].owner == ALONE)
			alone(n);
	for (int rounds = 0; left; rounds++) {
		left = 0;
		MUST(rounds < 3 * CONTEXTS);
		for (struct one *me = all; me < all + CONTEXTS; me++) {
			if (me->begun && waits(me) && !by(me->seat)->armed)
				polls_on(me, 15);
			for (int n = 0; me->begun && !waits(me) && n < ALL; n++)
				if (has(n, me->seat))
					unlocks(me, n);
			if (me->begun && !waits(me))
				ends(me);
			left += me->begun;
		}
	}
}

static void makes(void)
{
	within(5);
	state = seed * 2654435761u;
	memset(&now, 0, sizeof now);
	now.wait_die = seed % 2;
	ww_class_init(&c, seed % 2, "model");
	if (!(seed % 3))
		MUST(!ww_class_limit(&c, 64, 2 * CONTEXTS + ALL));
	for (int n = 0; n < MUTEXES; n++)
		ww_mutex_init(&plain[n], &c);
	for (int k = 0; k < NUMBERS; k++)
		MUST(!ww_number_take(&numbers[k], &c));
	for (unsigned k = 0; k < STEPS; k++)
		steps();
	drains();
	for (int n = 0; n < ALL; n++) {
		MUST(ww_mutex_trylock(at(n), NULL));
		ww_mutex_unlock(at(n));
		IS(is_number(n) ? ww_number_put(number_of(n), &c) : ww_mutex_destroy(at(n)), 0);
	}
	MUST(!ww_class_free(&c));
}

int main(int count, char **words)
{
	unsigned seeds = count > 1 ? (unsigned)strtoul(words[1], NULL, 10) : 400;
	unsigned first = count > 2 ? (unsigned)strtoul(words[2], NULL, 10) : 0;

	for (seed = first; seed - first < seeds; seed++)
		makes();
	printf("%u seeds\n", seeds);
	return 0;
}
