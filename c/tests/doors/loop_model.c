/*
 * One thread makes drawn calls of a few contexts in loops beside the rules, and the table of lock/loop.c: loop_model [SEEDS [FIRST]]
 *
 * Most calls would wait forever in one thread: where the rules say so, a call has a time limit, or polls, or isn't made. A failure says
 * the seed.
 */
#include "rules.h"
#include "ww_shared.h"

enum { CONTEXTS = 5, MUTEXES = 3, NUMBERS = 2, ALL = MUTEXES + NUMBERS, STEPS = 500, NONE = -1 };
enum how { BY_WAITING, UNTIL, BY_POLL, ENDS_POLL };

struct one {
	struct ww_acquire_ctx x;
	bool begun, ignores, heeds;
	bool told, first, gone; /* it has to back off; its next lock waits first; for a mutex that was put back */
	int seat, contended, owed, count, list[ALL];
};

static struct ww_class c;
static struct one all[CONTEXTS];
static struct ww_mutex plain[MUTEXES];
static uint32_t numbers[NUMBERS];
static const struct timespec past = { 1, 0 };

static void counts(void *nothing, void *task) { (void)nothing, (void)task; }
static const struct ww_waker waker = { counts, NULL, NULL };
static bool is_number(int n) { return n >= MUTEXES; }
static uint32_t number_of(int n) { return numbers[n - MUTEXES]; }
static struct ww_mutex *at(int n) { return is_number(n) ? &ww_number_at(number_of(n), &c)->mutex_ : &plain[n]; }
static bool waits(const struct one *me) { return by(me->seat)->at; }

/* ---- the loop's table ---- */

static bool lists(const struct one *me, int n)
{
	for (int k = 0; k < me->count; k++)
		if (me->list[k] == n)
			return true;
	return false;
}

static void unlists(struct one *me, int n)
{
	int left = 0;

	for (int k = 0; k < me->count; k++)
		if (me->list[k] != n)
			me->list[left++] = me->list[k];
	me->count = left;
}

static void releases_to(struct one *me, int left)
{
	while (me->count > left)
		gives(me->list[--me->count], me->seat);
}

static bool owes(const struct one *me) { return me->owed != NONE && lists(me, me->owed); }
static int mark(const struct one *me) { return me->count - owes(me); }

static int accepts(struct one *me, int n, bool may_repeat)
{
	if (me->owed != n)
		return may_repeat ? 0 : -EALREADY;
	unlists(me, n);
	me->list[me->count++] = n;
	me->owed = NONE;
	return 0;
}

static int notes(struct one *me, int n, int r)
{
	if (!r) {
		me->list[me->count++] = n;
		me->owed = me->owed == n ? NONE : me->owed;
		me->told = me->first = false;
	} else if (r == -EDEADLK) {
		me->told = true;
		me->gone = false;
		me->contended = n;
	}
	return r == -EALREADY ? accepts(me, n, me->ignores) : r;
}

static int locks(struct one *me, int n, bool ends, bool heeds)
{
	if (me->first) {
		int r = me->gone ? 0 : asks(me->contended, me->seat, ends, heeds);

		if (r)
			return r;
		me->told = me->first = false;
		me->owed = me->gone ? NONE : me->contended;
		if (me->owed != NONE)
			me->list[me->count++] = me->owed;
		if (me->owed == n)
			return accepts(me, n, false);
	}
	return notes(me, n, asks(n, me->seat, ends, heeds));
}

static void backs_off(struct one *me)
{
	if (!me->told)
		return;
	releases_to(me, 0);
	me->told = false;
	me->owed = NONE;
	me->first = true;
}

static void releases_all(struct one *me)
{
	releases_to(me, 0);
	me->first = false;
	me->owed = NONE;
}

/* ---- calls ---- */

static struct rules before;
static struct one was;

static void keeps(struct one *me)
{
	before = now;
	was = *me;
}
static void forgets(struct one *me)
{
	now = before;
	was.x = me->x;
	*me = was;
}

static int calls(struct one *me, int n, enum how how)
{
	if (how == UNTIL)
		return ww_mutex_lock_until(at(n), &me->x, &past);
	if (how != BY_WAITING)
		return ww_mutex_lock_poll(at(n), &me->x, how == BY_POLL ? &waker : NULL);
	return is_number(n) && draw(2) ? ww_number_lock(number_of(n), &me->x) : ww_mutex_lock(at(n), &me->x);
}

static void asks_for(struct one *me, int n, enum how how)
{
	unsigned waited = by(me->seat)->waits;
	int r;

	keeps(me);
	if (how >= BY_POLL && me->owed != NONE && !me->told)
		r = -EINVAL;
	else if (how >= BY_POLL && (r = asks(n, me->seat, how == ENDS_POLL, true)) != -EALREADY) {
		if (by(me->seat)->waits != waited) /* a poll that waits owes nothing any more */
			me->owed = NONE;
		r = r == ASLEEP ? -EINPROGRESS : notes(me, n, r);
	} else if (how < BY_POLL && (r = locks(me, n, how == UNTIL, how == UNTIL || me->heeds)) == ASLEEP) {
		forgets(me);
		r = locks(me, n, true, true);
		how = UNTIL;
	}
	IS(calls(me, n, how), r);
}

static void tries_it(struct one *me, int n)
{
	int r = tries(n, me->seat);

	r = r == -EALREADY ? accepts(me, n, false) : notes(me, n, r);
	IS(is_number(n) && draw(2) ? ww_number_trylock(number_of(n), &me->x) : ww_mutex_trylock(at(n), &me->x), !r);
}

static void asks_slowly(struct one *me, int n)
{
	bool due = by(me->seat)->told == n + 1 && !by(me->seat)->held;

	if (!by(me->seat)->told || (me->gone && n == me->contended))
		return;
	IS(ww_mutex_lock_slow_until(at(n), &me->x, &past), due ? notes(me, n, asks(n, me->seat, true, true)) : -EINVAL);
}

static int locks_each(struct one *me, const int *list, int count)
{
	int r = 0;

	for (int k = 0; k < count && !r; k++)
		r = locks(me, list[k], false, me->heeds);
	return r;
}

/* As list.c says: a list that fails leaves what was held before it, and what the loop had to do. */
static void asks_for_all(struct one *me)
{
	struct ww_mutex *them[4];
	int list[4], count = (int)draw(4) + 1, held = mark(me), r, owed = me->first ? me->contended : me->owed;

	for (int k = 0; k < count; k++)
		them[k] = at(list[k] = (int)draw(ALL));
	keeps(me);
	while ((r = locks_each(me, list, count)) == -EDEADLK && !held)
		backs_off(me);
	if (r == ASLEEP) {
		forgets(me);
		return;
	}
	if (r) {
		bool kept = owed != NONE && me->owed == owed;

		releases_to(me, held + (kept && owes(me)));
		if (r != -EDEADLK) {
			me->contended = was.contended;
			me->gone = was.gone;
			me->told = was.told;
			me->first = was.first && !kept;
			me->owed = kept ? owed : NONE;
		}
	}
	IS(ww_mutex_lock_all(&me->x, them, (size_t)count), r);
}

static void unlocks(struct one *me, int n)
{
	if (!lists(me, n)) {
		if (is_number(n))
			IS(ww_number_unlock(number_of(n), &me->x), -EINVAL);
		return;
	}
	unlists(me, n);
	gives(n, me->seat);
	if (is_number(n) && draw(2))
		IS(ww_number_unlock(number_of(n), &me->x), 0);
	else if (draw(2))
		IS(ww_mutex_unlock_checked(at(n)), 0);
	else
		ww_mutex_unlock(at(n));
}

static void releases(struct one *me, unsigned way)
{
	bool again = me->told || me->first;
	int left = (int)draw(3);

	if (way == 0) {
		if (again)
			backs_off(me);
		else
			releases_all(me);
		IS(ww_acquire_end_try(&me->x), again);
	} else if (way == 1) {
		releases_all(me);
		ww_acquire_unlock_all(&me->x);
	} else if (way == 2) {
		backs_off(me);
		ww_back_off_(&me->x);
	} else if (way == 3 && !me->count) {
		me->told = me->first = false;
		me->owed = NONE;
		ww_acquire_begin_tries(&me->x);
	} else {
		if (left)
			releases_to(me, left + owes(me));
		else
			releases_all(me);
		ww_acquire_unlock_to(&me->x, (size_t)left);
	}
}

static void polls_on(struct one *me, unsigned how)
{
	int n = by(me->seat)->at - 1, r = asks_again(me->seat, how < 2);

	if (r != ASLEEP)
		notes(me, n, r);
	if (how == 0) {
		if (!r) {
			unlists(me, n);
			gives(n, me->seat);
		}
		IS(ww_acquire_end_wait(&me->x), r == -ETIMEDOUT ? 0 : r);
	} else {
		IS(ww_mutex_lock_poll(at(n), &me->x, how == 1 ? NULL : &waker), r == ASLEEP ? -EINPROGRESS : r);
	}
}

static void begins(struct one *me)
{
	struct by *it;

	MUST(!ww_acquire_init_checked(&me->x, &c));
	*me = (struct one){ .x = me->x, .begun = true, .ignores = draw(2), .heeds = draw(2), .contended = NONE, .owed = NONE };
	me->seat = seat_by(&me->x);
	it = by(me->seat);
	*it = (struct by){ .stamp = ++now.last_stamp, .token = it->token };
	ww_acquire_flags(&me->x, (me->ignores ? WW_IGNORE_DUPLICATES : 0) | (me->heeds ? WW_INTERRUPTIBLE : 0));
	ww_acquire_begin_tries(&me->x);
}

static void ends(struct one *me)
{
	if (waits(me)) {
		int n = by(me->seat)->at - 1;

		if (!asks_again(me->seat, true))
			gives(n, me->seat);
	}
	releases_to(me, 0);
	IS(ww_acquire_end(&me->x), 0);
	me->begun = false;
	by(me->seat)->cancelled = false;
}

/* The contended mutex has to exist until its context has backed off, unless it is a number's. */
static void destroys(int n)
{
	if (is_taken(n)) {
		IS(is_number(n) ? ww_number_put(number_of(n), &c) : ww_mutex_destroy(at(n)), -EBUSY);
		return;
	}
	for (struct one *it = all; it < all + CONTEXTS && !is_number(n); it++)
		if (it->begun && by(it->seat)->told == n + 1)
			return;
	IS(is_number(n) ? ww_number_put(number_of(n), &c) : ww_mutex_destroy(at(n)), 0);
	IS(is_number(n) ? ww_number_take(&numbers[n - MUTEXES], &c) : ww_mutex_init_checked(at(n), &c), 0);
	for (struct one *it = all; it < all + CONTEXTS; it++)
		it->gone |= it->contended == n;
}

static void looks(void)
{
	struct ww_class_counts said;

	if (!draw(16)) {
		ww_class_stats(&c, &said);
		IS(said.back_offs, now.back_offs);
		IS(said.lock_waits, now.waits);
	}
	for (struct one *it = all; it < all + CONTEXTS; it++) {
		if (!it->begun)
			continue;
		IS(ww_is_contended(&it->x), it->told);
		IS(it->x.acquired, it->count);
		IS(ww_acquire_mark(&it->x), mark(it));
		for (int n = 0; n < ALL; n++)
			IS(ww_mutex_is_held_by(at(n), &it->x), lists(it, n));
	}
}

static void steps(void)
{
	struct one *me = &all[draw(CONTEXTS)];
	int n = (int)draw(ALL);
	unsigned what = draw(32);

	if (me->begun && me->contended != NONE && !draw(3))
		n = me->contended;
	if (what == 0)
		destroys(n);
	else if (!me->begun)
		begins(me);
	else if (what == 1 && !by(me->seat)->cancelled) {
		cancels(me->seat);
		IS(ww_acquire_cancel(&me->x), 0);
	} else if (what == 2)
		ends(me);
	else if (waits(me))
		polls_on(me, draw(8));
	else if (what < 15)
		asks_for(me, n, draw(4));
	else if (what < 18)
		tries_it(me, n);
	else if (what < 20)
		asks_slowly(me, n);
	else if (what < 23)
		asks_for_all(me);
	else if (what < 26)
		unlocks(me, n);
	else
		releases(me, draw(6));
	looks();
}

static void makes(void)
{
	within(5);
	state = seed * 2654435761u;
	memset(&now, 0, sizeof now);
	now.wait_die = seed % 2;
	ww_class_init(&c, seed % 2, "model");
	for (int n = 0; n < MUTEXES; n++)
		ww_mutex_init(&plain[n], &c);
	for (int k = 0; k < NUMBERS; k++)
		MUST(!ww_number_take(&numbers[k], &c));
	for (unsigned k = 0; k < STEPS; k++)
		steps();
	for (struct one *it = all; it < all + CONTEXTS; it++)
		if (it->begun)
			ends(it);
	for (int n = 0; n < ALL; n++) {
		MUST(ww_mutex_trylock(at(n), NULL));
		ww_mutex_unlock(at(n));
		IS(is_number(n) ? ww_number_put(number_of(n), &c) : ww_mutex_destroy(at(n)), 0);
	}
	MUST(!ww_class_free(&c));
}

int main(int count, char **words)
{
	unsigned seeds = count > 1 ? (unsigned)strtoul(words[1], NULL, 10) : 400;
	unsigned first = count > 2 ? (unsigned)strtoul(words[2], NULL, 10) : 0;

	for (seed = first; seed - first < seeds; seed++)
		makes();
	printf("%u seeds\n", seeds);
	return 0;
}
