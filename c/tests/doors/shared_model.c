/*
 * One thread makes drawn calls of shared mutexes by a few contexts beside a model of who reads and writes: shared_model [SEEDS [FIRST]]
 *
 * No call waits: each tries, polls, or has a time limit that has passed. Calls may differ by what earlier reads left, so the model says
 * which results are right: a read beside a writer never is, nor -EDEADLK without an older context; if no other context has or awaits
 * anything, each call succeeds. Some context always goes on: if all wait, one was woken, and at the end each polls only once it was.
 */
#include "rules.h"
#include "ww_shared.h"
#include "ww_why.h"

enum { CONTEXTS = 5, MUTEXES = 3, NUMBERS = 2, ALL = MUTEXES + NUMBERS, STEPS = 500 };
enum what { READS, WRITES, AWAITS };
enum how { TRIES_ONCE, UNTIL, ENDS_POLL, POLLS };

struct one {
	struct ww_acquire_ctx x;
	bool begun, loops, told, met_older, woken, reads[ALL], writes[ALL];
	unsigned left; /* reads to be ended */
	bool waits;
	int n; /* with `what`, for what its poll asks */
	enum what what;
};

static struct ww_class c;
static struct one all[CONTEXTS];
static struct ww_shared_mutex plain[MUTEXES];
static uint32_t numbers[NUMBERS];
static const struct timespec past = { 1, 0 };

static void wakes_it(void *nothing, void *task)
{
	(void)nothing;
	((struct one *)task)->woken = true;
}
static bool is_number(int n) { return n >= MUTEXES; }
static struct ww_shared_mutex *at(int n) { return is_number(n) ? ww_number_at(numbers[n - MUTEXES], &c) : &plain[n]; }

/* ---- the model ---- */

static bool reads(const struct one *me, int n) { return me->left && me->reads[n]; }
static unsigned has_mutexes(const struct one *me)
{
	unsigned sum = me->left > 0;

	for (int n = 0; n < ALL; n++)
		sum += me->writes[n];
	return sum;
}

static bool may_have(const struct one *me, int n, enum what what)
{
	for (const struct one *it = all; it < all + CONTEXTS; it++)
		if (it != me && it->begun && (it->writes[n] || (what == WRITES && reads(it, n))))
			return false;
	return true;
}

/* Whether no other context has or awaits anything. */
static bool is_alone(const struct one *me)
{
	for (const struct one *it = all; it < all + CONTEXTS; it++)
		if (it != me && it->begun && (it->waits || it->x.acquired))
			return false;
	return true;
}

/* Whether a context waits, or may have waited for a mutex that its loop has yet to ask for. */
static bool any_waits(void)
{
	for (const struct one *it = all; it < all + CONTEXTS; it++)
		if (it->begun && (it->waits || it->x.acquired != has_mutexes(it)))
			return true;
	return false;
}

static void ends_read(struct one *me)
{
	if (!--me->left)
		memset(me->reads, 0, sizeof me->reads);
}

static void gets(struct one *me, int n, enum what what)
{
	if (what != AWAITS)
		MUST(may_have(me, n, what));
	me->told = false;
	if (what == WRITES)
		me->writes[n] = true;
	me->left += what == READS;
	me->reads[n] |= what == READS;
}

static void is_told(struct one *me)
{
	bool is_older = !now.wait_die && me->met_older;

	for (const struct one *it = all; it < all + CONTEXTS; it++)
		is_older |= it != me && it->begun && by(seat_by(&it->x))->stamp < by(seat_by(&me->x))->stamp;
	MUST(is_older);
	me->told = true;
}

/* ---- calls ---- */

static int calls(struct one *me, int n, enum what what, enum how how)
{
	struct ww_waker to = { wakes_it, NULL, me }, *waker = how == POLLS ? &to : NULL;

	if (what == AWAITS)
		return how <= UNTIL ? ww_shared_mutex_await(&me->x, &past) : ww_shared_mutex_await_poll(&me->x, waker);
	if (how == TRIES_ONCE)
		return (what == READS ? ww_shared_mutex_trylock_shared : ww_shared_mutex_trylock)(at(n), &me->x) ? 0 : -EBUSY;
	if (how == UNTIL)
		return (what == READS ? ww_shared_mutex_lock_shared_until : ww_shared_mutex_lock_until)(at(n), &me->x, &past);
	return (what == READS ? ww_shared_mutex_lock_shared_poll : ww_shared_mutex_lock_poll)(at(n), &me->x, waker);
}

/* What a call that may begin or go on returned. */
static void takes_note(struct one *me, int n, enum what what, enum how how, int r)
{
	got = r;
	me->waits = r == -EINPROGRESS;
	if (r == -EALREADY) {
		MUST(what == READS && me->writes[n] && is_number(n) && !me->loops);
	} else if (!r) {
		gets(me, n, what);
	} else if (r == -EDEADLK) {
		MUST(how != TRIES_ONCE && what != AWAITS);
		is_told(me);
	} else {
		MUST(r == (how == TRIES_ONCE ? -EBUSY : how == POLLS ? -EINPROGRESS : -ETIMEDOUT));
		me->n = n;
		me->what = what;
	}
}

static void asks_for(struct one *me, int n, enum what what, enum how how)
{
	bool alone = is_alone(me), held = has_mutexes(me), written = me->writes[n], read = reads(me, n), waited = any_waits();
	bool may = may_have(me, n, what), loops = me->loops && (me->told || me->x.acquired != has_mutexes(me));
	int r;

	if (what == AWAITS && (me->loops || (!me->told && !held)))
		return;
	if (how == POLLS)
		me->woken = false;
	got = r = calls(me, n, what, how);
	if (what == AWAITS && held) {
		MUST(r == -EINVAL);
	} else if (me->told && held) {
		MUST(r == -EINVAL || r == -EBUSY || (written && r == -EALREADY));
	} else if (what == WRITES && written) {
		MUST(r == (how == TRIES_ONCE ? -EBUSY : -EALREADY) || (r == -EINVAL && loops && how >= ENDS_POLL));
	} else if (what == READS && written && is_number(n) && !me->loops && !read) {
		MUST(r == -EALREADY || how == TRIES_ONCE || r == -EDEADLK || waited);
		if (r != -EALREADY && !(how == TRIES_ONCE && r == -EBUSY))
			takes_note(me, n, what, how, r);
	} else if (r == -EINVAL) {
		MUST(loops && how >= ENDS_POLL);
	} else {
		takes_note(me, n, what, how, r);
		MUST(!r || !(alone || (what == READS && (read || (may && !waited)))) || loops);
	}
}

static void unlocks(struct one *me, int n, unsigned way)
{
	bool read = reads(me, n);

	if (way == 0) {
		IS(ww_shared_mutex_unlock(at(n), &me->x), me->writes[n] ? 0 : -EINVAL);
		me->writes[n] = false;
	} else if (way == 1) {
		IS(ww_shared_mutex_unlock_shared(at(n), &me->x), read ? 0 : -EINVAL);
		if (read)
			ends_read(me);
	} else if (way == 2) {
		IS(ww_shared_mutex_end_read(at(n), &me->x), read ? 0 : -EINVAL);
		if (read) {
			me->reads[n] = false;
			ends_read(me);
		}
	} else if (way == 3) {
		ww_acquire_end_reads(&me->x);
		me->left = 0;
		memset(me->reads, 0, sizeof me->reads);
	} else if (me->writes[n]) {
		bool told = me->told, certain = me->left || (!told && !any_waits());

		ww_shared_mutex_downgrade(at(n), &me->x);
		me->writes[n] = ww_shared_mutex_is_written_by(at(n), &me->x);
		MUST(!me->writes[n] || !certain);
		if (!me->writes[n])
			gets(me, n, READS);
		me->told = told;
	}
}

static void releases_all(struct one *me)
{
	for (int n = 0; n < ALL && !me->loops; n++)
		if (me->writes[n])
			unlocks(me, n, 0);
	if (!me->loops) {
		ww_acquire_end_reads(&me->x);
	} else if (draw(2)) {
		ww_acquire_unlock_all(&me->x);
	} else {
		(void)ww_acquire_end_try(&me->x);
	}
	MUST(!me->x.acquired);
	me->left = 0;
	memset(me->reads, 0, sizeof me->reads);
	memset(me->writes, 0, sizeof me->writes);
}

static void polls_on(struct one *me, unsigned how)
{
	enum how by_poll = how < 8 ? ENDS_POLL : POLLS;
	int other = (int)draw(ALL);

	if (how < 4) {
		IS(ww_shared_mutex_unlock(at(other), &me->x), -EBUSY);
		IS(ww_shared_mutex_unlock_shared(at(other), &me->x), -EBUSY);
		IS(ww_shared_mutex_trylock_shared(at(other), &me->x), 0);
		IS(ww_shared_mutex_lock_until(at(other), &me->x, &past), -EBUSY);
		IS(calls(me, other, me->what == READS ? WRITES : READS, POLLS), -EBUSY);
	} else if (how < 6) {
		int r = ww_acquire_end_wait(&me->x);

		me->waits = false;
		me->told &= me->what != AWAITS; /* it may have come to its end */
		if (r == -EDEADLK)
			is_told(me);
		else
			IS(r, 0);
	} else {
		me->woken &= by_poll != POLLS;
		takes_note(me, me->n, me->what, by_poll, calls(me, me->n, me->what, by_poll));
	}
}

static void begins(struct one *me)
{
	MUST(!ww_acquire_init_checked(&me->x, &c));
	*me = (struct one){ .x = me->x, .begun = true, .loops = draw(2) };
	for (const struct one *it = all; it < all + CONTEXTS; it++)
		me->met_older |= it != me && it->begun;
	by(seat_by(&me->x))->stamp = ++now.last_stamp;
	if (me->loops)
		ww_acquire_begin_tries(&me->x);
	else
		MUST(!ww_acquire_label(&me->x, 1));
}

static void ends(struct one *me)
{
	if (me->waits)
		(void)ww_acquire_end_wait(&me->x);
	me->waits = false;
	if (has_mutexes(me))
		IS(ww_acquire_fini_checked(&me->x), -EINVAL);
	releases_all(me);
	IS(draw(2) ? ww_acquire_end(&me->x) : ww_acquire_fini_checked(&me->x), 0);
	me->begun = false;
}

/* ---- what calls say of others ---- */

static void looks(int n)
{
	unsigned readers = 0, waiters = 0, owes = 0, parts[WW_WAITS + 1] = { 0 };
	struct ww_user users[32];
	size_t count = ww_mutex_users(&at(n)->mutex_, users, 32);
	bool is_used, writes = false;

	for (size_t k = 0; k < count; k++)
		parts[users[k].part]++;
	for (struct one *it = all; it < all + CONTEXTS; it++) {
		if (!it->begun)
			continue;
		IS(ww_shared_mutex_is_written_by(at(n), &it->x), it->writes[n]);
		IS(ww_shared_mutex_is_read_by(at(n), &it->x), reads(it, n));
		if (!it->loops && !it->waits)
			IS(it->x.acquired, has_mutexes(it));
		readers += reads(it, n);
		waiters += it->waits && it->what != AWAITS && it->n == n;
		owes += it->loops || it->waits;
		writes |= it->writes[n];
	}
	is_used = readers || waiters || writes;
	IS(parts[WW_READS], readers);
	MUST(parts[WW_WAITS] >= waiters && (owes || parts[WW_WAITS] == waiters));
	MUST(writes <= parts[WW_HOLDS] && parts[WW_HOLDS] <= 1);
	MUST(is_used ? ww_shared_mutex_is_locked(at(n)) : owes || !ww_shared_mutex_is_locked(at(n)));
	if (!is_used && owes)
		return;
	for (const struct one *it = all; it < all + CONTEXTS; it++)
		if (it->begun && it->told && !is_number(n))
			return;
	IS(is_number(n) ? ww_number_put(numbers[n - MUTEXES], &c) : ww_shared_mutex_destroy(at(n)), is_used ? -EBUSY : 0);
	if (!is_used)
		IS(is_number(n) ? ww_number_take(&numbers[n - MUTEXES], &c) : ww_shared_mutex_init_checked(at(n), &c), 0);
}

static void some_go_on(void)
{
	bool go_on = false, any = false;

	for (const struct one *it = all; it < all + CONTEXTS; it++) {
		any |= it->begun;
		go_on |= it->begun && (!it->waits || it->woken);
	}
	MUST(go_on || !any);
}

static void steps(void)
{
	struct one *me = &all[draw(CONTEXTS)];
	int n = (int)draw(ALL);
	unsigned what = draw(32);

	if (what < 2)
		looks(n);
	else if (!me->begun)
		begins(me);
	else if (me->waits)
		polls_on(me, draw(24));
	else if (what < 18)
		asks_for(me, n, draw(2) ? READS : WRITES, draw(5) < 2 ? draw(3) : POLLS);
	else if (what < 20)
		asks_for(me, n, AWAITS, UNTIL + draw(3));
	else if (what < 27)
		unlocks(me, n, draw(5));
	else if (what < 30)
		releases_all(me);
	else
		ends(me);
	some_go_on();
}

static void drains(void)
{
	int left = 1;

	for (int rounds = 0; left; rounds++) {
		left = 0;
		MUST(rounds < 8 * CONTEXTS);
		for (struct one *me = all; me < all + CONTEXTS; me++) {
			if (me->begun && me->waits && me->woken)
				polls_on(me, 23);
			if (me->begun && !me->waits)
				ends(me);
			left += me->begun;
		}
	}
}

static void makes(void)
{
	within(5);
	state = seed * 2654435761u;
	memset(&now, 0, sizeof now);
	now.wait_die = seed % 2;
	ww_class_init(&c, seed % 2, "model");
	for (int n = 0; n < MUTEXES; n++)
		ww_shared_mutex_init(&plain[n], &c);
	for (int k = 0; k < NUMBERS; k++)
		MUST(!ww_number_take(&numbers[k], &c));
	for (unsigned k = 0; k < STEPS; k++)
		steps();
	drains();
	for (int n = 0; n < ALL; n++)
		looks(n);
	for (int n = 0; n < ALL; n++)
		IS(is_number(n) ? ww_number_put(numbers[n - MUTEXES], &c) : ww_shared_mutex_destroy(at(n)), 0);
	MUST(!ww_class_free(&c));
}

int main(int count, char **words)
{
	unsigned seeds = count > 1 ? (unsigned)strtoul(words[1], NULL, 10) : 400;
	unsigned first = count > 2 ? (unsigned)strtoul(words[2], NULL, 10) : 0;

	for (seed = first; seed - first < seeds; seed++)
		makes();
	printf("%u seeds\n", seeds);
	return 0;
}
