/*
 * One thread makes drawn calls of two lock tables by a few contexts, beside a model of who has which key: table_model [SEEDS [FIRST]]
 *
 * No call waits: each tries, or polls. So each result is compared with what the model allows, whatever came before: keys whose mutexes
 * were those of other keys, contexts that got -EDEADLK there, polls that ended in each way, tables that were closed and opened again.
 * A failure says the seed. A poll that waits has to have one of these reasons:
 *
 *	the key		another context has it in a mode that excludes this one's, or a poll waits for it
 *	what is due	the call is the first one since -EDEADLK that waits, nothing is held, and another context uses the key at which that
 *			came, which was always in use since
 *	a slot		a poll that waited for what a context read has that context's slot until it goes on: the context itself can't read
 *			until then, and nobody can write what has a mutex that the context read before
 */
#include "../mutex_test.h"
#include "ww_table.h"

enum { TABLES = 2, CONTEXTS = 6, KEYS = 5, STEPS = 400, SEATS = 64 };
enum has { NOTHING, SHARED, EXCLUSIVE };

struct one {
	struct ww_acquire_ctx x;
	bool begun, told, polls; /* told: it got -EDEADLK, and hasn't locked anything since */
	enum has has[TABLES][KEYS], mode;
	int table, key; /* with the mode, what its poll asks for */
	/* The key at which it got -EDEADLK, if a call may wait first for that; whether its poll may; who had that key alone since then. */
	bool is_due, waits_first;
	int due_table, due_key;
	const struct one *due_by;
	bool met[SEATS]; /* of its poll: it came to the slots of these seats */
	unsigned seat;
};

static struct ww_class c;
static struct ww_table *tables[TABLES];
static struct one all[CONTEXTS];
static uint32_t room; /* for so many keys the tables are opened; 0: for all */
static unsigned state, seed, seen[KEYS][EXCLUSIVE + 1];
static const void *seats[SEATS]; /* each has a slot, which the seat's next context has, too */

#undef MUST
#define MUST(fact) ((fact) ? (void)0 : fails(__LINE__, #fact))
static void fails(int line, const char *what)
{
	fprintf(stderr, "%s:%d: seed %u: not so: %s\n", __FILE__, line, seed, what);
	exit(1);
}

static unsigned draw(unsigned below) { return next(&state) % below; }
static void wakes(void *loop, void *task) { (void)loop, (void)task; }
static const struct ww_waker waker = { wakes, NULL, NULL };

/* ---- the model ---- */

static size_t keys_in(const struct one *me, int t)
{
	size_t sum = 0;

	for (int k = 0; k < KEYS; k++)
		sum += me->has[t][k] != NOTHING;
	return sum;
}

static bool has_any(const struct one *me)
{
	size_t sum = 0;

	for (int t = 0; t < TABLES; t++)
		sum += keys_in(me, t);
	return sum;
}

static void forgets_all(struct one *me) { memset(me->has, 0, sizeof me->has); }

static bool reads(const struct one *me)
{
	for (int it = 0; it < TABLES * KEYS; it++)
		if (me->has[it / KEYS][it % KEYS] == SHARED)
			return true;
	return false;
}

static bool is_read_by(unsigned seat)
{
	for (const struct one *it = all; it < all + CONTEXTS; it++)
		if (it->begun && it->seat == seat && reads(it))
			return true;
	return false;
}

/* Whether the poll of another context than this one may have the seat's slot, by which nothing is read. */
static bool is_lost(unsigned seat, const struct one *me)
{
	for (const struct one *it = all; it < all + CONTEXTS; it++)
		if (it != me && it->polls && it->met[seat] && !is_read_by(seat))
			return true;
	return false;
}

static bool any_is_lost(const struct one *me)
{
	for (unsigned k = 0; k < SEATS; k++)
		if (k != me->seat && is_lost(k, me))
			return true;
	return false;
}

static bool asks_for(const struct one *it, int t, int k) { return it->polls && it->table == t && it->key == k; }
static bool awaits_first(const struct one *it, int t, int k) { return it->polls && it->waits_first && it->due_table == t && it->due_key == k; }

/* Whether any context but this one has the key, or waits for it. As long as any at all does, its entry is the same. */
static bool is_in_use(const struct one *me, int t, int k)
{
	for (const struct one *it = all; it < all + CONTEXTS; it++)
		if (it != me && (it->has[t][k] || asks_for(it, t, k)))
			return true;
	return false;
}

/* After each step: what isn't due any more, and to whose slots polls have come. */
static void follows(void)
{
	for (struct one *it = all; it < all + CONTEXTS; it++) {
		it->is_due = it->is_due && is_in_use(NULL, it->due_table, it->due_key);
		if (it->due_by && (!it->is_due || it->due_by->has[it->due_table][it->due_key] != EXCLUSIVE))
			it->due_by = NULL;
		for (unsigned k = 0; k < SEATS; k++)
			it->met[k] = it->polls && (it->met[k] || (k != it->seat && is_lost(k, it)));
		for (struct one *of = all; of < all + CONTEXTS; of++)
			it->met[of->seat] |= it->polls && of != it && of->begun &&
				((it->mode == EXCLUSIVE && of->has[it->table][it->key] == SHARED) ||
				 (it->waits_first && of->has[it->due_table][it->due_key] == SHARED));
	}
}

static bool may_have(const struct one *me, int t, int k, enum has mode)
{
	for (const struct one *it = all; it < all + CONTEXTS; it++)
		if (it != me && (it->has[t][k] == EXCLUSIVE || (it->has[t][k] && mode == EXCLUSIVE)))
			return false;
	return true;
}

static void gets(struct one *me, int t, int k, enum has mode)
{
	MUST(may_have(me, t, k, mode));
	me->has[t][k] = mode;
	me->told = me->is_due = false;
}

static void is_told(struct one *me, int t, int k, enum has mode)
{
	MUST(has_any(me));
	me->told = me->is_due = true;
	me->due_table = t;
	me->due_key = k;
	me->due_by = NULL;
	for (const struct one *it = all; it < all + CONTEXTS; it++)
		if (it != me && it->has[t][k] == EXCLUSIVE && (mode == EXCLUSIVE || !is_lost(me->seat, me)))
			me->due_by = it;
}

static bool may_wait(const struct one *me, int t, int k, enum has mode)
{
	bool may = !may_have(me, t, k, mode) || (mode == SHARED && !reads(me) && is_lost(me->seat, me)) ||
		   (mode == EXCLUSIVE && any_is_lost(me));

	for (const struct one *it = all; it < all + CONTEXTS; it++)
		may |= it != me && (asks_for(it, t, k) || awaits_first(it, t, k));
	return may;
}

/* ---- calls ---- */

static int locks(struct one *me, int t, int k, enum has mode, enum ww_table_wait by, const struct ww_waker *by_waker)
{
	struct ww_table_how how = { .owner = (uint64_t)(me - all) + 1, .by = by, .waker = by_waker };
	char key = (char)('a' + k);

	return ww_table_lock(tables[t], &me->x, &key, 1, mode == EXCLUSIVE ? WW_TABLE_EXCLUSIVE : WW_TABLE_SHARED, &how);
}

static int unlocks(struct one *me, int t, int k)
{
	char key = (char)('a' + k);

	return ww_table_unlock(tables[t], &me->x, &key, 1);
}

static void asks(struct one *me, int t, int k, enum has mode)
{
	bool tries = draw(2), ends = !tries && !draw(4), first = me->is_due && !has_any(me) && is_in_use(me, me->due_table, me->due_key);
	int r = locks(me, t, k, mode, tries ? WW_TABLE_TRIES : WW_TABLE_POLLS, ends ? NULL : &waker);

	if (me->has[t][k] >= mode) {
		MUST(r == -EALREADY || (me->told && r == -EDEADLK));
	} else if (me->told && has_any(me)) {
		MUST(r == -EDEADLK || r == -ENOSPC);
	} else if (!r) {
		MUST(tries || ends || !first || !me->due_by);
		gets(me, t, k, mode);
	} else if (r == -EDEADLK) {
		MUST(!tries);
		is_told(me, t, k, mode);
	} else if (r == -EINPROGRESS) {
		MUST(!tries && !ends && (first || may_wait(me, t, k, mode)));
		me->polls = true;
		me->waits_first = first;
		me->is_due = false;
		memset(me->met, 0, sizeof me->met);
		me->table = t;
		me->key = k;
		me->mode = mode;
	} else {
		MUST((tries && r == -EBUSY) || (ends && r == -ETIMEDOUT) || (room && r == -ENOSPC));
		me->is_due &= tries;
	}
}

/* Of a context whose poll waits: other calls are refused, and change nothing; or the poll goes on, or ends. */
static void polls_on(struct one *me, int t, int k)
{
	unsigned how = draw(16);
	int r;

	if (how < 3) {
		MUST(unlocks(me, t, k) == -EBUSY && locks(me, t, k, SHARED, WW_TABLE_TRIES, NULL) == -EBUSY);
		MUST(ww_table_close(tables[me->table]) == -EBUSY && ww_acquire_fini_checked(&me->x));
		return;
	}
	if (how == 3) {
		MUST(!ww_acquire_end(&me->x));
		*me = (struct one){ .begun = false };
		return;
	}
	r = how < 6 ? ww_acquire_end_wait(&me->x) : locks(me, me->table, me->key, me->mode, WW_TABLE_POLLS, how < 9 ? NULL : &waker);
	if (r == -EINPROGRESS)
		return;
	me->polls = false;
	if (r == -EDEADLK) {
		is_told(me, me->table, me->key, me->mode);
	} else if (how >= 6 && !r) {
		gets(me, me->table, me->key, me->mode);
	} else {
		MUST(how < 6 ? !r : r == -ETIMEDOUT || (room && r == -ENOSPC));
	}
}

static void ends(struct one *me)
{
	if (draw(2) && has_any(me)) {
		MUST(ww_acquire_fini_checked(&me->x));
		return;
	}
	MUST(has_any(me) || draw(2) ? !ww_acquire_end(&me->x) : !ww_acquire_fini_checked(&me->x));
	*me = (struct one){ .begun = false };
}

static void notes(void *nothing, const struct ww_table_user *user)
{
	(void)nothing;
	seen[*(const char *)user->key - 'a'][user->waits ? NOTHING : user->mode == WW_TABLE_EXCLUSIVE ? EXCLUSIVE : SHARED]++;
}

static void looks(int t)
{
	memset(seen, 0, sizeof seen);
	(void)ww_table_see(tables[t], NULL, 0, notes, NULL);
	for (int k = 0; k < KEYS; k++) {
		unsigned has[EXCLUSIVE + 1] = { 0 };

		for (const struct one *it = all; it < all + CONTEXTS; it++)
			has[it->has[t][k]]++;
		MUST(seen[k][SHARED] == has[SHARED] && seen[k][EXCLUSIVE] == has[EXCLUSIVE]);
	}
}

static void closes(int t)
{
	bool is_used = false;

	for (const struct one *it = all; it < all + CONTEXTS; it++)
		is_used |= keys_in(it, t) || (it->polls && it->table == t);
	MUST(ww_table_close(tables[t]) == (is_used ? -EBUSY : 0));
	if (!is_used)
		MUST(!ww_table_open(&tables[t], &c, room));
}

static void releases(struct one *me, int t, int k, unsigned way)
{
	if (way < 3) {
		MUST(unlocks(me, t, k) == (me->has[t][k] ? 0 : -EINVAL));
		me->has[t][k] = NOTHING;
	} else if (way == 3) {
		MUST(ww_table_mark(tables[t], &me->x) == keys_in(me, t));
		ww_table_unlock_to(tables[t], &me->x, 0);
		memset(me->has[t], 0, sizeof me->has[t]);
	} else {
		ww_acquire_unlock_all(&me->x);
		forgets_all(me);
		MUST(!me->x.acquired);
	}
}

static void steps(void)
{
	struct one *me = &all[draw(CONTEXTS)];
	int t = (int)draw(TABLES), k = (int)draw(KEYS);
	unsigned what = draw(16);

	if (!me->begun) {
		MUST(!ww_acquire_init_checked(&me->x, &c));
		me->begun = true;
		while (seats[me->seat] && seats[me->seat] != me->x.own)
			MUST(++me->seat < SEATS);
		seats[me->seat] = me->x.own;
	} else if (me->polls) {
		polls_on(me, t, k);
	} else if (what < 8) {
		asks(me, t, k, draw(2) ? SHARED : EXCLUSIVE);
	} else if (what < 13) {
		releases(me, t, k, what - 8);
	} else if (what == 13) {
		ends(me);
	} else if (what == 14) {
		looks(t);
	} else {
		closes(t);
	}
	follows();
}

static void makes(void)
{
	state = seed * 2654435761u;
	room = seed % 7 ? 0 : 12;
	ww_class_init(&c, seed % 2, "model");
	if (!(seed % 3))
		MUST(!ww_class_limit(&c, seed % 5 ? 64 : 0, CONTEXTS + seed % 4));
	for (int t = 0; t < TABLES; t++)
		MUST(!ww_table_open(&tables[t], &c, room));
	for (unsigned k = 0; k < STEPS; k++)
		steps();
	for (struct one *it = all; it < all + CONTEXTS; it++)
		MUST(!it->begun || !ww_acquire_end(&it->x));
	memset(all, 0, sizeof all);
	memset(seats, 0, sizeof seats);
	for (int t = 0; t < TABLES; t++)
		MUST(!ww_table_see(tables[t], NULL, 0, notes, NULL) && !ww_table_close(tables[t]));
	MUST(!ww_class_free(&c));
}

int main(int count, char **words)
{
	unsigned seeds = count > 1 ? (unsigned)strtoul(words[1], NULL, 10) : 400;
	unsigned first = count > 2 ? (unsigned)strtoul(words[2], NULL, 10) : 0;

	for (seed = first; seed - first < seeds; seed++)
		makes();
	printf("%u seeds\n", seeds);
	return 0;
}
