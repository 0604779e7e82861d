/*
 * table.c - small programs of ww_table.h, each of which has to be right by every schedule.
 *
 * A thread is a text of transactions, each of which is by a context, in [ ], or by an owner, in { }. Keys are a, b and c.
 *
 *	a b c	shares		A B C	has to itself, or raises what it shares
 *	?	the next is tried; t: until a time; where that fails the rest of the transaction is left out
 *	y	the next is by polls: it sleeps until its waker is called; x: it ends the wait, and where it has none, likewise;
 *		q: it ends the wait by a call that isn't the table's, which leaves nothing there; h: the thread g goes on with it, once its waker was called
 *	e	the transaction expires: it uses nothing from here on
 *	m	the next takes its key from who has expired
 *	-	releases what came last; +: what came first; <: all, back to the beginning
 *	v	sees who has what
 *	k	closes the table, if nobody has anything; what was released before is through with it by then
 *	1-9 ~1	something has happened; waits for that, which orders
 *
 * After -EDEADLK it releases all, and begins anew: by a context that goes on, or by an owner that leaves and joins again, as another
 * one in one of two.  What is shared is a plain access, so whoever isn't ordered behind who came before is told as a race.
 */
#define _GNU_SOURCE
#include "made.h"
#include "ww_table.h"
#include <ctype.h>
#include <string.h>

enum { WAIT_DIE = 1 << 8, FULL = 1 << 9 /* the table may have one key */ };
#define CONTEXTS(n) ((n) << 4)

enum { KEYS = 3, MOST = 8, POLLS = 16 };
static struct ww_class c;
struct ww_class *const il_class = &c;
struct ww_shared_mutex *il_shared(unsigned k) { return (void)k, NULL; }
unsigned il_looks = 1, il_bits = MANY_BITS;
static struct ww_table *t;
static struct it {
	long data; /* plain */
	uint32_t writers, readers;
} *its;
static long writes[KEYS];
static uint32_t happened[10], expired[IL_THREADS + 1];
static struct timespec soon;
/* Of each poll of a thread whether its waker was called, and may be. */
static struct polled {
	uint32_t calls;
	bool is_due;
} polled[IL_THREADS + 1][POLLS];
static unsigned polls[IL_THREADS + 1];

#define ADD(word, by) __atomic_fetch_add(&(word), by, __ATOMIC_RELAXED)
#define SEEN(word) __atomic_load_n(&(word), __ATOMIC_RELAXED)

void il_setup(const struct il_program *p)
{
	ww_class_init(&c, !!(p->flags & WAIT_DIE), "c");
	MUST(!ww_class_crowd(&c, WW_NO_CROWD) && !ww_class_limit(&c, 12, p->flags >> 4 & 15) && !ww_class_open(&c));
	make_seats(c.pool);
	MUST(!ww_table_open(&t, &c, p->flags & FULL ? 1 : 0));
	its = il_new(KEYS * sizeof *its);
	for (unsigned k = 0; k < IL_THREADS && p->threads[k]; k++)
		if (strchr(p->threads[k], 't'))
			soon = il_in(1000000);
}

void il_rests(void) {}

struct user {
	struct ww_acquire_ctx own, *x;
	uint64_t owner;
	char got[MOST + 1]; /* in which order; in which mode */
	long was[KEYS];
};

/* A context that waits by a poll, and another thread goes on with. */
static struct {
	uint32_t is_there;
	struct user *u;
	struct polled *it;
	char key;
	enum ww_table_mode mode;
} given;
static struct user users[IL_THREADS + 1];

static unsigned index_of(char letter) { return (unsigned)(tolower(letter) - 'a'); }
static char *mode_of(struct user *u, unsigned k)
{
	for (char *at = u->got; *at; at++)
		if (index_of(*at) == k)
			return at;
	return NULL;
}

static void begins_use(char letter)
{
	struct it *it = &its[index_of(letter)];

	if (isupper(letter)) {
		MUST(!ADD(it->writers, 1) && !SEEN(it->readers));
		it->data++;
		writes[index_of(letter)]++;
	} else {
		ADD(it->readers, 1);
		MUST(!SEEN(it->writers) && it->data == writes[index_of(letter)]);
	}
}

static void ends_use(char letter)
{
	struct it *it = &its[index_of(letter)];

	MUST(isupper(letter) || it->data == writes[index_of(letter)]);
	if (isupper(letter))
		ADD(it->writers, -1u);
	else
		ADD(it->readers, -1u);
}

/* Unless it has expired. */
static void forgets(struct user *u)
{
	for (const char *at = u->got; *at && !SEEN(expired[il_me()]); at++)
		ends_use(*at);
	*u->got = 0;
}

static bool meets(void *data, const struct ww_table_user *user)
{
	(void)data;
	MUST(!user->waits && user->owner && user->owner != il_me());
	return __atomic_load_n(&expired[user->owner], __ATOMIC_ACQUIRE);
}

static void sees(void *data, const struct ww_table_user *user)
{
	MUST(user->length == 1 && index_of(*(const char *)user->key) < KEYS && user->owner);
	++*(unsigned *)data;
}

/* This thread's context. */
static void waits_not(void *data, const struct ww_table_user *user)
{
	(void)data;
	MUST(!user->waits || user->owner != il_me());
}

static void is_called(void *loop, void *task)
{
	struct polled *it = task;

	(void)loop;
	MUST(!SEEN(it->calls));
	il_set(&it->calls);
}

static int ask(struct user *u, const char *key, enum ww_table_mode mode, struct ww_table_how *how)
{
	int r = ww_table_lock(t, u->x, key, 1, mode, how);

	MUST(r != -EDEADLK || *u->got);
	return r;
}

static int by_polls(struct user *u, const char *key, enum ww_table_mode mode, struct ww_table_how *how, char way)
{
	for (;;) {
		struct polled *it = &polled[il_me()][polls[il_me()]++];
		int r;

		MUST(polls[il_me()] <= POLLS);
		it->is_due = true;
		how->waker = &(struct ww_waker){ is_called, NULL, it };
		r = ask(u, key, mode, how);
		if (r != -EINPROGRESS) {
			it->is_due = false;
			return r;
		}
		if (strchr("xq", way)) {
			MUST(ww_table_unlock(t, u->x, key, 1) == -EBUSY);
			if (ww_poll_take_back(u->x, NULL))
				it->is_due = false;
			how->waker = NULL;
			if (way == 'x')
				return ask(u, key, mode, how);
			r = ww_acquire_end_wait(u->x);
			(void)ww_table_see(t, key, 1, waits_not, NULL);
			return r == -EDEADLK ? r : -ETIMEDOUT;
		}
		il_await(&it->calls);
	}
}

/* Another thread goes on with it: it isn't accessed here any more. */
static int hands_over(struct user *u, const char *key, enum ww_table_mode mode, struct ww_table_how *how)
{
	struct polled *it = &polled[il_me()][polls[il_me()]++];
	int r;

	it->is_due = true;
	how->waker = &(struct ww_waker){ is_called, NULL, it };
	given.u = u;
	given.it = it;
	given.key = *key;
	given.mode = mode;
	il_set(&given.is_there);
	r = ww_table_lock(t, u->x, key, 1, mode, how);
	if (r != -EINPROGRESS) {
		given.u = NULL;
		il_set(&it->calls);
	}
	return r;
}

static int lock(struct user *u, char letter, const char *how)
{
	struct ww_table_how by = { .owner = il_me(), .meets = strchr(how, 'm') ? meets : NULL };
	enum ww_table_mode mode = isupper(letter) ? WW_TABLE_EXCLUSIVE : WW_TABLE_SHARED;
	const char key = (char)tolower(letter), *polls_by = strpbrk(how, "yxqh");

	if (polls_by) {
		by.by = WW_TABLE_POLLS;
		return *polls_by == 'h' ? hands_over(u, &key, mode, &by) : by_polls(u, &key, mode, &by, *polls_by);
	}
	by.by = strchr(how, '?') ? WW_TABLE_TRIES : WW_TABLE_WAITS;
	by.until = strchr(how, 't') ? &soon : NULL;
	return ask(u, &key, mode, &by);
}

/* What was shared is as it was. */
static void got(struct user *u, char letter)
{
	char *had = mode_of(u, index_of(letter));

	if (had) {
		MUST(islower(*had) && isupper(letter) && u->was[index_of(letter)] == its[index_of(letter)].data);
		ends_use(*had);
		*had = letter;
	} else {
		strncat(u->got, &letter, 1);
	}
	begins_use(letter);
	u->was[index_of(letter)] = its[index_of(letter)].data;
	MUST(ww_table_mark(t, u->x) == strlen(u->got));
}

/* What it has besides it has still. */
static void release_one(struct user *u, char *at)
{
	char key = (char)tolower(*at);

	ends_use(*at);
	memmove(at, at + 1, strlen(at));
	MUST(!ww_table_unlock(t, u->x, &key, 1) && ww_table_unlock(t, u->x, &key, 1) == -EINVAL);
	for (at = u->got; *at; at++) {
		key = (char)tolower(*at);
		MUST(ww_table_lock(t, u->x, &key, 1, WW_TABLE_SHARED, NULL) == -EALREADY);
	}
}

static void release_all(struct user *u)
{
	forgets(u);
	ww_table_unlock_to(t, u->x, 0);
	MUST(!u->x->acquired);
}

static bool happens(const char **at)
{
	if (**at == '~')
		il_await(&happened[*++*at - '0']);
	else if (**at == 'k' && !ww_table_close(t))
		t = NULL;
	else if (isdigit(**at))
		il_set(&happened[**at - '0']);
	else
		return **at == 'k';
	return true;
}

static int run(struct user *u, const char *at)
{
	char how[MOST] = "";
	unsigned seen = 0;

	for (; !strchr("]}", *at); at++) {
		int r;

		if (happens(&at))
			continue;
		switch (*at) {
		case '-': release_one(u, u->got + strlen(u->got) - 1); continue;
		case '+': release_one(u, u->got); continue;
		case '<': release_all(u); continue;
		case 'v': MUST(ww_table_see(t, NULL, 0, sees, &seen) == seen && seen >= strlen(u->got)); continue;
		case 'e':
			for (const char *it = u->got; *it; it++)
				ends_use(*it);
			__atomic_store_n(&expired[il_me()], 1, __ATOMIC_RELEASE);
			continue;
		default: break;
		}
		if (!strchr("abcABC", *at)) {
			strncat(how, at, 1);
			continue;
		}
		r = lock(u, *at, how);
		MUST(!r || r == -EDEADLK || (r == -EBUSY && strchr(how, '?')) || (r == -ETIMEDOUT && strpbrk(how, "txq")) || (r == -EINPROGRESS && strchr(how, 'h')) || r == -ENOSPC);
		if (r)
			return r;
		*how = 0;
		got(u, *at);
	}
	return 0;
}

static void joins(struct user *u)
{
	uint64_t former = u->owner;

	u->owner += IL_THREADS + 1;
	MUST(!ww_table_join(t, u->owner, former, NULL, &u->x));
}

static void end_by_hand(struct user *u)
{
	ww_table_unlock_to(t, u->x, 0);
	ww_acquire_fini(u->x);
}

/* What a poll of another thread has begun. */
static void goes_on(void)
{
	struct ww_table_how how = { .owner = 1, .by = WW_TABLE_POLLS };
	int r;

	il_await(&given.is_there);
	il_await(&given.it->calls);
	if (!given.u)
		return;
	r = ww_table_lock(t, given.u->x, &given.key, 1, given.mode, &how);
	MUST(!r || r == -ETIMEDOUT);
	if (!r) {
		begins_use(given.mode == WW_TABLE_EXCLUSIVE ? (char)toupper(given.key) : given.key);
		ends_use(given.mode == WW_TABLE_EXCLUSIVE ? (char)toupper(given.key) : given.key);
	}
	end_by_hand(given.u);
}

static const char *transaction(const char *text, struct user *u)
{
	bool is_owner = *text == '{';
	int r;

	u->x = &u->own;
	if (is_owner)
		joins(u);
	else
		ww_acquire_init(u->x, &c);
	while ((r = run(u, text + 1)) == -EDEADLK) {
		if (!is_owner) {
			release_all(u);
			continue;
		}
		forgets(u);
		MUST(!ww_table_leave(t, u->owner, true));
		joins(u);
	}
	if (r == -EINPROGRESS) /* another thread goes on with it */
		return text + strcspn(text, "]}");
	forgets(u);
	if (is_owner)
		MUST(!ww_table_leave(t, u->owner, false));
	else
		end_by_hand(u);
	__atomic_store_n(&expired[il_me()], 0, __ATOMIC_RELAXED);
	return text + strcspn(text, "]}");
}

void il_thread(const char *at)
{
	const char *text = at;
	struct user *u = &users[il_me()];

	u->owner = il_me();
	for (; *at; at++) {
		il_position((size_t)(at - text));
		if (strchr("[{", *at))
			at = transaction(at, u);
		else if (*at == 'g')
			goes_on();
		else
			MUST(happens(&at));
	}
}

void il_check(const struct il_program *p)
{
	unsigned seen = 0;

	(void)p;
	for (unsigned n = 1; n <= IL_THREADS; n++)
		for (unsigned k = 0; k < polls[n]; k++)
			MUST(polled[n][k].calls == polled[n][k].is_due);
	for (unsigned k = 0; k < KEYS; k++)
		MUST(its[k].data == writes[k] && !its[k].writers && !its[k].readers);
	MUST((!t || (!ww_table_see(t, NULL, 0, sees, &seen) && !ww_table_close(t))) && !ww_class_free(&c));
}

const struct il_program il_programs[] = {
	{ "table", { "[A]", "[A]" }, CONTEXTS(4), 2 },
	{ "table-shares", { "[a]", "[a]", "[A]" }, CONTEXTS(4), 1 },
	{ "table-read-ends", { "[ab-1~2]", "~1[B]2" }, CONTEXTS(4), 2 },
	{ "table-read-ends-late", { "[ab-b]", "[B]", "[B]" }, CONTEXTS(4), 1 },
	{ "table-again", { "[A][a]", "[a][A]" }, CONTEXTS(4), 1 },
	{ "table-cross", { "[AB]", "[BA]" }, CONTEXTS(4), 2 },
	{ "table-cross-die", { "[AB]", "[BA]" }, CONTEXTS(4) | WAIT_DIE, 2 },
	{ "table-told", { "[A1~2B]", "~1[B2A]" }, CONTEXTS(4), 2 },
	{ "table-told-reader", { "[a1~2B]", "~1[b2A]", "~1[A]" }, CONTEXTS(4), 1 },
	{ "table-raise", { "[aA]", "[aA]" }, CONTEXTS(4), 2 },
	{ "table-tree", { "[AC-B]", "[CBA-]" }, CONTEXTS(4), 1 },
	{ "table-tree-first", { "[ABC+A]", "[CBA++]" }, CONTEXTS(4), 1 },
	{ "table-tries", { "[?A?b]", "[?B?a]" }, CONTEXTS(4), 2 },
	{ "table-soon", { "[tA]", "[A]" }, CONTEXTS(4), 2 },
	{ "table-expires", { "[Ae]", "[mA]" }, CONTEXTS(4), 2 },
	{ "table-expires-waits", { "[A1e]", "~1[A]", "~1[mA]" }, CONTEXTS(4), 2 },
	{ "table-expires-shared", { "[ae]", "[a]", "[mA]" }, CONTEXTS(4), 1 },
	{ "table-polls", { "[yA]", "[yA]" }, CONTEXTS(4), 2 },
	{ "table-polls-cross", { "[yAyB]", "[yByA]" }, CONTEXTS(4), 1 },
	{ "table-polls-cross-die", { "[yAyB]", "[yByA]" }, CONTEXTS(4) | WAIT_DIE, 1 },
	{ "table-poll-ends", { "[xA]", "[A]" }, CONTEXTS(4), 2 },
	{ "table-poll-ends-otherwise", { "~1[qA][B]2", "[A1~2]" }, CONTEXTS(4), 2 },
	{ "table-poll-ends-last", { "[qA]", "[A]" }, CONTEXTS(4), 2 },
	{ "table-poll-ends-raise", { "[aqA]", "[a]", "[A]" }, CONTEXTS(4), 1 },
	{ "table-poll-elsewhere", { "[hA]", "[A]", "g" }, CONTEXTS(4), 2 },
	{ "table-poll-raises", { "[ayA]", "[ayA]" }, CONTEXTS(4), 1 },
	{ "table-owners", { "{AB}", "{BA}" }, CONTEXTS(4), 2 },
	{ "table-owners-die", { "{AB}", "{BA}" }, CONTEXTS(4) | WAIT_DIE, 2 },
	{ "table-owner-again", { "{A}{a}", "[A]" }, CONTEXTS(4), 1 },
	{ "table-full", { "[A]", "[B]" }, CONTEXTS(4) | FULL, 2 },
	{ "table-sees", { "[av]", "[vA]" }, CONTEXTS(4), 2 },
	{ "table-closes", { "[a1b]", "~1k" }, CONTEXTS(4), 1 },
	{ "table-rollback", { "[aB<]", "[bA]" }, CONTEXTS(4), 1 },
	{ 0 },
};
