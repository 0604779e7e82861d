/*
 * shared.c - small programs of shared mutexes, each of which has to be right by every schedule.
 *
 * A thread is a text of transactions, each of which is a loop, in ( ), or by hand, in [ ]. Mutexes are a and b.
 *
 *	a b	reads			A B	writes, or comes to write what it reads
 *	?	the next is tried: where that fails the rest of the transaction is left out
 *	t	the next is until a time, likewise
 *	y	the next is by polls, and so is the wait after -EDEADLK: it sleeps until its waker is called; z: it polls once more without need;
 *		x: it ends the wait, and where it has none, the rest of the transaction is left out; l: whenever it is called it polls late,
 *		once all other threads wait, and until then a downgrade leaves what is written
 *	> <	behind a transaction: what it writes it only reads from here on; that has its mutex asked for by a second context first
 *	-	what it reads ends; e: of that a alone		w	waits until somebody waits for a
 *	d	destroys a, and makes it anew, where nobody has it; D: somebody has, or waits for it
 *	p	destroys a, unless somebody has it or waits for it; q: takes the number again, where it is gone, and has it until 3 has happened
 *	v	in the first try of a loop by a number: writes b, and backs off at a; then 2 has happened
 *	V	by hand, by a number: writes b, backs off at a, which 2 says, and goes on from a value
 *	u	lists who reads and writes each: nobody but who asked for it, and what the context has itself
 *	1-9 ~1	something has happened; waits for that, which orders	_1	waits for it, which doesn't
 *	These stand in a transaction, too, where that has what comes before; and what happens, behind > as well, which comes then before
 *	its reads end.
 *	Where a program is NUMBERED the mutexes are known by their numbers.  Where it MOVES, too, and a context moves behind each call by
 *	it, also one that waits, to where another one was last.
 *
 * What is read or written is a plain access, so whoever isn't ordered behind who came before is told as a race.
 */
#define _GNU_SOURCE
#include "made.h"
#include "../../lock/context.h"
#include "ww_retry.h"
#include "ww_shared.h"
#include "ww_why.h"
#include <ctype.h>
#include <string.h>

enum { WAIT_DIE = 1 << 8, ONE_BIT = 1 << 9 /* which all slots have */, NUMBERED = 1 << 10, MOVES = 1 << 11 | NUMBERED };
#define CONTEXTS(n) ((n) << 4)

enum { BOTH = 2, MOST = 6 };
static struct ww_class c;
struct ww_class *const il_class = &c;
static struct it {
	struct ww_shared_mutex lock, *at; /* the library's, where it goes by a number */
	uint32_t number;
	bool is_gone;
	long data;		/* plain */
	uint32_t writers, readers;
} *its;
static long writes[BOTH];
static uint32_t happened[10];
static struct timespec soon;
static bool is_late; /* a task is */
static bool are_listed;
static uint32_t may_use[BOTH]; /* a bit for each context that asked for it, by its label */
static bool numbered, moving;
/* Where each thread's context is; and where the one was that moved last. */
static struct ww_acquire_ctx places[IL_THREADS + 2], *mine[IL_THREADS + 1], *empty;
unsigned il_looks, il_bits;
/* Of each poll of a thread whether its waker was called, and may be. */
enum { POLLS = 16 };
static struct polled {
	uint32_t calls;
	bool is_due;
} polled[IL_THREADS + 1][POLLS];
static unsigned polls[IL_THREADS + 1];

#define ADD(word, by) __atomic_fetch_add(&(word), by, __ATOMIC_RELAXED)
#define SEEN(word) __atomic_load_n(&(word), __ATOMIC_RELAXED)

struct ww_shared_mutex *il_shared(unsigned k) { return its ? its[k].at : NULL; }

static void make(struct it *it)
{
	if (numbered)
		MUST(!ww_number_take(&it->number, &c));
	else
		ww_shared_mutex_init(&it->lock, &c);
}

static int destroy(struct it *it)
{
	int r = numbered ? ww_number_put(it->number, &c) : ww_shared_mutex_destroy(&it->lock);

	il_hall();
	return r;
}

void il_setup(const struct il_program *p)
{
	ww_class_init(&c, !!(p->flags & WAIT_DIE), "c");
	MUST(!ww_class_crowd(&c, WW_NO_CROWD) && !ww_class_limit(&c, 8, p->flags >> 4 & 15) && !ww_class_open(&c));
	make_seats(c.pool);
	its = il_new(BOTH * sizeof *its);
	numbered = p->flags & NUMBERED;
	moving = (p->flags & MOVES) == MOVES;
	for (unsigned k = 0; k < BOTH; k++)
		make(&its[k]);
	for (unsigned k = 0; k < BOTH; k++)
		its[k].at = numbered ? &c.pool->numbered[its[k].number] : &its[k].lock;
	for (unsigned k = 0; k < IL_THREADS && p->threads[k]; k++)
		if (strchr(p->threads[k], 't'))
			soon = il_in(1000000);
	for (unsigned k = 0; k < IL_THREADS && p->threads[k]; k++)
		is_late |= !!strchr(p->threads[k], 'l'), are_listed |= !!strchr(p->threads[k], 'u');
	for (unsigned k = 0; k <= IL_THREADS; k++)
		mine[k] = &places[k];
	empty = &places[IL_THREADS + 1];
	il_looks = p->flags & IL_PATIENT ? UINT32_MAX : 1;
	il_bits = p->flags & ONE_BIT ? 1 : MANY_BITS;
}


void il_rests(void) {}

/* What a transaction has by now. */
struct user {
	struct ww_acquire_ctx *x;
	bool reads[BOTH], writes[BOTH];
	long was[BOTH];
	char got[MOST + 1];
	unsigned tries, label;
};

static struct it *it_of(char letter) { return &its[tolower(letter) - 'a']; }

/* Where it was holds nothing any more, as soon as another one finds it. */
static void moves(struct user *u)
{
	struct ww_acquire_ctx was = *u->x;

	if (!moving)
		return;
	memset(u->x, 0xa5, sizeof was);
	u->x = mine[il_me()] = __atomic_exchange_n(&empty, u->x, __ATOMIC_ACQ_REL);
	*u->x = was;
}

static void is_called(void *loop, void *task)
{
	struct polled *it = task;

	(void)loop;
	MUST(!SEEN(it->calls));
	il_set(&it->calls);
}

/* A poll of a mutex, or of the wait after -EDEADLK. */
static int poll_once(struct user *u, char letter, const struct ww_waker *waker)
{
	struct ww_shared_mutex *m = letter ? it_of(letter)->at : NULL;

	if (!letter)
		return ww_shared_mutex_await_poll(u->x, waker);
	return isupper(letter) ? ww_shared_mutex_lock_poll(m, u->x, waker) : ww_shared_mutex_lock_shared_poll(m, u->x, waker);
}

static int lock_until(const struct user *u, char letter, const struct timespec *until)
{
	struct ww_shared_mutex *m = it_of(letter)->at;

	if (until)
		return isupper(letter) ? ww_shared_mutex_lock_until(m, u->x, until) : ww_shared_mutex_lock_shared_until(m, u->x, until);
	return isupper(letter) ? ww_shared_mutex_lock(m, u->x) : ww_shared_mutex_lock_shared(m, u->x);
}

static bool is_written(const struct user *u, size_t k)
{
	return ww_shared_mutex_is_written_by(its[k].at, u->x);
}

static bool is_read(const struct user *u, size_t k)
{
	return ww_shared_mutex_is_read_by(its[k].at, u->x);
}

/* What no poll of another call, nor any other call, changes while it waits; until it has it, it has only what it had before. */
static void others_are_refused(struct user *u, char letter)
{
	char other = isupper(letter) ? (char)tolower(letter) : (char)toupper(letter);

	if (!letter)
		return;
	MUST(poll_once(u, other, NULL) == -EBUSY && poll_once(u, letter ^ 'a' ^ 'b', NULL) == -EBUSY && poll_once(u, 0, NULL) == -EBUSY);
	MUST(lock_until(u, 'a', NULL) == -EBUSY && !ww_shared_mutex_trylock_shared(its[1].at, u->x));
	for (size_t k = 0; k < BOTH; k++)
		MUST((u->writes[k] || !is_written(u, k)) && is_read(u, k) == u->reads[k]);
	MUST(destroy(it_of(letter)) == -EBUSY);
}

static int by_polls(struct user *u, char letter, char how)
{
	for (;;) {
		struct polled *it = &polled[il_me()][polls[il_me()]++];
		int r;

		MUST(polls[il_me()] <= POLLS);
		it->is_due = true;
		r = poll_once(u, letter, &(struct ww_waker){ is_called, NULL, it });
		if (r != -EINPROGRESS) {
			it->is_due = false;
			return r;
		}
		moves(u);
		if (strchr("xz", how) && ww_poll_take_back(u->x, NULL))
			it->is_due = false;
		if (how == 'z')
			others_are_refused(u, letter);
		if (how == 'x')
			return poll_once(u, letter, NULL);
		if (how != 'z')
			il_await(&it->calls);
		if (how == 'l')
			il_late();
		how = how == 'l' ? 'l' : 'y';
	}
}

/* By which words it is asked for stands before it. 0, -EDEADLK, or another error of a call that may fail. */
static int lock(struct user *u, char letter, char how)
{
	struct ww_shared_mutex *m = it_of(letter)->at;
	bool writes = isupper(letter);

	if (how && strchr("lxyz", how))
		return by_polls(u, letter, how);
	if (how == '?')
		return (writes ? ww_shared_mutex_trylock(m, u->x) : ww_shared_mutex_trylock_shared(m, u->x)) ? 0 : -EBUSY;
	return lock_until(u, letter, how == 't' ? &soon : NULL);
}

/* It has this from now on. An upgrade finds what was read: nobody has written in between. */
static void got(struct user *u, char letter)
{
	size_t k = (size_t)(it_of(letter) - its);

	(isupper(letter) ? il_writes : il_reads)((unsigned)k, u->x);
	MUST(isupper(letter) ? is_written(u, k) : is_read(u, k));
	if (u->reads[k] || u->writes[k])
		MUST(u->was[k] == its[k].data);
	u->was[k] = its[k].data;
	*(isupper(letter) ? &u->writes[k] : &u->reads[k]) = true;
	strncat(u->got, &letter, 1);
}

static void forgets(struct user *u)
{
	memset(u->reads, 0, sizeof u->reads);
	memset(u->writes, 0, sizeof u->writes);
	*u->got = 0;
}

static void end_reads(struct user *u)
{
	char *left = u->got;

	for (const char *at = u->got; *at; at++)
		if (isupper(*at))
			*left++ = *at;
	*left = 0;
	memset(u->reads, 0, sizeof u->reads);
	ww_acquire_end_reads(u->x);
}

/* Others may write it, whatever else the context reads. */
static void end_read(struct user *u)
{
	char *at = strchr(u->got, 'a');

	memmove(at, at + 1, strlen(at));
	u->reads[0] = false;
	il_reads_no_more(0, u->x);
	MUST(!ww_shared_mutex_end_read(its[0].at, u->x) && !is_read(u, 0));
}

/* What it wrote may be read by now. */
static int unlock_write(const struct it *it, struct ww_acquire_ctx *x)
{
	if (!ww_shared_mutex_is_written_by(it->at, x))
		return ww_shared_mutex_unlock_shared(it->at, x);
	return numbered ? ww_number_unlock(it->number, x) : ww_shared_mutex_unlock(it->at, x);
}

/* Each by one unlock, the newest first: so it ends a write, and then a read, up to which nobody else writes. */
static void unlock_by_hand(struct user *u)
{
	for (size_t k = strlen(u->got); k--;) {
		struct it *it = it_of(u->got[k]);

		MUST(!(isupper(u->got[k]) ? unlock_write(it, u->x) : ww_shared_mutex_unlock_shared(it->at, u->x)));
		MUST(!is_read(u, (size_t)(it - its)) || it->data == writes[it - its]);
	}
	MUST(!u->x->acquired);
	forgets(u);
}

/* What has happened, and waits for that: whether it was such a word, past which this comes. */
static bool happens(const char **at)
{
	if (**at == '~')
		il_await(&happened[*++*at - '0']);
	else if (**at == '_')
		for (++*at; !SEEN(happened[**at - '0']);)
			il_yield();
	else if (isdigit(**at))
		il_set(&happened[**at - '0']);
	else if (**at == 'w')
		while (!(SEEN(its[0].at->mutex_.waiters) & ~(IS_TAKEN | IS_OF_NUMBER)))
			il_yield();
	else
		return false;
	return true;
}

/* Whoever had it before is through with it, and what it wrote is seen. */
static void comes_anew(bool is_had)
{
	MUST(destroy(its) == (is_had ? -EBUSY : 0));
	if (is_had)
		return;
	MUST(its[0].data == writes[0]);
	its[0].data = 7;
	writes[0] = 7;
	make(its);
}

static void goes(struct it *it)
{
	int r = destroy(it);

	MUST(!r || r == -EBUSY);
	it->is_gone = !r;
}

/* By Wait-Die, where an older context has the second one until then. */
static int backs_off(struct user *u)
{
	MUST(!lock(u, 'B', 0) && lock(u, 'A', 0) == -EDEADLK);
	il_set(&happened[2]);
	return -EDEADLK;
}

/* The same; what it collided with may be another's by then, so that it doesn't wait. */
static void goes_on_from_a_value(struct user *u)
{
	struct ww_retry value = { 0 };

	(void)backs_off(u);
	MUST(!ww_number_unlock(its[1].number, u->x) && !ww_acquire_suspend(u->x, &value) && !ww_acquire_resume(u->x, &c, &value, NULL));
}

/* ---- ww_why.h ---- */

/* What these do is no access of a thread. */
#define COUNTS __attribute__((no_sanitize("thread"), noinline))
COUNTS static void asks_for(const struct user *u, unsigned k) { may_use[k] |= 1u << u->label; }
COUNTS static void is_user(const struct ww_user *it, unsigned k) { MUST(it->label < 8 * sizeof *may_use && may_use[k] >> it->label & 1); }

static bool lists(unsigned k, unsigned label, enum ww_part part)
{
	struct ww_user all[8];
	size_t count = ww_mutex_users(&its[k].at->mutex_, all, 8);
	bool is = false;

	MUST(count <= 8);
	for (size_t i = 0; i < count; i++) {
		is_user(&all[i], k);
		is |= all[i].label == label && all[i].part == part;
	}
	return is;
}

static void lists_users(struct user *u)
{
	for (unsigned k = 0; k < BOTH; k++)
		if (!lists(k, u->label, u->writes[k] ? WW_HOLDS : WW_READS))
			MUST(!u->writes[k] && !u->reads[k]);
}

/* Each has a label of its own. */
static void label(struct user *u)
{
	static unsigned labels[IL_THREADS + 1];

	u->label = (il_me() - 1) * 8 + ++labels[il_me()];
	MUST(labels[il_me()] < 8 && !ww_acquire_label(u->x, u->label));
}

/* All locks of the text up to its end. */
static int lock_each(struct user *u, const char *at, bool is_loop)
{
	char how = 0;

	for (; !strchr(")]", *at); at++) {
		int r;

		if (happens(&at))
			continue;
		if (strchr("?ltxyz", *at)) {
			how = *at;
			continue;
		}
		if (*at == '-' || *at == 'e') {
			(*at == 'e' ? end_read : end_reads)(u);
			continue;
		}
		if (*at == 'v') {
			if (!u->tries++)
				return backs_off(u);
			continue;
		}
		if (tolower(*at) == 'd') {
			comes_anew(*at == 'D');
			continue;
		}
		if (*at == 'u' || *at == 'V') {
			(*at == 'u' ? lists_users : goes_on_from_a_value)(u);
			continue;
		}
		asks_for(u, (unsigned)(it_of(*at) - its));
		r = lock(u, *at, how);
		moves(u);
		MUST(!r || r == -EDEADLK || (how == '?' && r == -EBUSY) || (how && strchr("tx", how) && r == -ETIMEDOUT));
		MUST(!r || !is_loop || r != -EDEADLK || ww_is_contended(u->x));
		if (r)
			return r;
		how = 0;
		got(u, *at);
	}
	return 0;
}

static void in_loop(struct user *u, const char *at)
{
	ww_until_all_locked(u->x) {
		forgets(u);
		lock_each(u, at, true);
		ww_retry_on_contention(u->x);
	}
}

static void by_hand(struct user *u, const char *at)
{
	bool is_polled = strcspn(at, "lxyz") < strcspn(at, "]");

	while (lock_each(u, at, false) == -EDEADLK) {
		unlock_by_hand(u);
		MUST(!(is_polled ? by_polls(u, 0, 'z') : ww_shared_mutex_await(u->x, NULL)) && !u->x->acquired);
	}
}

/* What readers and writers may find of each other, and what they leave. */
static void use(struct user *u)
{
	for (unsigned k = 0; k < BOTH; k++) {
		if (u->writes[k]) {
			MUST(!ADD(its[k].writers, 1) && !SEEN(its[k].readers));
			its[k].data++;
			writes[k]++;
			ADD(its[k].writers, -1u);
		} else if (u->reads[k]) {
			ADD(its[k].readers, 1);
			MUST(!SEEN(its[k].writers) && u->was[k] == its[k].data);
			ADD(its[k].readers, -1u);
		}
	}
}

static void downgrade(struct user *u)
{
	for (unsigned k = 0; k < BOTH; k++) {
		if (!u->writes[k])
			continue;
		ww_shared_mutex_downgrade(&its[k].lock, u->x);
		if (is_late && ww_shared_mutex_is_written_by(&its[k].lock, u->x))
			continue;
		il_reads(k, u->x);
		MUST(ww_shared_mutex_is_read_by(&its[k].lock, u->x) && its[k].data == writes[k]);
		MUST(ww_shared_mutex_destroy(&its[k].lock) == -EBUSY);
	}
}

/* Somebody of this thread tries what it still reads, by a seat of its own. */
static void beside(struct user *u)
{
	struct ww_acquire_ctx second;

	ww_acquire_init(&second, &c);
	for (unsigned k = 0; k < BOTH; k++) {
		if (!u->writes[k])
			continue;
		MUST(!ww_shared_mutex_trylock(&its[k].lock, &second));
		if (!ww_shared_mutex_trylock_shared(&its[k].lock, &second))
			continue;
		il_reads(k, &second);
		MUST(its[k].data == writes[k] && !ww_shared_mutex_unlock_shared(&its[k].lock, &second));
	}
	ww_acquire_fini(&second);
}

static const char *transaction(const char *text)
{
	struct user u = { .x = mine[il_me()] };
	bool is_loop = *text == '(';
	const char *at = text + strcspn(text, ")]") + 1;

	ww_acquire_init(u.x, &c);
	moves(&u);
	if (are_listed)
		label(&u);
	if (is_loop)
		in_loop(&u, text + 1);
	else
		by_hand(&u, text + 1);
	use(&u);
	if (*at == '>') {
		downgrade(&u);
		if (*++at == '<')
			beside(&u), at++;
		while (happens(&at))
			at++;
	}
	if (!is_loop)
		unlock_by_hand(&u);
	ww_acquire_unlock_all(u.x);
	MUST(!u.x->acquired);
	ww_acquire_fini(u.x);
	return at - 1;
}

/* Nobody else knows that this is another's by now; or it was left, since somebody came to it, and another one is taken. */
static void comes_as_a_strangers(void)
{
	struct ww_acquire_ctx x;
	uint32_t number;

	if (!its->is_gone)
		return;
	MUST(!ww_number_take(&number, &c));
	ww_acquire_init(&x, &c);
	MUST(!ww_number_lock(number, &x));
	il_await(&happened[3]);
	MUST(!ww_number_unlock(number, &x));
	ww_acquire_fini(&x);
	MUST(!ww_number_put(number, &c));
}

void il_thread(const char *at)
{
	const char *text = at;

	for (; *at; at++) {
		il_position((size_t)(at - text));
		if (strchr("([", *at))
			at = transaction(at);
		else if (tolower(*at) == 'd')
			comes_anew(*at == 'D');
		else if (*at == 'p')
			goes(its);
		else if (*at == 'q')
			comes_as_a_strangers();
		else
			MUST(happens(&at));
	}
}

void il_check(const struct il_program *p)
{
	for (unsigned t = 1; t <= IL_THREADS && p->threads[t - 1]; t++)
		for (unsigned k = 0; k < polls[t]; k++)
			MUST(polled[t][k].calls == polled[t][k].is_due);
	for (unsigned k = 0; k < BOTH; k++) {
		MUST(its[k].data == writes[k]);
		MUST(its[k].is_gone || !destroy(&its[k]));
	}
	/* Whose number was put back as a context came to it, is left. */
	MUST((its[0].is_gone || !taken_numbers(&c.pool->numbers)) && !ww_class_free(&c));
}

const struct il_program il_programs[] = {
	{ "read-write", { "(a)", "(A)" }, CONTEXTS(4), WHOLE },
	{ "read-write-die", { "(a)", "(A)" }, CONTEXTS(4) | WAIT_DIE, WHOLE },
	{ "read-ends", { "(bae1~2)", "~1(A)2" }, CONTEXTS(4), WHOLE },
	{ "read-ends-first", { "(abe1~2)", "~1(A)2" }, CONTEXTS(4) | ONE_BIT, WHOLE },
	{ "read-ends-beside", { "(bae)", "(A)(bB)" }, CONTEXTS(4), 2 },
	{ "read-ends-again", { "(abeaA)", "(A)" }, CONTEXTS(4), 2 },
	{ "read-ends-number", { "[abe1~2]", "~1[A]2" }, CONTEXTS(4) | NUMBERED, WHOLE },
	{ "read-read", { "(a)(a)", "(a)(a)" }, CONTEXTS(4), 2 },
	{ "write-write", { "(A)", "(A)" }, CONTEXTS(4), WHOLE_INSIDE },
	{ "again", { "(a)(a)", "(A)" }, CONTEXTS(4), 3 },
	{ "again-write", { "(a)(a)", "(A)(A)" }, CONTEXTS(4), 2 },
	{ "another", { "(a)(b)(a)", "(A)" }, CONTEXTS(4), 2 },
	{ "upgrades", { "(aA)", "(aA)" }, CONTEXTS(4), 2 },
	{ "upgrades-die", { "(aA)", "(aA)" }, CONTEXTS(4) | WAIT_DIE, 2 },
	{ "upgrade-read", { "(aA)", "(a)" }, CONTEXTS(4), 3 },
	{ "upgrade-write", { "(aA)", "(A)" }, CONTEXTS(4), WHOLE },
	{ "downgrade", { "(A)>", "(a)", "(A)" }, CONTEXTS(4), 1 },
	{ "cross", { "(aB)", "(bA)" }, CONTEXTS(4), 2 },
	{ "cross-die", { "(aB)", "(bA)" }, CONTEXTS(4) | WAIT_DIE, 2 },
	{ "opposite", { "(AB)", "(BA)" }, CONTEXTS(4), WHOLE },
	{ "cross-again", { "(a)(aB)", "(b)(bA)" }, CONTEXTS(4), 1 },
	{ "readers-writer", { "(a)", "(a)", "(A)" }, CONTEXTS(4), 2 },
	{ "reader-writers", { "(a)", "(A)", "(A)" }, CONTEXTS(4), 1 },
	{ "readers-writer-die", { "(a)", "(a)", "(A)" }, CONTEXTS(4) | WAIT_DIE, 1 },
	{ "three-upgrades", { "(aA)", "(aA)", "(aA)" }, CONTEXTS(4), 1 },
	{ "one-bit", { "(a)", "(a)", "(A)" }, CONTEXTS(4) | ONE_BIT, 2 },
	{ "one-bit-upgrades", { "(aA)", "(aA)(a)" }, CONTEXTS(4) | ONE_BIT, 2 },
	{ "one-bit-again", { "(a)(a)", "(a)", "(A)(A)" }, CONTEXTS(4) | ONE_BIT, 1 },
	{ "delayed", { "(a)(b)", "(A)(B)" }, CONTEXTS(4) | IL_DELAYS, 2 },
	{ "delayed-upgrade", { "(aA)", "(a)(bA)" }, CONTEXTS(4) | IL_DELAYS, 1 },
	{ "one-seat", { "(a)", "(a)", "(A)" }, CONTEXTS(2), 2 },
	{ "by-hand", { "[aB]", "[bA]" }, CONTEXTS(4), 2 },
	{ "by-hand-die", { "[aB]", "[bA]" }, CONTEXTS(4) | WAIT_DIE, 2 },
	{ "by-hand-upgrades", { "[aA]", "[aA]" }, CONTEXTS(4), 2 },
	{ "by-hand-twice", { "[aaAb]", "[A]" }, CONTEXTS(4), 2 },
	{ "writes-and-reads", { "[Aa]", "(Aa)", "(a)" }, CONTEXTS(4), 1 },
	{ "downgrades", { "(a)(A)>", "[A]>", "(A)" }, CONTEXTS(4), 1 },
	{ "downgrade-stale", { "(a)(B)>", "(A)" }, CONTEXTS(4), 2 },
	{ "downgrade-read", { "(bA)>", "(aB)" }, CONTEXTS(4), 2 },
	{ "downgrade-beside", { "(A)><", "(a)" }, CONTEXTS(4), 2 },
	{ "tries", { "(?a)", "(?A)" }, CONTEXTS(4), WHOLE_INSIDE },
	{ "tries-upgrade", { "[a?A]", "(a)(A)" }, CONTEXTS(4), 2 },
	{ "soon", { "(a)", "(tA)" }, CONTEXTS(4), 2 },
	{ "soon-read", { "(A)", "[tbta]", "(B)" }, CONTEXTS(4), 1 },
	{ "soon-upgrade", { "[atA]", "(a)" }, CONTEXTS(4), 2 },
	{ "destroy-reader", { "(a)1", "_1d" }, CONTEXTS(4), WHOLE_INSIDE },
	{ "destroy-read", { "(a1~2)", "~1D2" }, CONTEXTS(4), WHOLE_INSIDE },
	{ "destroy-again", { "(a)1(b)(b)", "(bB)_1d" }, CONTEXTS(4), 2 },
	{ "destroy-own", { "(ab)1(B)", "_1d" }, CONTEXTS(4), WHOLE_INSIDE },
	{ "destroy-beside", { "(ab)1", "_1d", "(~1B)" }, CONTEXTS(4), 2 },
	{ "destroy-stale", { "(a)(B)1", "_1d", "(B)" }, CONTEXTS(4), 2 },
	{ "destroy-writer", { "(A1~2)", "~1D2" }, CONTEXTS(4), WHOLE_INSIDE },
	{ "destroy-waiter", { "(A1~2)", "(~1a~3)", "~1w2D3" }, CONTEXTS(4), 1 },
	{ "destroy-one-bit", { "(a1~3)", "~1(b)2", "~2D3" }, CONTEXTS(4) | ONE_BIT, 1 },
	{ "destroys", { "(a1~2~3)", "~1D2", "~1D3" }, CONTEXTS(4), 1 },
	{ "destroy-downgrade", { "(A1)>~2", "~1D2" }, CONTEXTS(4), WHOLE_INSIDE },
	{ "destroy-upgrade", { "(a1A-~2)", "~1D2" }, CONTEXTS(4), WHOLE_INSIDE },
	{ "destroy-up-and-down", { "(a1A-)>~2", "~1D2" }, CONTEXTS(4), WHOLE },
	{ "destroy-read-on", { "[ba-]1(b)", "_1d" }, CONTEXTS(4), WHOLE_INSIDE },
	{ "poll-read", { "[ya]", "(A)" }, CONTEXTS(4), WHOLE },
	{ "poll-read-die", { "[ya]", "(A)" }, CONTEXTS(4) | WAIT_DIE, WHOLE },
	{ "poll-write", { "[yA]", "(a)" }, CONTEXTS(4), WHOLE },
	{ "poll-poll", { "[za]", "[zA]" }, CONTEXTS(4), 2 },
	{ "poll-again", { "[za](a)", "(A)" }, CONTEXTS(4), 2 },
	{ "poll-again-write", { "[zA]", "(a)(a)" }, CONTEXTS(4), 2 },
	{ "poll-ends", { "[xa]", "(A)" }, CONTEXTS(4), 3 },
	{ "poll-ends-write", { "[xA]", "(a)" }, CONTEXTS(4), 3 },
	{ "poll-ends-second", { "[bxa]", "(A)(B)" }, CONTEXTS(4), 2 },
	{ "poll-upgrades", { "[yayA]", "[yayA]" }, CONTEXTS(4), 2 },
	{ "poll-upgrades-die", { "[yayA]", "[yazA]" }, CONTEXTS(4) | WAIT_DIE, 2 },
	{ "poll-upgrade-ends", { "[axA]", "(a)" }, CONTEXTS(4), 2 },
	{ "poll-cross", { "[yazB]", "[ybzA]" }, CONTEXTS(4), 2 },
	{ "poll-cross-die", { "[yayB]", "[ybyA]" }, CONTEXTS(4) | WAIT_DIE, 2 },
	{ "poll-readers-writer", { "[ya]", "(a)", "[yA]" }, CONTEXTS(4), 1 },
	{ "poll-two-readers", { "(a1~2)3", "(a2~3)", "~1~2[yA]" }, CONTEXTS(4), 1 },
	{ "poll-one-bit", { "[ya]", "(a)", "[zA]" }, CONTEXTS(4) | ONE_BIT, 1 },
	{ "poll-downgrade", { "[yA]>", "[ya]", "(A)" }, CONTEXTS(4), 1 },
	{ "poll-late-downgrade", { "(a)(B)>", "[lA]" }, CONTEXTS(4), 2 },
	{ "poll-destroy", { "[zA]", "(A)(a)" }, CONTEXTS(4), 2 },
	{ "poll-destroy-at-slot", { "[b][za]", "[lB]" }, CONTEXTS(4), 2 },
	{ "number", { "[a]", "[A]" }, CONTEXTS(4) | NUMBERED, WHOLE },
	{ "number-upgrades", { "[aA]", "(aA)" }, CONTEXTS(4) | NUMBERED, 2 },
	{ "number-cross", { "(aB)", "[bA]" }, CONTEXTS(4) | NUMBERED, 2 },
	{ "number-polls", { "[zA]", "[yazA]" }, CONTEXTS(4) | NUMBERED, 2 },
	{ "number-destroy-read", { "(a1~2)", "~1D2" }, CONTEXTS(4) | NUMBERED, WHOLE },
	{ "number-destroy-read-on", { "[abDB]", "[b]" }, CONTEXTS(4) | NUMBERED, 2 },
	{ "number-destroy-writer", { "(A1~2)", "~1D2" }, CONTEXTS(4) | NUMBERED, WHOLE },
	{ "number-destroy-waiter", { "(A1~2)", "(~1a~3)", "~1w2D3" }, CONTEXTS(4) | NUMBERED, 1 },
	{ "number-vanishes", { "(A1~2)p", "~1(vBb)" }, CONTEXTS(4) | NUMBERED | WAIT_DIE, WHOLE },
	{ "number-stranger", { "(A1~2)pq", "~1(vBb)3" }, CONTEXTS(4) | NUMBERED | WAIT_DIE, 2 },
	{ "number-value", { "(A1~2)pq", "~1[V]3" }, CONTEXTS(4) | NUMBERED | WAIT_DIE, 2 },
	{ "number-vanishes-read", { "(A1~2)p(b)", "~1(vb)" }, CONTEXTS(4) | NUMBERED | WAIT_DIE, 2 },
	{ "number-again", { "[a-bd]1[a]", "~1[A]" }, CONTEXTS(4) | NUMBERED, WHOLE },
	{ "number-again-stale", { "(a)1(b)~2(a)", "~1d2(A)" }, CONTEXTS(4) | NUMBERED, WHOLE },
	{ "why", { "(au)", "(Au)", "(u)" }, CONTEXTS(4), 1 },
	{ "why-next", { "(a)(b1~2)", "(u)2" }, CONTEXTS(4), 2 },
	{ "why-first", { "(a)(A)", "(u)(u)" }, CONTEXTS(4), 2 },
	{ "why-two", { "(abu)", "(Bu)" }, CONTEXTS(4) | ONE_BIT, 2 },
	{ "why-number", { "[au-]", "[Au]" }, CONTEXTS(4) | NUMBERED, 2 },
	{ "moves", { "[ya]", "[zA]" }, CONTEXTS(4) | MOVES, 2 },
	{ "moves-reads", { "[ab]", "[A]" }, CONTEXTS(4) | MOVES, 2 },
	{ "moves-upgrade", { "[ayA]", "[a]" }, CONTEXTS(4) | MOVES, 2 },
	{ "moves-upgrade-read", { "[abA]", "[B]" }, CONTEXTS(4) | MOVES, 2 },
	{ "moves-upgrades", { "[yayA]", "[azA]" }, CONTEXTS(4) | MOVES, 1 },
	{ "moves-cross", { "[yayB]", "[ybzA]" }, CONTEXTS(4) | MOVES, 1 },
	{ "moves-ends", { "[axA]", "[ayA]" }, CONTEXTS(4) | MOVES, 1 },
	{ "moves-writers", { "[zA]", "[a]", "[A]" }, CONTEXTS(4) | MOVES, 1 },
	{ 0 },
};
