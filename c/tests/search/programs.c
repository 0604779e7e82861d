/*
 * programs.c - small programs, each of which has to be right by every schedule.
 *
 * A thread is a text, of which each letter is a call.  Mutexes are a, b and m, a context is the thread's own.
 *
 *	( [ {	begins a context: waits for it; until a time; at once.  Where it has none, all up to ) is left out
 *	)	ends it; ]: whatever it holds, by ww_acquire_end, and once more	$	the next context is that which others cancel
 *	> <	gives the context away, and goes on with a second one; takes one	^	goes on with the second one
 *	a b m	locks, and backs off	A B M	unlocks
 *	?	the next lock is tried; t: until a time; i: it, or (, is interruptible; where it has none, all up to its unlock is left out
 *	n	the next lock is without a context; !: it has to fail; .: it must not
 *	y	the next lock or ( is by polls: it sleeps until its waker is called; z: it polls once more without need, zz: twice; x: it ends
 *		the wait, and where it has none, all up to the unlock or ) is left out; j: as x, but by the call that keeps nothing;
 *		l: whenever it is called it polls late, once all other threads wait; u: it polls again once 6 has happened, and not
 *		before; h: whoever is called goes on with it
 *	o	the next ( by polls is as if it were within another context, so it gets any that is free
 *	H	waits for that, and goes on with the context, which ends there, and is gone: where there is none, all up to ) is left out
 *	Lab;	locks these in a loop	U	unlocks all of it	&ab;	locks these as a list
 *	Kab;	as L, but once told to back off it unlocks what it holds one by one, and locks that one before it begins anew
 *	Qab;	as L, but in each pass it goes back to its first lock, by a mark, and then asks for all of them again
 *	-	under m: one user less	D	whoever was the last one destroys m, and its memory goes
 *	d	destroys m where nobody has it or waits for it, and makes it anew
 *	C	cancels the class: ends i( and what is i, by a poll too
 *	S	suspends the context	R	resumes that; X: drops it: of several that do so one does, and for the others all up to ) is left out
 *	r	the next lock backs off by a value, from which the context goes on, by polls if the lock is; rr: and ends that wait; f: it gives
 *		up, and all up to ) is left out, but the context is suspended and resumed, between which 8 happens
 *	Y	destroys m and makes it anew, twice: the second time at once
 *	c	cancels; k: or that has ended, or hasn't begun	1-9	something has happened	~1	waits for that, which orders	_1	which doesn't	=1	it has
 *	s w	waits until somebody waits for a context or a permit, unless 4 has happened; until somebody waits for m
 *	e E	the lease of the thread's permit is over; at the next look the crowd is of no use
 *	W N	at the next look at the limiter tasks may claim two seats; one		V	tasks that were called haven't come for a lease
 *	F	frees the class, asking until it is free	v	looks at its counts	J	opens another one, and frees that
 *	T G	takes a number, if one is free (.: one is); puts back that taken last
 *	q	asks whether anybody has the number of m
 *	p P	puts the number of m, which is to be -EBUSY; which one thread is to have done
 *	O	leaves it, and takes it again if it is free by then
 *	#	labels the context	@	lists who uses each mutex, and asks who is in the context's way; g: so does the next lock, if told to back off
 *	Where a program is NUMBERED all mutexes are known by their numbers.
 */
#define _GNU_SOURCE
#include "made.h"
#include "ww_shared.h"
#include "ww_poll.h"
#include "ww_retry.h"
#include "ww_why.h"
#include <ctype.h>
#include <stdio.h>
#include <string.h>

#define CONTEXTS(n) ((n) << 4)
#define OWN (1 << 12) /* threads have seats of their own besides, as many as MANY_OWN */
/*
 * The class says no number of contexts: so one for threads, and two that tasks may have too.  Whoever begins next gets these; or they are
 * handed over each time; or at first.  Tasks may have one of them.
 */
#define TASKS (CONTEXTS(1) | HAS_TASKS | LENT)
#define HANDED (CONTEXTS(1) | HAS_TASKS)
#define HANDED_ONCE (HANDED | ONCE)
/* There is a crowd of one permit; calls look a few times before they queue.  MAKES: seats are made as they are needed, and not before. */
enum {
	WAIT_DIE = 1 << 8, STATIC = 1 << 9, NUMBERED = 1 << 10, CROWD = 1 << 14, HAS_TASKS = 1 << 15, AWAKE = 1 << 16,
	LENT = 1 << 17, ONCE = 1 << 18, NARROW = 1 << 19, MAKES = 1 << 20
};

enum way { FREE, BY_CONTEXT, ALONE, BY_LOOP };
struct user {
	struct ww_acquire_ctx *own, *x; /* two, the second once the first is another's */
	enum way held[3];
	bool told, last, goes_on, is_awaited; /* somebody waits for m, which it holds */
	unsigned label, labels;
	uint32_t number[2];
	unsigned numbers;
	struct ww_seek *seek;
};

/* What a poll's waker was to do, and did. */
enum due { NOT_AT_ALL, ONE };
struct polled {
	uint32_t calls;
	enum due due;
};
enum { POLLS = 12 };

static struct ww_class c;
struct ww_class *const il_class = &c;
struct ww_shared_mutex *il_shared(unsigned k) { return (void)k, NULL; }
static struct ww_mutex *mutexes;
static bool numbered;
static uint32_t numbers[3];
static struct ww_acquire_ctx contexts[IL_THREADS + 1][2], *shared, *given;
static unsigned holder[3];
static bool put[IL_THREADS + 1], is_left;
/* The numbers are so far apart. */
enum { IN_A_LINE = 4 };
static uint32_t heeding; /* how many begin contexts in a way that a cancel of the class ends */
static uint32_t inside, most, own, tasks, users[8], happened[10], refs, owner[3], cancels, met;
static unsigned long refused; /* uses of a value that was used before, and destroys of a mutex in use */
static struct timespec soon;
unsigned il_looks, il_bits = MANY_BITS;
static struct polled polled[IL_THREADS + 1][POLLS];
static unsigned polls[IL_THREADS + 1];
static struct ww_acquire_ctx *left; /* by h, to whoever is called */
static struct ww_retry value;
static uint32_t handed;
static unsigned label_of_value;
static uint32_t may_use[3]; /* of each mutex a bit for each label, of contexts that asked for it; the lowest for none */

/* What these do is no access of a thread, so nobody comes between: not the library's, and right in any case. */
#define COUNTS __attribute__((no_sanitize("thread"), noinline))
#define SEEN(word) __atomic_load_n(&(word), __ATOMIC_RELAXED)
#define ADD(word, by) __atomic_fetch_add(&(word), by, __ATOMIC_RELAXED)

/* The mutex of a number, for calls by address. */
static struct ww_shared_mutex *shared_at(uint32_t n) { return ww_number_at(n, &c); }
static struct ww_mutex *mutex_at(uint32_t n) { return &ww_number_at(n, &c)->mutex_; }

static unsigned index_of(char letter) { return tolower(letter) == 'm' ? 2 : (unsigned)(tolower(letter) - 'a'); }
static struct ww_mutex *mutex_of(char letter) { return &mutexes[index_of(letter)]; }
static struct ww_mutex *mutex_with_index(unsigned k) { return numbered ? mutex_at(numbers[k]) : &mutexes[k]; }

/* Whether the text of a thread has one of these letters. */
static bool names(const struct il_program *p, const char *some)
{
	for (unsigned k = 0; k < IL_THREADS && p->threads[k]; k++)
		if (strpbrk(p->threads[k], some))
			return true;
	return false;
}

/* Plain accesses, so a holder who wasn't ordered behind the one before is told as a race. */
static void is_held(struct user *u, unsigned k, enum way way)
{
	MUST(!holder[k]);
	holder[k] = il_me();
	u->held[k] = way;
}

static void is_held_no_more(struct user *u, unsigned k)
{
	MUST(holder[k] == il_me());
	u->is_awaited = false;
	holder[k] = 0;
	u->held[k] = FREE;
}

/* ---- crowds: when there is one, and when a lease is over, is set by hand; and a time comes only where all sleep, or by the bound ---- */

static uint64_t crowded; /* since then there is one */

/* Time has passed since, so leases may be over. */
static bool is_later(void) { return crowded && ww_now() > crowded; }

/* Its limiter never looks, and no context is long. */
static void begin_crowd(void)
{
	struct ww_limiter *limiter = &c.pool->crowd.limiter;

	set_crowded(c.pool, true);
	ww_limiter_open(limiter, 1, 1, 1, 1, 64);
	limiter->since = UINT64_MAX;
	limiter->kept = 2; /* whose waits are many or few */
	limiter->rate = 1; /* so that leases are whole */
	c.pool->crowd.since = UINT64_MAX - LEASE;
	crowded = ww_now();
}

static void end_lease(void)
{
	struct ww_my_permit *mine = &ww_mine.permit;

	pthread_mutex_lock(&c.pool->queue);
	mine->begins = 0;
	if (mine->it && mine->it->ends == mine->ends)
		mine->it->ends = mine->ends = ww_now();
	pthread_mutex_unlock(&c.pool->queue);
}

/* No limit was better. */
static void end_crowd(void)
{
	pthread_mutex_lock(&c.pool->queue);
	c.pool->crowd.limiter = (struct ww_limiter){ .width = 1, .kept = NO_LIMIT, .rate = 1 };
	__atomic_store_n(&c.pool->crowd.due, 0, __ATOMIC_RELAXED);
	pthread_mutex_unlock(&c.pool->queue);
}

/* ---- seats of tasks: their leases, and how many there may be, are set by hand too ---- */

static bool hands; /* over each time: a seat's lease is over when its user is through */

/* By a time that doesn't come; of the lease of a seat that was handed over only some comes. */
static void lend(unsigned flags)
{
	struct ww_seats *of = &c.pool->tasks;

	of->due = UINT64_MAX;
	hands = !(flags & (LENT | ONCE));
	for (uint32_t k = 0; k < of->count && flags & LENT; k++)
		of->seats[k].lease = UINT64_MAX;
	if (flags & NARROW)
		of->open = of->limiter.width = of->limiter.kept = 1;
}

/* A window of another width is at its end, and this one was better. */
static void widen(uint32_t width)
{
	struct ww_seats *of = &c.pool->tasks;
	uint32_t given = 0;

	pthread_mutex_lock(&c.pool->queue);
	for (uint32_t k = 0; k < of->open; k++)
		given += __atomic_load_n(&of->seats[k].given, __ATOMIC_RELAXED);
	of->limiter = (struct ww_limiter){
		.width = of->open, .kept = width, .least = 1, .widest = 1, .most = 2, .tries = true, .more = true, .since = 1,
		.rate = UINT64_MAX / 4, .begun = given - 1000,
	};
	__atomic_store_n(&of->due, ww_now() - 1, __ATOMIC_RELAXED);
	pthread_mutex_unlock(&c.pool->queue);
}

/* Those that were called are late. */
static void end_calls(void)
{
	pthread_mutex_lock(&c.pool->queue);
	for (uint32_t k = 0; k < c.pool->tasks.count; k++)
		if (c.pool->called[k])
			__atomic_store_n(&c.pool->called[k], 1, __ATOMIC_SEQ_CST);
	pthread_mutex_unlock(&c.pool->queue);
}

/* Somebody waits for a permit, though there is no crowd. */
static bool is_uncalled(const struct ww_pool *of) { return of->crowd.waiting && !is_crowded(of); }

/* ---- ww_mutex.h, ww_number.h ---- */

void il_setup(const struct il_program *p)
{
	ww_class_init(&c, !!(p->flags & WAIT_DIE), "c");
	most = p->flags >> 4 & 15;
	own = p->flags & OWN ? MANY_OWN : 0;
	MUST(!ww_class_crowd(&c, p->flags & CROWD ? 0 : WW_NO_CROWD));
	tasks = p->flags & HAS_TASKS ? 2 : 0;
	MUST(!ww_class_limit(&c, 3, tasks ? 0 : most) && (!(own || tasks) || !ww_class_open_with(&c, own)));
	mutexes = il_new(3 * sizeof *mutexes);
	shared = il_new(sizeof *shared);
	numbered = p->flags & NUMBERED;
	is_left = false;
	for (const char *at = p->flags & NUMBERED ? "" : p->flags & STATIC ? "ab" : "abm"; *at; at++)
		if (names(p, (char[]){ *at, 0 }))
			ww_mutex_init(mutex_of(*at), &c);
	for (unsigned k = 0; numbered && k < 3; k++)
		MUST(!ww_number_take(&numbers[k], &c));
	if (p->flags & STATIC)
		*mutex_of('m') = (struct ww_mutex)WW_MUTEX_INIT(&c);
	else
		MUST(!ww_class_open(&c));
	if (c.pool && !(p->flags & MAKES))
		make_seats(c.pool);
	for (unsigned k = 0; k < IL_THREADS && p->threads[k]; k++)
		refs += !!strchr(p->threads[k], '-');
	if (names(p, "[t"))
		soon = il_in(1000000);
	if (p->flags & CROWD)
		begin_crowd();
	if (tasks)
		lend(p->flags);
	il_looks = p->flags & IL_PATIENT ? UINT32_MAX : p->flags & AWAKE ? 3 : 1;
}

/* All that was taken was put back. */
void il_check(const struct il_program *p)
{
	struct ww_acquire_ctx x[8];

	for (unsigned k = 0; k < 3; k++)
		if ((k < 2 || !names(p, "D")) && mutexes[k].pool)
			MUST(!ww_mutex_destroy(&mutexes[k]));
	MUST(met <= cancels && put[1] + put[2] == names(p, "P"));
#ifdef WW_DEBUG
	/*
	 * Of the others each call is right but those that were refused, each of which is told, and none is dangerous; but a time is long over
	 * once a lease is.
	 */
	MUST(names(p, "n>LKdDFP") || is_later() || (ww_debug_faults() == refused && !ww_debug_warnings()));
#endif
	for (unsigned k = 1; k <= IL_THREADS; k++)
		for (unsigned i = 0; i < polls[k]; i++)
			MUST(polled[k][i].calls == polled[k][i].due);
	MUST(!is_left || !ww_number_take(&numbers[2], &c));
	for (unsigned k = 0; numbered && k < 3; k++)
		MUST(ww_number_put(numbers[k], &c) == (k == 2 && names(p, "P") ? -EINVAL : 0));
	if (c.pool) {
		MUST(!c.pool->threads.lines[WAITS].seekers && !c.pool->threads.lines[WAITS].first && !c.pool->crowd.waiting);
		MUST(!names(p, "E") || !is_crowded(c.pool));
		most += !!own + tasks;
		if (is_crowded(c.pool))
			ww_reset_crowd(c.pool); /* the leases of threads that have ended go on for a while */
		for (uint32_t k = 0; k < most; k++)
			MUST(!ww_acquire_init_checked(&x[k], &c));
		MUST(ww_acquire_init_checked(&x[most], &c) == -EAGAIN);
		for (uint32_t k = 0; k < most; k++)
			ww_acquire_fini(&x[k]);
		MUST(!c.pool->tasks.lines[WAITS].seekers && !c.pool->tasks.lines[WAITS].first && !c.pool->tasks.lines[CALLED].seekers);
		tasks = c.pool->tasks.open;
		MUST(!names(p, "WN") || tasks == (names(p, "W") ? 2 : 1));
		for (uint32_t k = 0; k < tasks; k++)
			MUST(!ww_acquire_init_poll(&x[k], &c, NULL, NULL));
		MUST(!tasks || ww_acquire_init_poll(&x[tasks], &c, NULL, NULL) == -ETIMEDOUT);
		for (uint32_t k = 0; k < tasks; k++)
			ww_acquire_fini(&x[k]);
		MUST(!taken_numbers(&c.pool->numbers));
	}
	MUST(!ww_class_free(&c));
}

/* A seat is free that may be claimed, or isn't made yet, somebody waits for one that wasn't called, and nobody was called for this one. */
static bool is_forgotten(const struct ww_seats *of)
{
	bool is_tasks = of == &c.pool->tasks;
	uint32_t open = is_tasks ? of->open : of->count;

	for (uint32_t k = 0; k < open && of->lines[WAITS].first; k++)
		if (!(of->seats[k].busy & BUSY) && !(is_tasks && c.pool->called[k]))
			return true;
	return false;
}

void il_rests(void)
{
	MUST(!c.pool || !(is_forgotten(&c.pool->threads) || is_forgotten(&c.pool->tasks)));
	MUST(!c.pool || !is_uncalled(c.pool));
	MUST(!c.pool || !heeding || !ww_ends_waits(c.pool));
}

COUNTS static uint32_t *user_of(const ww_seat *s) { return &users[s - c.pool->seats]; }

/* A context has a seat of its own: counted where it is the last access before, and the first behind. */
COUNTS static void enter(const ww_seat *s) { MUST(inside++ < most + own + tasks && !(*user_of(s))++); }

COUNTS static void leave(const ww_seat *s)
{
	inside--;
	--*user_of(s);
}

/* ---- ww_poll.h ---- */

/* Nothing is locked then, and it is at most once. */
static void is_called(void *loop, void *task)
{
	struct polled *it = task;

	(void)loop;
	pthread_mutex_lock(&c.pool->queue);
	pthread_mutex_unlock(&c.pool->queue);
	pthread_mutex_lock(&c.pool->spare);
	pthread_mutex_unlock(&c.pool->spare);
	MUST(!__atomic_load_n(&it->calls, __ATOMIC_RELAXED));
	il_set(&it->calls);
}

static void hands_on(void *loop, void *task)
{
	is_called(loop, task);
	il_set(&handed);
}

/* A poll of a mutex, or with -1 of a context's begin. */
static int poll_once(struct user *u, int k, const struct ww_waker *waker)
{
	if (k < 0)
		return ww_acquire_init_poll(u->x, &c, u->seek, waker);
	return numbered ? ww_mutex_lock_poll(mutex_at(numbers[k]), u->x, waker) : ww_mutex_lock_poll(&mutexes[k], u->x, waker);
}

/* What is due of it is known as long as no other poll has come: else somebody may be about to call it. */
static void take_back(struct user *u, int k, struct polled *it)
{
	if (ww_poll_take_back(u->x, k < 0 ? u->seek : NULL))
		it->due = NOT_AT_ALL;
}

/* Whatever came meanwhile is given away. */
static int end_wait(struct user *u, int k)
{
	if (k < 0)
		ww_seek_end(u->seek);
	else
		MUST(!ww_acquire_end_wait(u->x));
	return -ETIMEDOUT;
}

/* As the words say; -ETIMEDOUT where it ended the wait. */
static int poll_as(struct user *u, int k, const char *how)
{
	const char *more = strchr(how, 'z');
	size_t again = more ? strspn(more, "z") : 0;
	bool ends = strpbrk(how, "xj"), late = strchr(how, 'l'), never = strchr(how, 'u');

	for (;;) {
		struct polled *it = &polled[il_me()][polls[il_me()]++];
		int r;

		MUST(polls[il_me()] <= POLLS);
		it->due = ONE;
		r = poll_once(u, k, &(struct ww_waker){ is_called, NULL, it });
		if (r != -EINPROGRESS) {
			it->due = NOT_AT_ALL;
			return r;
		}
		if (never && !SEEN(happened[6]))
			il_await(&happened[6]);
		else
			never = false;
		if (again || ends || never)
			take_back(u, k, it);
		if (ends)
			return strchr(how, 'j') ? end_wait(u, k) : poll_once(u, k, NULL);
		if (!again && !never)
			il_await(&it->calls);
		if (late)
			il_late();
		again -= !!again;
	}
}

/* Once its wait for a context is over nobody else accesses that. */
static int by_polls(struct user *u, int k, const char *how)
{
	int r;

	u->seek = k < 0 ? il_new(sizeof *u->seek) : NULL;
	if (k < 0)
		u->seek->is_within = !!strchr(how, 'o');
	r = poll_as(u, k, how);
	if (k < 0)
		il_gone(u->seek, sizeof *u->seek);
	return r;
}

/* From -EINPROGRESS on all of it is whoever's who is called. */
static int by_another(struct user *u, unsigned k)
{
	struct polled *it = &polled[il_me()][polls[il_me()]++];
	int r;

	it->due = ONE;
	left = u->x;
	leave(u->x->own);
	r = poll_once(u, (int)k, &(struct ww_waker){ hands_on, NULL, it });
	if (r == -EINPROGRESS)
		return r;
	it->due = NOT_AT_ALL;
	enter(u->x->own);
	left = NULL;
	il_set(&handed);
	return r;
}

/* Whether there is a context to go on with. */
static bool goes_on(struct user *u)
{
	il_await(&handed);
	if (!left)
		return false;
	u->x = left;
	u->goes_on = true;
	enter(u->x->own);
	return true;
}

static int begin_heeding(struct ww_acquire_ctx *x)
{
	int r;

	ADD(heeding, 1);
	r = ww_acquire_init_until(x, &c, NULL);
	ADD(heeding, -1u);
	return r;
}

/* What has to fail may get a permit whose lease is over. */
static int begin(struct user *u, char how, const char *words)
{
	int r = 0;

	if (strpbrk(words, "luxyzj"))
		r = by_polls(u, -1, words);
	else if (strchr(words, 'i'))
		r = begin_heeding(u->x);
	else if (how == '(')
		ww_acquire_init(u->x, &c);
	else if (how == '[')
		r = ww_acquire_init_until(u->x, &c, &soon);
	else
		r = ww_acquire_init_checked(u->x, &c);
	MUST(!r || r == (strchr(words, 'i') ? -EINTR : how == '{' ? -EAGAIN : -ETIMEDOUT));
	MUST(!strchr(words, '!') || r || is_later());
	if (!r)
		enter(u->x->own);
	return r;
}

/* ---- ww_why.h ---- */

/* Each thread's contexts have labels of their own, of which there are so many. */
enum { LABELS = 7 };
static void label(struct user *u)
{
	u->label = (il_me() - 1) * LABELS + ++u->labels;
	MUST(u->labels <= LABELS && !ww_acquire_label(u->x, u->label));
}

/* It is about to ask for this. */
COUNTS static void asks_for(const struct user *u, unsigned k, enum way way) { may_use[k] |= 1u << (way == ALONE ? 0 : u->label); }

/* Whoever is named asked for the mutex at some time. */
COUNTS static void is_user(const struct ww_user *it, unsigned k)
{
	MUST(it->place < most + own + tasks && it->label < 8 * sizeof *may_use && may_use[k] >> it->label & 1);
}

static unsigned index_of_place(const struct ww_place *at)
{
	unsigned k = 0;

	while (k < 3 && at->mutex != mutex_with_index(k))
		k++;
	MUST(k < 3 && (!numbered || at->number == numbers[k]));
	return k;
}

/* What it holds it is listed with. */
static void lists_users(const struct user *u, unsigned k)
{
	struct ww_user all[8];
	size_t count = ww_mutex_users(mutex_with_index(k), all, 8);
	unsigned holders = 0, waiters = 0;

	MUST(count <= 8);
	for (size_t i = 0; i < count; i++) {
		is_user(&all[i], k);
		MUST(all[i].part == WW_HOLDS || all[i].part == WW_WAITS);
		holders += all[i].part == WW_HOLDS;
		waiters += all[i].part == WW_WAITS;
		if (all[i].part == WW_HOLDS && u->held[k])
			MUST(all[i].label == (u->held[k] == ALONE ? 0 : u->label));
	}
	MUST(holders == 1 || (!holders && !u->held[k]));
	MUST(waiters || k < 2 || !u->is_awaited);
}

/* Where its own call ended, and what others want that it holds. */
static void asks_why(const struct user *u)
{
	struct ww_acquire_counts counts;
	struct ww_place path[4];
	struct ww_why why;
	size_t count;

	MUST(!ww_acquire_count(u->x, &counts) && counts.waits <= 8 && counts.back_offs <= 8);
	MUST(!ww_acquire_why(u->x, &why));
	if (why.at.mutex && why.at.by.part != WW_NOBODY)
		is_user(&why.at.by, index_of_place(&why.at));
	if (why.wanted.mutex) {
		MUST(u->held[index_of_place(&why.wanted)] && why.wanted.by.part == WW_WAITS);
		is_user(&why.wanted.by, index_of_place(&why.wanted));
	}
	count = ww_acquire_cycle(u->x, path, 4);
	MUST(count <= 4 && (!count || (index_of_place(path) == index_of_place(&why.at) && path[count - 1].by.label == u->label)));
}

static void lists_all(const struct user *u)
{
	for (unsigned k = 0; k < 3; k++)
		if (mutex_with_index(k)->pool)
			lists_users(u, k);
	if (u->x->own)
		asks_why(u);
}

static void unlock_plainly(const struct user *u, unsigned k, enum way way)
{
	if (!numbered)
		ww_mutex_unlock(&mutexes[k]);
	else if (way == ALONE)
		ww_mutex_unlock(mutex_at(numbers[k]));
	else
		MUST(!ww_number_unlock(numbers[k], u->x));
}

static void unlock(struct user *u, unsigned k)
{
	enum way way = u->held[k];

	is_held_no_more(u, k);
	unlock_plainly(u, k, way);
}

static int lock_plainly(const struct user *u, unsigned k)
{
	return numbered ? ww_number_lock(numbers[k], u->x) : ww_mutex_lock(&mutexes[k], u->x);
}

COUNTS static void counts_refused(int r) { refused += r != 0; }

/* Into a value, and by that again. */
static void suspend(struct user *u, struct ww_retry *retry)
{
	leave(u->x->own);
	MUST(!ww_acquire_suspend(u->x, retry));
}
/* Where it ends the wait, the context goes on all the same. */
static int resume_by_polls(struct user *u, struct ww_retry *retry, bool ends)
{
	struct ww_seek seek = { 0 };

	for (;;) {
		struct polled *it = &polled[il_me()][polls[il_me()]++];
		int r;

		MUST(polls[il_me()] <= POLLS);
		it->due = ONE;
		r = ww_acquire_resume_poll(u->x, &c, retry, &seek, &(struct ww_waker){ is_called, NULL, it });
		if (r != -EINPROGRESS)
			it->due = NOT_AT_ALL;
		if (r == -EINPROGRESS && !ends)
			il_await(&it->calls);
		else if (r != -EINPROGRESS)
			return r;
		else
			return take_back(u, 0, it), ww_acquire_end_wait(u->x);
	}
}
static bool resume(struct user *u, struct ww_retry retry, const char *how)
{
	int r = strchr(how, 'y') ? resume_by_polls(u, &retry, strstr(how, "rr")) : ww_acquire_resume(u->x, &c, &retry, NULL);

	MUST(!r || r == -EINVAL);
	counts_refused(r);
	if (!r)
		enter(u->x->own);
	return !r;
}
/* The same of the value that all have, by which a label goes on, too. */
static void suspends(struct user *u)
{
	label_of_value = u->label;
	suspend(u, &value);
}
static bool resumes(struct user *u, const char *how)
{
	bool is = resume(u, value, how);

	if (is)
		u->label = label_of_value;
	return is;
}
static void drop(struct ww_retry retry)
{
	int r = ww_retry_drop(&retry);

	MUST(!r || r == -EINVAL);
	counts_refused(r);
}

static void end_context(struct user *u)
{
	leave(u->x->own);
	if (hands)
		u->x->own->lease = 0;
	u->label = 0;
	ww_acquire_fini(u->x);
	if (u->goes_on)
		il_gone(u->x, sizeof *u->x);
	u->x = &u->own[u->x == &u->own[1]];
}

static void give_up(struct user *u, const char *how)
{
	struct ww_retry mine = { 0 };

	for (unsigned k = 0; k < 3; k++)
		if (u->held[k] == BY_CONTEXT)
			unlock(u, k);
	suspend(u, &mine);
	il_set(&happened[8]);
	MUST(resume(u, mine, how));
	end_context(u);
}

/* All that it held by its context it holds again, and this one. */
static void back_off(struct user *u, unsigned slow, const char *how)
{
	bool by_value = strchr(how, 'r');
	struct ww_retry mine = { 0 };
	bool again[3];
	int r = -EDEADLK;

	for (unsigned k = 0; k < 3; k++)
		if ((again[k] = u->held[k] == BY_CONTEXT))
			unlock(u, k);
	for (again[slow] = true; r == -EDEADLK;) {
		unsigned k;

		if (by_value) {
			suspend(u, &mine);
			MUST(resume(u, mine, how));
			mine = (struct ww_retry){ 0 };
		}
		if (numbered || by_value)
			MUST(!lock_plainly(u, slow));
		else
			ww_mutex_lock_slow(&mutexes[slow], u->x);
		for (k = 0, r = 0; k < 3 && !r; k++)
			if (again[k] && k != slow)
				r = lock_plainly(u, k);
		MUST(!r || r == -EDEADLK);
		for (unsigned i = 0; r && i < 3; i++)
			if (again[i] && (i < k - 1 || i == slow))
				unlock_plainly(u, i, BY_CONTEXT);
		slow = k - 1;
	}
	for (unsigned k = 0; k < 3; k++)
		if (again[k])
			is_held(u, k, BY_CONTEXT);
}

static int lock_number(struct user *u, unsigned k, const struct timespec *until, bool alone, bool tries)
{
	if (alone && tries)
		return !ww_mutex_trylock(mutex_at(numbers[k]), NULL);
	if (alone)
		return ww_mutex_lock_until(mutex_at(numbers[k]), NULL, until);
	return tries ? !ww_number_trylock(numbers[k], u->x) : ww_mutex_lock_until(mutex_at(numbers[k]), u->x, until);
}

/* By which words it is asked for stands before it. */
static int lock(struct user *u, char letter, const char *how)
{
	struct ww_mutex *m = mutex_of(letter);
	unsigned k = index_of(letter);
	bool alone = strchr(how, 'n'), tries = strchr(how, '?'), ends = strchr(how, 't');
	struct ww_acquire_ctx *x = alone ? NULL : u->x;
	const struct timespec *until = ends ? &soon : NULL;
	int r;

	asks_for(u, k, alone ? ALONE : BY_CONTEXT);
	if (strpbrk(how, "lxyzj"))
		r = by_polls(u, (int)k, how);
	else if (strchr(how, 'h'))
		r = by_another(u, k);
	else if (numbered && !alone && !tries && !ends && !strchr(how, 'i'))
		r = lock_plainly(u, k);
	else if (numbered)
		r = lock_number(u, k, until, alone, tries);
	else if (tries)
		r = !ww_mutex_trylock(m, x);
	else if (ends)
		r = ww_mutex_lock_until(m, x, until);
	else
		r = strchr(how, 'i') ? ww_mutex_lock_interruptible(m, x) : ww_mutex_lock(m, x);
	MUST(!strchr(how, '!') || r == (ends ? -ETIMEDOUT : -EINTR));
	MUST(!strchr(how, '.') || !r);
	if (strchr(how, 'g') && r && !tries)
		asks_why(u);
	if (r == -EDEADLK && strchr(how, 'f')) {
		give_up(u, how);
		return r;
	}
	if (r == -EDEADLK) {
		back_off(u, k, how);
		return 0;
	}
	MUST(!r || tries || (r == -ETIMEDOUT && (ends || strpbrk(how, "xj"))) || (r == -EINTR && strchr(how, 'i')) ||
	     (r == -EINPROGRESS && strchr(how, 'h')));
	if (r == -EINTR)
		ADD(met, 1);
	if (!r) {
		MUST(numbered || ww_mutex_is_held_by(m, x));
		is_held(u, k, alone ? ALONE : BY_CONTEXT);
	}
	return r;
}

/* Behind the unlock of this one. */
static const char *past(const char *at, char closes)
{
	while (*at && *at != closes)
		at++;
	return *at ? at : at - 1;
}

static bool has(const struct user *u, unsigned k)
{
	return numbered ? ww_shared_mutex_is_written_by(shared_at(numbers[k]), u->x) : ww_mutex_is_held_by(&mutexes[k], u->x);
}

/* Told to back off, it is refused all of these, as the table in loop.c says. */
static void is_refused(const struct user *u, const char *at)
{
	MUST(ww_is_contended(u->x));
	for (; *at != ';'; at++) {
		unsigned k = index_of(*at);

		MUST(lock_plainly(u, k) == (has(u, k) ? -EALREADY : -EINVAL));
		MUST(!(numbered ? ww_number_trylock(numbers[k], u->x) : ww_mutex_trylock(&mutexes[k], u->x)));
	}
}

/* What it was told holds no longer once it holds nothing, and waits for that mutex by itself. */
static void back_off_by_hand(struct user *u, const char *at, unsigned contended)
{
	for (; *at != ';'; at++)
		if (has(u, index_of(*at)))
			unlock_plainly(u, index_of(*at), BY_LOOP);
	MUST(!lock_plainly(u, contended) && !ww_is_contended(u->x));
	ww_acquire_unlock_all(u->x);
}

static const char *loop(struct user *u, const char *at, char way)
{
	ww_until_all_locked(u->x) {
		bool goes_back = way == 'Q';

		for (const char *k = at; *k != ';'; k++) {
			int r = lock_plainly(u, index_of(*k));

			MUST(!r || r == -EDEADLK || (r == -EALREADY && way == 'Q'));
			if (r == -EDEADLK)
				is_refused(u, at);
			if (r && way == 'K') {
				back_off_by_hand(u, at, index_of(*k));
				k = at - 1;
			}
			ww_retry_on_contention(u->x);
			if (goes_back && k[1] == ';') {
				MUST(ww_acquire_mark(u->x) == (size_t)(k + 1 - at));
				ww_acquire_unlock_to(u->x, 1);
				MUST(ww_acquire_mark(u->x) == 1);
				goes_back = false;
				k = at - 1;
			}
		}
	}
	for (; *at != ';'; at++)
		is_held(u, index_of(*at), BY_LOOP);
	return at;
}

static const char *list(struct user *u, const char *at)
{
	struct ww_mutex *locks[3];
	size_t count = 0;

	for (; at[count] != ';'; count++)
		locks[count] = mutex_of(at[count]);
	MUST(!ww_mutex_lock_all(u->x, locks, count));
	for (; *at != ';'; at++)
		is_held(u, index_of(*at), BY_CONTEXT);
	return at;
}

static void unlock_loop(struct user *u)
{
	for (unsigned k = 0; k < 3; k++)
		if (u->held[k] == BY_LOOP)
			is_held_no_more(u, k);
	ww_acquire_unlock_all(u->x);
}

/* Until nobody has it or waits for it; then its memory goes. */
static void destroy_last(void)
{
	struct ww_mutex *m = mutex_of('m');
	int r;

	while ((r = ww_mutex_destroy(m)) == -EBUSY)
		il_yield();
	MUST(!r);
	il_gone(m, sizeof *m);
}

/* In the same place, where nobody uses the next one. */
static void destroy_again(void)
{
	struct ww_mutex *m = mutex_of('m');
	int r;

	for (; (r = ww_mutex_destroy(m)) == -EBUSY; counts_refused(r))
		il_yield();
	MUST(!r && !ww_mutex_init_checked(m, &c) && !ww_mutex_destroy(m) && !ww_mutex_init_checked(m, &c));
}

/* A waiter that was there before has had it before it is destroyed, which happened[8] says. */
static void destroy_beside(void)
{
	int r = numbered ? ww_number_put(numbers[2], &c) : ww_mutex_destroy(&mutexes[2]);

	MUST(r ? r == -EBUSY : SEEN(happened[8]));
	if (!r)
		MUST(!(numbered ? ww_number_take(&numbers[2], &c) : ww_mutex_init_checked(&mutexes[2], &c)));
}

/* The same of a number that is left: it comes free no sooner. */
static void leave_beside(void)
{
	uint32_t number;
	int r;

	ww_number_leave(numbers[2], &c);
	r = ww_number_take(&number, &c);
	MUST(r ? r == -ENOSPC : number == numbers[2] && SEEN(happened[8]));
	is_left = r;
}

static void free_class(void)
{
	int r;

	while ((r = ww_class_free(&c)) == -EBUSY)
		il_yield();
	MUST(!r);
	own = 0; /* of the class that is opened next */
}

static void open_another(void)
{
	struct ww_class other;

	ww_class_init(&other, 0, "other");
	MUST(!ww_class_limit(&other, 1, 1) && !ww_class_open(&other) && !ww_class_free(&other));
}

static void take_number(struct user *u, bool is_there)
{
	uint32_t *number = &u->number[u->numbers];
	int r = ww_number_take(number, &c);

	MUST(!r || (r == -ENOSPC && !is_there));
	if (r)
		return;
	MUST(*number / IN_A_LINE < 3 && !owner[*number / IN_A_LINE]);
	owner[*number / IN_A_LINE] = il_me();
	u->numbers++;
}

/* The one that it took last, if any. */
static void put_number(struct user *u)
{
	if (!u->numbers)
		return;
	owner[u->number[--u->numbers] / IN_A_LINE] = 0;
	MUST(!ww_number_put(u->number[u->numbers], &c));
}

static void end_all(struct user *u)
{
	for (unsigned k = 0; k < 3; k++)
		if (u->held[k] == BY_LOOP)
			is_held_no_more(u, k);
	leave(u->x->own);
	MUST(!ww_acquire_end(u->x) && ww_acquire_end(u->x) == -EINVAL);
}

/* For m; of a number's count the highest bit says that it is taken. */
static bool are_waiting(void) { return numbered ? SEEN(c.pool->numbered[numbers[2]].mutex_.waiters) << 3 : SEEN(mutexes[2].waiters); }

/* Or it was, but no longer: all leases are over. */
static bool is_sought(void)
{
	return waiters_of(&c.pool->threads) || waiters_of(&c.pool->tasks) || SEEN(c.pool->crowd.waiting) || is_later();
}

static void act(struct user *u, char what, const char *how)
{
	struct ww_class_counts counts;

	switch (what) {
	case '$': u->x = shared; break;
	case '>': given = u->x; u->x = &u->own[1]; break;
	case '^': u->x = &u->own[1]; break;
	case '<': u->x = given; break;
	case ')': end_context(u); break;
	case ']': end_all(u); break;
	case 'U': unlock_loop(u); break;
	case '-': u->last = !--refs; break;
	case 'D': if (u->last) destroy_last(); break;
	case 'd': destroy_beside(); break;
	case 'Y': destroy_again(); break;
	case 'S': suspends(u); break;
	case 'X': drop(value); break;
	case 'c': ADD(cancels, 1); MUST(!ww_acquire_cancel(shared)); break;
	case 'k': ADD(cancels, !ww_acquire_cancel(shared)); break;
	case 'C': ADD(cancels, IL_THREADS); MUST(!ww_class_cancel(&c)); break;
	case 's': while (!is_sought() && !SEEN(happened[4])) il_yield(); break;
	case 'w': while (!are_waiting()) il_yield(); u->is_awaited = u->held[2]; break;
	case 'e': end_lease(); break;
	case 'E': end_crowd(); break;
	case 'W': widen(2); break;
	case 'N': widen(1); break;
	case 'V': end_calls(); break;
	case 'F': free_class(); break;
	case 'J': open_another(); break;
	case 'v': ww_class_stats(&c, &counts); MUST(counts.context_waits <= 8); break;
	case 'T': take_number(u, strchr(how, '.')); break;
	case 'G': put_number(u); break;
	case 'O': leave_beside(); break;
	case 'P': put[il_me()] = !ww_number_put(numbers[2], &c); break;
	case '#': label(u); break;
	case '@': lists_all(u); break;
	case 'q': (void)ww_mutex_is_locked(mutex_at(numbers[2])); break;
	case 'p': MUST(ww_number_put(numbers[2], &c) == -EBUSY); break;
	default: il_fail("no such call: %c", what);
	}
}

void il_thread(const char *at)
{
	struct user u = { .own = contexts[il_me()], .x = contexts[il_me()] };
	const char *text = at;
	char how[4] = "";

	for (; *at; at++) {
		il_position((size_t)(at - text));
		if (strchr("?tin!.luxyzjhorfg", *at)) {
			strncat(how, at, 1);
			continue;
		}
		if (strchr("([{", *at))
			at = begin(&u, *at, how) ? past(at, ')') : at;
		else if (strchr("abm", *at))
			at = lock(&u, *at, how) ? past(at, strpbrk(how, "hf") ? ')' : (char)toupper(*at)) : at;
		else if (*at == 'R')
			at = resumes(&u, how) ? at : past(at, ')');
		else if (*at == 'H')
			at = goes_on(&u) ? at : past(at, ')');
		else if (strchr("ABM", *at))
			unlock(&u, index_of(*at));
		else if (strchr("LKQ", *at))
			at = loop(&u, at + 1, *at);
		else if (*at == '&')
			at = list(&u, at + 1);
		else if (*at == '~')
			il_await(&happened[*++at - '0']);
		else if (*at == '=')
			MUST(SEEN(happened[*++at - '0']));
		else if (*at == '_')
			for (at++; !SEEN(happened[*at - '0']);)
				il_yield();
		else if (isdigit(*at))
			il_set(&happened[*at - '0']);
		else
			act(&u, *at, how);
		*how = 0;
	}
}

const struct il_program il_programs[] = {
	{ "lock", { "(aA)", "(aA)" }, CONTEXTS(4), WHOLE_INSIDE },
	{ "lock-try", { "(aA)", "(?aA)" }, CONTEXTS(4), WHOLE_INSIDE },
	{ "lock-alone", { "(aA)", "naA" }, CONTEXTS(4), WHOLE_INSIDE },
	{ "alone", { "naA", "naA" }, CONTEXTS(4), WHOLE_INSIDE },
	{ "alone-try", { "naA", "?naA" }, CONTEXTS(4), WHOLE_INSIDE },
	{ "try-try", { "(?aA)", "?naA" }, CONTEXTS(4), WHOLE_INSIDE },
	{ "slow", { "(abAB)", "(baBA)" }, CONTEXTS(4), WHOLE },
	{ "slow-die", { "(abAB)", "(baBA)" }, CONTEXTS(4) | WAIT_DIE, WHOLE },
	{ "loop", { "(Lab;U)", "(Lba;U)" }, CONTEXTS(4), WHOLE },
	{ "loop-goes-back", { "(Qab;U)", "(Lba;U)", "nbB" }, CONTEXTS(4), 1 },
	{ "loop-by-hand", { "(Kab;U)", "(Lba;U)" }, CONTEXTS(4), WHOLE },
	{ "loop-by-hand-die", { "(Kab;U)", "(Lba;U)" }, CONTEXTS(4) | WAIT_DIE, WHOLE },
	{ "loop-out-of-turn", { "(Lab;AB)", "?nbB" }, CONTEXTS(4), WHOLE_INSIDE },
	{ "list", { "(&ab;AB)", "(&ba;AB)" }, CONTEXTS(4), WHOLE },
	{ "slow-loop", { "(abAB)", "(Lba;U)" }, CONTEXTS(4), WHOLE },
	{ "number", { "(aA)", "naA" }, CONTEXTS(4) | NUMBERED, WHOLE_INSIDE },
	{ "number-try", { "(aA)", "(?aA)" }, CONTEXTS(4) | NUMBERED, WHOLE_INSIDE },
	{ "number-slow", { "(abAB)", "(baBA)" }, CONTEXTS(4) | NUMBERED, WHOLE },
	{ "number-slow-die", { "(abAB)", "(baBA)" }, CONTEXTS(4) | WAIT_DIE | NUMBERED, WHOLE },
	{ "number-loop", { "(Lab;U)", "(Lba;U)" }, CONTEXTS(4) | NUMBERED, WHOLE },
	{ "number-by-hand", { "(Kab;U)", "(Lba;U)" }, CONTEXTS(4) | NUMBERED, WHOLE },
	{ "number-slow-loop", { "(abAB)", "(Lba;U)" }, CONTEXTS(4) | NUMBERED, WHOLE },
	{ "lock-spurious", { "(aA)", "(aA)" }, CONTEXTS(4) | IL_SPURIOUS, 3 },
	{ "lock-few", { "(aA)", "(abAB)" }, CONTEXTS(1), WHOLE_INSIDE },
	{ "lock-few-3", { "naA", "(aA)", "nbB" }, CONTEXTS(1), 2 },
	{ "lock-3", { "(aA)", "(aA)", "(aA)" }, CONTEXTS(4), 2 },
	{ "slow-3", { "(abAB)", "(baBA)", "(aA)" }, CONTEXTS(4), 1 },
	{ "ring", { "(abAB)", "(bmBM)", "(maMA)" }, CONTEXTS(4), 1 },
	{ "ring-die", { "(abAB)", "(bmBM)", "(maMA)" }, CONTEXTS(2) | WAIT_DIE, 1 },
	{ "contexts", { "()", "()" }, CONTEXTS(1), WHOLE_INSIDE },
	{ "contexts-twice", { "()()", "()()" }, CONTEXTS(1), WHOLE_INSIDE },
	{ "contexts-3", { "()", "()", "()" }, CONTEXTS(1), 2 },
	{ "contexts-2-of-3", { "()", "()", "()" }, CONTEXTS(2), WHOLE },
	{ "contexts-delayed", { "()()", "()" }, CONTEXTS(1) | IL_DELAYS, WHOLE_INSIDE },
	{ "contexts-3-delayed", { "()()", "()", "()" }, CONTEXTS(2) | IL_DELAYS, 2 },
	{ "contexts-spurious", { "()", "()", "()" }, CONTEXTS(1) | IL_SPURIOUS, 2 },
	{ "contexts-soon", { "()", "[)" }, CONTEXTS(1), WHOLE_INSIDE },
	{ "contexts-soon-3", { "()", "[)", "[)" }, CONTEXTS(1), 2 },
	{ "contexts-soon-first", { "()", "[)", "()" }, CONTEXTS(1), 2 },
	{ "contexts-at-once", { "()", "{)", "{)" }, CONTEXTS(2), WHOLE },
	{ "contexts-alone", { "()", "nbB" }, CONTEXTS(1), WHOLE_INSIDE },
	{ "seat-tried", { "(na)(A)", "?nbB" }, CONTEXTS(3), WHOLE_INSIDE },
	{ "contexts-alone-3", { "()()", "nbB", "()" }, CONTEXTS(2), 2 },
	{ "contexts-alone-soon", { "()", "tnbB", "()" }, CONTEXTS(1), 2 },
	{ "contexts-soon-again", { "()", "()", "[)()" }, CONTEXTS(1), 2 },
	{ "contexts-in-turn", { "~5(1)", "~1(4)", "()5~1s(=4)" }, CONTEXTS(1), WHOLE },
	{ "contexts-kept", { "(>(<)()^)", "()" }, CONTEXTS(2), WHOLE_INSIDE },
	{ "contexts-kept-3", { "(>(<)()^)", "()", "()" }, CONTEXTS(3), 2 },
	{ "contexts-move", { ".?naA", "(>(<)()^)" }, CONTEXTS(3), 3 },
	{ "contexts-counts", { "()", "()", "v" }, CONTEXTS(1), WHOLE },
	{ "handed-on", { "(>1()", "~1<)", "()" }, CONTEXTS(1), WHOLE },
	{ "handed-on-2", { "(>1()", "~1<)", "()" }, CONTEXTS(2), WHOLE },
	{ "handed-on-end", { "(>1", "~1<)()", "()" }, CONTEXTS(1), WHOLE },
	{ "suspend", { "(aAS1", "~1RaA)", "~1RmM)" }, CONTEXTS(4), WHOLE },
	{ "suspend-own", { "(aAS1()", "~1R)", "~1RaA)" }, CONTEXTS(1) | OWN, WHOLE },
	{ "suspend-delayed", { "(La;US1()", "~1RLa;U)" }, CONTEXTS(1) | OWN | IL_DELAYS, 2 },
	{ "suspend-drop", { "(aAS1()", "~1RaA)", "~1X" }, CONTEXTS(2), WHOLE },
	{ "suspend-free", { "(S1", "~1X8", "_8F" }, CONTEXTS(2), WHOLE },
	{ "suspend-beside", { "(S1", "~1X", "~1J" }, CONTEXTS(2), 1 },
	{ "suspend-slow", { "(arbAB)", "(braBA)" }, CONTEXTS(4), WHOLE },
	{ "suspend-slow-die", { "(arbAB)", "(braBA)" }, CONTEXTS(4) | WAIT_DIE, WHOLE },
	{ "suspend-number", { "(arbAB)", "(braBA)" }, CONTEXTS(4) | NUMBERED, WHOLE },
	{ "suspend-gone", { "(m1~2aAM3)", "~1(a2fmMA)", "~3_8Y" }, CONTEXTS(4), 2 },
	{ "suspend-poll", { "(arybAB)", "(bryaBA)" }, CONTEXTS(4), 2 },
	{ "suspend-poll-die", { "(arybAB)", "(bryaBA)" }, CONTEXTS(4) | WAIT_DIE, 2 },
	{ "suspend-poll-number", { "(arybAB)", "(braBA)" }, CONTEXTS(4) | NUMBERED, 2 },
	{ "suspend-poll-ends", { "(arrybAB)", "(bryaBA)" }, CONTEXTS(4), 2 },
	{ "suspend-poll-gone", { "(m1~2aAM3)", "~1(a2fymMA)", "~3_8Y" }, CONTEXTS(4), 2 },
	{ "suspend-poll-drop", { "(aAS1()", "~1yRaA)", "~1X" }, CONTEXTS(2), WHOLE },
	{ "suspend-task", { "y(1sS2", "~3~2X", "~1y(3)" }, TASKS | NARROW, 2 },
	{ "own", { "()()", "()()" }, CONTEXTS(1) | OWN, WHOLE_INSIDE },
	{ "own-2", { "()()", "()()", "()" }, CONTEXTS(1) | OWN, 2 },
	{ "own-amid", { "()(>()(<)^)", "()()" }, CONTEXTS(2) | OWN, WHOLE },
	{ "own-alone", { "()naA()", "(nbB)" }, CONTEXTS(2) | OWN, WHOLE },
	{ "own-on", { "(>1()()", "~1<)" }, CONTEXTS(1) | OWN, WHOLE_INSIDE },
	{ "own-on-delayed", { "(>1()()", "~1<)" }, CONTEXTS(1) | OWN | IL_DELAYS, WHOLE_INSIDE },
	{ "own-on-3", { "(>1()", "~1<)", "()" }, CONTEXTS(1) | OWN, 2 },
	{ "own-end", { "(>1", "~1<)()" }, CONTEXTS(1) | OWN, WHOLE_INSIDE },
	{ "own-end-delayed", { "(>1", "~1<)()" }, CONTEXTS(1) | OWN | IL_DELAYS, WHOLE_INSIDE },
	{ "own-end-3", { "(>1", "~1<)", "()()" }, CONTEXTS(1) | OWN, 3 },
	{ "own-end-2-of-3", { "(>1", "~1()<)", "()" }, CONTEXTS(1) | OWN, 2 },
	{ "own-waits", { "(>1~3()2", "~1()5~3s<)", "~5(3~2)" }, CONTEXTS(1) | OWN, 2 },
	{ "own-served", { "(>1~3(4)", "~1()5~3s<)", "~5(3s)" }, CONTEXTS(1) | OWN, 1 },
	{ "own-free", { "(>8", "~8<)9", "_8_9F()" }, CONTEXTS(1) | OWN, 2 },
	{ "own-free-soon", { "(>8", "~8<)", "_8F()" }, CONTEXTS(1) | OWN, 2 },
	{ "rest", { "(La;U)(Lab;U)", "(Lb;U)(Lba;U)" }, CONTEXTS(1) | OWN, 2 },
	{ "rest-die", { "(La;U)(Lab;U)", "(Lb;U)(Lba;U)" }, CONTEXTS(1) | OWN | WAIT_DIE, 2 },
	{ "rest-by-hand", { "(La;U)(abAB)", "(&b;B)(baBA)" }, CONTEXTS(1) | OWN, 2 },
	{ "rest-alone", { "(La;U)naA(Lab;U)", "(baBA)" }, CONTEXTS(1) | OWN, 2 },
	{ "rest-end", { "(La;U)", "(La;U)(baAB)" }, CONTEXTS(1) | OWN, WHOLE },
	{ "rest-on", { "(La;U)(La;U>1", "~1<)(Lb;U)" }, CONTEXTS(1) | OWN, WHOLE_INSIDE },
	{ "rest-on-delayed", { "(La;U)(La;U>1", "~1<)()" }, CONTEXTS(1) | OWN | IL_DELAYS, WHOLE_INSIDE },
	{ "rest-on-back", { "(La;U)(La;U>1(bB)2", "~1<)~2(Lb;U)" }, CONTEXTS(1) | OWN, WHOLE },
	{ "rest-free", { "(Lm;-U)D8", "(9)", "_8_9F()" }, CONTEXTS(1) | OWN, 2 },
	{ "destroy", { "(m-M)D", "(m-M)D" }, CONTEXTS(4), WHOLE_INSIDE },
	{ "destroy-alone", { "nm-MD", "nm-MD" }, CONTEXTS(4), WHOLE_INSIDE },
	{ "destroy-both", { "(m-M)D", "nm-MD" }, CONTEXTS(4), WHOLE_INSIDE },
	{ "destroy-loop", { "(Lm;-U)D", "(m-M)D" }, CONTEXTS(4), WHOLE },
	{ "destroy-amid-loop", { "(Lam;-MDU)", "(m-M)D" }, CONTEXTS(4), WHOLE },
	{ "destroy-waiter", { "(m1~2M)", "(~1m8M)", "~1w2dd" }, CONTEXTS(4), 2 },
	{ "destroy-waiter-alone", { "nm1~2M", "~1nm8M", "~1w2dd" }, CONTEXTS(4), 2 },
	{ "destroy-seeker", { "(1~2)", "~1nm8M", "~1sw2dd" }, CONTEXTS(1), 2 },
	{ "cancel", { "(aA)(aA)", "$(1iaA~2)$(.iaA)", "~1c2" }, CONTEXTS(4), 2 },
	{ "cancel-asleep", { "na1~2A", "~1$(3!iaA2)", "~3c" }, CONTEXTS(2), WHOLE },
	{ "cancel-once", { "na1~2A", "~1$(3!iaA2.iaA)", "~3c" }, CONTEXTS(2), WHOLE },
	{ "cancel-slow", { "(abAB)", "$(1ibiaAB~2)", "~1c2" }, CONTEXTS(4), 2 },
	{ "cancel-deadline", { "(aA)", "$(1tiaA~2)", "~1c2" }, CONTEXTS(4), 2 },
	{ "end", { "(Lab;]", "(Lba;]" }, CONTEXTS(4), WHOLE },
	{ "end-cancelled", { "$(La;]", "k", "(aA)" }, CONTEXTS(4), 2 },
	{ "end-cancelled-few", { "$(La;]", "k", "(aA)(aA)" }, CONTEXTS(1), 2 },
	{ "end-cancelled-poll", { "$(La;]", "k", "(yaA)" }, CONTEXTS(4), 2 },
	{ "class-cancel", { "na1~2A", "~1(3!iaA2)", "~3C" }, CONTEXTS(2), WHOLE },
	{ "class-cancel-soon", { "(aA)(aA)", "(1iaA~2)i(iaA)", "~1C2" }, CONTEXTS(4), 2 },
	{ "class-cancel-seek", { "(1~2)", "~13!i()2", "~3C" }, CONTEXTS(1), WHOLE },
	{ "class-cancel-seek-on", { "(1~2)", "~1()", "~1C2" }, CONTEXTS(1), WHOLE },
	{ "class-cancel-permit", { "(1~2)", "~13!i()2", "~3C" }, CONTEXTS(4) | CROWD, WHOLE },
	{ "class-cancel-permit-on", { "(1~2)e()", "~1()", "~1C2" }, CONTEXTS(4) | CROWD, 2 },
	{ "class-cancel-poll", { "na1~2A", "~1(3!yiaA2)", "~3C" }, CONTEXTS(4), WHOLE },
	{ "class-cancel-poll-seek", { "(1~2)", "~13!yi()2", "~3C" }, CONTEXTS(1), WHOLE },
	{ "class-cancel-tasks", { "y()yi()", "y()", "yi()C" }, TASKS, 2 },
	{ "class-cancel-taken", { "(1~2)", "~1zi()", "~1!yi()2", "~1C" }, CONTEXTS(1), 1 },
	{ "class-cancel-taken-on", { "(1~2)", "~1zi()", "~1!i()2", "~1C" }, CONTEXTS(1), 1 },
	{ "class-cancel-tasks-on", { "y(1~3)", "y(2~3)", "~1~2!yi()3", "~1~2C" }, TASKS, 1 },
	{ "deadline", { "(aA)(aA)", "(taA)" }, CONTEXTS(4), WHOLE },
	{ "deadline-3", { "(aA)", "(taA)", "(aA)" }, CONTEXTS(4), 2 },
	{ "deadline-alone", { "(aA)", "tnaA", "(aA)" }, CONTEXTS(2), 2 },
	{ "deadline-slow", { "(atbBA)", "(baBA)" }, CONTEXTS(4), 3 },
	{ "deadline-asleep", { "na1~2A", "~1(!taA2)" }, CONTEXTS(2), WHOLE_INSIDE },
	{ "deadline-asleep-alone", { "na1~2A", "~1!tnaA2" }, CONTEXTS(2), WHOLE_INSIDE },
	{ "deadline-seeking", { "(1~2)", "~1!tnaA2", "()" }, CONTEXTS(1), 2 },
	{ "deadline-handed-on", { "(abAB)", "(taibBA)" }, CONTEXTS(4), WHOLE },
	{ "cancel-inside", { "(a3~4A)", "~3$(1iaA~2)", "~1c4TG2" }, CONTEXTS(4) | IL_INSIDE, 2 },
	{ "crowd", { "(aA)e(bB)", "(aA)e(bB)", "(aA)" }, CONTEXTS(4) | CROWD, 1 },
	{ "crowd-own", { "(aA)e(aA)", "(aA)e(aA)", "(aA)" }, CONTEXTS(4) | OWN | CROWD, 1 },
	{ "crowd-waits", { "(1s)e()", "~1()", "~1()" }, CONTEXTS(4) | CROWD, 1 },
	{ "crowd-waits-own", { "()e(1s)e()e()", "~1()e()" }, CONTEXTS(1) | OWN | CROWD, 2 },
	{ "crowd-stale", { "()e(1~2)e()", "~1(2)" }, CONTEXTS(1) | OWN | CROWD, WHOLE },
	{ "crowd-ends", { "(1s)E()e()", "~1()", "~1()" }, CONTEXTS(4) | CROWD, 1 },
	{ "crowd-few", { "(1~2)e()", "~1()", "~1s2()" }, CONTEXTS(1) | CROWD, 1 },
	{ "crowd-few-3", { "(1s)e()", "~1()e()", "~1()" }, CONTEXTS(1) | CROWD, 1 },
	{ "crowd-checked", { "(1s)e{)e()", "~1()", "~1{)e()" }, CONTEXTS(4) | CROWD, 1 },
	{ "crowd-free", { "(1~2)Ee(3)", "~1()", "~1s2~3F()" }, CONTEXTS(4) | CROWD, 1 },
	{ "awake", { "(aA)(aA)", "(aA)" }, CONTEXTS(4) | AWAKE, WHOLE },
	{ "awake-3", { "(aA)", "(aA)", "naA" }, CONTEXTS(4) | AWAKE, 2 },
	{ "awake-cycle", { "(abAB)", "(baBA)" }, CONTEXTS(4) | AWAKE, WHOLE },
	{ "awake-cycle-die", { "(abAB)", "(baBA)" }, CONTEXTS(4) | WAIT_DIE | AWAKE, WHOLE },
	{ "awake-ring", { "(a1~2~3bAB)", "(b2~1~3mBM)", "(m3~1~2aMA)" }, CONTEXTS(4) | AWAKE, 1 },
	{ "awake-ring-die", { "(a1~2~3bAB)", "(b2~1~3mBM)", "(m3~1~2aMA)" }, CONTEXTS(4) | WAIT_DIE | AWAKE, 1 },
	{ "patient", { "(aA)(aA)", "(aA)", "naA" }, CONTEXTS(4) | IL_PATIENT, 2 },
	{ "patient-cycle", { "(abAB)", "(baBA)" }, CONTEXTS(4) | IL_PATIENT, WHOLE },
	{ "patient-cycle-die", { "(abAB)", "(baBA)" }, CONTEXTS(4) | WAIT_DIE | IL_PATIENT, WHOLE },
	{ "patient-ring", { "(abAB)", "(bmBM)", "(maMA)" }, CONTEXTS(4) | IL_PATIENT, 1 },
	{ "patient-ring-die", { "(abAB)", "(bmBM)", "(maMA)" }, CONTEXTS(4) | WAIT_DIE | IL_PATIENT, 1 },
	{ "patient-destroy", { "(m-M)D", "nm-MD" }, CONTEXTS(4) | IL_PATIENT, WHOLE_INSIDE },
	{ "awake-loop", { "(Lab;U)", "(Lba;U)" }, CONTEXTS(4) | AWAKE, WHOLE },
	{ "awake-destroy", { "(m1~2M)3", "(~1m8M)", "~1w2~3dd" }, CONTEXTS(4) | AWAKE, 2 },
	{ "awake-destroys", { "(m-M)D", "nm-MD" }, CONTEXTS(4) | AWAKE, WHOLE },
	{ "awake-cancel", { "(aA)(aA)", "$(1iaA~2)$(.iaA)", "~1c2" }, CONTEXTS(4) | AWAKE, 1 },
	{ "awake-deadline", { "(aA)(aA)", "(taA)" }, CONTEXTS(4) | AWAKE, WHOLE },
	{ "awake-number", { "(mM)1P", "~1P(aA)", "naA" }, CONTEXTS(4) | NUMBERED | AWAKE, 1 },
	{ "static", { "(mM)", "(mM)" }, CONTEXTS(4) | STATIC, 2 },
	{ "static-alone", { "nmM", "nmM" }, CONTEXTS(4) | STATIC, WHOLE },
	{ "static-both", { "nmM", "(mM)" }, CONTEXTS(4) | STATIC, WHOLE },
	{ "static-try", { "?nmM", "(Lm;U)" }, CONTEXTS(4) | STATIC, WHOLE },
	{ "static-list", { "(&am;AM)", "(mM)" }, CONTEXTS(4) | STATIC, WHOLE },
	{ "poll", { "(yaA)", "(aA)" }, CONTEXTS(4), WHOLE },
	{ "poll-poll", { "(yaA)", "(yaA)" }, CONTEXTS(4), WHOLE },
	{ "poll-gives-up", { "(m1~2M)", "(~1jmM2jmM)(mM)" }, CONTEXTS(4), WHOLE },
	{ "poll-again", { "(zaA)", "(aA)" }, CONTEXTS(4), WHOLE },
	{ "poll-again-twice", { "na1~2A", "~1(2zzaA)" }, CONTEXTS(4), WHOLE },
	{ "poll-ends", { "(xaA)", "(aA)" }, CONTEXTS(4), WHOLE },
	{ "poll-twice", { "(yaA)(zaA)", "(aA)(aA)" }, CONTEXTS(2), WHOLE },
	{ "poll-slow", { "(yaybAB)", "(ybyaBA)" }, CONTEXTS(4), WHOLE },
	{ "poll-slow-die", { "(yaybAB)", "(ybzaBA)" }, CONTEXTS(4) | WAIT_DIE, WHOLE },
	{ "poll-slow-ends", { "(yaybAB)", "(ybxaAB)" }, CONTEXTS(4), WHOLE },
	{ "poll-handed-on", { "(abAB)", "(xaybBA)" }, CONTEXTS(4), WHOLE },
	{ "poll-late", { "(laA)", "(laA)" }, CONTEXTS(4), WHOLE },
	{ "poll-late-slow", { "(laybAB)", "(lblaBA)" }, CONTEXTS(4), WHOLE },
	{ "poll-3", { "(yaA)", "(zaA)", "(aA)" }, CONTEXTS(4), 2 },
	{ "poll-ends-3", { "(yaA)", "(xaA)", "(aA)" }, CONTEXTS(4), 2 },
	{ "poll-number", { "(zaA)", "(yaA)", "naA" }, CONTEXTS(4) | NUMBERED, 2 },
	{ "poll-on", { "(haA)", "HyaA)", "(aA)" }, CONTEXTS(4), 2 },
	{ "poll-on-number", { "(haA)", "HyaA)", "naA" }, CONTEXTS(4) | NUMBERED, 2 },
	{ "poll-cancel", { "na1~2A", "~1$(3!yiaA2)", "~3c" }, CONTEXTS(4), 2 },
	{ "poll-cancel-late", { "(aA)", "$(1yiaA~2)", "~1c2" }, CONTEXTS(4), 2 },
	{ "poll-deadline", { "(yaA)", "(taA)", "(aA)" }, CONTEXTS(4), 1 },
	{ "poll-destroy", { "(m1~2M)", "(~1ym8M)", "~1w2dd" }, CONTEXTS(4), 2 },
	{ "poll-asked", { "(ymM)", "q" }, CONTEXTS(4) | NUMBERED, WHOLE },
	{ "poll-contexts", { "y()", "()" }, CONTEXTS(1), WHOLE },
	{ "poll-contexts-again", { "z()", "()()" }, CONTEXTS(1), WHOLE },
	{ "poll-contexts-end", { "x()", "()", "y()" }, CONTEXTS(1), 2 },
	{ "poll-contexts-gives-up", { "(1~2)", "~1j()2j()()" }, CONTEXTS(1), WHOLE },
	{ "poll-contexts-3", { "y()", "z()", "()" }, CONTEXTS(1), 2 },
	{ "poll-contexts-2-of-3", { "y()()", "y()", "()" }, CONTEXTS(2), 2 },
	{ "poll-contexts-own", { "y()", "()()" }, CONTEXTS(1) | OWN, WHOLE },
	{ "poll-in-turn", { "~5(1)", "~1y(4)", "y()5~1sy(=4)" }, CONTEXTS(1), 2 },
	{ "poll-contexts-late", { "l()", "l()", "()" }, CONTEXTS(1), 2 },
	{ "poll-contexts-free", { "(8)", "y(9)", "_8_9F()" }, CONTEXTS(1), 2 },
	{ "tasks", { "y()", "y()", "y()" }, TASKS, 2 },
	{ "tasks-again", { "y()y()", "z()", "y()" }, TASKS, 2 },
	{ "tasks-4", { "y()", "y()", "y()", "y()" }, TASKS, 1 },
	{ "tasks-end", { "y()", "x()", "y()" }, TASKS, 2 },
	{ "tasks-free", { "y(7)", "y(8)", "y(9)", "_7_8_9F" }, TASKS, 1 },
	{ "tasks-one", { "y(1~2~3)", "~1y()y()2", "~1y()3" }, TASKS, 2 },
	{ "tasks-late", { "l()", "l()", "y()" }, TASKS, 2 },
	{ "tasks-late-again", { "l()l()", "y()", "z()y()" }, TASKS, 2 },
	{ "tasks-late-4", { "l()", "l()", "y()", "y()" }, TASKS, 1 },
	{ "tasks-late-held", { "y(1~2)", "~1y(2~3)", "~1l()3", "~1y()" }, TASKS, 1 },
	{ "tasks-late-end", { "y(1~2~3)", "~1l()2", "~1x()3", "~1l()" }, TASKS, 1 },
	{ "tasks-late-due", { "y(~1)y(~4)", "y(~2)y(4~3)", "l()", "12y(3)" }, TASKS, 1 },
	{ "tasks-unanswered", { "y(>y(1s<)^)", "~1u(4)", "~1sy(6)" }, TASKS, 1 },
	{ "tasks-passed-on", { "y(1s)y(V)", "~1u(4)", "~1sy(6)" }, TASKS | NARROW, 1 },
	{ "tasks-behind-thread", { "nanby(1s)~5AB", "~1[)", "~1y(5)" }, TASKS, 1 },
	{ "tasks-one-ends", { "y(1~2~3~4)", "~1y()2", "~1x()3", "~1z()4" }, TASKS, 1 },
	{ "tasks-narrow", { "y()y()", "z()", "y()" }, TASKS | NARROW, 2 },
	{ "tasks-narrow-4", { "y()", "x()", "l()", "y()" }, TASKS | NARROW, 1 },
	{ "tasks-within", { "y()y()", "oy()", "y()" }, TASKS | NARROW, 2 },
	{ "tasks-within-4", { "y()", "oz()", "l()", "ox()" }, HANDED | NARROW, 1 },
	{ "tasks-within-free", { "y(7)", "oy(8)", "oy(9)", "_7_8_9F" }, HANDED | NARROW, 1 },
	{ "tasks-within-few", { "()", "oy()", "y()", "oy()" }, CONTEXTS(1), 1 },
	{ "tasks-hand", { "y()y()", "y()", "y()" }, HANDED | NARROW, 2 },
	{ "tasks-hand-4", { "y()", "x()", "l()", "y()" }, HANDED, 1 },
	{ "tasks-hand-late", { "l()l()", "y()", "z()y()" }, HANDED | NARROW, 1 },
	{ "tasks-hand-once", { "y()y()", "l()", "y()" }, HANDED_ONCE | NARROW, 2 },
	{ "tasks-hand-free", { "y(7)", "y(8)", "y(9)", "_7_8_9F" }, HANDED | NARROW, 1 },
	{ "tasks-wider", { "y(1sW)", "~1y()", "~1y()" }, TASKS | NARROW, 2 },
	{ "tasks-wider-late", { "y(1sW)y()", "~1l()", "~1y()" }, TASKS | NARROW, 1 },
	{ "tasks-wider-waited", { "(m1wWM)", "~1y(ymM)", "~1y()" }, TASKS | NARROW, 2 },
	{ "tasks-wider-needed", { "(m1wWM)", "~1y(ymM~2)", "~1y()2" }, TASKS | NARROW, 2 },
	{ "tasks-narrower-waited", { "(m1wNM)", "~1y(ymM)y()", "~1l()" }, TASKS, 1 },
	{ "tasks-narrower", { "y(1~2sN3)", "~1y(2~3)", "~2y()", "~2y()" }, HANDED, 1 },
	{ "tasks-narrower-lease", { "y(1~2sN3)", "~1y(2~3)", "~2l()" }, TASKS, 1 },
	{ "shared", { "(1)", "(~1)", "y()", "()" }, TASKS, 1 },
	{ "shared-held", { "(1~2)", "~1(2)()", "~1y()y()", "~1()" }, TASKS | NARROW, 1 },
	{ "shared-served", { "(1~4)", "~1y(2~3s)", "~1y(3~4)", "~2~3()4" }, TASKS, 1 },
	{ "shared-soon", { "(1~2)", "(~1~2)", "~1[)2", "~1y()" }, TASKS, 1 },
	{ "shared-hand", { "(1~2)", "~1y()2", "~1l()", "~1()()" }, HANDED | NARROW, 1 },
	{ "why", { "(#aA)", "@@" }, CONTEXTS(4), 2 },
	{ "why-next", { "(#aA)(#b1~2B)", "@2" }, CONTEXTS(4), 2 },
	{ "why-no-label", { "(#aA)(bB)(a@A)", "@" }, CONTEXTS(1), 2 },
	{ "why-alone", { "(#aA)", "naA(#a@A)", "@" }, CONTEXTS(4), 1 },
	{ "why-slow", { "(#a@gbAB)", "(#bga@BA)" }, CONTEXTS(4), 2 },
	{ "why-slow-die", { "(#a@gbAB)", "(#bga@BA)" }, CONTEXTS(4) | WAIT_DIE, 2 },
	{ "why-waits", { "(#m1w@M)", "~1(#mM)", "~1@" }, CONTEXTS(4), 2 },
	{ "why-ring", { "(#agbAB)", "(#bgmBM)", "(#mgaMA)" }, CONTEXTS(4), 1 },
	{ "why-soon", { "(#a1~2@A)3", "~1(#gtaA)2(#mM)", "(#m~3M)" }, CONTEXTS(4), 2 },
	{ "why-chain", { "~1(#gtaA)", "(#a1mMA)", "(#m~1M)" }, CONTEXTS(4), 2 },
	{ "why-own", { "(#a@A)(#aA)", "(#aA)", "@" }, CONTEXTS(1) | OWN, 1 },
	{ "why-number", { "(#a@gbAB)", "(#bgaBA)" }, CONTEXTS(4) | NUMBERED, 2 },
	{ "why-suspend", { "(#aAS1", "~1Ra@A)", "@" }, CONTEXTS(4), 2 },
	{ "why-poll", { "(#yaA)", "(#aA)", "@" }, CONTEXTS(4), 1 },
	{ "numbers", { ".TG.TG", ".TG.TG" }, CONTEXTS(4), WHOLE },
	{ "numbers-two", { "TTGG", "TTGG" }, CONTEXTS(4), WHOLE },
	{ "numbers-4", { "TG", "TG", "TG", "TG" }, CONTEXTS(4), 1 },
	{ "number-put", { "(1~2)", "~1nmM", "~1sp2" }, CONTEXTS(1) | NUMBERED, 2 },
	{ "number-put-held", { "(m1~2M)", "~1p2" }, CONTEXTS(4) | NUMBERED, WHOLE },
	{ "number-put-waiter", { "(m1~2M)", "(~1m8M)", "~1w2dd" }, CONTEXTS(4) | NUMBERED, 2 },
	{ "number-put-seeker", { "(1~2)", "~1nm8M", "~1sw2dd" }, CONTEXTS(1) | NUMBERED, 2 },
	{ "number-puts", { "(mM)1P", "~1P" }, CONTEXTS(4) | NUMBERED, WHOLE },
	{ "number-leave", { "(m18M)", "~1O" }, CONTEXTS(4) | NUMBERED, WHOLE },
	{ "number-leave-waiter", { "(m1~2M)", "(~1m8M)", "~1w2O" }, CONTEXTS(4) | NUMBERED, 2 },
	{ "number-again", { "P1.T~2~3G", "~1(mM)2", "~1(mM)3" }, CONTEXTS(4) | NUMBERED, 2 },
	{ "number-look", { "(mM)", "q(mM)" }, CONTEXTS(4) | NUMBERED, WHOLE },
	{ "number-look-3", { "(mM)", "q", "q" }, CONTEXTS(4) | NUMBERED, 3 },
	{ "number-look-late", { "(~1!taA2)q", "na1~2A(mM)" }, CONTEXTS(4) | NUMBERED, WHOLE },
	{ "number-deadline", { "(aA)(aA)", "(taA)" }, CONTEXTS(4) | NUMBERED, WHOLE },
	{ "made", { "(aA)", "(aA)" }, CONTEXTS(4) | MAKES, WHOLE },
	{ "made-3", { "(1~2)", "~1()", "~1()2" }, CONTEXTS(4) | MAKES, 2 },
	{ "made-few", { "()", "()", "()" }, CONTEXTS(2) | MAKES, 2 },
	{ "made-alone", { "naA", "(aA)", "?nbB" }, CONTEXTS(2) | MAKES, 2 },
	{ "made-own", { "()()", "()()" }, CONTEXTS(1) | OWN | MAKES, WHOLE },
	{ "made-own-on", { "(>1()()", "~1<)" }, CONTEXTS(1) | OWN | MAKES, WHOLE },
	{ "made-own-end", { "()", "()", "()()" }, CONTEXTS(1) | OWN | MAKES, 2 },
	{ "made-cancel", { "na1~2A", "~1(!iaA2)", "~1C" }, CONTEXTS(1) | OWN | MAKES, 2 },
	{ "made-cancel-seek", { "(1~2)", "~1i()2", "~1C" }, CONTEXTS(2) | MAKES, 2 },
	{ "made-poll", { "y()", "()", "y()" }, CONTEXTS(2) | MAKES, 2 },
	{ "made-tasks", { "y()", "y()", "y()" }, TASKS | MAKES, 2 },
	{ "made-within", { "y()", "oy()", "y()" }, TASKS | NARROW | MAKES, 1 },
	{ "made-wider", { "y(1sW)", "~1y()", "~1y()" }, TASKS | NARROW | MAKES, 1 },
	{ "made-soon", { "(m1wWM)", "~1y(ymM~2)", "~1y()2" }, TASKS | NARROW | MAKES, 1 },
	{ "made-shared", { "(1)", "(~1)", "y()", "()" }, TASKS | MAKES, 1 },
	{ "made-free", { "(8)", "(9)", "_8_9F()" }, CONTEXTS(2) | MAKES, 1 },
	{ "free", { "(8)", "(9)", "_8_9F()" }, CONTEXTS(2), WHOLE },
	{ "free-one", { "(8)", "(9)", "_8_9F()" }, CONTEXTS(1), WHOLE },
	{ "free-seeker", { "(1~2)", "~1()", "~1s2F()" }, CONTEXTS(1), WHOLE },
	{ "free-number", { ".T8G", "_8F()" }, CONTEXTS(1), WHOLE },
	{ "free-and-seek", { "(8)", "_8F(3s)", "~3()" }, CONTEXTS(1), WHOLE },
	{ "free-3", { "(7)", "(8)", "(9)", "_7_8_9F()" }, CONTEXTS(2), 1 },
	{ "free-and-use", { "(8)", "(9)", "_8_9F(3)", "~3()" }, CONTEXTS(1), 1 },
	{ 0 },
};
