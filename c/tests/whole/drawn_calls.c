/*
 * Drawn calls by contexts of one thread on mutexes of each kind, beside a model of what each has to return.
 *
 * None of them blocks.  The model says who holds, reads and waits for what, and whose waker was called.  Contexts that
 * hold numbers alone move.  One of the two classes has contexts of tasks, the other one says how many contexts it has;
 * both are cancelled, freed and opened again and again, of either kind.  So many seconds; a failure says the seed and
 * the last calls.  drawn_calls [SECONDS [SEED]]
 *
 * Whoever reads holds a mutex more, its seat's slot, from its first read to the last one's end.  A writer may wait for slots of which
 * nothing is known here, so what a call has to return is told exactly as long as no task reads or writes by a poll.
 *
 * Contexts are suspended, too, into values of which copies are kept, and go on later, with their age: but those that tasks have for
 * themselves don't, since the limiter counts those (tests/doors/retry.c).
 *
 * The test draws which leases are over: that of a context's seat, before the context ends, and before that and before other calls that of
 * the task that was called first.  So what a call has to do doesn't depend on how busy the machine is.  How long a lease lasts is looked at
 * where it begins.
 */
#include "../mutex_test.h"
#include "../../lock/lock.h"
#include "ww_retry.h"
#include "ww_shared.h"
#include <signal.h>

/* Of the locks the first are mutexes, then come shared ones, numbers, and numbers of shared ones; behind them a context's slot. */
enum { OBJECTS = 3, NUMBERS = 5, SHARED_NUMBERS = 7, LOCKS = 9, SLOT = LOCKS };
enum { WORLDS = 2, TASKS = 7, SPARES = 24, SAID = 64, LATEST = 24 };
enum { STEPS = 2000, LATE = 1500 }; /* in each pair of classes, and when one of these may be cancelled */
enum { NO_TASK = -1, ALONE = TASKS };
enum what { LOCKED, READ, WRITTEN, AWAITED };

/* What the model knows of a task and its context. */
struct task {
	struct ww_acquire_ctx *x;
	struct ww_seek seek;
	enum { ENDED, SEEKS, BEGUN, SUSPENDED } phase;
	struct ww_retry retry, copy; /* into which it is suspended; and one of no use any more */
	enum { NOT_LENT, LENT, WAS_CALLED, TAKEN } waker; /* TAKEN: back, so nobody calls it */
	bool is_ended;	  /* what is in x may be used, and is refused; else it has never begun */
	bool of_tasks;	  /* its context is one of those that tasks have for themselves */
	unsigned place;	  /* WAITS, CALLED or SERVED: where it stands, while it seeks: see queue.c */
	bool is_roused;	  /* a waker that it left was to be called; it hasn't polled since */
	bool was_ended;	  /* by a cancel, so it gets none */
	const ww_seat *seat; /* of tasks: for which it was called, then which it was handed, then its context's */
	int polled;	  /* the lock for which it waits, or NO_TASK; and what it is to be then */
	enum what asks;
	int held[LOCKS + 1]; /* the oldest first */
	int count;
	int reads;	     /* how many are to be ended; and what it has read since there were none */
	bool has_read[LOCKS];
	unsigned long age; /* when it began; a context may be older than that, and none is younger */
	bool told;	  /* it got -EDEADLK, and hasn't backed off */
	int contended;	  /* at which it got that, or NO_TASK */
	bool slow;	  /* and no other lock call came since */
	bool is_gone;	  /* the mutex was destroyed since */
	bool cancelled, is_done;
	bool loop, first; /* in a loop; and it begins with a wait for the contended one */
	int owing;	  /* for which it has waited before the body asked, or NO_TASK */
	unsigned flags;
};

static struct world {
	struct ww_class c;
	unsigned kind;	   /* Wait-Die */
	int contexts;	   /* how many it has, those of tasks where these have their own */
	bool is_limited;   /* the class said how many */
	struct task tasks[TASKS];
	int queue[TASKS], queued; /* who waits for a context, in this order; and behind these those that were called */
	struct ww_acquire_ctx places[TASKS + 1], *empty; /* where one was that moved, or ended */
	bool is_cancelled;
	uint32_t spares[SPARES], spare;
	struct ww_mutex objects[OBJECTS];
	struct ww_shared_mutex shared[NUMBERS];
	uint32_t numbers[LOCKS];
	int holder[LOCKS];
} worlds[WORLDS], *w;

static const struct timespec past;

/* ---- what is said if something is wrong ---- */

static unsigned seed, state;
static struct { const char *what; long task, lock, r; } said[SAID];
static unsigned long made;
static uint64_t said_at; /* when the last call began */

static void says(const char *what, const struct task *t, int lock)
{
	said[made % SAID].what = what;
	said[made % SAID].task = t ? t - w->tasks : NO_TASK;
	said[made % SAID].lock = lock + 100 * (w - worlds);
	said[made++ % SAID].r = 9999;
	said_at = ww_now();
}
static void says_result(unsigned long of, long r)
{
	said[of % SAID].r = r;
}

/*
 * All that tells a context what comes next, and others who has a mutex.  Not what is the library's own: whether a mutex was read by
 * a slot, and by hand a list that says nothing.  That the proved library was made to forget an -EDEADLK (WAS_TOLD) is seen only of
 * a trylock, which makes no step in vain where no other thread comes between its look and that step.
 */
struct seen {
	struct {
		const void *own, *gives, *contending_lock, *prelocked, *list[LOCKS + 1];
		unsigned acquired, state, cancelled;
	} contexts[TASKS];
	struct {
		const void *holder;
		uint64_t word;
		uint32_t waiters;
	} mutexes[LOCKS];
};
static struct seen looks(void);

static bool is_refusal(const char *call, long r)
{
	return r == -EINVAL || r == -EBUSY || (r == -EALREADY && !strstr(call, "_poll(")) || (r == 0 && strstr(call, "trylock") && !strchr(call, '?')) ||
	       (r == -EAGAIN && strstr(call, "suspend"));
}

/* Makes a call, which is remembered; if it is refused it has changed nothing. */
#define CALL(r, t, k, call)                                                                            \
	do {                                                                                           \
		unsigned long of_ = made;                                                              \
		struct seen before_ = looks();                                                         \
                                                                                                       \
		says(#call, t, k);                                                                     \
		(r) = (call);                                                                          \
		says_result(of_, (long)(r));                                                           \
		if (is_refusal(#call, (long)(r)))                                                      \
			is_as(&before_, strstr(#call, "trylock") ? 0 : WAS_TOLD);                      \
	} while (0)

static void is_as(const struct seen *before, unsigned int hidden);
static void tells(const char *file, int line, const char *what)
{
	fflush(stdout);
	printf("%s:%d: not so: %s\nseed %u, %lu calls, of which these are the last:\n", file, line, what, seed, made);
	for (unsigned long k = made > LATEST ? made - LATEST : 0; k < made; k++)
		printf("  world %ld, task %ld, lock %ld: %s = %ld\n", said[k % SAID].lock / 100, said[k % SAID].task,
		       said[k % SAID].lock % 100, said[k % SAID].what, said[k % SAID].r);
	fflush(stdout);
	_exit(1);
}
#define IS(fact)                                                                                       \
	do {                                                                                           \
		if (!(fact))                                                                           \
			tells(__FILE__, __LINE__, #fact);                                              \
	} while (0)

static void on_signal(int which)
{
	tells(__FILE__, which, which == SIGTERM ? "a call returns" : "the program goes on");
}

static unsigned draw(unsigned count) { return next(&state) % count; }
static bool rarely(unsigned in) { return draw(in) == 0; }

/* ---- what is so ---- */

static int id(const struct task *t) { return (int)(t - w->tasks); }
static bool holds(const struct task *t, int k) { return w->holder[k] == id(t); }
static bool is_object(int k) { return k < OBJECTS; }
static bool is_number(int k) { return k >= NUMBERS && k < LOCKS; }
static bool is_shared(int k) { return (k >= OBJECTS && k < NUMBERS) || (k >= SHARED_NUMBERS && k < LOCKS); }
static struct ww_shared_mutex *shared(int k)
{
	if (k >= LOCKS)
		abort();
	return k < NUMBERS ? &w->shared[k] : ww_number_at(w->numbers[k], &w->c);
}
static struct ww_mutex *object(int k) { return is_object(k) ? &w->objects[k] : &shared(k)->mutex_; }
static struct seen looks(void)
{
	struct seen now;

	memset(&now, 0, sizeof now);
	for (int j = 0; j < TASKS; j++) {
		const struct ww_acquire_ctx *x = w->tasks[j].x;

		if (w->tasks[j].phase != BEGUN)
			continue;
		now.contexts[j].own = x->own;
		now.contexts[j].gives = x->gives;
		if (x->gives != x->own)
			for (const struct ww_mutex *m = x->newest, **at = (const struct ww_mutex **)now.contexts[j].list; m; m = m->older)
				*at++ = m;
		now.contexts[j].contending_lock = x->state & (TRIES | IS_TOLD) ? x->contending_lock : NULL;
		now.contexts[j].prelocked = x->state & (IS_PRELOCKED | IS_POLLED) ? x->prelocked : NULL;
		now.contexts[j].acquired = x->acquired;
		now.contexts[j].state = x->state;
		now.contexts[j].cancelled = x->cancelled;
	}
	for (int k = 0; k < LOCKS; k++) {
		const struct ww_mutex *m = object(k);

		if (m->pool != w->c.pool || !w->c.pool) /* it was destroyed, and is about to be made */
			continue;
		now.mutexes[k].holder = m->ctx;
		now.mutexes[k].word = look_at(w->c.pool, m);
		now.mutexes[k].waiters = m->waiters;
	}
	return now;
}

static void is_as(const struct seen *before, unsigned int hidden)
{
	struct seen now = looks();

	for (int j = 0; j < TASKS; j++)
		now.contexts[j].state ^= (now.contexts[j].state ^ before->contexts[j].state) & hidden;
	IS(!memcmp(before->contexts, now.contexts, sizeof now.contexts));
	IS(!memcmp(before->mutexes, now.mutexes, sizeof now.mutexes));
}

/* One that isn't shared. */
static int draw_exclusive(void) { return draw(5) < 3 ? (int)draw(OBJECTS) : NUMBERS + (int)draw(SHARED_NUMBERS - NUMBERS); }
static int draw_shared(void) { return draw(2) ? OBJECTS + (int)draw(NUMBERS - OBJECTS) : SHARED_NUMBERS + (int)draw(LOCKS - SHARED_NUMBERS); }

static bool is_read(int k)
{
	for (int j = 0; j < TASKS; j++)
		if (w->tasks[j].has_read[k])
			return true;
	return false;
}

static int waiters(int k)
{
	int count = 0;

	for (int j = 0; j < TASKS; j++)
		count += w->tasks[j].polled == k;
	return count;
}
/* Nobody holds it or waits for it, so a call of it doesn't wait. */
static bool is_free(int k) { return w->holder[k] == NO_TASK && !waiters(k) && !is_read(k); }

/* A task reads or writes by a poll, so whose each slot is isn't known. */
static bool are_slots_awaited(void)
{
	for (int j = 0; j < TASKS; j++)
		if (w->tasks[j].polled != NO_TASK && is_shared(w->tasks[j].polled))
			return true;
	return false;
}

/* Another one has it, so this one may not. */
static bool is_taken(const struct task *t, int k, enum what as)
{
	if (w->holder[k] != NO_TASK && !holds(t, k))
		return true;
	for (int j = 0; j < TASKS; j++)
		if (j != id(t) && as == WRITTEN && w->tasks[j].has_read[k])
			return true;
	return false;
}

/* It certainly gets it at once. */
static bool is_to_get(const struct task *t, int k, enum what as)
{
	return !is_taken(t, k, as) && !waiters(k) && !are_slots_awaited();
}

static bool says_it_holds(const struct task *t, int k)
{
	if (!is_shared(k))
		return ww_mutex_is_held_by(object(k), t->x);
	return ww_shared_mutex_is_written_by(shared(k), t->x);
}

static bool says_it_reads(const struct task *t, int k)
{
	return ww_shared_mutex_is_read_by(shared(k), t->x);
}

/* Contexts in use, of those that are counted. */
static int used(void)
{
	int count = 0;

	for (int j = 0; j < TASKS; j++)
		count += (w->tasks[j].phase == BEGUN && (w->is_limited || w->tasks[j].of_tasks)) || (w->tasks[j].phase == SUSPENDED && w->is_limited);
	for (int k = 0; k < LOCKS && w->is_limited; k++)
		count += w->holder[k] == ALONE;
	for (int j = 0; j < TASKS; j++)
		count += w->tasks[j].phase == SEEKS && w->tasks[j].place == SERVED && !w->tasks[j].was_ended;
	return count;
}

/* Each that waits by a poll is called in the end: of those that wait for one another, somebody was. */
static void no_ring(const struct task *from)
{
	const struct task *at = from;

	for (int steps = 0; at->polled != NO_TASK && !is_shared(at->polled) && at->waker == LENT; steps++) {
		int holder = w->holder[at->polled];

		if (holder == NO_TASK || holder == ALONE)
			return;
		at = &w->tasks[holder];
		IS(!(at == from && at->waker == LENT));
		if (steps > TASKS)
			return;
	}
}

/*
 * A mutex that is free isn't waited for, unless somebody was called, or took a waker back, and will look.  A writer may wait for
 * whoever reads another one, or waits to read that at its slot.
 */
static void no_wait_for_what_is_free(int k)
{
	int lent = 0, others = 0;

	for (int j = 0; j < TASKS; j++) {
		const struct task *t = &w->tasks[j];

		lent += t->polled == k && t->waker == LENT;
		others += t->polled == k && t->waker != LENT;
		others += is_shared(k) && (t->reads || (t->polled != NO_TASK && t->polled != k && is_shared(t->polled)));
	}
	IS(w->holder[k] != NO_TASK || !lent || others);
}

/* Of those that wait the first one that wasn't called, or NULL. */
static struct task *first_uncalled(void)
{
	for (int j = 0; j < w->queued; j++)
		if (w->tasks[w->queue[j]].place != CALLED)
			return &w->tasks[w->queue[j]];
	return NULL;
}

/* Who was called for this seat, or first for any if that is NULL, and hasn't polled since; or NULL. */
static struct task *called_for(const ww_seat *s)
{
	for (int j = 0; j < w->queued; j++)
		if (w->tasks[w->queue[j]].place == CALLED && (!s || w->tasks[w->queue[j]].seat == s))
			return &w->tasks[w->queue[j]];
	return NULL;
}

/* How many have the seat, one of those of tasks, or were handed it. */
static int users(const ww_seat *s)
{
	int count = 0;

	for (int j = 0; j < TASKS; j++) {
		const struct task *t = &w->tasks[j];

		count += t->seat == s && (t->phase == BEGUN ? t->of_tasks : t->phase == SEEKS && t->place == SERVED && !t->was_ended);
	}
	return count;
}

/* The library's queue is the model's. */
static void queue_is_so(void)
{
	const struct ww_seats *of = of_tasks(w->c.pool);
	const struct ww_seek *it = of->lines[WAITS].first;
	int calls = 0;

	for (int j = 0; j < w->queued; j++, it = it->next_) {
		const struct task *t = &w->tasks[w->queue[j]];

		it = it ? it : of->lines[CALLED].first;
		IS(it == &t->seek && it->served_ == t->place && (t->place != CALLED || it->seat_ == t->seat));
		calls += t->place == CALLED;
	}
	IS(!it && of->lines[WAITS].seekers == (uint32_t)(w->queued - calls) && of->lines[CALLED].seekers == (uint32_t)calls);
}

/*
 * Who was called, or has a context, was told so; and no context is free for which somebody waits whom nobody called, unless another
 * was called for it.
 */
static void no_wait_for_a_free_context(void)
{
	const struct ww_pool *p = w->c.pool;

	for (int j = 0; j < TASKS; j++) {
		const struct task *t = &w->tasks[j];

		if (t->phase != SEEKS)
			continue;
		IS(t->waker == TAKEN || (t->waker == WAS_CALLED) == t->is_roused);
		IS(t->place == WAITS || t->is_roused);
		IS(!w->is_cancelled || t->place != WAITS);
	}
	IS(!w->is_limited || used() == w->contexts || !w->queued);
	IS(w->is_limited || (int)p->tasks.open == w->contexts);
	for (int k = 0; k < (int)p->tasks.open; k++) {
		const ww_seat *s = &p->tasks.seats[k];

		IS(users(s) == is_in_use(s));
		IS(!p->called[k] == !called_for(s));
		IS(users(s) || called_for(s) || !first_uncalled());
	}
	queue_is_so();
}

static void all_is_so(void)
{
	for (int k = 0; k < LOCKS; k++) {
		if (is_object(k))
			IS(ww_mutex_is_locked(object(k)) == !is_free(k) &&
			   ww_mutex_is_held_by(object(k), NULL) == (w->holder[k] == ALONE));
		for (int j = 0; j < TASKS; j++) {
			struct task *t = &w->tasks[j];

			if (t->phase == BEGUN && (t->polled == NO_TASK || !is_number(k)))
				IS(says_it_holds(t, k) == holds(t, k) && (!is_shared(k) || says_it_reads(t, k) == t->has_read[k]));
		}
		no_wait_for_what_is_free(k);
	}
	for (int j = 0; j < TASKS; j++) {
		struct task *t = &w->tasks[j];

		if (t->phase != BEGUN)
			continue;
		/* A poll has its slot, or the mutex, before it reads or writes. */
		IS((int)t->x->acquired == t->count ||
		   (t->polled != NO_TASK && is_shared(t->polled) && (int)t->x->acquired == t->count + 1));
		if (t->polled == NO_TASK) {
			IS(ww_is_contended(t->x) == (t->loop && t->told));
			IS(!t->loop || (int)ww_acquire_mark(t->x) == t->count - (t->owing != NO_TASK && holds(t, t->owing)));
		} else {
			no_ring(t);
		}
	}
	no_wait_for_a_free_context();
}

/* ---- wakers ---- */

/* Nothing is locked, so it may use the library. */
static void wake(void *world, void *task)
{
	struct world *of = world;
	struct task *t = task;
	struct ww_class_counts counts;

	IS(t->waker == LENT);
	t->waker = WAS_CALLED;
	ww_class_stats(&of->c, &counts);
}
static void never(void *world, void *task)
{
	bool refused_poll_had_it = true;

	(void)world, (void)task;
	IS(!refused_poll_had_it);
}
static const struct ww_waker refused = { never, NULL, NULL };

/* The waker of its next poll, which nobody has called yet; and after that poll it isn't lent if the poll didn't wait. */
static struct ww_waker lends(struct task *t)
{
	t->waker = LENT;
	return (struct ww_waker){ wake, w, t };
}

static void takes_back(struct task *t)
{
	bool r, was = t->waker == LENT && (t->phase == SEEKS || t->polled != NO_TASK);

	CALL(r, t, t->polled, ww_poll_take_back(t->x, t->phase == SEEKS ? &t->seek : NULL));
	IS(r == was);
	if (r)
		t->waker = TAKEN;
}

/* ---- what locks return ---- */

static void got(struct task *t, int k)
{
	IS(!is_taken(t, k, WRITTEN) && !holds(t, k));
	w->holder[k] = id(t);
	t->held[t->count++] = k;
}

static void has_read(struct task *t, int k)
{
	IS(!is_taken(t, k, READ));
	if (!t->reads++)
		t->held[t->count++] = SLOT;
	t->has_read[k] = true;
}

static void lost(struct task *t, int k)
{
	int left = 0;

	if (k == SLOT) {
		t->reads = 0;
		memset(t->has_read, 0, sizeof t->has_read);
	} else {
		w->holder[k] = NO_TASK;
	}
	for (int j = 0; j < t->count; j++)
		if (t->held[j] != k)
			t->held[left++] = t->held[j];
	t->count = left;
	if (!t->count && !t->loop)
		t->told = false;
}

static void lost_all(struct task *t)
{
	while (t->count)
		lost(t, t->held[t->count - 1]);
	t->owing = NO_TASK;
}

/* One of its reads ends. */
static void reads_less(struct task *t)
{
	if (t->reads > 1)
		t->reads--;
	else
		lost(t, SLOT);
}

/* At which it collided, as the library says: for the slots there is one more. */
static int contended(const struct task *t)
{
	const void *m = t->x->contending_lock, *numbered;

	for (int k = 0; k < LOCKS; k++) {
		numbered = &w->c.pool->numbered[w->numbers[k]];
		if (m == (is_object(k) ? object(k) : is_number(k) ? numbered : (const void *)shared(k)))
			return k;
	}
	return SLOT;
}

static void is_told(struct task *t)
{
	t->told = t->count || t->loop;
	t->slow = true;
	t->is_gone = false;
	t->contended = contended(t);
}

/* It has got nothing by now, nor was told to back off. */
static void waits_no_more(struct task *t, int r, bool polls)
{
	bool is_to_end = t->cancelled || w->is_cancelled;

	switch (r) {
	case -EINTR:
		IS(is_to_end);
		t->cancelled = false;
		break;
	case -ETIMEDOUT:
		IS(!polls && !is_to_end);
		break;
	default:
		IS(r == -EINPROGRESS && polls && !is_to_end);
	}
}

/* By Wait-Die -EDEADLK comes of an older context, which has the mutex or waits for it. */
static bool meets_older(const struct task *t, int k)
{
	bool meets = w->holder[k] == ALONE;

	for (int j = 0; j < TASKS; j++)
		meets |= (w->holder[k] == j || w->tasks[j].polled == k) && w->tasks[j].age < t->age;
	return meets;
}

/* A call that may have waited for k has ended, or goes on. */
static void waited(struct task *t, int k, int r, bool polls)
{
	switch (r) {
	case 0:
		got(t, k);
		t->told = t->first = false;
		if (t->owing == k)
			t->owing = NO_TASK;
		break;
	case -EDEADLK:
		IS(t->count && (!w->kind || !w->is_limited || meets_older(t, k)));
		is_told(t);
		IS(t->contended == k);
		break;
	default:
		waits_no_more(t, r, polls);
	}
	IS(r == 0 || r == -EDEADLK || !is_free(k)); /* what is free is acquired */
}

/* What a lock call of k returned, outside of loops; and what a poll did, which waits for nothing first. */
static void by_hand(struct task *t, int k, int r, bool polls)
{
	t->slow = false;
	if (holds(t, k))
		IS(r == -EALREADY || (t->told && r == -EINVAL));
	else if (t->told && t->count)
		IS(r == -EINVAL);
	else
		waited(t, k, r, polls);
}

/* The same in a loop, or behind it; it may have waited for the contended one first. */
static void in_loop(struct task *t, int k, int r)
{
	int c = t->contended;

	t->slow = false;
	if (t->first && says_it_holds(t, c)) {
		got(t, c);
		t->first = t->told = false;
		t->owing = c;
	} else if (t->first) {
		IS(!is_free(c));
		waits_no_more(t, r, false);
		return;
	}
	if (holds(t, k)) {
		IS(r == (t->owing == k || t->flags & WW_IGNORE_DUPLICATES ? 0 : -EALREADY));
		if (t->owing == k) { /* and it is the newest now */
			t->owing = NO_TASK;
			lost(t, k);
			got(t, k);
		}
	} else if (t->told && t->count) {
		IS(r == -EINVAL);
	} else {
		waited(t, k, r, false);
	}
}

static void locked(struct task *t, int k, int r)
{
	if (t->loop)
		in_loop(t, k, r);
	else
		by_hand(t, k, r, false);
}

/* The library's own, which are called wherever nothing is compiled into callers. */
static __typeof__(ww_mutex_lock) *volatile lock_of = ww_mutex_lock;
static __typeof__(ww_mutex_trylock) *volatile trylock_of = ww_mutex_trylock;
static __typeof__(ww_mutex_unlock) *volatile unlock_of = ww_mutex_unlock;
static __typeof__(ww_number_lock) *volatile number_lock_of = ww_number_lock;
static __typeof__(ww_number_trylock) *volatile number_trylock_of = ww_number_trylock;
static __typeof__(ww_number_unlock) *volatile number_unlock_of = ww_number_unlock;

/* A wait for k would end by -EDEADLK, as far as the model knows. */
static bool gives_way(const struct task *t, int k)
{
	if (!t->count || t->told || w->holder[k] == NO_TASK || w->holder[k] == ALONE || holds(t, k))
		return false;
	if (w->kind)
		return w->tasks[w->holder[k]].age < t->age;
	for (int j = 0; j < t->count; j++)
		for (int i = 0; i < TASKS; i++)
			if (w->tasks[i].polled == t->held[j] && w->tasks[i].age < t->age)
				return true;
	return false;
}

static void lock_until(struct task *t, int k)
{
	struct timespec until = gives_way(t, k) && !t->first && draw(4) ? in_ms(20) : past;
	int r;

	CALL(r, t, k, ww_mutex_lock_until(object(k), t->x, &until));
	locked(t, k, r);
}

/* Without a time, where it won't wait. */
static void lock(struct task *t, int k)
{
	int r;

	if (t->first && !is_free(t->contended))
		return;
	if (!holds(t, k) && !is_free(k) && !(t->told && t->count))
		return;
	switch (draw(3) + (is_object(k) ? 0 : 3)) {
	case 0: CALL(r, t, k, ww_mutex_lock(object(k), t->x)); break;
	case 1: CALL(r, t, k, lock_of(object(k), t->x)); break;
	case 2: CALL(r, t, k, ww_mutex_lock_interruptible(object(k), t->x)); break;
	case 3: CALL(r, t, k, ww_number_lock(w->numbers[k], t->x)); break;
	case 4: CALL(r, t, k, number_lock_of(w->numbers[k], t->x)); break;
	default: CALL(r, t, k, ww_mutex_lock_until(object(k), t->x, NULL)); break;
	}
	locked(t, k, r);
}

static void trylock(struct task *t, int k)
{
	int r;

	switch (draw(3) + (is_object(k) ? 0 : 3)) {
	case 0: CALL(r, t, k, ww_mutex_trylock(object(k), t->x)); break;
	case 1: CALL(r, t, k, trylock_of(object(k), t->x)); break;
	case 2: CALL(r, t, k, ww_mutex_trylock_checked(object(k), t->x)); break;
	case 3: CALL(r, t, k, ww_number_trylock(w->numbers[k], t->x)); break;
	default: CALL(r, t, k, number_trylock_of(w->numbers[k], t->x)); break;
	}
	t->slow = false;
	if (holds(t, k)) {
		IS(r == (t->loop && t->owing == k));
		if (r) {
			t->owing = NO_TASK;
			lost(t, k);
			got(t, k);
		}
	} else {
		IS(r == (is_free(k) && !(t->told && t->count)));
		if (r)
			waited(t, k, 0, false);
	}
}

static void lock_slow(struct task *t, int k)
{
	bool is_due = t->slow && !t->count && k == t->contended && !t->loop;
	int r;

	if (!is_object(k) || (t->loop && !(t->told && t->count)) || (!is_due && !t->count))
		return;
	if (is_free(k) && draw(2))
		CALL(r, t, k, ww_mutex_lock_slow_checked(object(k), t->x));
	else
		CALL(r, t, k, ww_mutex_lock_slow_until(object(k), t->x, &past));
	if (!is_due) {
		IS(r == -EINVAL);
		return;
	}
	waited(t, k, r, false);
	t->slow = r != 0;
}

/* The loop has waited for a mutex for which the body has yet to ask. */
static bool owes_amid_loop(const struct task *t) { return t->loop && t->owing != NO_TASK; }

/* A poll, the first one or another one. */
static void poll(struct task *t, int k)
{
	bool lent = !rarely(4), waits = t->polled != NO_TASK;
	struct ww_waker waker = { 0 };
	int r;

	if (waits)
		k = t->polled;
	if (owes_amid_loop(t) && t->told) /* then a poll may begin once it holds nothing: tests/lock/loop.c */
		return;
	if (lent)
		waker = lends(t);
	else
		t->waker = NOT_LENT;
	t->polled = NO_TASK;
	CALL(r, t, k, ww_mutex_lock_poll(object(k), t->x, lent ? &waker : NULL));
	if (r == -EINPROGRESS)
		t->polled = k, t->asks = LOCKED;
	else
		t->waker = NOT_LENT;
	if (!waits && owes_amid_loop(t)) {
		IS(r == -EINVAL);
	} else if (!waits) {
		by_hand(t, k, r, lent);
	} else {
		waited(t, k, r, lent);
		IS(r != -EINPROGRESS || w->holder[k] != NO_TASK || waiters(k) > 1 || t->count);
	}
}

static void unlock_shared(struct task *t, int k)
{
	int r;

	if (k == SLOT || (is_number(k) && !holds(t, k) && draw(2))) {
		says("ww_acquire_end_reads", t, k);
		ww_acquire_end_reads(t->x);
		if (t->reads)
			lost(t, SLOT);
	} else if (is_number(k)) {
		CALL(r, t, k, ww_number_unlock(w->numbers[k], t->x));
		IS(r == (holds(t, k) ? 0 : -EINVAL));
		if (!r)
			lost(t, k);
	} else {
		bool writes = draw(4) ? holds(t, k) : draw(2);

		if (writes)
			CALL(r, t, k, ww_shared_mutex_unlock(shared(k), t->x));
		else
			CALL(r, t, k, ww_shared_mutex_unlock_shared(shared(k), t->x));
		IS(r == ((writes ? holds(t, k) : t->has_read[k]) ? 0 : -EINVAL));
		if (!r && writes)
			lost(t, k);
		else if (!r)
			reads_less(t);
	}
}

static void unlock(struct task *t, int k)
{
	int r = 0;

	if (k == SLOT || is_shared(k)) {
		unlock_shared(t, k);
		return;
	}
	if (!holds(t, k)) {
		if (w->holder[k] == NO_TASK && is_object(k))
			CALL(r, t, k, ww_mutex_unlock_checked(object(k)));
		else if (!is_object(k))
			CALL(r, t, k, ww_number_unlock(w->numbers[k], t->x));
		else
			return;
		IS(r == -EINVAL);
		return;
	}
	switch (draw(3) + (is_object(k) ? 0 : 3)) {
	case 0: says("ww_mutex_unlock", t, k); ww_mutex_unlock(object(k)); break;
	case 1: says("ww_mutex_unlock by call", t, k); unlock_of(object(k)); break;
	case 2: CALL(r, t, k, ww_mutex_unlock_checked(object(k))); break;
	case 3: CALL(r, t, k, ww_number_unlock(w->numbers[k], t->x)); break;
	default: CALL(r, t, k, number_unlock_of(w->numbers[k], t->x)); break;
	}
	IS(!r);
	lost(t, k);
}

/*
 * In Wait-Die it certainly gets -EDEADLK from an older context: its own age is that of its begin, since it has no seat that a
 * thread keeps.
 */
static bool dies(const struct task *t, int k)
{
	return w->kind && gives_way(t, k) && (t->of_tasks || w->is_limited);
}

/* Of objects; where it can't wait. */
static void lock_all(struct task *t)
{
	struct ww_mutex *list[3];
	int at[3], count = 1 + (int)draw(3), r;
	bool ends = t->flags & WW_INTERRUPTIBLE && t->cancelled, twice = false, may_wait = false, ignores;

	for (int j = 0; j < count; j++) {
		at[j] = (int)draw(OBJECTS);
		list[j] = object(at[j]);
		twice |= holds(t, at[j]);
		ends |= !may_wait && dies(t, at[j]);
		may_wait |= !holds(t, at[j]) && !is_free(at[j]);
		for (int i = 0; i < j; i++)
			twice |= at[i] == at[j];
	}
	if ((may_wait && !ends && !(t->told && t->count)) || t->first || t->owing != NO_TASK)
		return; /* tests/lock/loop.c has what a loop waits for first */
	CALL(r, t, at[0], ww_mutex_lock_all(t->x, list, (size_t)count));
	ignores = t->flags & WW_IGNORE_DUPLICATES;
	t->slow = false;
	if (t->told && t->count) {
		IS(r == -EINVAL || (r == -EALREADY && holds(t, at[0])) || (holds(t, at[0]) && ignores));
		if (!r)
			for (int j = 0; j < count; j++)
				IS(holds(t, at[j]));
	} else if (may_wait && r) {
		IS(r == -EINTR || (r == -EDEADLK && t->count) || (r == -EALREADY && twice));
		if (r == -EINTR)
			t->cancelled = false;
		if (r == -EDEADLK)
			is_told(t);
	} else {
		IS(r == (twice && !ignores ? -EALREADY : 0));
		t->told &= !!r;
		t->loop |= !r && !t->count;
		for (int j = 0; j < count && !r; j++)
			if (!holds(t, at[j]))
				got(t, at[j]);
	}
}

/* ---- shared mutexes ---- */

/* What a call returned that was to read or write k, and that doesn't wait on; whether it was to get that at once. */
static void shared_result(struct task *t, int k, enum what as, int r, bool polls, bool at_once, bool ignores)
{
	bool has = holds(t, k) || (as == READ && t->has_read[k]);
	bool refused_by_number = as == READ && holds(t, k) && !t->has_read[k] && is_number(k) && !t->loop;
	int again = !refused_by_number && (as == READ || (t->loop && ignores && t->flags & WW_IGNORE_DUPLICATES)) ? 0 : -EALREADY;

	t->slow = false;
	if (t->told && t->count) {
		IS(r == -EINVAL || (has && r == again));
		if (!r && as == READ)
			has_read(t, k);
		return;
	}
	if (as == WRITTEN && has) {
		IS(r == again);
		return;
	}
	if (refused_by_number && r == again) /* once it has its slot */
		return;
	IS(r ? !at_once : !refused_by_number);
	if (r == -EDEADLK) {
		is_told(t);
	} else if (r) {
		waits_no_more(t, r, polls);
		t->told = t->told && ww_is_contended(t->x); /* or it had acquired something on its way */
	} else {
		(as == READ ? has_read : got)(t, k);
		t->told = false;
	}
}

static bool gets_at_once(const struct task *t, int k, enum what as)
{
	return is_to_get(t, k, as) || (as == READ && t->has_read[k]);
}

static int read_until(struct task *t, int k, const struct timespec *until)
{
	int r;

	if (until || draw(2))
		CALL(r, t, k, ww_shared_mutex_lock_shared_until(shared(k), t->x, until));
	else
		CALL(r, t, k, ww_shared_mutex_lock_shared(shared(k), t->x));
	return r;
}

static int write_until(struct task *t, int k, const struct timespec *until)
{
	int r;

	if (until || draw(2))
		CALL(r, t, k, ww_shared_mutex_lock_until(shared(k), t->x, until));
	else
		CALL(r, t, k, ww_shared_mutex_lock(shared(k), t->x));
	return r;
}

/* Without a time, where it won't wait. */
static void shares(struct task *t, int k, enum what as)
{
	bool at_once = gets_at_once(t, k, as);
	const struct timespec *until = draw(2) && (at_once || (t->told && t->count)) ? NULL : &past;

	shared_result(t, k, as, (as == READ ? read_until : write_until)(t, k, until), false, at_once, true);
}

static void tries_to_share(struct task *t, int k, enum what as)
{
	bool may = !(t->told && t->count) && !(as == WRITTEN && holds(t, k)), at_once = gets_at_once(t, k, as) && may;
	int r;

	if (is_number(k))
		return;
	if (as == READ)
		CALL(r, t, k, ww_shared_mutex_trylock_shared(shared(k), t->x));
	else
		CALL(r, t, k, ww_shared_mutex_trylock(shared(k), t->x));
	IS(r == 1 || (r == 0 && !at_once));
	IS(!r || may || (as == READ && (holds(t, k) || t->has_read[k])));
	t->slow = false;
	t->told = t->told && (!may || ww_is_contended(t->x)); /* as above */
	if (!r)
		return;
	(as == READ ? has_read : got)(t, k);
	t->told = t->told && !may;
}

/* A poll, the first one or another one. */
static void poll_shared(struct task *t, int k, enum what as)
{
	bool lent = !rarely(4), at_once;
	struct ww_waker waker = { 0 }, *to = lent ? &waker : NULL;
	int r;

	if (owes_amid_loop(t) && t->told)
		return;
	if (lent)
		waker = lends(t);
	else
		t->waker = NOT_LENT;
	at_once = t->polled == NO_TASK && gets_at_once(t, k, as);
	t->polled = NO_TASK;
	if (as == READ)
		CALL(r, t, k, ww_shared_mutex_lock_shared_poll(shared(k), t->x, to));
	else
		CALL(r, t, k, ww_shared_mutex_lock_poll(shared(k), t->x, to));
	if (r != -EINPROGRESS)
		t->waker = NOT_LENT;
	if (owes_amid_loop(t) && !ww_is_contended(t->x))
		IS(r == -EINVAL);
	else
		shared_result(t, k, as, r, lent, at_once, false);
	if (r == -EINPROGRESS) {
		t->polled = k;
		t->asks = as;
	}
}

/* Whatever it waits for: what came first is said, and what it was to get it hasn't. */
static void ends_wait(struct task *t)
{
	int r;

	CALL(r, t, t->polled, ww_acquire_end_wait(t->x));
	if (t->asks == AWAITED) { /* it may lock any */
		t->contended = NO_TASK;
		t->slow = false;
	}
	t->polled = NO_TASK;
	t->waker = NOT_LENT;
	if (r == -EDEADLK)
		is_told(t);
	else if (r)
		waits_no_more(t, r, true);
	if (t->loop && !r) { /* or it had acquired something on its way */
		t->told = t->told && ww_is_contended(t->x);
		t->first = t->first && t->x->state & WAITS_FIRST;
	}
}

/* In a loop the slot comes to the place of what it is read by from now on, unless it is older. */
static void moves_behind(struct task *t, int k)
{
	int at = 0, slot = 0;

	while (t->held[at] != k)
		at++;
	while (t->held[slot] != SLOT)
		slot++;
	for (; slot > at; slot--)
		t->held[slot] = t->held[slot - 1];
	t->held[slot] = SLOT;
}

/* It stays written where a task that waits for its slot may have to be polled first. */
static void downgrade(struct task *t, int k)
{
	bool writes;

	if (is_number(k) || !holds(t, k))
		return;
	says("ww_shared_mutex_downgrade", t, k);
	ww_shared_mutex_downgrade(shared(k), t->x);
	writes = says_it_holds(t, k);
	IS(!writes || t->told || are_slots_awaited());
	if (!writes) {
		has_read(t, k);
		if (t->loop)
			moves_behind(t, k);
		lost(t, k);
	}
}

/* By hand, with nothing held; or it never collided. */
static void await(struct task *t)
{
	bool is_due = t->slow && !t->count, polls = draw(2), is_slot = t->contended == SLOT;
	int r;

	if (t->loop || !(is_due || t->contended == NO_TASK))
		return;
	if (polls)
		CALL(r, t, t->contended, ww_shared_mutex_await_poll(t->x, NULL));
	else
		CALL(r, t, t->contended, ww_shared_mutex_await(t->x, &past));
	if (!is_due) {
		IS(r == -EINVAL);
		return;
	}
	if (r)
		waits_no_more(t, r, false);
	IS(is_slot || (r ? !is_to_get(t, t->contended, LOCKED) : w->holder[t->contended] == NO_TASK));
	t->slow = r && !polls;
}

static void share(struct task *t)
{
	int k = draw_shared();
	enum what as = draw(5) < 3 ? READ : WRITTEN;

	if (t->first) /* it would have to wait first */
		return;
	switch (draw(11)) {
	case 0: case 1: tries_to_share(t, k, as); break;
	case 2: case 3: case 4: case 5: shares(t, k, as); break;
	case 6: case 7: case 8: poll_shared(t, k, as); break;
	case 9: if (draw(2)) downgrade(t, k); else unlock(t, k); break;
	default: await(t); break;
	}
}

/* ---- contexts that move ---- */

/* Whatever it holds, reads and waits for it knows by number. */
static bool may_move(const struct task *t)
{
	bool may = !t->loop && (t->polled == NO_TASK || is_number(t->polled));

	for (int k = 0; k < NUMBERS; k++)
		may &= !holds(t, k) && !t->has_read[k];
	return may;
}

/* To where another one was; and where it was is nothing any more. */
static void moves(struct task *t)
{
	struct ww_acquire_ctx *to = w->empty;

	if (!may_move(t))
		return;
	says("moves", t, 0);
	*to = *t->x;
	memset(t->x, 0x5a, sizeof *t->x);
	w->empty = t->x;
	t->x = to;
}

/* ---- loops ---- */

static void begin_loop(struct task *t)
{
	if (t->count)
		return;
	says("ww_until_all_locked", t, 0);
	ww_tries_begin_(t->x);
	t->loop = true;
	t->told = t->first = t->slow = false;
	t->owing = NO_TASK;
}

static void goes_round(struct task *t)
{
	if (!t->loop)
		return;
	switch (draw(4)) {
	case 0:
		says("ww_acquire_unlock_all", t, 0);
		ww_acquire_unlock_all(t->x);
		lost_all(t);
		t->first = false;
		break;
	case 1: case 2:
		if (t->told && (t->contended == SLOT || is_shared(t->contended)))
			break; /* for which the next call would wait first */
		says("ww_back_off_", t, 0);
		ww_back_off_(t->x);
		if (t->told) {
			lost_all(t);
			t->first = true;
			t->told = false;
		}
		break;
	default: {
		bool owes = t->owing != NO_TASK && holds(t, t->owing);
		size_t mark = draw((unsigned)(t->count - owes) + 1);

		says("ww_acquire_unlock_to", t, (int)mark);
		ww_acquire_unlock_to(t->x, mark);
		while (mark && t->count > (int)mark + owes)
			lost(t, t->held[t->count - 1]);
		if (!mark) {
			lost_all(t);
			t->first = false;
		}
	}
	}
}

/* ---- contexts ---- */

static void has_begun(struct task *t, bool of_tasks)
{
	t->phase = BEGUN;
	t->age = made;
	t->waker = NOT_LENT;
	t->of_tasks = of_tasks;
	t->seat = of_tasks ? t->x->own : NULL;
	t->is_ended = true;
	t->polled = t->contended = t->owing = NO_TASK;
	t->count = 0;
	t->flags = 0;
	t->told = t->slow = t->cancelled = t->loop = t->first = t->is_done = false;
	t->x->deadlock_inject_countdown = ~0u;
}

static void leaves_queue(const struct task *t)
{
	int left = 0;

	for (int j = 0; j < w->queued; j++)
		if (w->queue[j] != id(t))
			w->queue[left++] = w->queue[j];
	w->queued = left;
}

/* It waits, at this place among those that do. */
static void waits_at(struct task *t, int place)
{
	leaves_queue(t);
	for (int j = w->queued++; j > place; j--)
		w->queue[j] = w->queue[j - 1];
	w->queue[place] = id(t);
	t->place = WAITS;
}

/* How many wait that weren't called. */
static int uncalled(void)
{
	int count = 0;

	while (count < w->queued && w->tasks[w->queue[count]].place != CALLED)
		count++;
	return count;
}

/* Where the library notes until when the task that was called for this seat may come. */
static uint64_t *lease_of_call(const ww_seat *s) { return &w->c.pool->called[s - w->c.pool->tasks.seats]; }

/* The first that wasn't called, if there is one, is to look for a context, at this seat first; another is called for that after a lease. */
static void is_to_look(const ww_seat *s)
{
	struct task *t = first_uncalled();

	if (!t)
		return;
	leaves_queue(t);
	w->queue[w->queued++] = id(t);
	t->place = CALLED;
	t->is_roused = true;
	t->seat = s;
	if (!*lease_of_call(s))
		return; /* it has looked by the same call */
	IS(*lease_of_call(s) >= said_at + LEASE && *lease_of_call(s) <= ww_now() + LEASE);
	*lease_of_call(s) = UINT64_MAX;
}

/* Draws whether the task that was called first is late. */
static bool draw_late(void)
{
	bool is_late = called_for(NULL) && draw(2);

	if (called_for(NULL))
		*lease_of_call(called_for(NULL)->seat) = is_late ? 1 : UINT64_MAX;
	return is_late;
}

/* It leaves the queue with this seat; if it was called for another one, the next task is. */
static void has_got(struct task *t, const ww_seat *seat)
{
	const ww_seat *was_for = t->place == CALLED ? t->seat : NULL;

	t->place = SERVED;
	t->is_roused = true;
	t->was_ended = false;
	t->seat = seat;
	leaves_queue(t);
	if (was_for && was_for != seat)
		is_to_look(was_for);
}

/* The task that was called first hasn't come for a lease.  If another one waits, that is called, and the first waits behind all. */
static void is_passed_on(void)
{
	struct task *t = called_for(NULL);

	if (!first_uncalled())
		return;
	leaves_queue(t);
	is_to_look(t->seat);
	waits_at(t, uncalled());
}

/*
 * A context ended.  In a limited class, or if its seat isn't lent, the one that was called first, or else the first one that waits, is
 * handed the seat.  Else one is called for the seat; if one was called already, and first, and is late, that is passed on.
 */
static void is_given(const ww_seat *seat, bool is_lent, bool is_late)
{
	if (w->queued && !is_lent)
		has_got(called_for(NULL) ? called_for(NULL) : first_uncalled(), seat);
	else if (!called_for(seat))
		is_to_look(seat);
	else if (is_late && called_for(seat) == called_for(NULL))
		is_passed_on();
}

/* Whether a task that comes gets a context: the one that this thread gave last, or any while no task waits that wasn't called. */
static bool is_one_for_a_task(void)
{
	const ww_seat *last = ww_mine.last.id == w->c.pool->tasks.id ? ww_mine.last.seat : NULL;

	return used() < w->contexts && (w->is_limited || !first_uncalled() || (last && !users(last)));
}

/* A first call to begin one; r is what it returns if there is none. */
static void may_begin(struct task *t, int r, int otherwise, bool of_tasks, bool is_one)
{
	IS(r == 0 || r == otherwise);
	if (w->is_limited || of_tasks)
		IS((r == 0) == is_one);
	else
		IS(r == 0); /* threads have many */
	t->is_ended |= r != -EINPROGRESS;
	if (!r)
		has_begun(t, of_tasks && !w->is_limited);
}

/* By the one call or the other, of which a value of zeros suspends nothing. */
static int begins_by_poll(struct task *t, const struct ww_waker *waker)
{
	int r;

	if (draw(2))
		CALL(r, t, 0, ww_acquire_init_poll(t->x, &w->c, &t->seek, waker));
	else
		CALL(r, t, 0, ww_acquire_resume_poll(t->x, &w->c, &t->retry, &t->seek, waker));
	return r;
}

static void begin(struct task *t)
{
	bool is_one = is_one_for_a_task(), is_late = draw_late();
	unsigned way = draw(8);
	struct ww_waker waker;
	int r;

	if (rarely(3)) {
		memset(t->x, 0, sizeof *t->x);
		t->is_ended = true;
	} else if (rarely(3)) {
		memset(t->x, 0x5a, sizeof *t->x);
		t->is_ended = false;
	}
	if (way == 0) {
		CALL(r, t, 0, ww_acquire_init_checked(t->x, &w->c));
		may_begin(t, r, -EAGAIN, false, is_one);
	} else if (way == 1) {
		if (draw(2))
			CALL(r, t, 0, ww_acquire_init_until(t->x, &w->c, &past));
		else
			CALL(r, t, 0, ww_acquire_resume(t->x, &w->c, &t->retry, &past));
		may_begin(t, r, w->is_cancelled ? -EINTR : -ETIMEDOUT, false, is_one);
	} else if (way == 2 && (!w->is_limited || used() < w->contexts)) {
		says("ww_acquire_init", t, 0);
		ww_acquire_init(t->x, &w->c);
		may_begin(t, 0, 0, false, is_one);
	} else if (way == 3) {
		CALL(r, t, 0, ww_acquire_init_poll(t->x, &w->c, NULL, NULL));
		may_begin(t, r, -ETIMEDOUT, true, is_one);
	} else {
		t->seek = (struct ww_seek){ 0 };
		waker = lends(t);
		r = begins_by_poll(t, &waker);
		if (!is_one && is_late && w->queued - uncalled() == w->contexts)
			is_passed_on();
		if (r == -EINPROGRESS) {
			t->phase = SEEKS;
			t->is_roused = false;
			waits_at(t, uncalled());
		}
		may_begin(t, r, w->is_cancelled ? -EINTR : -EINPROGRESS, true, is_one);
	}
}

/*
 * A task polls.  If it wasn't called, a late call is passed on, maybe to this task.  If it was called, it waits before all that do, and
 * looks at the seat for which it was called; at others only if all that waited were called.  Returns whether it finds one.
 */
static bool finds_one(struct task *t, bool is_late)
{
	const ww_seat *was_for;
	bool at_others;

	if (t->place == WAITS && is_late)
		is_passed_on();
	if (t->place != CALLED)
		return t->place == SERVED;
	was_for = t->seat;
	at_others = !first_uncalled();
	waits_at(t, 0);
	if (!users(was_for))
		has_got(t, was_for);
	else if (at_others && used() < w->contexts)
		has_got(t, NULL);
	t->is_roused = false;
	return t->place == SERVED;
}

/* Another poll for a context. */
static void seek_on(struct task *t)
{
	bool lent = !rarely(5), is_late = draw_late();
	const ww_seat *leaves = !lent && t->place == CALLED ? t->seat : NULL, *gets;
	struct ww_waker waker = { 0 };
	int r;

	if (lent)
		waker = lends(t);
	else
		t->waker = NOT_LENT;
	r = begins_by_poll(t, lent ? &waker : NULL);
	t->is_roused = false;
	if (t->place == SERVED && t->was_ended)
		IS(r == -EINTR);
	else
		IS(r == ((lent ? finds_one(t, is_late) : t->place == SERVED) ? 0 : !lent ? -ETIMEDOUT : w->is_cancelled ? -EINTR : -EINPROGRESS));
	if (r == -EINPROGRESS)
		return;
	leaves_queue(t);
	t->waker = NOT_LENT;
	t->phase = ENDED;
	t->is_ended = true;
	if (leaves)
		is_to_look(leaves);
	if (r)
		return;
	gets = t->seat;
	has_begun(t, !w->is_limited);
	IS(!gets || t->x->own == gets);
}

static void end_context(struct task *t)
{
	ww_seat *seat = t->x->own;
	bool is_lent = t->of_tasks && draw(2), is_late = draw_late();
	int r;

	if (t->polled != NO_TASK && t->count)
		return; /* nothing lists what it holds */
	if (t->of_tasks)
		seat->lease = is_lent ? UINT64_MAX : 0;
	if (t->polled != NO_TASK || ((t->loop || !t->count) && rarely(3))) {
		CALL(r, t, 0, ww_acquire_end(t->x));
		IS(!r && ww_acquire_end(t->x) == -EINVAL);
		t->polled = NO_TASK;
		t->waker = NOT_LENT;
		lost_all(t);
	} else if (draw(2) || t->count) {
		CALL(r, t, 0, ww_acquire_fini_checked(t->x));
		IS(r == (t->count ? -EINVAL : 0));
	} else {
		says("ww_acquire_fini", t, 0);
		ww_acquire_fini(t->x);
		r = 0;
	}
	if (r)
		return;
	t->phase = ENDED;
	if (w->is_limited || t->of_tasks)
		is_given(seat, is_lent, is_late);
}

/* ---- contexts that are suspended ---- */

/* A poll that resumes one counts among them. */
static int suspended(void)
{
	int count = 0;

	for (int j = 0; j < TASKS; j++)
		count += w->tasks[j].phase == SUSPENDED || (w->tasks[j].polled != NO_TASK && w->tasks[j].asks == AWAITED);
	return count;
}

static bool is_none(const struct ww_retry *retry)
{
	static const struct ww_retry none;

	return !memcmp(retry, &none, sizeof none);
}

/* What the value named before is dropped, and that may be nothing. */
static void suspends(struct task *t)
{
	int r;

	if (t->of_tasks)
		return;
	if (draw(2))
		t->retry = (struct ww_retry){ 0 };
	CALL(r, t, 0, ww_acquire_suspend(t->x, &t->retry));
	IS(r == (t->polled != NO_TASK ? -EBUSY : t->count ? -EINVAL : suspended() >= (int)seats_of(w->c.pool) / 2 ? -EAGAIN : 0));
	if (r)
		return;
	t->phase = SUSPENDED;
	if (t->is_gone)
		t->contended = NO_TASK;
	t->slow = t->slow && !t->loop && t->contended != SLOT;
	t->cancelled = false;
	t->is_ended = draw(2);
	if (!t->is_ended)
		memset(t->x, 0x5a, sizeof *t->x);
}

/* It goes on as one that has just begun, but with its age; or it waits by a poll. */
static void goes_on(struct task *t, int awaits)
{
	struct task was = *t;

	has_begun(t, false);
	t->age = was.age;
	t->cancelled = was.cancelled;
	if (awaits == NO_TASK)
		return;
	t->waker = was.waker;
	t->slow = was.slow;
	t->contended = t->polled = awaits;
	t->asks = AWAITED;
}

/*
 * What a resume returned.  It doesn't wait if the contended mutex is gone.  If another call came after -EDEADLK, it isn't known whether it
 * is to wait.
 */
static void resumed(struct task *t, const struct ww_retry *was, int r, bool polls)
{
	int k = t->contended;
	bool may_wait = k == SLOT || (k != NO_TASK && !is_free(k)), is_to_wait = t->slow && w->holder[k] != NO_TASK;

	if (was->ticket_)
		t->copy = *was;
	IS(r ? may_wait : !is_to_wait);
	IS(is_none(&t->retry) == (!r || r == -EINPROGRESS));
	IS(is_none(&t->retry) || !t->x->own);
	if (r)
		waits_no_more(t, r, polls);
	if (!r || r == -EINPROGRESS) {
		goes_on(t, r ? k : NO_TASK);
	} else {
		t->phase = SUSPENDED;
		t->waker = NOT_LENT;
	}
}

static void resume(struct task *t)
{
	const struct ww_retry was = t->retry;
	int r;

	if (rarely(4)) {
		ww_retry_at_once(&t->retry);
		t->contended = NO_TASK;
		t->slow = false;
	}
	CALL(r, t, t->contended, ww_acquire_resume(t->x, &w->c, &t->retry, t->contended == NO_TASK && draw(2) ? NULL : &past));
	resumed(t, &was, r, false);
}

/* A poll, the first one or another one. Which mutex a slot is of isn't known here, so for one it doesn't wait. */
static void resume_poll(struct task *t)
{
	const struct ww_retry was = t->retry;
	bool lent = t->contended != SLOT && !rarely(4), seeks = t->polled != NO_TASK || lent || draw(2);
	struct ww_waker waker = { 0 };
	int r;

	if (lent)
		waker = lends(t);
	if (t->polled == NO_TASK)
		t->seek = (struct ww_seek){ 0 };
	t->polled = NO_TASK;
	CALL(r, t, t->contended, ww_acquire_resume_poll(t->x, &w->c, &t->retry, seeks ? &t->seek : NULL, lent ? &waker : NULL));
	resumed(t, &was, r, lent);
}

static void drop(struct task *t)
{
	ww_seat *seat = &w->c.pool->seats[t->retry.seat_];
	bool is_late = draw_late();
	int r;

	t->copy = t->retry;
	CALL(r, t, 0, ww_retry_drop(&t->retry));
	IS(!r && is_none(&t->retry) && !ww_retry_drop(&t->retry));
	t->phase = ENDED;
	if (w->is_limited)
		is_given(seat, false, is_late);
}

/* A copy of a value that was resumed or dropped; or the other class, to whose contexts the value doesn't belong. */
static void of_no_use(struct task *t)
{
	bool of_others = t->phase == SUSPENDED && draw(2);
	struct ww_class *c = of_others ? &worlds[w == worlds].c : &w->c;
	struct ww_retry value = of_others ? t->retry : t->copy, was = value;
	struct ww_acquire_ctx x = { 0 };
	struct ww_seek me = { 0 };
	int r;

	if (!value.ticket_)
		return;
	if (draw(3))
		CALL(r, t, 0, ww_acquire_resume(&x, c, &value, NULL));
	else if (draw(2) || of_others)
		CALL(r, t, 0, ww_acquire_resume_poll(&x, c, &value, draw(2) ? &me : NULL, NULL));
	else
		CALL(r, t, 0, ww_retry_drop(&value));
	IS(r == -EINVAL && !memcmp(&value, &was, sizeof was) && !x.own);
}

static int destroy(int k)
{
	int r;

	if (is_number(k)) {
		if (!waiters(k) && !is_shared(k))
			IS(ww_mutex_is_locked(object(k)) == (w->holder[k] != NO_TASK));
		CALL(r, NULL, k, ww_number_put(w->numbers[k], &w->c));
	} else if (is_object(k)) {
		CALL(r, NULL, k, ww_mutex_destroy(object(k)));
	} else {
		CALL(r, NULL, k, ww_shared_mutex_destroy(shared(k)));
	}
	return r;
}

/* ---- calls that are refused, and change nothing ---- */

static void amid_a_wait(struct task *t)
{
	int k = (int)draw(OBJECTS), n = NUMBERS + (int)draw(SHARED_NUMBERS - NUMBERS), r;
	int s = OBJECTS + (int)draw(NUMBERS - OBJECTS);
	struct ww_mutex *list[2] = { object(k), object((k + 1) % OBJECTS) };

	switch (draw(28)) {
	case 0: CALL(r, t, k, ww_mutex_lock(object(k), t->x)); break;
	case 1: CALL(r, t, k, lock_of(object(k), t->x)); break;
	case 2: CALL(r, t, k, ww_mutex_lock_until(object(k), t->x, &past)); break;
	case 3: CALL(r, t, k, ww_mutex_lock_interruptible(object(k), t->x)); break;
	case 4: CALL(r, t, k, ww_mutex_lock_slow_checked(object(k), t->x)); break;
	case 5: CALL(r, t, n, ww_number_lock(w->numbers[n], t->x)); break;
	case 6: CALL(r, t, n, ww_mutex_lock_until(object(n), t->x, &past)); break;
	case 7: case 8:
		k = draw(2) ? k : n;
		if (k == t->polled && t->asks == LOCKED)
			return;
		CALL(r, t, k, ww_mutex_lock_poll(object(k), t->x, draw(2) ? &refused : NULL));
		break;
	case 9: case 10:
		if (!t->count)
			return;
		k = t->held[draw((unsigned)t->count)];
		if (k == SLOT || (is_shared(k) && !is_number(k)))
			return;
		if (is_object(k))
			CALL(r, t, k, ww_mutex_unlock_checked(object(k)));
		else
			CALL(r, t, k, ww_number_unlock(w->numbers[k], t->x));
		break;
	case 11: CALL(r, t, 0, ww_acquire_fini_checked(t->x)); break;
	case 12: CALL(r, t, 0, ww_acquire_done_checked(t->x)); break;
	case 13: case 14: CALL(r, t, k, ww_mutex_lock_all(t->x, list, 1 + draw(2))); break;
	case 15: CALL(r, t, k, ww_mutex_trylock(object(k), t->x) ? 1 : -EBUSY); break;
	case 16: CALL(r, t, k, trylock_of(object(k), t->x) ? 1 : -EBUSY); break;
	case 17: CALL(r, t, n, ww_number_trylock(w->numbers[n], t->x) ? 1 : -EBUSY); break;
	case 18: r = destroy(t->polled); break;
	case 19: CALL(r, t, s, ww_shared_mutex_lock_shared(shared(s), t->x)); break;
	case 20: CALL(r, t, s, ww_shared_mutex_lock(shared(s), t->x)); break;
	case 21: CALL(r, t, s, ww_shared_mutex_trylock_shared(shared(s), t->x) ? 1 : -EBUSY); break;
	case 22: CALL(r, t, s, ww_shared_mutex_unlock(shared(s), t->x)); break;
	case 23: CALL(r, t, s, ww_shared_mutex_await(t->x, &past)); break;
	case 24: CALL(r, t, s, ww_shared_mutex_await_poll(t->x, NULL)); break;
	case 25:
		if (t->polled == s && t->asks == READ)
			CALL(r, t, s, ww_shared_mutex_lock_poll(shared(s), t->x, draw(2) ? &refused : NULL));
		else if (t->polled == s && t->asks == WRITTEN)
			CALL(r, t, s, ww_shared_mutex_lock_shared_poll(shared(s), t->x, draw(2) ? &refused : NULL));
		else
			CALL(r, t, s, ww_shared_mutex_lock_shared_poll(shared(s), t->x, &refused));
		break;
	case 26: CALL(r, t, 0, ww_acquire_suspend(t->x, &t->copy)); break;
	default: CALL(r, t, 0, ww_class_free(&w->c)); break;
	}
	IS(r == -EBUSY || (t->is_done && r == -EINVAL));
}

/* It has ended, or none was begun in this memory. */
static void with_none(struct task *t)
{
	int k = (int)draw(OBJECTS), n = NUMBERS + (int)draw(SHARED_NUMBERS - NUMBERS), r;
	int s = OBJECTS + (int)draw(NUMBERS - OBJECTS);
	struct ww_mutex *list[2] = { object(k), object((k + 1) % OBJECTS) };

	if (!t->is_ended)
		return;
	switch (draw(22)) {
	case 0: CALL(r, t, k, ww_mutex_lock(object(k), t->x)); break;
	case 1: CALL(r, t, k, lock_of(object(k), t->x)); break;
	case 2: CALL(r, t, k, ww_mutex_lock_until(object(k), t->x, &past)); break;
	case 3: CALL(r, t, k, ww_mutex_trylock_checked(object(k), t->x)); break;
	case 4: CALL(r, t, k, ww_mutex_lock_slow_checked(object(k), t->x)); break;
	case 5: CALL(r, t, n, ww_number_lock(w->numbers[n], t->x)); break;
	case 6: CALL(r, t, n, ww_mutex_lock_until(object(n), t->x, &past)); break;
	case 7: CALL(r, t, n, ww_number_unlock(w->numbers[n], t->x)); break;
	case 8: CALL(r, t, k, ww_mutex_lock_poll(object(k), t->x, draw(2) ? &refused : NULL)); break;
	case 9: CALL(r, t, n, ww_mutex_lock_poll(object(n), t->x, draw(2) ? &refused : NULL)); break;
	case 10: CALL(r, t, 0, ww_acquire_fini_checked(t->x)); break;
	case 11: CALL(r, t, 0, ww_acquire_done_checked(t->x)); break;
	case 12: CALL(r, t, k, ww_mutex_lock_all(t->x, list, 1 + draw(2))); break;
	case 13: CALL(r, t, 0, ww_acquire_cancel(t->x)); break;
	case 14: CALL(r, t, n, ww_number_trylock(w->numbers[n], t->x) ? 1 : -EINVAL); break;
	case 15: CALL(r, t, s, ww_shared_mutex_lock_shared(shared(s), t->x)); break;
	case 16: CALL(r, t, s, ww_shared_mutex_lock_until(shared(s), t->x, &past)); break;
	case 17: CALL(r, t, s, ww_shared_mutex_lock_poll(shared(s), t->x, draw(2) ? &refused : NULL)); break;
	case 18: CALL(r, t, s, ww_shared_mutex_lock_shared_poll(shared(s), t->x, draw(2) ? &refused : NULL)); break;
	case 19: CALL(r, t, 0, ww_acquire_end(t->x)); break;
	case 20: CALL(r, t, 0, ww_acquire_suspend(t->x, &t->copy)); break;
	default: CALL(r, t, 0, ww_poll_take_back(t->x, NULL) ? 1 : -EINVAL); break;
	}
	IS(r == -EINVAL);
}

/* A mutex of the other class, and numbers that aren't. */
static void of_others(struct task *t)
{
	struct world *other = &worlds[w == worlds];
	struct ww_mutex *m = &other->objects[draw(OBJECTS)];
	struct ww_shared_mutex *one = &other->shared[OBJECTS + draw(NUMBERS - OBJECTS)], anew = WW_SHARED_MUTEX_INIT(&w->c);
	int r;

	switch (draw(9)) {
	case 0: CALL(r, t, 0, ww_mutex_lock(m, t->x)); break;
	case 1: CALL(r, t, 0, ww_mutex_trylock_checked(m, t->x)); break;
	case 2: CALL(r, t, 0, ww_mutex_lock_poll(m, t->x, &refused)); break;
	case 3: CALL(r, t, 0, ww_mutex_lock_all(t->x, &m, 1)); break;
	case 4: CALL(r, t, 0, ww_shared_mutex_lock_shared(one, t->x)); break;
	case 5: CALL(r, t, 0, ww_shared_mutex_unlock(one, t->x)); break;
	case 6: CALL(r, t, 0, ww_shared_mutex_unlock(&anew, t->x)); break;
	case 7:
		CALL(r, t, 0, ww_shared_mutex_is_read_by(one, t->x) || ww_shared_mutex_is_read_by(&anew, t->x) ? 0 : -EINVAL);
		IS(!ww_number_at(77777, &w->c));
		break;
	default: CALL(r, t, 0, ww_number_unlock(77777, t->x)); break;
	}
	IS(r == -EINVAL);
	t->slow = false;
}

/* ---- other calls ---- */

/* Without a context it uses one all the same. */
static void alone(int k)
{
	bool may = !w->is_limited || used() < w->contexts, locks = draw(2);
	int r;

	if (w->holder[k] == ALONE) {
		CALL(r, NULL, k, ww_mutex_unlock_checked(object(k)));
		IS(!r);
		w->holder[k] = NO_TASK;
		if (w->is_limited)
			is_given(NULL, false, false);
		return;
	}
	if (locks)
		CALL(r, NULL, k, ww_mutex_lock_until(object(k), NULL, &past) ? 0 : 1);
	else
		CALL(r, NULL, k, ww_mutex_trylock(object(k), NULL));
	IS(r == (may && is_free(k)) || (r && may && locks && w->holder[k] == NO_TASK));
	if (r)
		w->holder[k] = ALONE;
}

static void comes_anew(int k)
{
	int r = destroy(k);

	IS(r == (is_free(k) ? 0 : -EBUSY));
	if (r)
		return;
	if (is_number(k)) {
		CALL(r, NULL, k, ww_number_take(&w->numbers[k], &w->c));
	} else if (is_object(k)) {
		memset(object(k), draw(2) ? 0 : 0x5a, sizeof *object(k));
		CALL(r, NULL, k, ww_mutex_init_checked(object(k), &w->c));
	} else {
		memset(shared(k), draw(2) ? 0 : 0x5a, sizeof *shared(k));
		CALL(r, NULL, k, ww_shared_mutex_init_checked(shared(k), &w->c));
	}
	IS(!r);
	for (int j = 0; j < TASKS; j++)
		if (w->tasks[j].contended == k) { /* it may not wait for what was destroyed */
			w->tasks[j].slow = false;
			w->tasks[j].is_gone = true;
			if (w->tasks[j].phase == SUSPENDED) /* nor does it */
				w->tasks[j].contended = NO_TASK;
			if (w->tasks[j].first && w->tasks[j].phase == BEGUN) {
				ww_acquire_unlock_all(w->tasks[j].x);
				w->tasks[j].first = false;
			}
		}
}

static bool is_contended_by_others(int k)
{
	for (int j = 0; j < TASKS; j++)
		if (w->tasks[j].phase == BEGUN && w->tasks[j].loop && w->tasks[j].contended == k)
			return true;
	return false;
}

static void cancel(struct task *t)
{
	bool lent = t->polled != NO_TASK && t->waker == LENT;
	int r;

	CALL(r, t, 0, ww_acquire_cancel(t->x));
	IS(r == (t->cancelled ? -EALREADY : 0) || w->is_cancelled);
	t->cancelled = true;
	IS(!lent || t->waker == WAS_CALLED);
}

/* For good: each that waits is called, but those that look by themselves. */
static void cancel_class(void)
{
	bool lent[TASKS];
	int r;

	for (int j = 0; j < TASKS; j++) {
		const struct task *t = &w->tasks[j];

		lent[j] = t->waker == LENT && (t->polled != NO_TASK || (t->phase == SEEKS && t->place == WAITS));
	}
	CALL(r, NULL, 0, ww_class_cancel(&w->c));
	IS(!r);
	w->is_cancelled = true;
	for (int j = 0; j < TASKS; j++) {
		struct task *t = &w->tasks[j];

		IS(!lent[j] || t->waker == WAS_CALLED);
		if (t->phase != SEEKS || t->place != WAITS)
			continue;
		leaves_queue(t);
		t->place = SERVED;
		t->is_roused = t->was_ended = true;
	}
}

static void sets(struct task *t)
{
	int r;

	if (draw(2)) {
		t->flags = draw(8);
		says("ww_acquire_flags", t, (int)t->flags);
		ww_acquire_flags(t->x, t->flags);
	} else {
		CALL(r, t, 0, ww_acquire_done_checked(t->x));
		IS(r == (t->is_done ? -EINVAL : 0));
		t->is_done = true;
	}
}

static void unlock_all(struct task *t)
{
	if (!t->loop && t->count)
		return; /* tests/lock/ends.c */
	says("ww_acquire_unlock_all", t, 0);
	ww_acquire_unlock_all(t->x);
	lost_all(t);
	t->first = false;
}

static void polls_on(struct task *t)
{
	if (t->asks == AWAITED)
		resume_poll(t);
	else if (is_shared(t->polled))
		poll_shared(t, t->polled, t->asks);
	else
		poll(t, t->polled);
}

static void step(void)
{
	struct task *t = &w->tasks[draw(TASKS)];
	int k = draw_exclusive(), any = (int)draw(LOCKS);

	if (rarely(12)) {
		alone(k);
	} else if (rarely(40) && !is_contended_by_others(any)) {
		comes_anew(any);
	} else if (t->phase == BEGUN && rarely(6)) {
		moves(t);
	} else if (t->phase == ENDED) {
		if (rarely(3))
			with_none(t);
		else
			begin(t);
	} else if (t->phase == SEEKS) {
		if (rarely(4))
			takes_back(t);
		else if (rarely(4))
			with_none(t);
		else if (t->place == CALLED ? rarely(12) : t->waker == WAS_CALLED || rarely(3)) /* a called one's loop is busy */
			seek_on(t);
	} else if (rarely(24)) {
		of_no_use(t);
	} else if (t->phase == SUSPENDED) {
		switch (draw(8)) {
		case 0: with_none(t); break;
		case 1: drop(t); break;
		case 2: case 3: resume(t); break;
		case 4: case 5: case 6: resume_poll(t); break;
		default: break;
		}
	} else if (t->polled != NO_TASK) {
		switch (draw(8)) {
		case 0: case 1: amid_a_wait(t); break;
		case 2: takes_back(t); break;
		case 3: if (rarely(3)) cancel(t); else if (rarely(3)) ends_wait(t); else if (rarely(3)) end_context(t); break;
		default: if (t->waker != LENT || rarely(3)) polls_on(t); break;
		}
	} else if (t->loop && t->told && draw(2)) {
		goes_round(t);
	} else if ((t->told || t->slow) && !t->count && draw(2)) {
		suspends(t);
	} else if (t->first && draw(2)) {
		lock_until(t, k);
	} else if (t->owing != NO_TASK && rarely(4)) {
		unlock(t, t->owing);
	} else if (draw(3) == 0) {
		share(t);
	} else {
		switch (draw(24)) {
		case 0: case 1: trylock(t, k); break;
		case 2: case 3: lock_until(t, k); break;
		case 4: case 5: lock(t, k); break;
		case 6: case 7: case 8: case 9: poll(t, k); break;
		case 10: lock_all(t); break;
		case 11: lock_slow(t, t->contended == NO_TASK ? k : t->contended); break;
		case 12: case 13: case 14: case 15: unlock(t, t->count ? t->held[draw((unsigned)t->count)] : k); break;
		case 16: unlock(t, k); break;
		case 17: begin_loop(t); break;
		case 18: if (rarely(2)) goes_round(t); break;
		case 19: if (rarely(4)) cancel(t); break;
		case 20: if (rarely(2)) sets(t); else suspends(t); break;
		case 21: if (rarely(2)) of_others(t); else unlock_all(t); break;
		default: end_context(t); break;
		}
	}
}

/* ---- classes ---- */

/* Those that were called look, the others end: so all get on, and nothing is left. */
static bool gets_on(struct task *t)
{
	if (t->phase == ENDED || ((t->phase == SEEKS || t->polled != NO_TASK) && t->waker == LENT))
		return false;
	if (t->phase == SEEKS) {
		seek_on(t);
	} else if (t->phase == SUSPENDED) {
		drop(t);
	} else if (t->polled != NO_TASK) {
		polls_on(t);
	} else if (t->count) {
		while (t->count)
			unlock(t, t->held[t->count - 1]);
	} else {
		end_context(t);
	}
	all_is_so();
	return true;
}

static bool all_ended(void)
{
	for (int j = 0; j < TASKS; j++)
		if (w->tasks[j].phase != ENDED)
			return false;
	return true;
}

static void close_world(void)
{
	int r;

	for (int k = 0; k < LOCKS; k++)
		if (w->holder[k] == ALONE)
			alone(k);
	while (!all_ended()) {
		bool any = false;

		for (int j = 0; j < TASKS; j++)
			any |= gets_on(&w->tasks[j]);
		IS(any);
	}
	for (int k = 0; k < LOCKS; k++)
		IS(!destroy(k));
	while (w->spare)
		IS(!ww_number_put(w->spares[--w->spare], &w->c));
	CALL(r, NULL, 0, ww_class_free(&w->c));
	IS(!r);
}

/* How many contexts tasks have is found out by beginning them, and stays so: nobody measures. */
static int contexts_of_tasks(void)
{
	struct ww_acquire_ctx all[64];
	int count = 0;

	w->c.pool->tasks.due = UINT64_MAX;
	while (count < 64 && !ww_acquire_init_poll(&all[count], &w->c, NULL, NULL))
		count++;
	for (int k = 0; k < count; k++)
		ww_acquire_fini(&all[k]);
	return count;
}

static void open_world(void)
{
	w->kind = draw(2);
	w->is_limited = w != worlds;
	w->is_cancelled = false;
	w->queued = 0;
	ww_class_init(&w->c, (int)w->kind, "drawn");
	if (w->is_limited)
		w->contexts = 1 + (int)draw(4);
	/* There is room for the slots, too. */
	/* No crowd: when one begins goes by the clock. */
	IS(!ww_class_limit(&w->c, LOCKS + SPARES + 80 + draw(64), w->is_limited ? (uint32_t)w->contexts : 0));
	IS(!ww_class_crowd(&w->c, WW_NO_CROWD) && !ww_class_open(&w->c));
	for (w->spare = 0; w->spare < SPARES && !rarely(SPARES); w->spare++)
		IS(!ww_number_take(&w->spares[w->spare], &w->c));
	for (int k = 0; k < LOCKS; k++) {
		w->holder[k] = NO_TASK;
		if (is_object(k))
			ww_mutex_init(object(k), &w->c);
		else if (is_number(k))
			IS(!ww_number_take(&w->numbers[k], &w->c));
		else
			ww_shared_mutex_init(shared(k), &w->c);
	}
	memset(w->tasks, 0, sizeof w->tasks);
	memset(w->places, 0, sizeof w->places);
	w->empty = &w->places[TASKS];
	for (int j = 0; j < TASKS; j++) {
		w->tasks[j].x = &w->places[j];
		w->tasks[j].polled = w->tasks[j].contended = w->tasks[j].owing = NO_TASK;
		w->tasks[j].is_ended = true;
	}
	if (!w->is_limited)
		w->contexts = contexts_of_tasks();
	IS(w->contexts);
}

static double seconds(void)
{
	struct timespec now;

	clock_gettime(CLOCK_MONOTONIC, &now);
	return (double)now.tv_sec + 1e-9 * (double)now.tv_nsec;
}

int main(int count, char **words)
{
	int last = count > 1 ? atoi(words[1]) : 10;
	double from = seconds();
	cpu_set_t one;

	seed = count > 2 ? (unsigned)strtoul(words[2], NULL, 10) : (unsigned)(from * 1e6) ^ (unsigned)getpid();
	state = seed;
	signal(SIGSEGV, on_signal);
	signal(SIGABRT, on_signal);
	signal(SIGTERM, on_signal); /* by which the limit of time ends it */
	CPU_ZERO(&one); /* so tasks have few contexts */
	CPU_SET((size_t)sched_getcpu(), &one);
	MUST(!sched_setaffinity(0, sizeof one, &one));
	do {
		for (w = worlds; w < worlds + WORLDS; w++)
			open_world();
		for (int k = 0; k < STEPS; k++) {
			w = &worlds[draw(WORLDS)];
			step();
			all_is_so();
			if (k == LATE && draw(2))
				cancel_class();
		}
		for (w = worlds; w < worlds + WORLDS; w++)
			close_world();
	} while (seconds() - from < last);
	puts("drawn_calls: as the model says");
	return 0;
}
