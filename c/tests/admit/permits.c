/*
 * Each sentence and line at the head of crowd.c, by a crowd that is set by hand.
 *
 * What happens while this thread waits for a permit it does itself, in place of the sleep (`asleep`).  So neither a
 * load nor the time decides what comes.
 */
#include "../crowd.h"
#include <limits.h>
#include <linux/futex.h>
#include <stdarg.h>
#include <sys/resource.h>
#include <sys/syscall.h>
#include <sys/wait.h>

/* As in crowd.c, in nanoseconds; and longer than this test may take. */
_Static_assert(LEASE == 1000000, "a permit lasts a millisecond, as the headers say of it, and of contexts of tasks");
enum { TIMER_SLACK = 50000, GRACE = 16000000, REST = 16000000, LONGEST_REST = 512000000, MEETING = 1000, AWAKE = 2, MOST_BEGINS = 16 };
#define FAR ((uint64_t)1 << 50)

static struct ww_class c, other;

static uint64_t nanoseconds(const struct timespec *at) { return (uint64_t)at->tv_sec * 1000000000 + (uint64_t)at->tv_nsec; }

/* ---- what comes in place of a sleep ---- */

static __thread void (*asleep)(void); /* without it the thread sleeps */
static __thread unsigned slept;	      /* how often it did, or would have */
static __thread uint64_t looks;	      /* until when */
static unsigned called;		      /* how many were woken at most, since one slept last; */
static unsigned calls_in_all;	      /* and how often some were, ever */
static const uint32_t *is_called, *sleeps_on; /* who was called last; and who seems to sleep, of those that others[] stands for */
static bool was_called, goes_on;      /* who slept last was called meanwhile; it would have been woken, or not have slept */

/* In place of other threads that wait. */
static struct ww_turn others[60000], *last_of_others = others;

/* Whether a thread that waits for a permit of c sleeps on this word. */
static bool is_turn(const uint32_t *word)
{
	const struct ww_turn *it = c.pool->crowd.first;

	if (word >= &others->is_called && word < (const uint32_t *)last_of_others)
		return true;
	while (it && &it->is_called != word)
		it = it == others ? last_of_others[-1].next : it->next; /* others stand behind one another */
	return it;
}

long __real_syscall(long number, ...);
long __wrap_syscall(long number, ...);
long __wrap_syscall(long number, ...)
{
	va_list list;
	uint32_t *word, is;
	int command;
	const struct timespec *until;
	bool is_entry, wakes;

	va_start(list, number);
	word = va_arg(list, uint32_t *);
	command = va_arg(list, int);
	is = va_arg(list, uint32_t);
	until = va_arg(list, const struct timespec *);
	va_end(list);
	is_entry = c.pool && is_turn(word);
	wakes = (command & FUTEX_CMD_MASK) == FUTEX_WAKE;
	if (is_entry && wakes) {
		called += is;
		calls_in_all++;
		is_called = word;
		if (word == sleeps_on)
			return 1;
	}
	if (!is_entry || wakes)
		return __real_syscall(number, word, command, is, until, NULL, FUTEX_BITSET_MATCH_ANY);
	slept++;
	looks = nanoseconds(until);
	called = 0;
	if (!asleep)
		return __real_syscall(number, word, command, is, until, NULL, FUTEX_BITSET_MATCH_ANY);
	asleep();
	was_called = __atomic_load_n(word, __ATOMIC_RELAXED) != is;
	goes_on = was_called && called;
	return 0;
}

/* What happens before this thread locks the queue of c, once, as if another thread came first. */
static __thread void (*before_lock)(void);
int __real_pthread_mutex_lock(pthread_mutex_t *lock);
int __wrap_pthread_mutex_lock(pthread_mutex_t *lock);
int __wrap_pthread_mutex_lock(pthread_mutex_t *lock)
{
	void (*what)(void) = before_lock;

	if (what && lock == &c.pool->queue) {
		before_lock = NULL;
		what();
	}
	return __real_pthread_mutex_lock(lock);
}

/* The library's clock, where it stands still. */
static struct timespec stands_at;
int __real_clock_gettime(clockid_t id, struct timespec *is);
int __wrap_clock_gettime(clockid_t id, struct timespec *is);
int __wrap_clock_gettime(clockid_t id, struct timespec *is)
{
	if (!stands_at.tv_sec)
		return __real_clock_gettime(id, is);
	*is = stands_at;
	return 0;
}
static void stands(void) { MUST(!__real_clock_gettime(CLOCK_MONOTONIC, &stands_at)); }
static void goes_by(uint64_t time)
{
	uint64_t now = nanoseconds(&stands_at) + time;

	stands_at = (struct timespec){ (time_t)(now / 1000000000), (long)(now % 1000000000) };
}

/* ---- what is set by hand ---- */

static void opens(struct ww_class *of, uint32_t permits)
{
	ww_class_init(of, 0, "crowded");
	MUST(!ww_class_open(of));
	if (permits)
		crowds(of, permits);
	is_awake();
	asleep = NULL;
	ww_mine.permit = (struct ww_my_permit){ 0 };
}

/* Whoever has it, its lease is over then, or it was put back. */
static void ends_at(unsigned permit, uint64_t at) { c.pool->crowd.permits[permit] = (struct ww_permit){ .ends = at }; }
static void all_end(void)
{
	for (unsigned k = 0; k < MANY_PERMITS; k++)
		ends_at(k, 0);
}

/* So many wait, before whoever comes next; and so many no longer do. */
static void come(uint32_t many)
{
	struct ww_crowd *crowd = &c.pool->crowd;

	crowd->sought += many;
	crowd->waiting += many;
	for (; many; many--, last_of_others++) {
		*last_of_others = (struct ww_turn){ .link = crowd->end };
		*crowd->end = last_of_others;
		crowd->end = &last_of_others->next;
	}
}
static void go(uint32_t many)
{
	struct ww_crowd *crowd = &c.pool->crowd;
	struct ww_turn *first = last_of_others - many, *last = last_of_others - 1;

	crowd->waiting -= many;
	last_of_others -= many;
	if (many) {
		*first->link = last->next;
		*(last->next ? &last->next->link : &crowd->end) = first->link;
	}
}

/* This thread's lease is over. */
static void lease_ends(void)
{
	ww_mine.permit.it->ends = ww_mine.permit.ends = ww_now();
	ww_mine.permit.begins = 0;
	ww_mine.permit.waited = FAR; /* so its contexts aren't long */
}

static void *begins(void *x)
{
	ww_mine.awake = -1; /* it slept elsewhere, so it needs no permit */
	MUST(!ww_acquire_init_checked(x, &c));
	return NULL;
}

static void begins_and_ends(struct ww_class *of)
{
	struct ww_acquire_ctx x;

	ww_acquire_init(&x, of);
	ww_acquire_fini(&x);
}

/* How often a thread that is awake would have slept until it began a context of c. */
static unsigned sleeps(void)
{
	slept = 0;
	is_awake();
	begins_and_ends(&c);
	return slept;
}

/* It has a permit, of its class; this one. */
static bool has(unsigned permit)
{
	return ww_mine.permit.id == c.pool->id && ww_mine.permit.it == &c.pool->crowd.permits[permit] &&
	       ww_mine.permit.ends == c.pool->crowd.permits[permit].ends;
}
static bool has_one(void) { return ww_mine.permit.id == c.pool->id && ww_mine.permit.ends; }

/* When this thread took its permit. */
static uint64_t taken(void) { return ww_mine.permit.taken; }
/* How long it lasts, as in these crowds no rate is known. */
enum { LASTS = LEASE / 8 };

/* ---- over: taken by who comes, if nobody waits, or by whose turn it is ---- */

static void each_is_taken(void)
{
	enum { PERMITS = 5 };

	opens(&c, PERMITS);
	for (unsigned k = 0; k < PERMITS; k++) {
		ww_mine.permit = (struct ww_my_permit){ 0 }; /* as another thread */
		ends_at(k, 0);
		MUST(!sleeps() && has(k) && !permit_waits(&c));
		ends_at(k, ww_now() + FAR);
	}
	ww_mine.permit = (struct ww_my_permit){ 0 };
	ends_at(PERMITS, 0); /* that is none */
	asleep = all_end;
	MUST(sleeps() == 1 && has(0) && permit_waits(&c) == 1 && !waiting_threads(c.pool) && !ww_class_free(&c));
}

static void is_free_then(void)
{
	MUST(!ww_mine.permit.ends && waiting_threads(c.pool) == 2 && ww_class_free(&c) == -EBUSY);
	ends_at(0, 0);
}

/* Who comes waits though a permit is over, if others wait; it counts as one that does. */
static void none_is_passed(void)
{
	opens(&c, 1);
	come(1);
	asleep = is_free_then;
	MUST(sleeps() == 1 && has(0) && permit_waits(&c) == 2); /* of which it isn't one */
	go(1);
	MUST(!ww_class_free(&c));
}

/* When each looks: by its place, and when the first permit should be over; soon, if that should be so already. */
static void looks_in_turn(void)
{
	enum { PERMITS = 3 };
	static const uint64_t ahead[] = { 0, LASTS * 3 / 4, LASTS, FAR };

	opens(&c, PERMITS);
	for (uint32_t place = 0; place <= 60000; place = place ? place * 10 : 6)
		for (unsigned k = place ? 0 : 2; k < sizeof ahead / sizeof *ahead; k++) {
			uint64_t before = ww_now(), first = before + ahead[k], least, most;
			unsigned looked;

			ww_mine.permit = (struct ww_my_permit){ 0 };
			ends_at(0, before + FAR);
			ends_at(1, first);
			ends_at(2, before + FAR);
			come(place);
			sleeps_on = &others->is_called;
			asleep = all_end;
			looked = sleeps();
			sleeps_on = NULL;
			go(place);
			if (!looked && ww_now() + TIMER_SLACK >= first) {
				k--; /* that came before this thread looked: once more */
				continue;
			}
			MUST(looked == 1 && has(0));
			/* From when this thread came until it took the permit, for which it waited. */
			least = before + (ahead[k] < LASTS ? LEASE / 16 : LASTS - TIMER_SLACK);
			least = ahead[k] < LASTS && least < first - TIMER_SLACK ? first - TIMER_SLACK : least;
			most = taken() + (ahead[k] < LASTS ? LEASE / 16 : LASTS - TIMER_SLACK);
			most = ahead[k] < LASTS && most < first - TIMER_SLACK ? first - TIMER_SLACK : most;
			MUST(looks >= least + (uint64_t)LASTS * place / PERMITS && looks <= most + (uint64_t)LASTS * place / PERMITS);
		}
	MUST(!ww_class_free(&c));
}

/* Those before it ended their waits. */
static void next_in_turn(void)
{
	uint64_t soon = ww_now() + LASTS;

	MUST(looks > soon + 4 * LASTS - TIMER_SLACK);
	go(5);
	asleep = all_end;
}
static void moves_up(void)
{
	opens(&c, 1);
	ends_at(0, ww_now() + FAR);
	come(5);
	asleep = next_in_turn;
	MUST(sleeps() == 2 && looks <= taken() + LASTS - TIMER_SLACK && has(0) && !ww_class_free(&c));
}

/* ---- taken: for many contexts, until its lease is over; then it is put back ---- */

/* Each context is counted.  While no time passes the permit stays the same, and it is another one once its lease is over. */
static void for_many_contexts(void)
{
	uint64_t begun, first;

	stands();
	opens(&c, 1);
	begun = c.pool->crowd.begun;
	MUST(!sleeps());
	first = taken();
	for (unsigned k = 2; k < 1000; k++) {
		is_awake();
		begins_and_ends(&c);
		MUST(c.pool->crowd.begun + ww_mine.permit.begun - ww_mine.permit.reported == begun + k && !permit_waits(&c) && has(0));
		MUST(taken() == first && ww_mine.permit.begun == k);
	}
	ww_mine.permit.begins = 0;
	goes_by(LASTS);
	MUST(!sleeps() && has(0) && taken() == first + LASTS && ww_mine.permit.begun == 1);
	stands_at.tv_sec = 0;
	MUST(!ww_class_free(&c));
}

/* The next contexts begin without a look at the clock if those since the last look took less than a sixteenth of a lease together. */
static void looks_at_the_clock(void)
{
	stands();
	opens(&c, 1);
	MUST(!sleeps() && has(0));
	for (unsigned k = 0; k < 6; k++) {
		ww_mine.permit.ends = ww_mine.permit.it->ends = ww_now() + FAR;
		ww_mine.permit.begins = 0;
		goes_by(k % 2 ? LASTS / 16 : LASTS / 16 - 1);
		MUST(!sleeps() && ww_mine.permit.seen == ww_now() && ww_mine.permit.begins == (k % 2 ? 0 : MOST_BEGINS));
	}
	stands_at.tv_sec = 0;
	MUST(!ww_class_free(&c));
}

/* For how long: where each thread has a processor, for an eighth of a lease until a rate is known and while another width is tried. */
static void for_a_lease(void)
{
	static const struct {
		bool has_processor, tries;
		uint64_t rate, lasts;
	} cases[] = { { true, false, 0, LEASE / 8 }, { true, false, 1, LEASE }, { true, true, 1, LEASE / 8 },
		      { false, false, 0, LEASE }, { false, false, 1, LEASE }, { false, true, 1, LEASE } };

	for (size_t k = 0; k < sizeof cases / sizeof *cases; k++) {
		opens(&c, 1);
		c.pool->processors = cases[k].has_processor ? 8 : 1;
		ww_threads = 2;
		c.pool->crowd.limiter.tries = cases[k].tries;
		c.pool->crowd.limiter.rate = cases[k].rate;
		MUST(!sleeps() && has(0) && ww_mine.permit.ends - taken() == cases[k].lasts);
		ww_threads = 1;
		MUST(!ww_class_free(&c));
	}
}

static void gives_back(void)
{
	MUST(!ww_mine.permit.ends && !c.pool->crowd.permits[0].seat && c.pool->crowd.permits[0].ends <= ww_now());
	ends_at(0, 0);
}
static void keeps_it(void)
{
	MUST(c.pool->crowd.permits[0].ends == FAR);
	ends_at(0, 0);
}

/* To those that wait, before it comes again; but not once another has taken it.  How long its lease was is counted. */
static void is_given_back(void)
{
	uint64_t held;

	opens(&c, 0);
	begins_and_ends(&c);
	crowds(&c, 1);
	for (unsigned k = 0; k < 2; k++) {
		ww_mine.permit = (struct ww_my_permit){ 0 };
		ends_at(0, 0);
		MUST(!sleeps() && has(0) && c.pool->crowd.permits[0].seat);
		lease_ends();
		if (k)
			ends_at(0, FAR);
		come(1);
		asleep = k ? keeps_it : gives_back;
		held = c.pool->crowd.held;
		ww_mine.permit.taken -= FAR;
		MUST(sleeps() == 1 && has(0) && c.pool->crowd.held >= held + FAR);
		go(1);
	}
	MUST(!ww_class_free(&c));
}

/* Its thread is amid a context, by its own seat: then its permit isn't over, but for GRACE. */
static ww_seat *used;
static uint64_t over;
static void is_amid(void)
{
	if (slept == 1) {
		over = ww_now();
		c.pool->crowd.permits[0].ends = over;
	} else {
		goes_by(LEASE);
	}
}
static void amid_its_context(void)
{
	opens(&c, 1);
	stands();
	used = &c.pool->seats[7];
	used->busy |= 1;
	c.pool->crowd.permits[0] = (struct ww_permit){ ww_now() + FAR, used };
	asleep = is_amid;
	MUST(sleeps() && has(0) && taken() == over + GRACE);
	stands_at.tv_sec = 0;
	used->busy &= ~1u;
	c.pool->crowd.permits[0] = (struct ww_permit){ ww_now(), used };
	MUST(!sleeps() && !ww_class_free(&c));
}

/* A thread with a seat of its own says by which one it is amid. */
static void says_its_seat(void)
{
	struct ww_acquire_ctx x;

	opens(&c, 0);
	begins_and_ends(&c);
	crowds(&c, 1);
	ww_acquire_init(&x, &c);
	MUST(has(0) && c.pool->crowd.permits[0].seat == x.own);
	ww_acquire_fini(&x);
	MUST(!ww_class_free(&c));
}

/* ---- who is called ---- */

static bool calls; /* the other thread did, before it slept */

/* Another thread has a permit, and begins a context. */
static void *begins_by_permit(void *arg)
{
	ww_mine.permit = (struct ww_my_permit){ .id = c.pool->id, .it = c.pool->crowd.permits, .ends = ww_now() + FAR };
	begins_and_ends(&c);
	return arg;
}
static void another_begins(void)
{
	unsigned before = calls_in_all;

	end_thread(begin_thread(begins_by_permit, NULL));
	calls = calls_in_all != before;
}

/* By who begins another context with its permit: if another one is over, and it hasn't looked a moment ago. */
static void one_is_over(void)
{
	c.pool->crowd.due = 0;
	ends_at(1, 0);
	another_begins();
	MUST(calls && called == 1 && c.pool->crowd.due && c.pool->crowd.due <= ww_now() + LEASE);
}
static void none_looks(void)
{
	c.pool->crowd.due = UINT64_MAX;
	ends_at(1, 0);
	another_begins();
	ends_at(1, ww_now() + FAR);
	asleep = one_is_over;
	MUST(!calls);
}
static void none_is_over(void)
{
	c.pool->crowd.due = 0;
	another_begins();
	asleep = none_looks;
	MUST(!calls);
}
static void one_is_called(void)
{
	opens(&c, 2);
	ends_at(0, ww_now() + FAR);
	ends_at(1, ww_now() + FAR);
	asleep = none_is_over;
	MUST(sleeps() == 3 && goes_on && has(1) && !ww_class_free(&c));
}

/* Who puts its permit back calls one, where a processor is free for that one; else not before it sleeps itself. */
static unsigned calls_before;
static void sees_calls(void)
{
	calls = calls_in_all != calls_before;
	asleep = NULL;
}
static void *gives_back_and_waits(void *arg)
{
	do {
		struct timespec until = in_ms(10);
		struct ww_acquire_ctx x;

		c.pool->crowd.permits[0].ends = ww_now();
		ww_mine.permit = (struct ww_my_permit){ .id = c.pool->id, .it = c.pool->crowd.permits, .ends = c.pool->crowd.permits->ends, .waited = FAR };
		calls_before = calls_in_all;
		asleep = sees_calls;
		slept = 0;
		MUST(!ww_acquire_init_until(&x, &c, &until));
		ww_acquire_fini(&x);
	} while (!slept); /* its time came before it looked */
	return arg;
}
static void it_gives_back(void)
{
	end_thread(begin_thread(gives_back_and_waits, NULL));
	all_end();
}
static void by_who_gives_back(bool has_processor)
{
	opens(&c, 1);
	c.pool->processors = has_processor ? 8 : 1;
	ends_at(0, ww_now() + FAR);
	asleep = it_gives_back;
	MUST(sleeps() == 1 && calls == has_processor && !ww_class_free(&c));
}

/* The one that has waited longest of those that sleep, though another fell asleep before it looked the last time. */
static void the_first_is_called(void)
{
	for (unsigned k = 0; k < 3; k++) {
		opens(&c, 1);
		c.pool->processors = 8;
		ends_at(0, ww_now() + FAR);
		come(3);
		asleep = it_gives_back;
		sleeps_on = &others[k].is_called;
		MUST(sleeps() == 1 && is_called == sleeps_on && !was_called);
		for (unsigned each = 0; each < 3; each++)
			MUST(others[each].is_called == (each <= k));
		go(3);
		MUST(!ww_class_free(&c));
	}
	sleeps_on = NULL;
}

/* Who was called and hasn't looked since isn't called again, though it is awake: the next one is, by one call. */
static void none_is_called_twice(void)
{
	opens(&c, 1);
	come(3);
	for (unsigned k = 1; k < 3; k++) {
		unsigned before = calls_in_all;

		sleeps_on = &others[k].is_called;
		ww_call_waiting(c.pool, false);
		MUST(is_called == sleeps_on && calls_in_all - before == 3 - k);
	}
	sleeps_on = NULL;
	go(3);
	MUST(!ww_class_free(&c));
}

/* Who was called and looks in vain falls asleep as one that wasn't called. */
static void is_no_more_called(void)
{
	MUST(!c.pool->crowd.first->is_called);
	all_end();
}
static void is_called_in_vain(void)
{
	ww_call_waiting(c.pool, false);
	asleep = is_no_more_called;
}
static void sleeps_again(void)
{
	opens(&c, 1);
	ends_at(0, ww_now() + FAR);
	asleep = is_called_in_vain;
	MUST(sleeps() == 2 && has(0) && !ww_class_free(&c));
}

/* Who got one calls the next, if another is over. */
static void two_are_over(void)
{
	come(1);
	all_end();
}
static void the_next_one(void)
{
	opens(&c, 2);
	ends_at(0, ww_now() + FAR);
	ends_at(1, ww_now() + FAR);
	asleep = two_are_over;
	called = 0;
	MUST(sleeps() == 1 && has(0) && called == 1);
	MUST(c.pool->crowd.first == others && others->link == &c.pool->crowd.first);
	go(1);
	MUST(!ww_class_free(&c));
}

/* ---- whom it leaves alone ---- */

/* How often this thread gave up its processor, if the system counts that. */
static long gave_up(void)
{
	struct rusage is;

	getrusage(RUSAGE_THREAD, &is);
	return is.ru_nvcsw;
}
static void sleeps_elsewhere(void)
{
	for (long before = gave_up(); gave_up() == before;)
		usleep(1000);
}

/* Who slept elsewhere since its last permit goes on without one; as it does till it was awake for long. */
static void not_for_sleepers(void)
{
	opens(&c, 1);
	MUST(!sleeps() && has(0));
	lease_ends();
	sleeps_elsewhere();
	slept = 0;
	begins_and_ends(&c);
	MUST(!slept && !has_one() && ww_mine.awake == -AWAKE && c.pool->crowd.permits[0].ends <= ww_now());
	ends_at(0, ww_now() + FAR);
	begins_and_ends(&c);
	MUST(!slept && !permit_waits(&c) && !ww_class_free(&c));
}

/* Whoever runs a context, by its own seat, waits for none: others may wait for what it holds. */
static void amid_another(void)
{
	struct ww_acquire_ctx x, y;

	opens(&c, 0);
	ww_acquire_init(&x, &c);
	crowds(&c, 1);
	ends_at(0, ww_now() + FAR);
	ww_acquire_init(&y, &c);
	MUST(!permit_waits(&c));
	ww_acquire_fini(&y);
	ww_acquire_fini(&x);
	asleep = all_end;
	MUST(sleeps() == 1 && !ww_class_free(&c));
}

/* So many contexts are begun without a look at the clock, of the class whose permit it is, and then none. */
static void so_many_at_once(void)
{
	opens(&c, 1);
	opens(&other, 1);
	begins_and_ends(&c);
	for (unsigned k = 0; k < 3; k++) {
		ww_mine.permit.begins = k;
		for (unsigned left = k; left; left--) {
			MUST(!use_permit(other.pool) && use_permit(c.pool));
			MUST(ww_mine.permit.begins == left - 1);
		}
		MUST(!use_permit(c.pool));
	}
	MUST(!ww_class_free(&c) && !ww_class_free(&other));
}

/* A thread whose lease isn't over looks at the crowd only if nobody has the lock of that. */
static void waits_for_no_lock(void)
{
	opens(&c, 1);
	begins_and_ends(&c);
	ww_mine.permit.begins = 0;
	ww_mine.permit.ends = ww_mine.permit.it->ends = ww_now() + FAR;
	c.pool->crowd.due = 0;
	pthread_mutex_lock(&c.pool->queue);
	begins_and_ends(&c);
	MUST(pthread_mutex_trylock(&c.pool->queue) == EBUSY && !c.pool->crowd.due);
	pthread_mutex_unlock(&c.pool->queue);
	MUST(!ww_class_free(&c));
}

/* A permit of one class is none of another, also for a class that has the memory of one before. */
static void of_its_class_alone(void)
{
	so_many_at_once();
	waits_for_no_lock();
	for (unsigned k = 0; k < 20; k++) {
		opens(&c, 1);
		opens(&other, 1);
		begins_and_ends(&other);
		ends_at(0, ww_now() + FAR);
		asleep = all_end;
		MUST(sleeps() == 1 && has(0) && !permit_waits(&other) && !ww_class_free(&c) && !ww_class_free(&other));
	}
}

/* Where there is no limit, nobody waits. */
static void without_limit(void)
{
	opens(&c, 1);
	ends_at(0, ww_now() + FAR);
	c.pool->crowd.limiter.width = NO_LIMIT;
	MUST(!sleeps() && has_one());
	for (unsigned k = 0; k < MANY_PERMITS; k++)
		ends_at(k, ww_now() + FAR);
	ww_mine.permit = (struct ww_my_permit){ 0 };
	MUST(!sleeps() && has_one() && !ww_mine.permit.it && !ww_class_free(&c));
}

/* ---- times, and cancels ---- */

/* Who can't wait is refused at once; who can, at its time.  Only who begins is counted. */
static void in_time(void)
{
	static const struct timespec never = { .tv_sec = (time_t)1 << 62 }, long_ago = { .tv_sec = -1 };
	struct timespec soon = in_ms(20), now = in_ms(0);
	struct ww_acquire_ctx x;
	uint64_t begun;

	opens(&c, 1);
	ends_at(0, ww_now() + FAR);
	begun = c.pool->crowd.begun;
	slept = 0;
	MUST(ww_acquire_init_checked(&x, &c) == -EAGAIN && !x.own);
	MUST(ww_acquire_init_until(&x, &c, &now) == -ETIMEDOUT && ww_acquire_init_until(&x, &c, &long_ago) == -ETIMEDOUT);
	MUST(!slept && !permit_waits(&c));
	MUST(ww_acquire_init_until(&x, &c, &soon) == -ETIMEDOUT && ww_now() >= nanoseconds(&soon) && !waiting_threads(c.pool));
	asleep = all_end;
	MUST(!ww_acquire_init_until(&x, &c, &never) && has(0));
	ww_acquire_fini(&x);
	MUST(c.pool->crowd.begun == begun + 1);
	ends_at(0, 0);
	ww_mine.permit = (struct ww_my_permit){ 0 };
	MUST(!ww_acquire_init_checked(&x, &c) && has(0)); /* a permit that is over is at hand */
	ww_acquire_fini(&x);
	/* It comes before this thread's turn; once more if it came before the thread slept. */
	asleep = NULL;
	for (slept = 0; !slept;) {
		soon = in_ms(0);
		soon.tv_nsec += soon.tv_nsec < 999000000 ? LASTS / 2 : 0;
		ww_mine.permit = (struct ww_my_permit){ 0 };
		ends_at(0, ww_now() + FAR);
		MUST(ww_acquire_init_until(&x, &c, &soon) == -ETIMEDOUT && (!slept || looks == nanoseconds(&soon)));
	}
	MUST(!ww_class_free(&c));
}

/* A cancel of the class calls all, and ends the waits that heed it, and each later one at once. */
static void cancels(void)
{
	MUST(!ww_class_cancel(&c));
	asleep = all_end;
}
static void a_cancel_ends_it(bool heeds)
{
	const struct timespec past = { .tv_nsec = 1 };
	struct ww_acquire_ctx x;

	opens(&c, 1);
	ends_at(0, ww_now() + FAR);
	asleep = cancels;
	slept = 0;
	if (heeds) {
		MUST(ww_acquire_init_until(&x, &c, NULL) == -EINTR && called == 1 && goes_on && slept == 1);
		MUST(ww_acquire_fini_checked(&x) == -EINVAL && ww_acquire_init_until(&x, &c, NULL) == -EINTR && slept == 1);
		MUST(ww_acquire_init_until(&x, &c, &past) == -EINTR); /* a cancel comes before a time that is over */
		MUST(!waiting_threads(c.pool) && ww_acquire_init_checked(&x, &c) == -EAGAIN);
		ends_at(0, 0);
		MUST(!ww_acquire_init_checked(&x, &c)); /* who needn't wait goes on */
		ww_acquire_fini(&x);
		ends_at(0, 0);
	} else {
		MUST(sleeps() == 2 && has(0));
	}
	MUST(!ww_class_free(&c));
	/* One that is opened again isn't cancelled. */
	opens(&c, 1);
	ends_at(0, ww_now() + FAR);
	asleep = all_end;
	MUST(!ww_acquire_init_until(&x, &c, NULL) && has(0));
	ww_acquire_fini(&x);
	MUST(!ww_class_free(&c));
}

/* ---- when there is a crowd ---- */

/* A thread spent an eighth of its time in waits; not if the class has none, or is about to rest. */
static void begins_by_waits(void)
{
	static const struct {
		uint32_t said, processors, threads;
		uint64_t each, apart; /* nanoseconds */
		bool rests, begins;
	} cases[] = {
		{ 0, 8, 0, 10000, 20000, false, true },
		{ 0, 1, 2, 10000, 70000, false, true },
		{ 0, 8, 0, 10000, 100000, false, false },
		{ 0, 4, 4, 100, 1000, false, true }, /* each costs a microsecond more */
		{ 0, 8, 0, 100, 10000, false, false },
		{ 3, 2, 3, 10000, 20000, false, true },
		{ WW_NO_CROWD, 8, 0, 10000, 20000, false, false },
		{ 0, 8, 0, 10000, 20000, true, false },
	};

	for (size_t k = 0; k < sizeof cases / sizeof *cases; k++) {
		uint64_t at = ww_now();
		const struct ww_limiter *limiter;

		ww_class_init(&c, 0, "waits");
		MUST(!ww_class_crowd(&c, cases[k].said) && !ww_class_open(&c));
		limiter = &c.pool->crowd.limiter;
		c.pool->processors = cases[k].processors;
		ww_threads = cases[k].threads;
		c.pool->crowd.begun = c.pool->crowd.waited = c.pool->crowd.sleepers = 77;
		if (cases[k].rests)
			c.pool->crowd.quiet_until = UINT64_MAX;
		ww_mine.waited = 0;
		ww_mine.counted = at;
		is_awake();
		for (unsigned i = 0; i < 1000; i++)
			ww_note_wait(c.pool, at += cases[k].apart, cases[k].each);
		MUST(is_crowded(c.pool) == cases[k].begins);
		if (cases[k].begins) {
			MUST(limiter->width == (cases[k].said ? 3 : 1) && limiter->least == limiter->width);
			MUST(limiter->most == (cases[k].said ? 3 : cases[k].processors));
			MUST(!c.pool->crowd.begun && !c.pool->crowd.waited && !c.pool->crowd.held && !c.pool->crowd.sleepers);
			MUST(c.pool->crowd.since > at - 1000 * cases[k].apart && c.pool->crowd.since <= at);
		}
		ww_threads = 1;
		MUST(!ww_class_free(&c));
	}
}

/* So many samples, each of which is far more than an eighth of this thread's time: whether there is a crowd then. */
static uint64_t at;
static bool waits(unsigned samples)
{
	for (unsigned k = 0; k < samples; k++)
		ww_note_wait(c.pool, at += 20000, 40000);
	return is_crowded(c.pool);
}

/* Another thread has begun a crowd, of five permits, just before this one would: so it stays that. */
static void of_five(void) { crowds(&c, 5); }
static void begins_once(void)
{
	bool is;

	opens(&c, 0);
	ww_mine.waited = 0;
	ww_mine.counted = at = ww_now();
	before_lock = of_five;
	do {
		is_awake();
		is = waits(AWAKE);
	} while (before_lock); /* it slept elsewhere meanwhile */
	MUST(is && c.pool->crowd.limiter.width == 5 && c.pool->crowd.since == UINT64_MAX - LEASE);
	MUST(!ww_class_free(&c));
}

/* A crowd begins by a thread that is awake for AWAKE samples; in a thread that slept elsewhere, for twice as many. */
static void begins_by_who_is_awake(void)
{
	long before;

	do {
		bool too_early, in_time_;

		opens(&c, 0);
		ww_mine.waited = 0;
		ww_mine.counted = at = ww_now();
		before = gave_up();
		too_early = waits(AWAKE - 1);
		in_time_ = waits(1);
		MUST(gave_up() != before || (!too_early && in_time_));
		set_crowded(c.pool, false);
		sleeps_elsewhere();
		if (gave_up() != before + 1)
			before = gave_up() - 1;
		too_early = waits(2 * AWAKE);
		in_time_ = waits(1);
		MUST(gave_up() != before + 1 || (!too_early && in_time_));
		/* A sleep in this library is none; nor are fewer than at the last look. */
		set_crowded(c.pool, false);
		ww_mine.sleeps += 3;
		in_time_ = waits(1);
		MUST(gave_up() != before + 1 || in_time_);
		MUST(!ww_class_free(&c));
	} while (gave_up() != before + 1); /* a page that came from the disk, or the like */
}

/*
 * Contexts are long by what a lease has shown, if its thread didn't mostly wait. Then there are as many permits as there may be, for
 * some windows of the limiter. The crowd ends unless threads outnumber processors, a thread waits for a permit, and those with
 * permits mostly wait or often back off. But what threads do while the limiter tries another width ends no crowd of long contexts.
 */
static void ends_if_contexts_are_long(void)
{
	enum { HELD = 1000000000 }; /* so long that it doesn't matter when this thread goes on */
	enum back_offs { NONE, EARLIER, FEW, OFTEN };
	static const struct {
		uint64_t each, waited, others; /* nanoseconds */
		bool is_short, one_waits;
		enum back_offs back_offs;
		bool tries;
		uint32_t width; /* of long contexts it isn't 1 */
		bool goes_on;
	} cases[] = {
		{ 4000, 0, 0, true, true, NONE, false, 1, true },
		{ 16000, 0, HELD, true, true, NONE, false, 4, true },
		{ 16000, 0, 0, true, true, NONE, false, 4, false },
		{ 16000, 0, HELD, true, false, NONE, false, 4, false },
		{ 16000, 0, HELD, false, true, NONE, false, 4, false },
		{ 64000, HELD / 5 * 3, 0, true, true, NONE, false, 1, true },
		{ 64000, HELD / 5 * 2, HELD, true, true, NONE, false, 4, true },
		{ 16000, 0, 0, true, true, OFTEN, false, 4, true },
		{ 16000, 0, 0, true, true, FEW, false, 4, false },
		{ 16000, 0, 0, true, true, EARLIER, false, 4, false },
		{ 16000, 0, 0, true, true, NONE, true, 2, true },
	};

	for (size_t k = 0; k < sizeof cases / sizeof *cases; k++) {
		uint32_t begun = (uint32_t)(HELD / cases[k].each), by = cases[k].back_offs == FEW ? begun / 20 : begun / 12;
		struct ww_crowd *crowd;

		opens(&c, 1);
		c.pool->processors = 4;
		ww_threads = cases[k].is_short ? 5 : 0;
		crowd = &c.pool->crowd;
		crowd->limiter.most = 4;
		crowd->was_short = crowd->held = crowd->looked = crowd->leased = crowd->backed_off = 0;
		crowd->waited = cases[k].others;
		MUST(!sleeps() && has(0));
		lease_ends();
		if (cases[k].tries) {
			crowd->is_long = crowd->limiter.tries = true;
			crowd->limiter.width = 2;
			crowd->limiter.kept = 4;
		}
		ww_mine.permit.taken = ww_now() - HELD;
		ww_mine.permit.begun = ww_mine.permit.reported = begun;
		ww_mine.permit.waited = 0;
		ww_mine.permit.ran -= HELD;
		own_seat(c.pool)->back_offs += cases[k].back_offs ? by : 0;
		ww_mine.permit.back_offs += cases[k].back_offs == EARLIER ? by : 0;
		ww_note_wait(c.pool, ww_now(), cases[k].waited);
		ww_mine.awake = 0, ww_mine.elsewhere = 0;
		come(cases[k].one_waits);
		asleep = all_end;
		begins_and_ends(&c);
		go(cases[k].one_waits);
		ww_threads = 1;
		MUST(crowd->is_long == (cases[k].width > 1) && is_crowded(c.pool) == cases[k].goes_on);
		MUST(crowd->limiter.width == cases[k].width && (cases[k].width != 4 || crowd->limiter.holds > 1) && !ww_class_free(&c));
	}
}

/* With a permit for each processor a crowd ends if less than one part in 128 of the time goes into waits. */
static void ends_by_few_waits(void)
{
	enum { HELD = 1000000000 };
	static const struct {
		uint64_t waited;
		bool has_most, is_short, goes_on;
	} cases[] = { { HELD / 120, true, true, true }, { HELD / 136, true, true, false }, { 0, false, true, true }, { 0, true, false, true } };

	for (size_t k = 0; k < sizeof cases / sizeof *cases; k++) {
		struct ww_crowd *crowd;

		opens(&c, 1);
		c.pool->processors = 1;
		ww_threads = cases[k].is_short ? 2 : 0;
		crowd = &c.pool->crowd;
		MUST(!sleeps() && has(0));
		c.pool->crowd.limiter.kept = 1;
		c.pool->crowd.limiter.most = cases[k].has_most ? 1 : 4;
		crowd->held = HELD;
		crowd->waited = cases[k].waited;
		crowd->looked = 0;
		lease_ends();
		ww_mine.permit.waited = 0;
		ww_mine.permit.begun = UINT32_MAX;
		come(1);
		asleep = another_begins;
		begins_and_ends(&c);
		go(1);
		ww_threads = 1;
		MUST(is_crowded(c.pool) == cases[k].goes_on && !ww_class_free(&c));
	}
}

/* A crowd ends once two threads on end have slept elsewhere in their leases; one that didn't is between others. */
static void ends_by_who_sleeps(void)
{
	for (uint32_t before = 0; before < 3; before++) {
		struct ww_crowd *crowd;

		opens(&c, 1);
		crowd = &c.pool->crowd;
		MUST(!sleeps() && has(0));
		crowd->sleepers = before == 2 ? 1 : before;
		lease_ends();
		if (before < 2)
			sleeps_elsewhere();
		begins_and_ends(&c);
		MUST(crowd->sleepers == (before + 1) % 3 && is_crowded(c.pool) == (before != 1));
		MUST(!ww_class_free(&c));
	}
}

/* All that wait go on then, without a permit. */
static const struct ww_limiter no_use = { .width = 1, .kept = NO_LIMIT, .rate = 1 };
static void it_ends(void)
{
	c.pool->crowd.limiter = no_use;
	c.pool->crowd.due = 0;
	another_begins();
	MUST(!is_crowded(c.pool) && called == 3);
}
static void ends_for_all(void)
{
	opens(&c, 1);
	ends_at(0, ww_now() + FAR);
	come(2);
	sleeps_on = &others->is_called;
	asleep = it_ends;
	MUST(sleeps() == 1 && goes_on && !has_one() && waiting_threads(c.pool) == 2);
	sleeps_on = NULL;
	go(2);
	MUST(!ww_class_free(&c));
}

/* The next crowd begins once the class has rested: each time for twice as long; anew, once a crowd has lasted. */
static void rests(void)
{
	uint64_t rest = REST;

	opens(&c, 0);
	for (unsigned k = 0; k < 9; k++) {
		uint64_t before, after, till;

		crowds(&c, 1);
		c.pool->crowd.limiter = no_use;
		c.pool->crowd.since = ww_now();
		if (k == 7) {
			c.pool->crowd.since = 0;
			rest = REST;
		}
		before = ww_now();
		ww_mine.permit = (struct ww_my_permit){ 0 };
		begins_and_ends(&c);
		after = ww_now();
		till = c.pool->crowd.quiet_until;
		MUST(!is_crowded(c.pool) && till >= before + rest && till <= after + rest);
		rest = rest < LONGEST_REST ? 2 * rest : rest;
		/* Till then there is none. */
		is_awake();
		ww_mine.waited = 0;
		ww_mine.counted = at = till - 40 * 20000;
		MUST(!waits(39) && waits(AWAKE));
	}
	MUST(!ww_class_free(&c));
}

/* A class that was in use at a fork gives no context in the child, with a permit or without. */
static void in_a_child(void)
{
	struct ww_acquire_ctx x, y;
	int status;

	opens(&c, 1);
	begins_and_ends(&c);
	MUST(has(0));
	end_thread(begin_thread(begins, &y));
	ww_mine.permit.begins = 1;
	if (!fork())
		_exit(ww_acquire_init_checked(&x, &c) == -EINVAL ? 0 : 1);
	MUST(wait(&status) > 0 && !status);
	ww_acquire_fini(&y);
	MUST(!ww_class_free(&c));
}

/* Another thread has the lock until it is asked to leave it. */
static bool has_lock, is_forked;
static void *has_the_lock(void *arg)
{
	pthread_mutex_lock(&c.pool->queue);
	__atomic_store_n(&has_lock, true, __ATOMIC_RELEASE);
	while (!__atomic_load_n(&is_forked, __ATOMIC_ACQUIRE))
		usleep(100);
	pthread_mutex_unlock(&c.pool->queue);
	return arg;
}

/* In a child there is none, whoever has its lock; and a call by a seat from before the fork returns. */
static void none_in_a_child(void)
{
	static struct ww_mutex m;
	struct ww_acquire_ctx x, y;
	int status;
	pid_t child;
	pthread_t thread;

	opens(&c, 0);
	ww_mutex_init(&m, &c);
	ww_acquire_init(&x, &c);
	ww_acquire_init(&y, &c);
	MUST(!ww_mutex_lock(&m, &x));
	thread = begin_thread(has_the_lock, NULL);
	while (!__atomic_load_n(&has_lock, __ATOMIC_ACQUIRE))
		usleep(100);
	child = fork();
	if (!child) {
		at = ww_now();
		for (unsigned k = 0; k < 200; k++) {
			ww_mine.counted = at;
			if (waits(1) || ww_mutex_lock(&m, &y) != -EINVAL)
				_exit(1);
		}
		if (ww_acquire_init_checked(&x, &c) != -EINVAL || ww_class_cancel(&c) != -EINVAL || ww_class_free(&c))
			_exit(2);
		opens(&c, 1);
		_exit(sleeps() || !has(0) || ww_class_free(&c));
	}
	__atomic_store_n(&is_forked, true, __ATOMIC_RELEASE);
	end_thread(thread);
	MUST(child > 0 && waitpid(child, &status, 0) == child && WIFEXITED(status) && !WEXITSTATUS(status));
	ww_mutex_unlock(&m);
	ww_acquire_fini(&y);
	ww_acquire_fini(&x);
	MUST(!ww_mutex_destroy(&m) && !ww_class_free(&c));
}

int main(void)
{
	each_is_taken();
	none_is_passed();
	looks_in_turn();
	moves_up();
	for_many_contexts();
	for_a_lease();
	looks_at_the_clock();
	is_given_back();
	amid_its_context();
	says_its_seat();
	one_is_called();
	by_who_gives_back(true);
	by_who_gives_back(false);
	the_first_is_called();
	none_is_called_twice();
	sleeps_again();
	the_next_one();
	not_for_sleepers();
	amid_another();
	of_its_class_alone();
	without_limit();
	in_time();
	a_cancel_ends_it(true);
	a_cancel_ends_it(false);
	begins_by_waits();
	begins_once();
	begins_by_who_is_awake();
	ends_if_contexts_are_long();
	ends_by_few_waits();
	ends_by_who_sleeps();
	ends_for_all();
	rests();
	in_a_child();
	none_in_a_child();
	puts("permits: as many as there are, for whom and as long as they are");
	return 0;
}
