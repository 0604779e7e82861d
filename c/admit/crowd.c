/*
 * crowd.c - admission of threads. While threads of a class often wait for its mutexes, which is called a crowd, only a thread with
 * a permit begins contexts of the class. The other threads wait for a permit, and hold nothing meanwhile. The rule:
 *
 * 1. A crowd begins when a thread spends an eighth of its time in waits for locks, and doesn't sleep elsewhere, that is, outside
 * this library. A thread that does sleep elsewhere needs no permit, since it leaves its processor to others.
 * 2. There is one permit at first. Once contexts have turned out to be long, there is one for each processor. There are never more
 * permits than processors, unless the program sets how many there are. How many are best is measured (limiter.c).
 * 3. A permit lasts for a lease, in which its thread begins as many contexts as it likes. Each thread that waits for a permit
 * sleeps until its turn should come. The thread that has waited longest is called for a permit that is put back.
 * 4. A crowd ends if nobody waits for a permit, if the threads of two leases on end slept elsewhere, or if a limit is of no use.
 * Where each thread has a processor, a limit is of no use if no limit is better, or if contexts are so long that fewer save no
 * cache lines. Elsewhere a limit is of no use if with a permit for each processor threads hardly wait for locks; or, if contexts
 * are long, if threads wait less than half of their time, and contexts seldom back off.
 * 5. After a crowd no crowd begins for 16 ms, and after each further one for twice as long, up to half a second. A crowd that
 * lasted longer than half a second sets this back to 16 ms.
 *
 * Fewer contexts at a time save cache lines, which wander between processors where contexts meet, and sleeps of threads that wait
 * for a lock whose owner lost its processor. All of this is a hint: no lock asks who has a permit, so a context that begins without
 * a permit, or too late, costs only time.
 *
 *	a permit	its next state, and what makes it
 *	over		taken: by a thread whose turn it is, or by a thread that comes while nobody waits
 *	taken		over: its lease has ended, and its thread begins its next context, or runs no context by its own seat;
 *			or its lease ended GRACE ago, whatever its thread does
 */
#define _GNU_SOURCE
#include "crowd.h"
#include "../base/message.h"
#include "../base/sleep.h"
#include <string.h>
#include <sys/resource.h>

/*
 * All times here are in nanoseconds. Where two contexts meet, the cache lines that move cost about a MEETING, besides the wait. A
 * limit is kept only if it gets an eighth more contexts done. So it can't be of use where contexts take longer than eight meetings.
 */
enum { MEETING = 1000, LONG_CONTEXT = 8 * MEETING };
/*
 * A thread sums up its waits until they reach a SAMPLE. They are many if they took one part in MANY_WAITS of its time meanwhile,
 * and few if they took less than one part in FEW_WAITS. Contexts often back off if one in OFTEN does, on average.
 */
enum { SAMPLE = 32000, MANY_WAITS = 8, FEW_WAITS = 128, OFTEN = 16 };
/*
 * A thread looks at the end of each SAMPLE and of each lease whether it has slept elsewhere since its last look. It counts as awake
 * after so many looks on end that found no such sleep.
 */
enum { AWAKE = 2 };
/* A crowd ends once the threads of so many leases on end have slept elsewhere. */
enum { SLEEPERS = 2 };
/* For how long no crowd begins after a crowd: at first, and at most. */
enum { QUIET = 16000000, LONGEST_QUIET = 512000000 };
/* Contexts count as long once no lease has shown short contexts for this time. The sums of waits count once they cover half of it. */
enum { LONG_WINDOW = 16000000 };
/*
 * If contexts are long, the limiter keeps the largest width for so many windows at first. The contexts that had begun before the
 * crowd end in these windows, one after another, so only a later window shows what that width is worth.
 */
enum { LONG_HOLDS = 8 };
/*
 * A thread with a permit begins so many contexts without a look at the clock, if the contexts between its last two looks took less
 * than a sixteenth of its lease together.
 */
enum { MOST_BEGINS = 16 };
/* The kernel may wake a thread so much too late, so each turn comes so much earlier. */
enum { TIMER_SLACK = 50000 };
/*
 * When its lease ends, a thread may still hold locks for which others wait in a row. No other thread gets its permit for so long,
 * so that no more threads come to wait behind that row.
 */
enum { GRACE = 16000000 };

/* A time limit in nanoseconds. NULL, and a time that is centuries away, never comes; a time before the clock began has come. */
static uint64_t nanoseconds(const struct timespec *at)
{
	if (!at || at->tv_sec >= (time_t)1 << 33)
		return UINT64_MAX;
	return at->tv_sec < 0 ? 0 : (uint64_t)at->tv_sec * 1000000000 + (uint64_t)at->tv_nsec;
}

/* ---- whether there is one ---- */

/*
 * Threads are called in the order in which they came. In the order in which they fell asleep, others would pass, lease after lease, a
 * thread that has looked for a permit in vain and sleeps again. If a called thread didn't sleep, its time or an earlier call had
 * woken it, but it may get no processor for long; so the next thread is called, too. A thread that was called isn't called again
 * before it has looked, since each call is a system call under the lock. The stores are relaxed: a thread that is about to sleep on
 * its word sees the new value. The queue is locked.
 */
void ww_call_waiting(struct ww_pool *p, bool all)
{
	bool is_woken = false;

	for (struct ww_turn *it = p->crowd.first; it && (all || !is_woken); it = it->next) {
		if (it->is_called)
			continue;
		__atomic_store_n(&it->is_called, 1, __ATOMIC_RELAXED);
		is_woken = ww_futex_wake(&it->is_called);
	}
}

/* Prepares the crowd of a class that is opened, which nobody uses yet. */
void ww_reset_crowd(struct ww_pool *p)
{
	struct ww_crowd *crowd = &p->crowd;

	memset(crowd->permits, 0, sizeof crowd->permits);
	crowd->first = NULL;
	crowd->end = &crowd->first;
	set_crowded(p, false);
	crowd->quiet = QUIET;
	__atomic_store_n(&crowd->sought, 0, __ATOMIC_RELAXED);
	__atomic_store_n(&crowd->due, 0, __ATOMIC_RELAXED);
	__atomic_store_n(&crowd->quiet_until, p->class_->permits == WW_NO_CROWD ? UINT64_MAX : 0, __ATOMIC_RELAXED);
}

/*
 * Lets the limiter measure anew: from the smallest width on, or, if contexts are long, from the largest one, which leaves no
 * processor idle. The queue is locked.
 */
static void open_limiter(struct ww_pool *p, bool is_long)
{
	uint32_t said = p->class_->permits, least = said ? said : 1, most = said ? said : processors_of(p);

	ww_limiter_open(&p->crowd.limiter, least, is_long ? most : least, least, most, MANY_PERMITS);
	if (is_long)
		p->crowd.limiter.holds = LONG_HOLDS;
	p->crowd.is_long = is_long;
}

/* Begins a crowd, unless another thread has just begun one. */
COLD static void begin_crowd(struct ww_pool *p, uint64_t now)
{
	struct ww_crowd *crowd = &p->crowd;

	pthread_mutex_lock(&p->queue);
	if (!is_crowded(p)) {
		open_limiter(p, false);
		crowd->sleepers = 0;
		crowd->since = crowd->looked = now;
		crowd->was_short = crowd->waited = crowd->held = crowd->leased = crowd->backed_off = 0;
		__atomic_store_n(&crowd->begun, 0, __ATOMIC_RELAXED);
		set_crowded(p, true);
	}
	pthread_mutex_unlock(&p->queue);
}

/*
 * Whether this thread has slept elsewhere since the last look. The count of sleeps elsewhere falls if a sleep in this library ended
 * at once, so that the thread kept its processor; and in a child of a fork, for which the system counts anew.
 */
static bool count_sleeps(void)
{
	struct rusage is = { 0 };
	uint32_t before = ww_mine.elsewhere;

	getrusage(RUSAGE_THREAD, &is);
	ww_mine.elsewhere = (uint32_t)is.ru_nvcsw - ww_mine.sleeps + 1;
	ww_mine.ran = (uint64_t)(is.ru_utime.tv_sec + is.ru_stime.tv_sec) * 1000000000 +
		      (uint64_t)(is.ru_utime.tv_usec + is.ru_stime.tv_usec) * 1000;
	return before && (int32_t)(ww_mine.elsewhere - before) > 0;
}

/*
 * Counts one more look that found the thread awake. A look that finds a sleep elsewhere makes the count -AWAKE, so it takes several
 * looks until the thread counts as awake again.
 */
static void look_at_sleeps(void)
{
	ww_mine.awake = count_sleeps() ? -AWAKE : ww_mine.awake < AWAKE ? ww_mine.awake + 1 : AWAKE;
}

static bool sleeps_elsewhere(void) { return ww_mine.awake < 0; }

/*
 * Sums up this thread's waits, each with a MEETING, since the last SAMPLE was full. If the waits of a full SAMPLE were many, and this
 * thread doesn't sleep elsewhere, a crowd begins.
 */
void ww_note_wait(struct ww_pool *p, uint64_t now, uint64_t took)
{
	if (ww_mine.permit.id == p->id)
		ww_mine.permit.waited += took;
	ww_mine.waited += took + MEETING;
	if (LIKELY(ww_mine.waited < SAMPLE))
		return;
	if (now - ww_mine.counted < MANY_WAITS * ww_mine.waited &&
	    now >= __atomic_load_n(&p->crowd.quiet_until, __ATOMIC_RELAXED)) {
		look_at_sleeps();
		if (ww_mine.awake == AWAKE && !is_crowded(p))
			begin_crowd(p, now);
	}
	ww_mine.waited = 0;
	ww_mine.counted = now;
}

/* Ends the crowd, and calls all threads that wait for a permit. The queue is locked. */
static void end_crowd(struct ww_pool *p, uint64_t now)
{
	struct ww_crowd *crowd = &p->crowd;

	if (now - crowd->since > LONGEST_QUIET)
		crowd->quiet = QUIET;
	__atomic_store_n(&crowd->quiet_until, now + crowd->quiet, __ATOMIC_RELAXED);
	crowd->quiet = crowd->quiet < LONGEST_QUIET ? 2 * crowd->quiet : LONGEST_QUIET;
	set_crowded(p, false);
	ww_call_waiting(p, true);
}

/* How often the contexts of this thread's own seat have backed off. */
static uint64_t back_offs_of(const struct ww_pool *p)
{
	const ww_seat *own = own_seat(p);

	return own ? __atomic_load_n(&own->back_offs, __ATOMIC_RELAXED) : 0;
}

/*
 * Learns from this thread's lease, which has ended. Contexts are long, by the time for which the thread had a processor, if no
 * lease has shown short ones for LONG_WINDOW, and the thread didn't mostly wait in this one, as threads do in a convoy of contexts
 * that began before the crowd. The queue is locked.
 */
static void count_ended_lease(struct ww_pool *p, const struct ww_my_permit *had, uint64_t now)
{
	struct ww_crowd *crowd = &p->crowd;
	uint64_t held = now - had->taken;

	crowd->sleepers = sleeps_elsewhere() ? crowd->sleepers + 1 : 0;
	crowd->held += held;
	crowd->waited += had->waited;
	crowd->leased += had->begun;
	crowd->backed_off += back_offs_of(p) - had->back_offs;
	if (had->begun * LONG_CONTEXT >= ww_mine.ran - had->ran)
		crowd->was_short = now;
	else if (!crowd->is_long && 2 * had->waited < held && now - crowd->was_short > LONG_WINDOW)
		open_limiter(p, true);
}

/*
 * Whether fewer permits may be of use than one for each processor. They may be if threads wait for locks for at least one part in
 * FEW_WAITS of their time. If contexts are long, fewer permits mostly keep processors idle. So they may be of use only if threads
 * wait for half of their time, or if contexts often back off, since fewer contexts would do less in vain. While the limiter tries
 * fewer permits for long contexts, the sums begin anew, since what threads do then tells nothing of the largest width.
 *
 * The queue is locked.
 */
static bool sum_up_waits(struct ww_crowd *crowd, uint64_t now)
{
	bool is_tried = crowd->is_long && crowd->limiter.tries, is_of_use = FEW_WAITS * crowd->waited >= crowd->held;

	if (now - crowd->looked < LONG_WINDOW / 2 && !is_tried)
		return true;
	if (crowd->is_long)
		is_of_use = is_tried || 2 * crowd->waited >= crowd->held || OFTEN * crowd->backed_off >= crowd->leased;
	crowd->looked = now;
	crowd->waited = crowd->held = crowd->leased = crowd->backed_off = 0;
	return is_of_use;
}

/* Whether more threads are known than there are processors. Then a thread that is woken may have to wait for a processor. */
static bool is_short_of_processors(const struct ww_pool *p) { return p->own_seats && !has_processors(p); }

/* Looks at the limiter. It returns false once a limit is of no use. The queue is locked. */
static bool look_whether_of_use(struct ww_pool *p, uint64_t now)
{
	struct ww_crowd *crowd = &p->crowd;
	struct ww_limiter *limiter = &crowd->limiter;
	bool somebody_waits = waiting_threads(p);

	if (crowd->sleepers >= SLEEPERS)
		return false;
	limiter->is_bounded = is_short_of_processors(p);
	if (crowd->is_long && !(limiter->is_bounded && somebody_waits))
		return false;
	if (limiter->is_bounded && limiter->kept == limiter->most && !sum_up_waits(crowd, now))
		return false;
	return ww_limiter_look(limiter, now, (uint32_t)__atomic_load_n(&crowd->begun, __ATOMIC_RELAXED),
			       somebody_waits ? now : crowd->sought);
}

/* Looks at the crowd's limiter, and ends the crowd if a limit is of no use. The queue is locked. */
static void look_at_crowd(struct ww_pool *p, uint64_t now)
{
	if (!is_crowded(p))
		return;
	__atomic_store_n(&p->crowd.due, now + LEASE / 4, __ATOMIC_RELAXED);
	if (!look_whether_of_use(p, now))
		end_crowd(p, now);
}

/* ---- permits ---- */

/* A permit that another thread may take now, or NULL. The queue is locked. */
static struct ww_permit *find_over(struct ww_pool *p, uint64_t now)
{
	for (uint32_t k = 0; k < p->crowd.limiter.width && k < MANY_PERMITS; k++) {
		struct ww_permit *it = &p->crowd.permits[k];

		if (now + TIMER_SLACK >= it->ends && (!runs_by(it->seat) || now >= it->ends + GRACE))
			return it;
	}
	return NULL;
}

/*
 * How long a permit lasts that is taken now. While the limiter knows no rate yet, or tries another width, nobody knows whether the
 * width is of use. So no thread is to wait long for it, and permits last an eighth of a lease. But if there are more threads than
 * processors, a turn is a change of threads, which costs more than short permits may win.
 */
static uint64_t lease_of(const struct ww_pool *p)
{
	return (p->crowd.limiter.tries || !p->crowd.limiter.rate) && !is_short_of_processors(p) ? LEASE / 8 : LEASE;
}

/*
 * Takes a permit for this thread, or, if the limiter has found that no limit is best, a lease without a permit. It returns false if
 * there is neither. The queue is locked.
 */
static bool take_permit(struct ww_pool *p, uint64_t now)
{
	struct ww_permit *it = find_over(p, now);
	uint64_t lease = lease_of(p);

	if (!it && p->crowd.limiter.width != NO_LIMIT)
		return false;
	ww_mine.permit = (struct ww_my_permit){
		.id = p->id, .it = it, .taken = now, .ends = now + lease, .seen = now, .brief = lease / 16,
		.back_offs = back_offs_of(p),
	};
	if (it)
		*it = (struct ww_permit){ .ends = ww_mine.permit.ends, .seat = own_seat(p) };
	return true;
}

/*
 * Calls a thread that waits, if a permit has been over for a while: then the permit is new, or its thread has ended, so no waiting
 * thread expects it. If there are fewer permits than processors, the thread that is called finds a processor free, so it is called
 * as soon as a permit is over. Otherwise it had better wake by its time, once this thread has left its processor. The queue is
 * locked.
 */
static void call_one(struct ww_pool *p, uint64_t now)
{
	uint64_t since = p->crowd.limiter.width < processors_of(p) ? 0 : LEASE / 16 + TIMER_SLACK;

	if (waiting_threads(p) && find_over(p, now - since - TIMER_SLACK))
		ww_call_waiting(p, false);
}

/* When a thread should look for a permit that has so many threads before it. The queue is locked. */
static uint64_t turn_of(const struct ww_pool *p, uint64_t now, uint64_t place)
{
	uint32_t width = p->crowd.limiter.width;
	uint64_t lease = lease_of(p), first = now + lease, soon = now + LEASE / 16;

	for (uint32_t k = 0; k < width && k < MANY_PERMITS; k++)
		first = p->crowd.permits[k].ends < first ? p->crowd.permits[k].ends : first;
	first = first > soon + TIMER_SLACK ? first - TIMER_SLACK : soon;
	return first + lease * place / width;
}

/*
 * Waits for a permit, at most until this time. The more threads are before this one, the later it looks. `before` is how many had
 * come before this thread. Of all that have come by now, those that don't wait any more count as if they had come before it. The
 * queue is locked, except while the thread sleeps.
 */
static void wait_for_permit(struct ww_pool *p, uint64_t now, uint64_t until, bool heeds)
{
	struct ww_crowd *crowd = &p->crowd;
	struct ww_turn me = { .link = crowd->end };
	uint64_t before = crowd->sought;

	*crowd->end = &me;
	crowd->end = &me.next;
	__atomic_fetch_add(&crowd->waiting, 1, __ATOMIC_SEQ_CST);
	count(&crowd->sought);
	DTRACE_PROBE1(ww, permit_wait, p->class_);
	do {
		int64_t place = (int64_t)(before + waiting_threads(p) - crowd->sought);
		uint64_t turn = turn_of(p, now, place > 0 ? (uint64_t)place : 0);
		const struct timespec then = timespec_of(turn < until ? turn : until);

		if (heeds && ww_ends_waits(p))
			break;
		me.is_called = 0;
		pthread_mutex_unlock(&p->queue);
		ww_futex_wait(&me.is_called, 0, &then);
		pthread_mutex_lock(&p->queue);
		now = ww_now();
	} while (is_crowded(p) && now < until && !take_permit(p, now));
	*me.link = me.next;
	*(me.next ? &me.next->link : &crowd->end) = me.link;
	call_one(p, now);
	DTRACE_PROBE1(ww, permit_wait_end, p->class_);
}

/*
 * Puts back this thread's last permit, whose lease is over, and takes a new one, once all threads that wait already have had their
 * turn. Returns what ww_await_permit does.
 */
COLD static int find_permit(struct ww_pool *p, uint64_t until, bool heeds, bool *has_waited)
{
	uint64_t now = ww_now();
	struct ww_my_permit had = ww_mine.permit;
	bool had_one = had.id == p->id && had.it, waits, is_refused;

	if (had_one)
		look_at_sleeps();
	pthread_mutex_lock(&p->queue);
	if (had_one)
		count_ended_lease(p, &had, now);
	if (had_one && had.it->ends == had.ends) /* no other thread has taken it since */
		*had.it = (struct ww_permit){ .ends = now };
	ww_mine.permit = (struct ww_my_permit){ .id = p->id };
	look_at_crowd(p, now);
	call_one(p, now);
	waits = is_crowded(p) && !sleeps_elsewhere() && (waiting_threads(p) || !take_permit(p, now));
	*has_waited = waits && now < until;
	if (*has_waited)
		wait_for_permit(p, now, until, heeds);
	is_refused = waits && is_crowded(p) && !ww_mine.permit.ends;
	pthread_mutex_unlock(&p->queue);
	(void)count_sleeps(); /* a sleep for the lock of the queue doesn't count as one elsewhere */
	ww_mine.permit.ran = ww_mine.ran;
	return waits && heeds && ww_ends_waits(p) ? -EINTR : is_refused ? -ETIMEDOUT : 0;
}

/*
 * This thread's lease goes on, so the thread begins one more context by its permit. If the crowd is due to be looked at, this thread
 * looks, unless another one has the lock of the queue: then the next thread that comes here looks.
 */
static void go_on_in_lease(struct ww_pool *p, uint64_t now)
{
	ww_mine.permit.begins = now - ww_mine.permit.seen < ww_mine.permit.brief ? MOST_BEGINS : 0;
	ww_mine.permit.seen = now;
	if (now >= __atomic_load_n(&p->crowd.due, __ATOMIC_RELAXED) && !pthread_mutex_trylock(&p->queue)) {
		look_at_crowd(p, now);
		call_one(p, now);
		pthread_mutex_unlock(&p->queue);
	}
}

/*
 * A thread that sleeps elsewhere needs no permit. Nor does a thread that already runs a context by its own seat, since others may
 * wait for what that context holds.
 */
int ww_await_permit(struct ww_pool *p, const struct timespec *until, bool heeds, bool *has_waited)
{
	uint64_t now = ww_now();
	bool is_mine = ww_mine.permit.id == p->id;
	uint32_t unreported = is_mine ? ww_mine.permit.begun - ww_mine.permit.reported : 0;
	int r = 0;

	if (sleeps_elsewhere() || runs_by(own_seat(p)))
		return 0;
	if (is_mine && now < ww_mine.permit.ends)
		go_on_in_lease(p, now);
	else
		r = find_permit(p, nanoseconds(until), heeds, has_waited);
	if (!r) {
		ww_mine.permit.reported = ++ww_mine.permit.begun;
		__atomic_fetch_add(&p->crowd.begun, unreported + 1, __ATOMIC_RELAXED);
	}
	return r;
}
