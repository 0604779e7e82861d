/*
 * Contexts are handed out in order: the thread that has waited longest gets the next one.
 *
 * No other takes one meanwhile; each end of a context ends one wait.  A thread's own seat stays that until the thread
 * ends, even if another thread ends a context there.  What the library locks comes by wrappers (ld --wrap).
 */
#include "../mutex_test.h"
#include "../../admit/seat.h"
#include <semaphore.h>
#include <sys/wait.h>

enum { WAITERS = 14, LATE = 5, LATE_TOO = 6 };

static DEFINE_WW_CLASS(wound_wait);
static DEFINE_WD_CLASS(wait_die);
static struct ww_class *c;
static struct ww_mutex alone[WAITERS];
static unsigned order[WAITERS], come, gone;
static unsigned pairs = 20000;

/* So many wait, or went. */
static void awaits_seekers(uint32_t count)
{
	while (__atomic_load_n(&c->pool->threads.lines[WAITS].seekers, __ATOMIC_SEQ_CST) + __atomic_load_n(&gone, __ATOMIC_SEQ_CST) != count)
		usleep(100);
}

static bool is_late(size_t waiter) { return waiter == LATE || waiter == LATE_TOO; }

static void *waits_its_turn(void *arg)
{
	size_t me = (size_t)arg;
	struct timespec soon = in_ms(200), late = in_ms(100000);
	struct ww_acquire_ctx x;

	if (is_late(me)) {
		MUST((me == LATE ? ww_mutex_lock_until(&alone[me], NULL, &soon) : ww_acquire_init_until(&x, c, &soon)) == -ETIMEDOUT);
		__atomic_fetch_add(&gone, 1, __ATOMIC_SEQ_CST);
		return NULL;
	}
	if (me % 4 == 0)
		ww_acquire_init(&x, c);
	else if (me % 4 == 1)
		MUST(!ww_acquire_init_until(&x, c, &late));
	else
		MUST(!(me % 4 == 2 ? ww_mutex_lock(&alone[me], NULL) : ww_mutex_lock_until(&alone[me], NULL, &late)));
	order[come++] = (unsigned)me;
	if (me % 4 < 2)
		ww_acquire_fini(&x);
	else
		ww_mutex_unlock(&alone[me]);
	return NULL;
}

/* One context; they come one after another, and two of them go before their turn. */
static void in_order(void)
{
	pthread_t threads[WAITERS];
	struct ww_acquire_ctx x;

	MUST(!ww_class_limit(c, WAITERS, 1));
	for (unsigned k = 0; k < WAITERS; k++)
		ww_mutex_init(&alone[k], c);
	come = gone = 0;
	ww_acquire_init(&x, c);
	for (size_t k = 0; k < WAITERS; k++) {
		threads[k] = begin_thread(waits_its_turn, (void *)k);
		awaits_seekers((uint32_t)k + 1);
	}
	end_thread(threads[LATE]);
	end_thread(threads[LATE_TOO]);
	awaits_seekers(WAITERS);
	gone = 0;
	ww_acquire_fini(&x);
	for (unsigned k = 0; k < WAITERS; k++)
		if (!is_late(k))
			end_thread(threads[k]);
	MUST(come == WAITERS - 2 && !c->pool->threads.lines[WAITS].seekers);
	for (unsigned k = 0; k < come; k++)
		MUST(order[k] == (k < LATE ? k : k + 2));
	for (unsigned k = 0; k < WAITERS; k++)
		MUST(!ww_mutex_destroy(&alone[k]));
	MUST(!ww_class_free(c));
}

static bool has_it, may_end;

static void *holds_it(void *arg)
{
	struct ww_acquire_ctx x;

	(void)arg;
	ww_acquire_init(&x, c);
	__atomic_store_n(&has_it, true, __ATOMIC_SEQ_CST);
	while (!__atomic_load_n(&may_end, __ATOMIC_SEQ_CST))
		usleep(100);
	ww_acquire_fini(&x);
	return NULL;
}

/* A thread that ended a context, and would begin the next one immediately, comes after those that wait. */
static void nobody_barges(void)
{
	struct ww_seek other = { 0 };
	struct ww_acquire_ctx x, y;
	struct ww_seats *of;
	pthread_t thread;

	MUST(!ww_class_limit(c, 1, 2));
	ww_mutex_init(&alone[0], c);
	of = &c->pool->threads;
	for (unsigned k = 0; k < 50; k++) {
		has_it = may_end = false;
		ww_acquire_init(&x, c);
		ww_acquire_init(&y, c);
		thread = begin_thread(holds_it, NULL);
		awaits_seekers(1);
		ww_acquire_fini(&y);
		MUST(ww_acquire_init_checked(&y, c) == -EAGAIN && !ww_mutex_trylock(&alone[0], NULL));
		while (!__atomic_load_n(&has_it, __ATOMIC_SEQ_CST))
			usleep(100);
		__atomic_store_n(&may_end, true, __ATOMIC_SEQ_CST);
		end_thread(thread);
		MUST(ww_mutex_trylock(&alone[0], NULL));
		ww_mutex_unlock(&alone[0]);
		/* As if somebody waited whom no seat was handed to yet. */
		of->lines[WAITS].seekers++;
		of->lines[WAITS].first = &other;
		of->lines[WAITS].end = &other.next_;
		MUST(ww_acquire_init_checked(&y, c) == -EAGAIN && !ww_mutex_trylock(&alone[0], NULL));
		of->lines[WAITS].seekers--;
		of->lines[WAITS].end = &of->lines[WAITS].first;
		of->lines[WAITS].first = NULL;
		ww_acquire_fini(&x);
	}
	MUST(!ww_mutex_destroy(&alone[0]) && !ww_class_free(c));
}

int __real_pthread_mutex_lock(pthread_mutex_t *m);
int __wrap_pthread_mutex_lock(pthread_mutex_t *m);
static struct ww_acquire_ctx *ends_then;
static unsigned before_that; /* so often the queue is locked */
static void (*called_then)(void); /* before the queue is locked next, */
static bool before_any;	    /* or any lock */

/* This thread stops before it locks this, and before it unlocks it. */
static __thread unsigned stops;
static pthread_mutex_t *queue;
static sem_t stopped, goes_on;

static void stop_at(pthread_mutex_t *m, unsigned when)
{
	if (stops != when || m != queue)
		return;
	stops--;
	sem_post(&stopped);
	sem_wait(&goes_on);
}

/* By this thread: it asks whether the class can be freed wherever it comes to lock something, or has unlocked all. */
static __thread bool asks;
static __thread unsigned locked;

static void asks_while_unlocked(void)
{
	if (!asks || locked)
		return;
	asks = false;
	MUST(ww_class_free(c) == -EBUSY);
	asks = true;
}

int __wrap_pthread_mutex_lock(pthread_mutex_t *m)
{
	struct ww_acquire_ctx *x = ends_then;
	void (*call)(void) = called_then;

	if (call && (before_any || m == &c->pool->queue)) {
		called_then = NULL;
		call();
	}
	if (x && m == &c->pool->queue && !before_that--) {
		ends_then = NULL;
		ww_acquire_fini(x);
	}
	stop_at(m, 2);
	asks_while_unlocked();
	locked += asks;
	return __real_pthread_mutex_lock(m);
}

int __real_pthread_mutex_unlock(pthread_mutex_t *m);
int __wrap_pthread_mutex_unlock(pthread_mutex_t *m);

/* The program forks just before the queue is unlocked: in the child this context ends then, which waits for nobody. */
static __thread struct ww_acquire_ctx *ends_in_child;
static struct ww_seek polled; /* a task that waits then: its waker is taken back in the child */

static void fork_amid(pthread_mutex_t *m)
{
	struct ww_acquire_ctx *x = ends_in_child;
	int status;

	if (!x || m != &c->pool->queue)
		return;
	ends_in_child = NULL;
	if (!fork()) {
		MUST(!polled.of_ || ww_poll_take_back(x, &polled));
		ww_acquire_fini(x);
		_exit(0);
	}
	MUST(wait(&status) > 0 && !status);
}

int __wrap_pthread_mutex_unlock(pthread_mutex_t *m)
{
	int r;

	fork_amid(m);
	stop_at(m, 1);
	r = __real_pthread_mutex_unlock(m);
	locked -= asks;
	asks_while_unlocked();
	return r;
}

/* The only context ends just after this one found none, and before it said that it waits: so it didn't wait. */
static void ends_just_then(void)
{
	struct ww_class_counts counts;
	struct ww_acquire_ctx x, y;

	MUST(!ww_class_limit(c, 1, 1));
	for (unsigned k = 0; k < 3; k++) {
		ww_acquire_init(&x, c);
		ends_then = &x;
		before_that = 0;
		ww_acquire_init(&y, c);
		MUST(!ends_then && !c->pool->threads.lines[WAITS].seekers && ww_acquire_init_checked(&x, c) == -EAGAIN);
		ww_acquire_fini(&y);
	}
	ww_class_stats(c, &counts);
	MUST(!counts.context_waits);
	MUST(!ww_class_free(c));
}

/*
 * The only context ends just as this one gives up: what was handed to it then it has, and nobody lost.  A context that is
 * free is begun, however late it is.
 */
static void gives_up_just_then(void)
{
	struct timespec past = in_ms(0), none = past;
	struct ww_acquire_ctx x, y;

	MUST(!ww_class_limit(c, 1, 1));
	ww_acquire_init(&x, c);
	for (unsigned k = 0; k < 3; k++) {
		MUST(ww_acquire_init_until(&y, c, &past) == -ETIMEDOUT && !c->pool->threads.lines[WAITS].seekers);
		ends_then = &x;
		before_that = 1;
		MUST(!ww_acquire_init_until(&y, c, &past) && !ends_then && !c->pool->threads.lines[WAITS].seekers);
		MUST(ww_acquire_init_checked(&x, c) == -EAGAIN);
		ww_acquire_fini(&y);
		MUST(!ww_acquire_init_until(&x, c, &past));
	}
	ww_acquire_fini(&x);
	none.tv_nsec = 1000000000;
	MUST(ww_acquire_init_until(&x, c, &none) == -EINVAL);
	none.tv_nsec = -1;
	MUST(ww_acquire_init_until(&x, c, &none) == -EINVAL && !ww_class_free(c));
}

static void *begins_and_stays(void *x)
{
	ww_acquire_init(x, c);
	return NULL;
}

/* What ends goes from hand to hand: while somebody waits, no moment is there at which nobody has the only context. */
static void is_never_idle(void)
{
	struct ww_acquire_ctx both[2];

	MUST(!ww_class_limit(c, 1, 1));
	ww_acquire_init(&both[0], c);
	for (unsigned k = 0; k < 4; k++) {
		pthread_t thread = begin_thread(begins_and_stays, &both[!(k % 2)]);

		awaits_seekers(1);
		asks = true;
		ww_acquire_fini(&both[k % 2]);
		asks = false;
		end_thread(thread);
	}
	ww_acquire_fini(&both[0]);
	MUST(!ww_class_free(c));
}

/* ---- a class that is freed beside the end of its last context, and a fork then ---- */

static void *waits_in_vain(void *arg)
{
	struct ww_acquire_ctx x;

	MUST(ww_acquire_init_until(&x, c, NULL) == -EINTR);
	return arg;
}

static void *ends_and_stops(void *x)
{
	stops = 2;
	ww_acquire_fini(x);
	return NULL;
}

static bool goes_well_in_child(void)
{
	struct ww_class next;
	struct ww_acquire_ctx x, y;
	struct timespec past = in_ms(0);

	ww_class_init(&next, 0, "next");
	return !ww_class_limit(&next, 4, 1) && !ww_acquire_init_checked(&x, &next) && &next.pool->queue == queue &&
	       ww_acquire_init_until(&y, &next, &past) == -ETIMEDOUT && !ww_acquire_fini_checked(&x) && !ww_class_free(&next);
}

/*
 * A thread that ended the only context saw somebody wait, whose wait is cancelled before it is served: when it locks the queue the class is
 * freed.  Then the program forks, and the child's next class has that memory.
 */
static void freed_and_forked(void)
{
	struct ww_acquire_ctx x;
	pthread_t ends, waits;
	int status;

	MUST(!ww_class_limit(c, 1, 1));
	ww_acquire_init(&x, c);
	queue = &c->pool->queue;
	waits = begin_thread(waits_in_vain, NULL);
	awaits_seekers(1);
	ends = begin_thread(ends_and_stops, &x);
	sem_wait(&stopped);
	MUST(!ww_class_cancel(c));
	end_thread(waits);
	MUST(!ww_class_free(c));
	sem_post(&goes_on);
	sem_wait(&stopped);
	if (!fork()) {
		_exit(!goes_well_in_child());
	}
	sem_post(&goes_on);
	end_thread(ends);
	MUST(wait(&status) > 0 && WIFEXITED(status) && !WEXITSTATUS(status));
}

/* ---- a fork while others wait for contexts, and one of them is served ---- */

static void *begins_and_ends(void *arg)
{
	struct ww_acquire_ctx x;

	ww_acquire_init(&x, c);
	ww_acquire_fini(&x);
	return arg;
}

static void is_called(void *nothing, void *task) { MUST(!nothing && !task); }

static void forked_amid(void)
{
	struct ww_acquire_ctx x, y, z;
	const struct ww_waker waker = { .wake = is_called };
	pthread_t threads[2];

	MUST(!ww_class_limit(c, 1, 2));
	ww_acquire_init(&x, c);
	ww_acquire_init(&y, c);
	for (unsigned k = 0; k < 2; k++)
		threads[k] = begin_thread(begins_and_ends, NULL);
	gone = 0;
	awaits_seekers(2);
	MUST(ww_acquire_init_poll(&z, c, &polled, &waker) == -EINPROGRESS);
	ends_in_child = &x;
	ww_acquire_fini(&y);
	ww_acquire_fini(&x);
	for (unsigned k = 0; k < 2; k++)
		end_thread(threads[k]);
	MUST(!ww_poll_take_back(&z, &polled) && !ww_acquire_init_poll(&z, c, &polled, &waker));
	ww_acquire_fini(&z);
	MUST(!ends_in_child && !ww_class_free(c));
}

/* ---- threads' own seats ---- */

/* So many contexts are anybody's. */
static void opens(uint32_t contexts) { MUST(!ww_class_limit(c, 1, contexts) && !ww_class_open_with(c, true)); }

static bool is_own(const struct ww_acquire_ctx *x) { return x->own->busy & IS_OWN; }

static void *ends(void *x)
{
	ww_acquire_fini(x);
	return NULL;
}

static void *has_its_own(void *arg)
{
	struct ww_acquire_ctx x, y;
	const ww_seat *mine;

	(void)arg;
	ww_acquire_init(&x, c);
	mine = x.own;
	MUST(is_own(&x));
	ww_acquire_init(&y, c);
	MUST(!is_own(&y));
	ww_acquire_fini(&x);
	ww_acquire_init(&x, c);
	MUST(x.own == mine);
	ww_acquire_fini(&y);
	/* One is gone on with elsewhere; until that ends the next ones aren't by its seat. */
	for (unsigned k = 0; k < 2; k++) {
		ww_acquire_init(&y, c);
		MUST(!is_own(&y));
		ww_acquire_fini(&y);
	}
	end_thread(begin_thread(ends, &x));
	MUST(!ww_acquire_init_checked(&x, c) && x.own == mine);
	ww_acquire_fini(&x);
	sem_post(&stopped);
	sem_wait(&goes_on);
	return NULL;
}

/* As many contexts as were asked for are anybody's, and a thread's own seat is nobody else's, used or not. */
static void are_own_for_life(void)
{
	struct ww_acquire_ctx x, y, z;
	pthread_t thread;

	opens(1);
	thread = begin_thread(has_its_own, NULL);
	sem_wait(&stopped);
	ww_acquire_init(&x, c);
	ww_acquire_init(&y, c);
	MUST(is_own(&x) && !is_own(&y) && ww_acquire_init_checked(&z, c) == -EAGAIN);
	sem_post(&goes_on);
	end_thread(thread);
	ww_acquire_fini(&x);
	ww_acquire_fini(&y);
	MUST(!ww_class_free(c));
}

static void *begins_and_lives(void *x)
{
	ww_acquire_init(x, c);
	sem_post(&stopped);
	sem_wait(&goes_on);
	return NULL;
}

static void *begins(void *x)
{
	ww_acquire_init(x, c);
	return NULL;
}

/* A thread ends, and a context that it began ends elsewhere: its seat is another thread's, once both are through. */
static void outlive_their_threads(bool thread_first)
{
	struct ww_acquire_ctx x, y;
	const ww_seat *its;
	pthread_t thread;

	opens(1);
	thread = begin_thread(begins_and_lives, &x);
	sem_wait(&stopped);
	its = x.own;
	MUST(is_own(&x));
	if (!thread_first)
		ww_acquire_fini(&x);
	sem_post(&goes_on);
	end_thread(thread);
	end_thread(begin_thread(begins, &y));
	MUST((y.own == its) == !thread_first);
	ww_acquire_fini(&y);
	if (thread_first) {
		MUST(ww_class_free(c) == -EBUSY);
		end_thread(begin_thread(ends, &x));
		end_thread(begin_thread(begins, &y));
		MUST(y.own == its);
		ww_acquire_fini(&y);
	}
	MUST(!ww_class_free(c));
}

/* A class is freed while threads have seats of it; these are theirs in the next class, too, though it has that memory. */
static void are_freed(void)
{
	struct ww_acquire_ctx x;
	pthread_t thread;

	opens(1);
	thread = begin_thread(begins_and_lives, &x);
	sem_wait(&stopped);
	ww_acquire_fini(&x);
	MUST(!ww_class_free(c));
	opens(1);
	sem_post(&goes_on);
	end_thread(thread);
	MUST(!ww_class_free(c));
}

/* As many threads as may have seats of their own, and one more: that has one once another thread ends. */
static void as_many_as_may(void)
{
	static struct ww_acquire_ctx all[MANY_OWN];
	pthread_t threads[MANY_OWN];
	uint32_t own = 0, before = ww_threads;
	int status;

	opens(MANY_OWN);
	for (unsigned k = 0; k < MANY_OWN; k++) {
		threads[k] = begin_thread(begins_and_lives, &all[k]);
		sem_wait(&stopped);
		own += is_own(&all[k]);
	}
	MUST(own == MANY_OWN - before && ww_threads == MANY_OWN);
	if (!fork())
		_exit(ww_threads == before ? 0 : 1); /* the others don't exist there */
	MUST(wait(&status) > 0 && !status);
	for (unsigned k = 0; k < MANY_OWN; k++)
		sem_post(&goes_on);
	for (unsigned k = 0; k < MANY_OWN; k++) {
		end_thread(threads[k]);
		ww_acquire_fini(&all[k]);
	}
	MUST(ww_threads == before);
	end_thread(begin_thread(begins, &all[0]));
	MUST(is_own(&all[0]));
	ww_acquire_fini(&all[0]);
	MUST(!ww_class_free(c));
}

static pthread_key_t last_words;

static void says_last_words(void *again)
{
	struct ww_acquire_ctx x;

	ww_acquire_init(&x, c);
	ww_acquire_fini(&x);
	/* The thread sanitizer has forgotten the thread before the last time. */
	if (again && !SANITIZES_THREADS)
		pthread_setspecific(last_words, again);
}

static void *has_last_words(void *arg)
{
	says_last_words(NULL);
	pthread_setspecific(last_words, &last_words);
	return arg;
}

/* A thread uses the class while it ends, as often as the system asks whether anything is left: it has no seat beyond that. */
static void are_used_to_the_end(void)
{
	uint32_t before = ww_threads;

	opens(1);
	MUST(!pthread_key_create(&last_words, says_last_words));
	for (unsigned k = 0; k < 3; k++) {
		end_thread(begin_thread(has_last_words, NULL));
		MUST(ww_threads == before);
	}
	MUST(!pthread_key_delete(last_words) && !ww_class_free(c));
}

/* A class that says how many contexts it has has as many; one that says nothing has 1,024, and each thread's own. */
static void as_is_said(void)
{
	static struct ww_acquire_ctx all[1025], more;

	for (unsigned said = 0; said < 2; said++) {
		unsigned most = said ? 1024 : 1025;

		MUST(!ww_class_limit(c, 1, said ? 1024 : 0));
		for (unsigned k = 0; k < most; k++)
			MUST(!ww_acquire_init_checked(&all[k], c));
		MUST(c->pool->own_seats == (said ? 0 : 256) && ww_acquire_init_checked(&more, c) == -EAGAIN);
		for (unsigned k = 0; k < most; k++)
			ww_acquire_fini(&all[k]);
		MUST(!ww_class_free(c));
	}
}

static void *asks_whether_it_holds(void *m)
{
	MUST(!ww_mutex_is_held_by(m, NULL));
	return NULL;
}

/* A context that took nothing holds nothing. */
static void by_its_thread_alone(void)
{
	MUST(!ww_class_limit(c, 1, 1) && sizeof ww_mine.thread == 8);
	ww_mutex_init(&alone[0], c);
	MUST(!ww_mutex_lock(&alone[0], NULL) && ww_mutex_is_held_by(&alone[0], NULL));
	end_thread(begin_thread(asks_whether_it_holds, &alone[0]));
	ww_mutex_unlock(&alone[0]);
	MUST(!ww_mutex_destroy(&alone[0]) && !ww_class_free(c));
}

/* ---- one context and two threads ---- */

static unsigned round_of, ended;

static void *begins_each_round(void *arg)
{
	(void)arg;
	for (unsigned k = 1; k <= pairs; k++) {
		struct ww_acquire_ctx x;

		while (__atomic_load_n(&round_of, __ATOMIC_SEQ_CST) != k)
			sched_yield();
		ww_acquire_init(&x, c); /* the other one has it */
		ww_acquire_fini(&x);
		__atomic_store_n(&ended, k, __ATOMIC_SEQ_CST);
	}
	return NULL;
}

/* One context and two threads: a wake-up that is lost ends no wait, and then neither thread goes on. */
static void each_end_wakes(void)
{
	unsigned drawn = 1;
	pthread_t thread;

	MUST(!ww_class_limit(c, 1, 1));
	round_of = ended = 0;
	thread = begin_thread(begins_each_round, NULL);
	for (unsigned k = 1; k <= pairs; k++) {
		struct ww_acquire_ctx x;

		ww_acquire_init(&x, c);
		__atomic_store_n(&round_of, k, __ATOMIC_SEQ_CST);
		for (volatile unsigned j = next(&drawn) % 1500; j; j--)
			;
		ww_acquire_fini(&x);
		while (__atomic_load_n(&ended, __ATOMIC_SEQ_CST) != k)
			sched_yield();
	}
	end_thread(thread);
	MUST(!c->pool->threads.lines[WAITS].seekers && !ww_class_free(c));
}

/* So many contexts at once, of a class that may have so many: each but the one beyond is there. */
static void at_once(uint32_t count)
{
	struct ww_acquire_ctx *all = calloc(count + (size_t)1, sizeof *all);
	struct ww_mutex *mutexes = calloc(count, sizeof *mutexes);

	MUST(all && mutexes && !ww_class_limit(c, count, count));
	for (unsigned again = 0; again < 2; again++) {
		for (uint32_t k = 0; k < count; k++) {
			ww_mutex_init(&mutexes[k], c);
			MUST(!ww_acquire_init_checked(&all[k], c) && !ww_mutex_lock(&mutexes[k], &all[k]));
		}
		MUST(ww_acquire_init_checked(&all[count], c) == -EAGAIN);
		for (uint32_t k = 0; k < count; k++) {
			MUST(mutexes[k].ctx == &all[k]);
			ww_mutex_unlock(&mutexes[k]);
			ww_acquire_fini(&all[k]);
			MUST(!ww_mutex_destroy(&mutexes[k]));
		}
	}
	MUST(!ww_class_free(c));
	free(all);
	free(mutexes);
}

/* ---- tasks, amid the end of another one's context: it is free already and nobody was called for it, or it is about to be handed over ---- */

static struct task {
	struct ww_acquire_ctx x;
	struct ww_seek seek;
	int calls;
} first, second, late;

static void counts_calls(void *nothing, void *calls)
{
	MUST(!nothing);
	++*(int *)calls;
}

static int polls(struct task *it)
{
	return ww_acquire_init_poll(&it->x, c, &it->seek, &(struct ww_waker){ .wake = counts_calls, .task = &it->calls });
}

static void one_comes(void) { MUST(!ww_acquire_init_poll(&late.x, c, NULL, NULL)); }
static void none_begins(void) { MUST(ww_acquire_init_poll(&late.x, c, NULL, NULL) == -ETIMEDOUT); }
static void first_leaves(void) { MUST(ww_acquire_init_poll(&first.x, c, &first.seek, NULL) == -ETIMEDOUT); }

/* All are in use, and lent, and nobody measures how many there may be. */
static struct ww_acquire_ctx *all_of_tasks(uint32_t *count)
{
	struct ww_acquire_ctx *all;

	first = second = late = (struct task){ 0 };
	MUST(!ww_class_limit(c, 1, 0) && !ww_class_open(c));
	c->pool->tasks.due = UINT64_MAX;
	*count = c->pool->tasks.open;
	all = calloc(*count, sizeof *all);
	MUST(all && *count >= 2);
	for (uint32_t k = 0; k < *count; k++) {
		MUST(!ww_acquire_init_poll(&all[k], c, NULL, NULL));
		all[k].own->lease = UINT64_MAX;
	}
	return all;
}

/* Somebody else begins by it first; one that is handed over is nobody else's; and if who would be called leaves, another one is. */
static void as_it_is_given(void)
{
	uint32_t count;
	struct ww_acquire_ctx *all = all_of_tasks(&count);

	MUST(polls(&first) == -EINPROGRESS && polls(&second) == -EINPROGRESS);
	called_then = one_comes;
	ww_acquire_fini(&all[0]);
	MUST(!called_then && !first.calls && polls(&first) == -EINPROGRESS && !second.calls && !c->pool->tasks.lines[CALLED].seekers);
	ww_acquire_fini(&late.x);
	MUST(first.calls == 1 && !polls(&first) && !second.calls && !c->pool->tasks.lines[CALLED].seekers);
	first.x.own->lease = 0;
	called_then = none_begins;
	ww_acquire_fini(&first.x);
	MUST(!called_then && second.calls == 1 && !polls(&second));
	first.calls = 0;
	MUST(polls(&first) == -EINPROGRESS && polls(&late) == -EINPROGRESS);
	second.x.own->lease = UINT64_MAX;
	called_then = first_leaves;
	ww_acquire_fini(&second.x);
	MUST(!called_then && !first.calls && late.calls == 1);
	for (uint32_t k = 1; k < count; k++)
		ww_acquire_fini(&all[k]);
	/* No context is in use, but one waits for one. */
	MUST(late.calls == 1 && ww_class_free(c) == -EBUSY && !polls(&late));
	ww_acquire_fini(&late.x);
	MUST(!ww_class_free(c));
	free(all);
}

int main(int count, char **words)
{
	struct ww_class *classes[] = { &wound_wait, &wait_die };
	const uint32_t counts[] = { 16, 17, 1000, WW_MAX_SEATS - 1 };

	if (count > 1)
		pairs = (unsigned)atoi(words[1]);
	MUST(!sem_init(&stopped, 0, 0) && !sem_init(&goes_on, 0, 0));
	for (unsigned kind = 0; kind < 2; kind++) {
		c = classes[kind];
		for (unsigned k = 0; k < 3; k++)
			in_order();
		nobody_barges();
		ends_just_then();
		gives_up_just_then();
		is_never_idle();
		freed_and_forked();
		/* It forks in the thread that has the queue's lock, which the thread sanitizer takes for another order of locks. */
		if (!SANITIZES_THREADS)
			forked_amid();
		are_own_for_life();
		outlive_their_threads(false);
		outlive_their_threads(true);
		are_freed();
		as_many_as_may();
		are_used_to_the_end();
		as_is_said();
		by_its_thread_alone();
		each_end_wakes();
		as_it_is_given();
		for (unsigned k = 0; k < 4; k++)
			at_once(counts[k]);
	}
	MUST(ww_class_limit(c, 1, WW_MAX_SEATS) == -EINVAL);
	puts("turns: contexts in order, up to 4094 at once, and threads' own seats");
	return 0;
}
