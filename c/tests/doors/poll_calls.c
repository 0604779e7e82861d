/*
 * Contexts that wait without a thread: what each call of ww_poll.h returns, which waker is called when.
 *
 * And sums by event loops beside a thread that blocks.  Compiled with -DWW_DEBUG, over the debug library.
 */
#include "../mutex_test.h"
#include "ww_shared.h"
#include "../../admit/seat.h"
#include "../../base/sleep.h"
#include "ww_steps.h"
#include <sys/wait.h>

static DEFINE_WW_CLASS(wound_wait);
static DEFINE_WD_CLASS(wait_die);
static DEFINE_WW_CLASS(unsaid); /* how many contexts it has */
static struct ww_class *c;
static struct ww_mutex m[3];
static uint32_t number; /* a fourth one */
static struct ww_acquire_ctx x, y;
static struct ww_seek seek;

/* The mutex of a number, for calls by address. */
static struct ww_shared_mutex *shared_at(uint32_t n) { return ww_number_at(n, c); }
static struct ww_mutex *mutex_at(uint32_t n) { return &ww_number_at(n, c)->mutex_; }

/* How often it was called; it calls the library for something else, since nothing is locked. */
static void count_calls(void *loop, void *task)
{
	struct ww_class_counts counts;
	struct ww_acquire_ctx other;

	ww_class_stats(loop, &counts);
	if (!ww_acquire_init_checked(&other, loop))
		ww_acquire_fini(&other);
	++*(int *)task;
}

static struct ww_waker counts_in(int *calls)
{
	*calls = 0;
	return (struct ww_waker){ count_calls, c, calls };
}

static void begins(struct ww_acquire_ctx *ctx)
{
	MUST(!ww_acquire_init_poll(ctx, c, &seek, &(struct ww_waker){ count_calls, c, NULL }));
	ctx->deadlock_inject_countdown = ~0u;
}

static void ends(struct ww_acquire_ctx *ctx) { ww_acquire_fini(ctx); }

static void waits_and_is_called(void)
{
	int calls;
	struct ww_waker w = counts_in(&calls);

	begins(&x);
	begins(&y);
	MUST(!ww_mutex_lock_poll(&m[0], &x, &w) && !ww_mutex_lock_poll(&m[1], &x, NULL));
	MUST(ww_mutex_lock_poll(&m[0], &y, &w) == -EINPROGRESS && m[0].waiters && !calls);
	/* Any other call by the context. */
	MUST(ww_mutex_lock(&m[2], &y) == -EBUSY && !ww_mutex_trylock(&m[2], &y) && ww_acquire_fini_checked(&y) == -EBUSY);
	MUST(ww_mutex_lock_poll(&m[2], &y, &w) == -EBUSY && ww_mutex_lock_poll(mutex_at(number), &y, &w) == -EBUSY);
	MUST(ww_mutex_destroy(&m[0]) == -EBUSY);
	MUST(ww_mutex_lock_poll(&m[0], &y, &w) == -EINPROGRESS && m[0].waiters && !calls);
	ww_mutex_unlock(&m[1]);
	MUST(!calls);
	ww_mutex_unlock(&m[0]);
	MUST(calls == 1 && !ww_poll_take_back(&y, NULL));
	MUST(!ww_mutex_lock_poll(&m[0], &y, &w) && calls == 1 && !m[0].waiters && ww_mutex_is_held_by(&m[0], &y));
	MUST(ww_mutex_lock_poll(&m[0], &y, &w) == -EALREADY && ww_mutex_lock_poll(&m[0], &y, NULL) == -EALREADY);
	ww_mutex_unlock(&m[0]);
	ends(&y);
	ends(&x);
}

/* It ends, and leaves nothing: be it that somebody just called. */
static void wait_ends(void)
{
	int calls, others;
	struct ww_waker w = counts_in(&calls), other = counts_in(&others);

	begins(&x);
	begins(&y);
	MUST(!ww_mutex_lock_poll(&m[0], &x, &w));
	MUST(ww_mutex_lock_poll(&m[0], &y, &w) == -EINPROGRESS && ww_poll_take_back(&y, NULL) && !ww_poll_take_back(&y, NULL));
	MUST(ww_mutex_lock_poll(&m[0], &y, &other) == -EINPROGRESS);
	MUST(ww_mutex_lock_poll(&m[0], &y, NULL) == -ETIMEDOUT && !m[0].waiters);
	ww_mutex_unlock(&m[0]);
	MUST(!calls && !others);
	for (int k = 0; k < 3; k++) { /* A cancel that wasn't needed calls off no later wait. */
		MUST(!ww_mutex_lock_poll(&m[0], &x, &w) && ww_mutex_lock_poll(&m[0], &y, &w) == -EINPROGRESS);
		ww_mutex_unlock(&m[0]);
		MUST(calls == 1 && !ww_mutex_lock_poll(&m[0], &y, NULL));
		ww_mutex_unlock(&m[0]);
		calls = 0;
	}
	MUST(!ww_mutex_lock_poll(&m[0], &x, NULL) && ww_mutex_lock_poll(&m[0], &y, NULL) == -ETIMEDOUT);
	MUST(ww_mutex_lock_poll(&m[0], &y, &w) == -EINPROGRESS && !ww_acquire_cancel(&y) && calls == 1);
	MUST(ww_mutex_lock_poll(&m[0], &y, &w) == -EINTR && !ww_mutex_lock_poll(&m[1], &y, &w));
	ww_mutex_unlock(&m[0]);
	ww_mutex_unlock(&m[1]);
	ends(&x);
	ends(&y);
}

/* The younger one gets -EDEADLK: immediately, or while it sleeps, as it is wounded. */
static void backs_off(void)
{
	int calls, olders;
	struct ww_waker w = counts_in(&calls), older = counts_in(&olders);

	begins(&x);
	begins(&y);
	MUST(!ww_mutex_lock_poll(&m[0], &x, &older) && !ww_mutex_lock_poll(&m[1], &y, &w));
	if (c == &wait_die) {
		MUST(ww_mutex_lock_poll(&m[0], &y, &w) == -EDEADLK && y.contending_lock == &m[0]);
		MUST(ww_mutex_lock_poll(&m[1], &x, &older) == -EINPROGRESS);
	} else {
		MUST(ww_mutex_lock_poll(&m[0], &y, &w) == -EINPROGRESS);
		MUST(ww_mutex_lock_poll(&m[1], &x, &older) == -EINPROGRESS && calls == 1);
		MUST(ww_mutex_lock_poll(&m[0], &y, &w) == -EDEADLK);
	}
	MUST(ww_mutex_lock_poll(&m[2], &y, &w) == -EINVAL);
	ww_mutex_unlock(&m[1]);
	MUST(olders == 1 && ww_mutex_lock_poll(&m[0], &y, &w) == -EINPROGRESS);
	MUST(!ww_mutex_lock_poll(&m[1], &x, &older));
	ww_mutex_unlock(&m[1]);
	ww_mutex_unlock(&m[0]);
	ends(&x);
	MUST(!ww_mutex_lock_poll(&m[0], &y, &w) && !ww_mutex_lock_poll(&m[1], &y, &w));
	ww_mutex_unlock(&m[0]);
	ww_mutex_unlock(&m[1]);
	ends(&y);
}

static void waits_for_a_context(void)
{
	int calls[3];
	struct ww_waker w[3] = { counts_in(&calls[0]), counts_in(&calls[1]), counts_in(&calls[2]) };
	struct ww_seek s[3] = { { 0 } };
	struct ww_acquire_ctx z[3];

	begins(&x);
	begins(&y);
	begins(&z[0]);
	for (unsigned k = 0; k < 3; k++) {
		if (k)
			MUST(ww_acquire_init_poll(&z[k], c, &s[k], &w[k]) == -EINPROGRESS);
		MUST(ww_acquire_init_checked(&(struct ww_acquire_ctx){ 0 }, c) == -EAGAIN);
	}
	MUST(ww_acquire_init_poll(&z[2], c, &s[2], &w[0]) == -EINPROGRESS && ww_poll_take_back(&z[2], &s[2]));
	MUST(ww_acquire_init_poll(&z[2], c, &s[2], &w[2]) == -EINPROGRESS);
	ends(&x);
	MUST(calls[1] == 1 && !calls[2] && !calls[0] && !ww_poll_take_back(&z[1], &s[1]));
	/* It has one, and hands it on. */
	MUST(!ww_acquire_init_poll(&z[1], c, &s[1], NULL));
	ends(&z[1]);
	MUST(calls[2] == 1 && !ww_acquire_init_poll(&z[2], c, &s[2], &w[2]));
	MUST(ww_acquire_init_poll(&z[1], c, &s[1], &w[1]) == -EINPROGRESS);
	MUST(ww_acquire_init_poll(&z[1], c, &s[1], NULL) == -ETIMEDOUT);
	MUST(ww_acquire_init_poll(&z[1], c, &s[1], NULL) == -ETIMEDOUT && calls[1] == 1);
	ends(&z[2]);
	/* The waker of the last poll is called, and nobody is waited for any more. */
	MUST(!ww_acquire_init_checked(&x, c) && ww_acquire_init_poll(&z[1], c, &s[1], &w[1]) == -EINPROGRESS);
	MUST(ww_acquire_init_poll(&z[1], c, &s[1], &w[0]) == -EINPROGRESS);
	ends(&x);
	MUST(calls[0] == 1 && calls[1] == 1 && !ww_acquire_init_poll(&z[1], c, &s[1], &w[1]));
	ends(&z[1]);
	/* The same by a call that uses no context: of one that has got it and hands it on, of one that waits, and of none. */
	MUST(!ww_acquire_init_checked(&x, c));
	for (unsigned k = 1; k < 3; k++)
		MUST(ww_acquire_init_poll(&z[k], c, &s[k], &w[k]) == -EINPROGRESS);
	ends(&x);
	MUST(calls[1] == 2 && calls[2] == 1);
	ww_seek_end(&s[1]);
	MUST(calls[2] == 2);
	ww_seek_end(&s[2]);
	ww_seek_end(&s[2]);
	ends(&z[0]);
	ends(&y);
	MUST(!ww_acquire_init_checked(&x, c));
	ends(&x);
}

/*
 * The library's clock. It stands still while the tests of contexts run, as a thread that lost its processor for longer than a lease would
 * else find that who was called came too late.
 */
static struct timespec stands_at;
int __real_clock_gettime(clockid_t id, struct timespec *at);
int __wrap_clock_gettime(clockid_t id, struct timespec *at);
int __wrap_clock_gettime(clockid_t id, struct timespec *at)
{
	if (!stands_at.tv_sec)
		return __real_clock_gettime(id, at);
	*at = stands_at;
	return 0;
}

/* Whether one can be begun at once. */
static bool begins_at_once(struct ww_acquire_ctx *ctx)
{
	int r = ww_acquire_init_poll(ctx, c, NULL, NULL);

	MUST(!r || r == -ETIMEDOUT);
	return !r;
}

/* ---- contexts of tasks ---- */

enum { SEEKERS = 3 };
static struct ww_seek seeks[SEEKERS];
static struct ww_waker wakers[SEEKERS];
static int called[SEEKERS];

static int looks(unsigned k, struct ww_acquire_ctx *ctx) { return ww_acquire_init_poll(ctx, c, &seeks[k], &wakers[k]); }

/* How often the seats that may be claimed were given. */
static uint32_t given(const struct ww_seats *of)
{
	uint32_t sum = 0;

	for (uint32_t k = 0; k < of->open; k++)
		sum += of->seats[k].given;
	return sum;
}

/* Its seat goes to whoever begins next, or to the one that waits longest. */
static void is_lent(struct ww_acquire_ctx *ctx, bool is) { ctx->own->lease = is ? UINT64_MAX : 1; }

/* Both contexts are in use, and lent, and so many tasks wait. */
static void all_in_use(struct ww_acquire_ctx both[2], unsigned waiting)
{
	c->pool->tasks.due = UINT64_MAX; /* and nobody measures */
	for (unsigned k = 0; k < 2; k++) {
		MUST(begins_at_once(&both[k]));
		is_lent(&both[k], true);
	}
	MUST(!begins_at_once(&y));
	for (unsigned k = 0; k < waiting; k++) {
		seeks[k] = (struct ww_seek){ 0 };
		wakers[k] = counts_in(&called[k]);
		MUST(looks(k, &y) == -EINPROGRESS && !called[k]);
	}
}

static void end_both(struct ww_acquire_ctx both[2])
{
	ww_acquire_fini(&both[0]);
	ww_acquire_fini(&both[1]);
}

/* One that isn't lent any more is handed to whoever waits longest; and then it is lent. */
static void handed_in_turn(void)
{
	struct ww_acquire_ctx both[2];

	all_in_use(both, 2);
	is_lent(&both[1], false);
	ww_acquire_fini(&both[1]);
	MUST(called[0] == 1 && !called[1] && !begins_at_once(&y) && !ww_poll_take_back(&y, &seeks[0]));
	MUST(looks(1, &y) == -EINPROGRESS && !looks(0, &both[1]) && both[1].own->lease > ww_now());
	is_lent(&both[0], false);
	ww_acquire_fini(&both[0]);
	MUST(called[1] == 1 && !looks(1, &both[0]));
	end_both(both);
}

/* One that is lent is anybody's. One is called for each that is given, and no other, until it has looked. */
static void called_in_turn(void)
{
	struct ww_acquire_ctx both[2];

	all_in_use(both, 3);
	ww_acquire_fini(&both[0]);
	MUST(called[0] == 1 && !called[1] && begins_at_once(&both[0]));
	ww_acquire_fini(&both[0]);
	MUST(called[0] == 1 && !called[1]);
	ww_acquire_fini(&both[1]);
	MUST(called[0] == 1 && called[1] == 1 && !called[2] && !ww_poll_take_back(&y, &seeks[0]));
	MUST(!looks(1, &both[1]) && !looks(0, &both[0]) && !called[2]);
	MUST(ww_poll_take_back(&y, &seeks[2]) && looks(2, &y) == -EINPROGRESS);
	ww_acquire_fini(&both[1]);
	MUST(called[2] == 1 && begins_at_once(&both[1]));
	is_lent(&both[1], false);
	ww_acquire_fini(&both[1]);
	MUST(called[2] == 1 && !looks(2, &both[1]));
	end_both(both);
}

/* Who was called, and leaves, has the next one called; so has one that is handed another seat. */
static void passes_on_its_call(void)
{
	struct ww_acquire_ctx both[2];

	all_in_use(both, 3);
	ww_acquire_fini(&both[0]);
	MUST(called[0] == 1 && !called[1]);
	if (!ww_acquire_init_poll(&y, c, &seeks[0], NULL))
		ww_acquire_fini(&y);
	MUST(called[1] == 1 && !called[2] && begins_at_once(&both[0]));
	is_lent(&both[1], false);
	ww_acquire_fini(&both[1]);
	MUST(called[1] == 1 && called[2] == 1 && !looks(1, &both[1]));
	MUST(ww_acquire_init_poll(&y, c, &seeks[2], NULL) == -ETIMEDOUT);
	end_both(both);
}

/* Until when who was called for the seat may come. */
static void may_come_until(const ww_seat *s, uint64_t time)
{
	const struct ww_seats *tasks = &c->pool->tasks;

	MUST(c->pool->called[s - tasks->seats]);
	c->pool->called[s - tasks->seats] = time;
}

/*
 * The first doesn't come: others go on nevertheless, be it that the next one is called for another seat, or that the call of the first has
 * lasted for a lease: then the next one is called in its place, by whoever gives its seat, polls, or comes to wait.
 */
static void goes_on_without_who_was_called(void)
{
	struct ww_acquire_ctx both[2];
	struct ww_seek more = { 0 };
	int calls = 0;
	const struct ww_waker waker = counts_in(&calls);

	all_in_use(both, 2);
	end_both(both);
	MUST(called[0] == 1 && called[1] == 1 && !looks(1, &both[1]));
	ww_acquire_fini(&both[1]);
	MUST(!looks(0, &both[0]));
	ww_acquire_fini(&both[0]);

	all_in_use(both, 3);
	ww_acquire_fini(&both[0]);
	MUST(called[0] == 1 && begins_at_once(&both[0]));
	may_come_until(both[0].own, UINT64_MAX);
	ww_acquire_fini(&both[0]);
	MUST(!called[1] && begins_at_once(&both[0]));
	may_come_until(both[0].own, 1);
	ww_acquire_fini(&both[0]);
	MUST(called[0] == 1 && called[1] == 1 && !called[2]);
	MUST(looks(2, &y) == -EINPROGRESS && looks(0, &y) == -EINPROGRESS && !looks(1, &both[0]));
	ww_acquire_fini(&both[0]);
	MUST(called[0] == 1 && called[2] == 1 && !looks(2, &both[0]));
	ww_acquire_fini(&both[0]);
	MUST(called[0] == 2);
	may_come_until(seeks[0].seat_, 1); /* it may come nevertheless, while nobody comes in its place */
	MUST(!looks(0, &both[0]));
	end_both(both);

	all_in_use(both, 2);
	ww_acquire_fini(&both[0]);
	MUST(called[0] == 1 && looks(1, &y) == -EINPROGRESS);
	may_come_until(seeks[0].seat_, 1);
	MUST(!looks(1, &both[0]) && !called[1] && looks(0, &y) == -EINPROGRESS); /* nor is a waker called by its own task's poll */
	ww_acquire_fini(&both[0]);
	MUST(called[0] == 2 && !looks(0, &both[0]));
	end_both(both);

	all_in_use(both, 3);
	end_both(both);
	MUST(called[0] == 1 && called[1] == 1 && !called[2]);
	ww_mine.last.id = NO_ID; /* so a task of this thread that comes looks at no seat */
	MUST(ww_acquire_init_poll(&y, c, &more, &waker) == -EINPROGRESS && !called[2]);
	ww_seek_end(&more);
	may_come_until(seeks[0].seat_, 1);
	MUST(ww_acquire_init_poll(&y, c, &more, &waker) == -EINPROGRESS && called[2] == 1);
	ww_seek_end(&more);
	MUST(!looks(2, &both[0]) && !looks(1, &both[1]) && looks(0, &y) == -EINPROGRESS);
	end_both(both);
	MUST(called[0] == 2 && !looks(0, &y));
	ww_acquire_fini(&y);
}

/* What may not be claimed any more is nobody's; what may be from now on is whose who waits. */
static void as_many_as_the_limiter_says(void)
{
	struct ww_acquire_ctx both[2], more, *in = &both[0], *out = &both[1];
	bool is_first;
	struct ww_seats *tasks = &c->pool->tasks;
	struct ww_limiter limiter;

	do { /* until this thread comes back to the first one, and then to the other one */
		MUST(begins_at_once(&both[0]) && begins_at_once(&both[1]));
		is_first = both[0].own == tasks->seats;
		end_both(both);
	} while (is_first);
	all_in_use(both, 3);
	MUST(both[0].own == tasks->seats);
	limiter = tasks->limiter;
	tasks->open = 1;
	is_lent(in, false);
	is_lent(out, false);
	ww_acquire_fini(out);
	MUST(!called[0] && looks(0, &y) == -EINPROGRESS && !begins_at_once(&y));
	ww_acquire_fini(in);
	MUST(called[0] == 1 && !called[1] && !looks(0, in) && !begins_at_once(&y));
	tasks->limiter = (struct ww_limiter){
		.width = 1, .kept = 3, .least = 1, .widest = 3, .most = 3, .tries = true, .more = true, .since = 1, .rate = UINT64_MAX / 4,
		.begun = given(tasks) - 1000,
	};
	tasks->due = 0;
	tasks->seats[2].given += 1000; /* by a context within another one: what may be claimed from now on is counted from now on */
	is_lent(in, true);
	ww_acquire_fini(in);
	MUST(tasks->open > 2 && tasks->limiter.begun == given(tasks));
	tasks->due = UINT64_MAX;
	MUST(called[1] == 1 && called[2] == 1 && !looks(1, in) && !looks(2, out));
	MUST(begins_at_once(&more) && !begins_at_once(&y));
	ww_acquire_fini(&more);
	tasks->open = 2;
	tasks->limiter = limiter;
	end_both(both);
}

/* Within another one it gets any that is free, if there is one; else it waits, as others. */
static void begins_within_another(void)
{
	static struct ww_acquire_ctx rest[896 - 2];
	enum { LAST = sizeof rest / sizeof *rest - 1 };
	struct ww_acquire_ctx both[2];

	all_in_use(both, 1);
	for (unsigned k = 0; k <= LAST; k++)
		MUST(!ww_acquire_init_poll(&rest[k], c, &(struct ww_seek){ .is_within = true }, k ? NULL : &wakers[1]));
	seeks[1] = (struct ww_seek){ .is_within = true };
	wakers[1] = counts_in(&called[1]);
	MUST(ww_acquire_init_poll(&x, c, &(struct ww_seek){ .is_within = true }, NULL) == -ETIMEDOUT);
	MUST(looks(1, &y) == -EINPROGRESS);
	/* What the limiter doesn't let begin is nobody's who waits. */
	ww_acquire_fini(&rest[LAST]);
	MUST(!called[0] && !called[1]);
	ww_acquire_fini(&both[1]);
	MUST(called[0] == 1 && !called[1] && !looks(0, &x));
	ww_acquire_fini(&x);
	MUST(called[1] == 1 && !looks(1, &both[1]));
	for (unsigned k = 0; k < LAST; k++)
		ww_acquire_fini(&rest[k]);
	end_both(both);
}

/* Each task has a context, so nobody waits for one: whoever has waited for a lock, while the limiter is to be looked at, looks. */
static void waits_for_a_lock(struct ww_acquire_ctx both[2], uint64_t due)
{
	struct ww_seats *tasks = &c->pool->tasks;

	wakers[0] = counts_in(&called[0]);
	MUST(!ww_mutex_lock_poll(&m[0], &both[0], &wakers[0]) && ww_mutex_lock_poll(&m[0], &both[1], &wakers[0]) == -EINPROGRESS);
	ww_mutex_unlock(&m[0]);
	tasks->due = due;
	MUST(!ww_mutex_lock_poll(&m[0], &both[1], &wakers[0]) && tasks->due > ww_now() && tasks->due <= ww_now() + LEASE);
	ww_mutex_unlock(&m[0]);
}

/* What was found for one load isn't for the next: if nobody has waited for long, the limiter is opened anew. */
static void looks_after_a_wait(void)
{
	struct ww_acquire_ctx both[2];
	struct ww_seats *tasks = &c->pool->tasks;
	struct ww_limiter one = { .width = 1, .kept = 1, .least = 1, .widest = 448, .most = 896, .many = 32, .holds = 64, .rate = 1 };
	uint64_t now;

	ww_mutex_init(&m[0], c);
	all_in_use(both, 0);
	one.since = now = ww_now();
	one.begun = given(tasks);
	tasks->limiter = one;
	waits_for_a_lock(both, now);
	MUST(tasks->open == 1 && tasks->limiter.rate == 1);
	waits_for_a_lock(both, now - 20000000);
	MUST(tasks->open == 2 && !tasks->limiter.rate);
	end_both(both);
	MUST(!ww_mutex_destroy(&m[0]));
}

/* Whoever comes to wait looks, too.  Each context counts once, as it ends, and only if its seat may be claimed. */
static void looks_before_a_wait(void)
{
	struct ww_acquire_ctx both[2];
	struct ww_seats *tasks = &c->pool->tasks;
	struct ww_limiter limiter = tasks->limiter;
	uint32_t count;

	all_in_use(both, 0);
	tasks->limiter = (struct ww_limiter){
		.width = 2, .kept = 2, .least = 1, .widest = 448, .most = 896, .holds = 1, .since = 1, .begun = given(tasks),
	};
	tasks->seats[2].given += 1000;
	seeks[0] = (struct ww_seek){ 0 };
	tasks->due = ww_now();
	MUST(looks(0, &y) == -EINPROGRESS && tasks->due > ww_now() && tasks->open == 2 && tasks->limiter.since == 1);
	ww_seek_end(&seeks[0]);
	tasks->limiter = limiter;
	count = given(tasks);
	end_both(both);
	MUST(given(tasks) == count + 2);
}

/* No limit is as many as there are. */
static void as_many_as_there_are(void)
{
	struct ww_acquire_ctx both[2];
	struct ww_seats *tasks = &c->pool->tasks;
	struct ww_limiter limiter = tasks->limiter;

	ww_mutex_init(&m[0], c);
	all_in_use(both, 0);
	tasks->limiter = (struct ww_limiter){
		.width = 600, .kept = 600, .least = 1, .widest = 448, .most = 896, .many = 32, .holds = 1, .since = 1, .rate = 1,
		.begun = given(tasks) - 100000,
	};
	waits_for_a_lock(both, ww_now());
	MUST(tasks->limiter.width == NO_LIMIT && tasks->open == tasks->count);
	tasks->limiter = limiter;
	tasks->open = 2;
	end_both(both);
	MUST(!ww_mutex_destroy(&m[0]));
}

/* A class isn't freed while a task waits for a context, also if it was called, and none is in use. */
static void stays_while_one_waits(void)
{
	struct ww_acquire_ctx both[2];

	all_in_use(both, 1);
	ww_acquire_fini(&both[0]);
	ww_acquire_fini(&both[1]);
	MUST(called[0] == 1 && ww_class_free(c) == -EBUSY && !looks(0, &x));
	MUST(ww_class_free(c) == -EBUSY);
	ww_acquire_fini(&x);
}

/* A cancel of the class ends the wait of a task that waits on, and leaves one that was called for a seat, since that needn't wait. */
static void cancelled_unless_called(void)
{
	struct ww_acquire_ctx both[2];

	all_in_use(both, 2);
	ww_acquire_fini(&both[0]);
	MUST(called[0] == 1 && !called[1] && !ww_class_cancel(c) && called[0] == 1 && called[1] == 1);
	MUST(looks(1, &y) == -EINTR && !looks(0, &both[0]));
	end_both(both);
}

/* On one processor tasks have two contexts. */
static void by_contexts_of_their_own(void)
{
	cpu_set_t all, one;

	c = &unsaid;
	CPU_ZERO(&one);
	CPU_SET((size_t)sched_getcpu(), &one);
	MUST(!sched_getaffinity(0, sizeof all, &all) && !sched_setaffinity(0, sizeof one, &one) && !ww_class_open(c));
	MUST(!sched_setaffinity(0, sizeof all, &all));
	MUST(!clock_gettime(CLOCK_MONOTONIC, &stands_at));
	handed_in_turn();
	called_in_turn();
	passes_on_its_call();
	goes_on_without_who_was_called();
	as_many_as_the_limiter_says();
	begins_within_another();
	looks_after_a_wait();
	looks_before_a_wait();
	as_many_as_there_are();
	stays_while_one_waits();
	cancelled_unless_called();
	stands_at.tv_sec = 0;
	MUST(!ww_class_free(c));
}

/* ---- amid a wait, and behind it ---- */

/* How many misused calls were reported. What else these tests report is no matter. */
static unsigned long faults(void)
{
#ifdef WW_DEBUG
	return ww_debug_faults();
#else
	return 0;
#endif
}
static unsigned long besides;

/* As they are called where nothing is compiled into callers. */
static __typeof__(ww_mutex_lock) *volatile lock_of = ww_mutex_lock;
static __typeof__(ww_mutex_trylock) *volatile trylock_of = ww_mutex_trylock;
static __typeof__(ww_number_trylock) *volatile number_trylock_of = ww_number_trylock;

/* Each is refused. */
static void refused_call(unsigned which)
{
	struct ww_mutex *list[] = { &m[2], &m[1] };
	struct timespec past = { 0, 0 };

	switch (which) {
	case 0: MUST(ww_mutex_lock_all(&y, list, 1) == -EBUSY && ww_mutex_lock_all(&y, list, 0) == -EBUSY); break;
	case 1: MUST(ww_mutex_lock_all(&y, list, 2) == -EBUSY); break;
	case 2: MUST(ww_mutex_unlock_checked(&m[1]) == -EBUSY); break;
	case 3: MUST(ww_number_unlock(number, &y) == -EBUSY); break;
	case 4: MUST(ww_acquire_done_checked(&y) == -EBUSY); break;
	case 5: MUST(ww_acquire_fini_checked(&y) == -EBUSY); break;
	case 6: MUST(ww_mutex_lock(&m[2], &y) == -EBUSY && lock_of(&m[2], &y) == -EBUSY); break;
	case 7: MUST(ww_mutex_lock_until(&m[1], &y, &past) == -EBUSY); break;
	case 8: MUST(!ww_mutex_trylock(&m[2], &y) && !trylock_of(&m[2], &y) && !trylock_of(&m[1], &y)); break;
	case 9: MUST(!ww_number_trylock(number, &y) && !number_trylock_of(number, &y)); break;
	case 10: MUST(ww_mutex_lock_slow_checked(&m[2], &y) == -EBUSY); break;
	case 11: ww_acquire_flags(&y, WW_IGNORE_DUPLICATES | WW_INTERRUPTIBLE); break;
	default: MUST(ww_mutex_lock_poll(mutex_at(number), &y, &wakers[2]) == -EBUSY && ww_mutex_lock_poll(&m[2], &y, NULL) == -EBUSY);
	}
}

/* The wait goes on and ends, and all can be released. */
static void refused_amid_a_wait(void)
{
	enum { CALLS = 13 };
	unsigned long before = faults();

	for (unsigned which = 0; which <= CALLS; which++) { /* the last time all of them */
		int calls, nobodys;
		struct ww_waker w = counts_in(&calls);

		wakers[2] = counts_in(&nobodys);
		begins(&y); /* so it is the older one */
		begins(&x);
		MUST(!ww_mutex_lock(&m[0], &x) && !ww_mutex_lock(&m[1], &y) && !ww_number_lock(number, &y));
		MUST(ww_mutex_lock_poll(&m[0], &y, &w) == -EINPROGRESS);
		for (unsigned k = 0; k < CALLS; k++)
			if (k == which || which == CALLS)
				refused_call(k);
		MUST(!calls && y.acquired == 2 && ww_mutex_is_held_by(&m[1], &y) && m[0].waiters);
		MUST(ww_mutex_lock_poll(&m[0], &y, &w) == -EINPROGRESS);
		ww_mutex_unlock(&m[0]);
		MUST(calls == 1 && !nobodys);
		if (which == CALLS)
			for (unsigned k = 0; k < CALLS; k++)
				refused_call(k);
		MUST(!ww_mutex_lock_poll(&m[0], &y, &w) && y.acquired == 3 && ww_shared_mutex_is_written_by(shared_at(number), &y));
		MUST(!ww_mutex_unlock_checked(&m[1]) && !ww_number_unlock(number, &y) && !ww_mutex_unlock_checked(&m[0]));
		MUST(!y.acquired && !ww_mutex_lock_all(&y, (struct ww_mutex *const[]){ &m[1], &m[2] }, 2));
		ww_mutex_unlock(&m[2]);
		ww_mutex_unlock(&m[1]);
		MUST(ww_mutex_lock_all(&y, (struct ww_mutex *const[]){ &m[1], &m[1] }, 2) == -EALREADY);
		MUST(!ww_acquire_done_checked(&y) && !ww_acquire_fini_checked(&y));
		ends(&x);
	}
	besides += faults() - before;
}

/* Behind a wait, what it acquired is like all that the context holds; also if what it held between was freed. */
static void held_after_a_wait(bool frees)
{
	struct ww_mutex *other = malloc(sizeof *other);
	unsigned long before = faults();
	int calls;
	struct ww_waker w = counts_in(&calls);

	MUST(other);
	begins(&x);
	begins(&y);
	MUST(!ww_mutex_lock(&m[0], &x) && ww_mutex_lock_poll(&m[0], &y, &w) == -EINPROGRESS);
	ww_mutex_unlock(&m[0]);
	MUST(calls == 1 && !ww_mutex_lock_poll(&m[0], &y, &w));
	ww_mutex_init(other, c);
	if (frees) {
		MUST(!ww_mutex_lock(other, &y));
		ww_mutex_unlock(other);
	}
	MUST(!ww_mutex_destroy(other));
	memset(other, 0x55, sizeof *other);
	free(other);
	for (unsigned k = 0; k < 2; k++) {
		MUST(!ww_mutex_trylock(&m[0], &y) && !trylock_of(&m[0], &y) && !ww_mutex_trylock_checked(&m[0], &y) && y.acquired == 1);
		MUST(ww_mutex_lock(&m[0], &y) == -EALREADY && lock_of(&m[0], &y) == -EALREADY && y.acquired == 1);
		MUST(ww_mutex_lock_interruptible(&m[0], &y) == -EALREADY && ww_mutex_lock_poll(&m[0], &y, &w) == -EALREADY);
	}
	ww_mutex_unlock(&m[0]);
	MUST(ww_mutex_unlock_checked(&m[0]) == -EINVAL && !y.acquired);
	MUST(!ww_number_lock(number, &x) && ww_mutex_lock_poll(mutex_at(number), &y, &w) == -EINPROGRESS && !ww_number_unlock(number, &x));
	MUST(!ww_mutex_lock_poll(mutex_at(number), &y, &w) && !ww_number_trylock(number, &y) && !number_trylock_of(number, &y));
	MUST(ww_number_lock(number, &y) == -EALREADY && y.acquired == 1 && !ww_number_unlock(number, &y));
	ends(&y);
	ends(&x);
	besides += faults() - before;
}

/* All contexts are amid calls, and whether a number is free can be asked nevertheless. No two waits of a context leave one token. */
static void while_all_wait(void)
{
	enum { ALL = 3, WAITS_OF_ONE = 8 };
	struct ww_acquire_ctx all[ALL];
	uint32_t tokens[WAITS_OF_ONE];
	int calls;
	struct ww_waker w = counts_in(&calls);

	for (unsigned k = 0; k < ALL; k++)
		begins(&all[k]);
	for (unsigned holder = 0; holder < ALL; holder++) {
		struct ww_acquire_ctx *by = &all[(holder + 1) % ALL];

		MUST(!ww_mutex_lock(&m[0], &all[holder]));
		for (unsigned k = 0; k < ALL; k++)
			if (k != holder)
				MUST(ww_mutex_lock_poll(&m[0], &all[k], &w) == -EINPROGRESS);
		MUST(!ww_mutex_is_locked(mutex_at(number)));
		for (unsigned k = 0; k < WAITS_OF_ONE; k++) {
			MUST(ww_mutex_lock_poll(&m[0], by, &w) == -EINPROGRESS);
			tokens[k] = by->own->token;
			for (unsigned j = 0; j < k; j++)
				MUST(tokens[j] != tokens[k]);
		}
		for (unsigned k = 0; k < ALL; k++)
			if (k != holder)
				MUST(ww_mutex_lock_poll(&m[0], &all[k], NULL) == -ETIMEDOUT);
		ww_mutex_unlock(&m[0]);
	}
	for (unsigned k = 0; k < ALL; k++)
		ends(&all[k]);
}

/* In a forked child a poll that would have to wait never ends: so it returns an error, as any lock call does. */
static void in_a_child(void)
{
	struct ww_acquire_ctx z, none;
	int calls, status;
	struct ww_waker w = counts_in(&calls);
	pid_t child;

	begins(&x);
	begins(&y);
	begins(&z);
	seek = (struct ww_seek){ 0 };
	MUST(!ww_mutex_lock(&m[0], &x) && ww_acquire_init_poll(&none, c, &seek, &w) == -EINPROGRESS);
	MUST(ww_mutex_lock_poll(&m[0], &z, &w) == -EINPROGRESS);
	child = fork();
	if (!child) {
		struct ww_seek its = { 0 };

		MUST(ww_mutex_lock_poll(&m[0], &y, &w) == -EINVAL && ww_mutex_lock_poll(&m[1], &y, &w) == -EINVAL);
		MUST(ww_mutex_lock_poll(mutex_at(number), &y, &w) == -EINVAL && ww_mutex_lock_poll(&m[0], &z, &w) == -EINVAL);
		MUST(ww_poll_take_back(&none, &seek) && ww_acquire_init_poll(&none, c, &seek, &w) == -EINVAL);
		MUST(ww_acquire_init_poll(&none, c, &its, &w) == -EINVAL && ww_acquire_init_poll(&none, c, NULL, NULL) == -EINVAL);
		_exit(calls);
	}
	MUST(child > 0 && waitpid(child, &status, 0) == child && WIFEXITED(status) && !WEXITSTATUS(status) && !calls);
	MUST(ww_mutex_lock_poll(&m[0], &z, NULL) == -ETIMEDOUT && ww_acquire_init_poll(&none, c, &seek, NULL) == -ETIMEDOUT);
	ww_mutex_unlock(&m[0]);
	ends(&z);
	ends(&y);
	ends(&x);
}

/*
 * In a loop a poll is listed as any other lock, so one call releases all that the context holds, and nothing of what it waits for.  A
 * poll that got -EDEADLK is told so as any lock call; the next one waits for the contended mutex by itself.
 */
static void by_polls_in_a_loop(void)
{
	int calls;
	struct ww_waker w = counts_in(&calls);

	begins(&y);
	begins(&x);
	MUST(!ww_number_lock(number, &y));
	ww_acquire_begin_tries(&x);
	MUST(!ww_mutex_lock_poll(&m[0], &x, &w) && !ww_mutex_lock_poll(&m[1], &x, NULL) && ww_mutex_lock_poll(&m[0], &x, &w) == -EALREADY);
	MUST(x.acquired == 2 && ww_acquire_mark(&x) == 2);
	if (c->is_wait_die) {
		MUST(ww_mutex_lock_poll(mutex_at(number), &x, &w) == -EDEADLK && ww_is_contended(&x));
		MUST(ww_mutex_lock_poll(mutex_at(number), &x, &w) == -EINVAL && ww_is_contended(&x));
		ww_acquire_unlock_all(&x);
	} else {
		MUST(ww_mutex_lock_poll(mutex_at(number), &x, &w) == -EINPROGRESS && !ww_acquire_end_wait(&x) && x.acquired == 2);
		ww_acquire_unlock_to(&x, 0);
	}
	MUST(!x.acquired && !ww_mutex_is_locked(&m[0]) && !ww_mutex_is_locked(&m[1]));
	MUST(ww_mutex_lock_poll(mutex_at(number), &x, &w) == -EINPROGRESS && ww_number_lock(number, &x) == -EBUSY && !ww_number_trylock(number, &x));
	MUST(ww_is_contended(&x) == c->is_wait_die && !ww_number_unlock(number, &y) && calls == 1);
	MUST(!ww_mutex_lock_poll(mutex_at(number), &x, &w) && !ww_is_contended(&x) && x.acquired == 1);
	MUST(!ww_number_unlock(number, &x) && !x.acquired && !ww_mutex_lock(&m[0], &x) && !ww_mutex_lock_poll(&m[1], &x, &w));
	MUST(!ww_acquire_end_try(&x) && !x.acquired);
	ends(&x);
	ends(&y);
}

static void by_numbers(void)
{
	int calls;
	struct ww_waker w = counts_in(&calls);

	begins(&x);
	begins(&y);
	MUST(!ww_mutex_lock_poll(mutex_at(number), &x, &w) && ww_mutex_lock_poll(mutex_at(number), &y, &w) == -EINPROGRESS);
	MUST(ww_mutex_lock_poll(&m[0], &y, NULL) == -EBUSY && ww_number_put(number, c) == -EBUSY);
	MUST(ww_mutex_lock_poll(mutex_at(number), &y, &w) == -EINPROGRESS);
	MUST(!ww_number_unlock(number, &x) && calls == 1 && !ww_mutex_lock_poll(mutex_at(number), &y, &w));
	MUST(ww_shared_mutex_is_written_by(shared_at(number), &y) && !ww_number_unlock(number, &y) && !x.acquired && !y.acquired);
	MUST(!ww_number_lock(number, &x) && ww_mutex_lock_poll(mutex_at(number), &y, &w) == -EINPROGRESS && !ww_acquire_cancel(&y));
	MUST(ww_mutex_lock_poll(mutex_at(number), &y, &w) == -EINTR && !ww_number_unlock(number, &x));
	ends(&x);
	ends(&y);
	MUST(ww_mutex_lock_poll(&m[0], &y, &w) == -EINVAL && ww_mutex_lock_poll(mutex_at(number), &y, &w) == -EINVAL);
	MUST(!ww_poll_take_back(&y, NULL));
}

/*
 * Where the class says no number threads have all contexts but those that tasks use, which are at most so many as the limiter says, and a share
 * that tasks never use.
 */
static void beside_threads(void)
{
	enum { ALL = 1025, SHARE = ALL - 896 }; /* and this thread's own */
	static struct ww_class many;
	static struct ww_acquire_ctx all[ALL], of_tasks[ALL];
	static struct ww_seek waits;
	int calls = 0;
	struct ww_waker w = { count_calls, &many, &calls };
	struct ww_class_counts counts;
	unsigned tasks = 0, threads;

	ww_class_init(&many, c == &wait_die, "many");
	MUST(!ww_class_limit(&many, 8, 0) && !ww_class_open(&many));
	many.pool->tasks.due = UINT64_MAX;
	while (ww_acquire_init_poll(&of_tasks[tasks], &many, &waits, &w) != -EINPROGRESS)
		tasks++;
	MUST(tasks == many.pool->tasks.open);
	ww_class_stats(&many, &counts);
	MUST(counts.context_waiters == 1 && counts.context_waits == 1 && counts.contexts == tasks && counts.task_contexts == tasks);
	for (threads = 0; !ww_acquire_init_checked(&all[threads], &many);) /* and one waits */
		threads++;
	MUST(threads == ALL - tasks);
	while (threads)
		ww_acquire_fini(&all[--threads]);
	MUST(!calls && ww_class_free(&many) == -EBUSY);
	ww_acquire_fini(&of_tasks[tasks - 1]);
	MUST(calls == 1 && !ww_acquire_init_poll(&of_tasks[tasks - 1], &many, &waits, &w));
	many.pool->tasks.open = many.pool->tasks.count;
	while (!ww_acquire_init_poll(&of_tasks[tasks], &many, NULL, NULL))
		tasks++;
	MUST(tasks == ALL - SHARE);
	while (!ww_acquire_init_checked(&all[threads], &many))
		threads++;
	MUST(threads == SHARE);
	while (tasks)
		ww_acquire_fini(&of_tasks[--tasks]);
	while (threads)
		ww_acquire_fini(&all[--threads]);
	MUST(!ww_class_free(&many));
}

/* ---- event loops ---- */

enum { LOOPS = 2, TASKS = 60, OBJECTS = 5 };
static unsigned transfers = 300;
static struct ww_mutex object[OBJECTS];
static long money[OBJECTS];

struct loop {
	pthread_mutex_t lock;
	pthread_cond_t filled;
	struct task *first, *last;
	unsigned left;
};

struct task {
	struct task *next;
	struct loop *home;
	struct ww_acquire_ctx ctx;
	struct ww_seek seek;
	struct ww_mutex *contended;
	uint64_t random;
	unsigned list[3], locked, done;
	bool has_begun, has_first, is_queued;
};

static void push(void *loop, void *task)
{
	struct loop *l = loop;
	struct task *t = task;

	pthread_mutex_lock(&l->lock);
	if (!t->is_queued) {
		t->is_queued = true;
		t->next = NULL;
		*(l->first ? &l->last->next : &l->first) = t;
		l->last = t;
		pthread_cond_signal(&l->filled);
	}
	pthread_mutex_unlock(&l->lock);
}

static void draw(struct task *t)
{
	t->random = t->random * 6364136223846793005u + 1442695040888963407u;
	t->list[0] = (unsigned)(t->random >> 33) % OBJECTS;
	t->list[1] = (t->list[0] + 1 + (unsigned)(t->random >> 40) % 2) % OBJECTS;
	t->list[2] = (t->list[0] + 3) % OBJECTS;
}

/* As far as it goes; whether the task is over. */
static bool go_on(struct task *t)
{
	struct ww_waker w = { push, t->home, t };

	for (;;) {
		int r = t->has_begun ? 0 : ww_acquire_init_poll(&t->ctx, c, &t->seek, &w);

		if (r == -EINPROGRESS)
			return false;
		MUST(!r);
		t->has_begun = true;
		if (t->contended && !t->has_first) {
			r = ww_mutex_lock_poll(t->contended, &t->ctx, &w);
			if (r == -EINPROGRESS)
				return false;
			MUST(!r);
			t->has_first = true;
		}
		while (!r && t->locked < 3) {
			struct ww_mutex *it = &object[t->list[t->locked]];

			r = it == t->contended ? 0 : ww_mutex_lock_poll(it, &t->ctx, &w);
			t->locked += !r;
		}
		if (r == -EINPROGRESS)
			return false;
		struct ww_mutex *first = t->contended;

		t->contended = r == -EDEADLK ? &object[t->list[t->locked]] : NULL;
		if (!r) {
			money[t->list[0]]--;
			money[t->list[2]]++;
		}
		for (unsigned k = 0; k < t->locked; k++)
			if (&object[t->list[k]] != first)
				ww_mutex_unlock(&object[t->list[k]]);
		if (first)
			ww_mutex_unlock(first);
		t->locked = 0;
		t->has_first = false;
		if (r)
			continue;
		ww_acquire_fini(&t->ctx);
		t->has_begun = false;
		if (++t->done == transfers)
			return true;
		draw(t);
	}
}

static void *run_loop(void *arg)
{
	struct loop *l = arg;

	while (l->left) {
		struct task *t;

		pthread_mutex_lock(&l->lock);
		while (!l->first)
			pthread_cond_wait(&l->filled, &l->lock);
		t = l->first;
		l->first = t->next;
		t->is_queued = false;
		pthread_mutex_unlock(&l->lock);
		l->left -= go_on(t);
	}
	return NULL;
}

static void *block(void *arg)
{
	for (unsigned k = 0; k < 10 * transfers; k++) {
		struct ww_acquire_ctx ctx;
		int r = 0;

		ww_acquire_init(&ctx, c);
		ww_until_all_locked(&ctx) {
			r = 0;
			for (unsigned j = 0; j < 2 && !r; j++) {
				r = ww_mutex_lock(&object[(k + j) % OBJECTS], &ctx);
				ww_retry_on_contention(&ctx);
			}
		}
		MUST(!r);
		money[k % OBJECTS]--;
		money[(k + 1) % OBJECTS]++;
		ww_acquire_unlock_all(&ctx);
		ww_acquire_fini(&ctx);
	}
	return arg;
}

static void by_event_loops(void)
{
	static struct task tasks[LOOPS][TASKS];
	struct loop loops[LOOPS];
	pthread_t threads[LOOPS + 1];
	long sum = 0;

	for (unsigned k = 0; k < OBJECTS; k++)
		ww_mutex_init(&object[k], c);
	for (unsigned k = 0; k < LOOPS; k++) {
		loops[k] = (struct loop){ PTHREAD_MUTEX_INITIALIZER, PTHREAD_COND_INITIALIZER, NULL, NULL, TASKS };
		for (unsigned j = 0; j < TASKS; j++) {
			tasks[k][j] = (struct task){ .home = &loops[k], .random = 97 * k + j };
			draw(&tasks[k][j]);
			push(&loops[k], &tasks[k][j]);
		}
	}
	for (unsigned k = 0; k < LOOPS; k++)
		threads[k] = begin_thread(run_loop, &loops[k]);
	threads[LOOPS] = begin_thread(block, NULL);
	for (unsigned k = 0; k <= LOOPS; k++)
		end_thread(threads[k]);
	for (unsigned k = 0; k < OBJECTS; k++) {
		sum += money[k];
		MUST(!ww_mutex_destroy(&object[k]));
	}
	MUST(!sum);
}

static void all(struct ww_class *of)
{
	c = of;
	MUST(!ww_class_limit(c, 12, 3));
	for (unsigned k = 0; k < 3; k++)
		ww_mutex_init(&m[k], c);
	MUST(!ww_number_take(&number, c));
	waits_and_is_called();
	refused_amid_a_wait();
	held_after_a_wait(false);
	held_after_a_wait(true);
	while_all_wait();
	in_a_child();
	wait_ends();
	backs_off();
	waits_for_a_context();
	by_numbers();
	by_polls_in_a_loop();
	beside_threads();
	by_event_loops();
	for (unsigned k = 0; k < 3; k++)
		MUST(!ww_mutex_destroy(&m[k]));
	MUST(!ww_number_put(number, c) && !ww_class_free(c));
}

int main(int count, char **words)
{
	if (count > 1)
		transfers = (unsigned)atoi(words[1]);
	for (unsigned k = 0; k < 2; k++) {
		all(&wound_wait);
		all(&wait_die);
		by_contexts_of_their_own();
	}
#ifdef WW_DEBUG
	/* four times nine calls above that are wrong by themselves, and twice one of a loop that is so in Wait-Die alone */
	MUST(ww_debug_faults() - besides == 38);
#endif
	puts("poll_calls: as they should be");
	return 0;
}
