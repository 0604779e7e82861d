/*
 * The law of limiter.c, on machines that are made up.
 *
 * A machine says how many contexts it ends in a second if so many run at a time.  Time passes by hand, so each machine
 * ends up where it does whatever else runs here.
 */
#include "../test.h"
#include "../../admit/class.h"

enum { STEP = 50000, MILLISECOND = 1000000, LONG = 4000 }; /* of time; and milliseconds */

/* How many it ends if so many run. */
struct machine {
	unsigned best, rate; /* as many at its best; before that, and behind it, */
	enum { PEAK, FLAT, CLIFF, DIP, COLLAPSE } else_; /* in proportion; as many; half as many; two thirds, one alone more; none, almost */
};

static unsigned rate_of(const struct machine *m, unsigned run)
{
	if (run == m->best || m->else_ == FLAT)
		return m->rate;
	if (m->else_ == CLIFF)
		return m->rate / 2;
	if (m->else_ == COLLAPSE)
		return m->rate / 10000;
	if (m->else_ == DIP && run < m->best)
		return run > 1 ? m->rate * 2 / 3 : m->rate * 4 / 5;
	return run < m->best ? m->rate * run / m->best : m->rate * m->best / run;
}

struct run {
	struct ww_limiter limiter;
	uint64_t now, begun, waited; /* and how many contexts, in billionths */
	unsigned windows;
	bool look_whether_of_use;
};

/* For threads of a crowd. */
static void begin(struct run *r, unsigned least, unsigned first, unsigned most)
{
	*r = (struct run){ .now = 5 * (uint64_t)MILLISECOND, .look_whether_of_use = true };
	ww_limiter_open(&r->limiter, least, first, first, most, 64);
}

/* For tasks, of which there are so many contexts. */
static void begin_tasks(struct run *r)
{
	*r = (struct run){ .now = 5 * (uint64_t)MILLISECOND };
	ww_limiter_open(&r->limiter, 1, 8, 448, 896, 32);
}

/* Some time passes, in which so many threads run on this machine, or wait for a permit. */
static void step(struct run *r, const struct machine *m, unsigned threads)
{
	uint64_t since = r->limiter.since;
	unsigned run = r->limiter.width < threads ? r->limiter.width : threads;

	r->now += STEP;
	r->begun += rate_of(m, run) * (uint64_t)STEP;
	r->waited += run < threads;
	r->look_whether_of_use = ww_limiter_look(&r->limiter, r->now, (uint32_t)(r->begun / 1000000000), r->waited);
	r->windows += r->limiter.since != since;
	MUST(!r->limiter.is_bounded || r->limiter.width != NO_LIMIT);
}

/* Until the limiter keeps this width, and then for long; or until it is of no use: within so many windows. */
static void goes_to(struct run *r, const struct machine *m, unsigned threads, uint32_t width, unsigned within)
{
	unsigned kept = 0, long_ = LONG * (MILLISECOND / STEP);

	for (r->windows = 0; r->look_whether_of_use && r->limiter.kept != width; step(r, m, threads))
		MUST(r->windows <= within);
	for (unsigned k = 0; r->look_whether_of_use && k < long_; k++) {
		step(r, m, threads);
		MUST(!r->look_whether_of_use || r->limiter.kept == width);
		kept += r->limiter.width == width;
	}
	/* Of its time the tries take little. */
	MUST(!r->look_whether_of_use || kept > long_ / 16 * 15);
}

/* In the order of the text: the machine, its threads, the limiter's bounds, where it ends up and within how many windows; 0: it is of no use. */
static const struct load {
	struct machine machine;
	unsigned threads, least, first, most;
	uint32_t width;
	unsigned within;
} cases[] = {
	{ { 1, 1000000, PEAK }, 64, 1, 4, 64, 1, 8 },
	{ { 2, 1000000, PEAK }, 64, 1, 4, 64, 2, 8 },
	{ { 8, 1000000, PEAK }, 64, 1, 4, 64, 8, 40 },
	{ { 4, 1000000, PEAK }, 64, 1, 2, 64, 4, 24 },
	{ { 1, 1000000, PEAK }, 64, 1, 64, 64, 1, 20 },
	{ { 1, 20000, PEAK }, 64, 1, 4, 64, 1, 8 },     /* a window is longer where contexts are */
	{ { 1, 1000000, CLIFF }, 64, 1, 16, 64, 1, 16 }, /* what is tried on the way is no better, */
	{ { 1, 1000000, CLIFF }, 3, 1, 16, 64, 1, 16 },  /* or no limit */
	{ { 8, 1000000, DIP }, 64, 1, 1, 64, 8, 24 },	/* the way to what is better leads through what is worse, up, */
	{ { 1, 1000000, COLLAPSE }, 64, 1, 1, 64, 1, 8 }, /* and such a try ends soon */
	{ { 8, 1000000, PEAK }, 64, 2, 2, 2, 2, 4 },     /* as many as the class says, if that is better than no limit */
	{ { 64, 1000000, PEAK }, 64, 1, 4, 64, 0, 60 },
	{ { 64, 1000000, FLAT }, 64, 1, 4, 64, 0, 60 },
	{ { 64, 1000000, FLAT }, 64, 1, 1, 64, 0, 60 },
	{ { 64, 1000000, FLAT }, 3, 1, 64, 64, 0, 60 },
	{ { 64, 1000000, PEAK }, 64, 2, 2, 2, 0, 60 },
},
/* Where no limit is never tried it is of no use only if nobody waits. */
bounded[] = {
	{ { 64, 1000000, PEAK }, 64, 1, 1, 8, 8, 40 },
	{ { 64, 1000000, FLAT }, 64, 1, 1, 4, 4, 40 },
	{ { 64, 1000000, PEAK }, 64, 1, 1, 1, 1, 40 },
	{ { 64, 1000000, PEAK }, 64, 1, 1, 2, 2, 40 },
	{ { 1, 1000000, PEAK }, 64, 1, 1, 8, 1, 8 },
	{ { 2, 1000000, PEAK }, 2, 1, 1, 8, 0, 60 },
};

static void ends_up(const struct load *loads, size_t count, bool is_bounded)
{
	for (size_t k = 0; k < count; k++) {
		struct run r;

		begin(&r, loads[k].least, loads[k].first, loads[k].most);
		r.limiter.is_bounded = is_bounded;
		goes_to(&r, &loads[k].machine, loads[k].threads, loads[k].width, loads[k].within);
		MUST(r.look_whether_of_use == (loads[k].width > 0));
	}
}

/* Once so few threads are left that none waits, there is no limit. */
static void ends_with_its_load(void)
{
	static const struct machine two = { 2, 1000000, PEAK };
	struct run r;

	begin(&r, 1, 4, 64);
	goes_to(&r, &two, 64, 2, 8);
	goes_to(&r, &two, 2, NO_LIMIT, 40);
	MUST(!r.look_whether_of_use);
}

/* The machine becomes another one: the limiter follows, to fewer, to more, and to no limit. */
static void follows(void)
{
	static const struct machine two = { 2, 1000000, PEAK }, one = { 1, 2000000, CLIFF }, eight = { 8, 1000000, PEAK }, all = { 256, 8000000, PEAK };
	struct run r;

	begin(&r, 1, 4, 64);
	goes_to(&r, &two, 64, 2, 8);
	goes_to(&r, &one, 64, 1, 200);
	goes_to(&r, &eight, 64, 8, 400);
	goes_to(&r, &all, 256, NO_LIMIT, 400);
	MUST(!r.look_whether_of_use);
}

static void pass_window(struct run *r, const struct machine *m)
{
	for (unsigned windows = r->windows; r->windows == windows; step(r, m, 64))
		;
}

/* A window that is far worse isn't believed; two are, and soon. */
static void falls(void)
{
	static const struct machine eight = { 8, 1000000, PEAK }, bad = { 8, 10000, PEAK }, two = { 2, 100000, PEAK };
	struct run r;

	begin(&r, 1, 1, 64);
	goes_to(&r, &eight, 64, 8, 24);
	while (r.limiter.tries || r.limiter.settles || r.limiter.held != 1)
		pass_window(&r, &eight);
	pass_window(&r, &bad);
	MUST(r.limiter.width == 8 && r.limiter.kept == 8);
	goes_to(&r, &eight, 64, 8, 0);
	while (r.limiter.tries || r.limiter.settles || r.limiter.held != 1)
		pass_window(&r, &eight);
	goes_to(&r, &two, 64, 2, 12);
}

/* Whether a width is as good as the best, but for what half of it or twice as many differ by. */
static bool is_near(uint32_t width, uint32_t best) { return width == NO_LIMIT ? best == 896 : 2 * width > best && width < 2 * best; }

/* For tasks it goes on where there is no limit, and comes back to one. It is soon there, also where contexts wait for a timer. */
static void follows_tasks(void)
{
	static const struct {
		struct machine machine;
		unsigned within; /* milliseconds */
	} loads[] = {
		{ { 896, 896 * 1000, PEAK }, 100 }, /* of 1 ms */
		{ { 4, 2000000, PEAK }, 500 },
		{ { 64, 64 * 10000, PEAK }, 200 }, /* of 0.1 ms */
		{ { 1, 400000, PEAK }, 200 },
		{ { 896, 896 * 100, PEAK }, 20000 }, /* of 10 ms, and from one */
		{ { 1, 1000000, PEAK }, 6000 },
	};
	struct run r;

	begin_tasks(&r);
	for (size_t k = 0; k < sizeof loads / sizeof *loads; k++) {
		const struct machine *m = &loads[k].machine;
		unsigned steps = 0, near = 0;

		for (; !is_near(r.limiter.kept, m->best); steps++) {
			MUST(steps < loads[k].within * (MILLISECOND / STEP));
			step(&r, m, 896);
		}
		for (steps = 0; steps < LONG * (MILLISECOND / STEP); steps++) {
			step(&r, m, 896);
			MUST(is_near(r.limiter.kept, m->best));
			near += is_near(r.limiter.width, m->best);
		}
		MUST(near > steps / 8 * 7);
	}
}

/* In milliseconds, how long 64 tasks wait for a context each, all of which await a timer for 50: one that ends looks. */
static uint64_t takes(struct run *r)
{
	uint64_t since = r->now;

	for (unsigned k = 0; k < 64; k++) {
		r->now += 50 * (uint64_t)MILLISECOND / (r->limiter.width < 64 ? r->limiter.width : 64);
		r->begun += 1000000000;
		(void)ww_limiter_look(&r->limiter, r->now, (uint32_t)(r->begun / 1000000000), ++r->waited);
	}
	return (r->now - since) / MILLISECOND;
}

/* They don't take much longer behind a load at which one at a time was best, wherever the limiter was in its tries. */
static void forgets_another_load(void)
{
	static const struct machine one = { 1, 400000, PEAK };
	struct run before, r;

	begin_tasks(&before);
	for (unsigned k = 0; k < 2 * LONG * (MILLISECOND / STEP); k++) {
		step(&before, &one, 896);
		r = before;
		MUST(k < LONG * (MILLISECOND / STEP) || (r.limiter.kept == 1 && takes(&r) < 600));
	}
	begin_tasks(&r);
	MUST(takes(&r) < 150);
}

/* A look by a thread that read the clock before the window began changes nothing. */
static void knows_no_past(void)
{
	static const struct machine two = { 2, 1000000, PEAK };
	struct run r;

	begin(&r, 1, 4, 64);
	for (unsigned k = 0; k < 10000; k++) {
		struct ww_limiter was;

		step(&r, &two, 64);
		was = r.limiter;
		for (uint64_t before = 1; before < r.now - r.limiter.since + MILLISECOND; before += 3 * STEP / 2)
			MUST(r.now - before > r.limiter.since || ww_limiter_look(&r.limiter, r.now - before, (uint32_t)(r.begun / 1000000000), r.waited));
		MUST(r.limiter.since == was.since && r.limiter.width == was.width && r.limiter.settles == was.settles);
	}
	MUST(r.limiter.kept == 2);
}

/* Where the width has just changed, as many contexts as that of the width before have to end first: so many begin, and none counts. */
static void settles(void)
{
	for (uint32_t begun = 0; begun <= 64; begun += 16) {
		struct ww_limiter it = {
			.width = 1, .kept = 64, .least = 1, .most = 64, .before = 64, .many = 1, .tries = true, .settles = true, .since = 1,
		};

		MUST(ww_limiter_look(&it, MILLISECOND, begun, 1) && it.settles == (begun < 64) && it.since == (begun < 64 ? 1 : MILLISECOND));
	}
}

int main(void)
{
	settles();
	ends_up(cases, sizeof cases / sizeof *cases, false);
	ends_up(bounded, sizeof bounded / sizeof *bounded, true);
	ends_with_its_load();
	follows();
	falls();
	follows_tasks();
	forgets_another_load();
	knows_no_past();
	puts("limiter: where each machine is at its best, and soon");
	return 0;
}
