/*
 * interleave.c - runs threads one at a time, by every schedule up to a bound; for those without one see whole.c.
 *
 * The sources under test are compiled for the thread sanitizer and linked with hooks.c in its place: each atomic access, and
 * each call that the linker wraps, comes here before it happens, and here it is chosen who goes on.  Threads have stacks of
 * their own, between which this switches as x86_64 does, and each run begins with the same memory.  A bound is for switches
 * away from a thread that could go on, and for whatever else interleave.h names.
 *
 * Not every point has to be tried.  A thread is preempted only before what several threads access and one writes, as seen in
 * any run; if a pass sees more, it begins anew.  And each thread has a hash of all that its next step depends on: where the
 * hashes, the current thread and what is left of the bound are as they were before, nothing new can follow.
 */
#define _GNU_SOURCE
#include "inside.h"
#include <elf.h>
#include <errno.h>
#include <signal.h>
#include <stdarg.h>
#include <stdio.h>
#include <stdlib.h>
#include <sys/auxv.h>
#include <sys/time.h>
#include <unistd.h>

enum { CACHE = 1 << 21 };
enum { STEPS = 6000 };	 /* a run that has more has no end */
enum { SECONDS = 5 };	 /* and one in which a thread computes for so long */

struct il il;
struct entry *il_entry = &il.threads[0].entry;
static struct {
	uint64_t key;
	int budget;
} cache[CACHE];
static unsigned long cached;
static char first_data[DATA], first_own[OWN]; /* as they are at first */

unsigned char il_clears; /* what the runtime leaves below the stack would be part of a state (entry.S) */

unsigned il_me(void) { return il.current; }

/* ---- an end before the end ---- */

__attribute__((noreturn)) static void leave(void)
{
	il.running = false;
	_longjmp(il.explorer, 1);
}

void il_fail(const char *format, ...)
{
	va_list list;

	va_start(list, format);
	vsnprintf(il.message, sizeof il.message, format, list);
	va_end(list);
	il.failed = true;
	leave();
}

static void on_signal(int signal) { il_fail("%s", signal == SIGVTALRM ? "it computes for ever" : strsignal(signal)); }

__attribute__((noreturn)) void __wrap_abort(void) { il_fail("the library ended the program (its message stands above)"); }

/* ---- choices ---- */

/* Whether all that can follow was tried, or will be: the same happened before what is next, though maybe in another order. */
static bool is_known(enum what what, bool forced)
{
	uint64_t key = mix(mix(il.pass * 512u + what * 2u + forced, il.current), (uint64_t)il.now);
	unsigned long k;

	for (unsigned t = 1; t <= il.count; t++) {
		const struct thread *it = &il.threads[t];

		key = mix(mix(key, it->hash), it->state);
		key = mix(key, (uint64_t)it->enabled << 48 | (uint64_t)it->ran << 16 | it->behind);
	}
	for (k = key % CACHE; cache[k].key && cache[k].key != key; k = (k + 1) % CACHE)
		;
	if (cache[k].key && cache[k].budget >= il.budget)
		return true;
	if (cache[k].key || cached < CACHE / 2) {
		cached += !cache[k].key;
		cache[k].key = key;
		cache[k].budget = il.budget;
	}
	return false;
}

/* A schedule is a list of what isn't the first option: POINT, what, thread. */
static unsigned given(const struct option *options, unsigned count)
{
	unsigned point, thread;
	char what;

	for (const char *at = il.replay; at; at = strchr(at, ',') ? strchr(at, ',') + 1 : NULL)
		if (sscanf(at, "%u%c%u", &point, &what, &thread) == 3 && point == il.point)
			for (unsigned k = 0; k < count; k++)
				if (options[k].what == (enum what)what && options[k].thread == thread)
					return k;
	return 0;
}

static struct option choose(const struct option *options, unsigned count, bool forced)
{
	unsigned taken = 0;

	if (il.depth >= DEPTH)
		il_fail("too many choices");
	if (il.replay) {
		taken = given(options, count);
	} else if (count == 1) {
		return *options;
	} else if (il.whole) {
		return options[il_choose_whole(options, count, forced)];
	} else if (il.depth < il.prefix) {
		taken = il.choices[il.depth].taken;
		if (il.choices[il.depth].count != count)
			il_fail("the program isn't the same twice, at point %u", il.point);
	} else if (is_known(options->what, forced)) {
		il.given_up = true;
		leave();
	}
	il.choices[il.depth++] = (struct choice){ options[taken], count, taken, il.current, il.point, me()->done, me()->coming };
	il.budget -= (int)options[taken].cost;
	return options[taken];
}

bool il_chooses(enum what first, enum what second)
{
	struct option options[2] = { { first, 0, 0 }, { second, 0, 1 } };
	bool is;

	il.point++;
	me()->place = __builtin_return_address(0);
	is = il.budget > 0 && choose(options, 2, false).what == second;
	if (is)
		me()->hash = mix(me()->hash, second);
	return is;
}

/* ---- who goes on ---- */

unsigned il_ready(void)
{
	unsigned set = 0;

	for (unsigned t = 1; t <= il.count; t++)
		set |= (unsigned)(il.threads[t].state == READY) << t;
	return set;
}

void il_let_time_pass(long long to)
{
	il.now = il.now < to ? to : il.now;
	for (unsigned t = 1; t <= il.count; t++)
		if (il.threads[t].state == SLEEPS && il.threads[t].until && time_of(il.threads[t].until) <= il.now)
			il.threads[t].state = READY;
}

/*
 * Goes on where a thread stopped: what a call has to keep is on the stacks, and all other registers are 0, since what the last
 * thread or the explorer left in them would be part of a state.  swapcontext would ask the system each time which signals are blocked.
 */
__asm__(".text\n.globl il_switch\nil_switch:\n"
	"	push %rbp\n	push %rbx\n	push %r12\n	push %r13\n	push %r14\n	push %r15\n"
	"	movq %rsp, (%rdi)\n	movq %rsi, %rsp\n"
	"	pop %r15\n	pop %r14\n	pop %r13\n	pop %r12\n	pop %rbx\n	pop %rbp\n"
	"	xorl %ecx, %ecx\n	xorl %edx, %edx\n	xorl %esi, %esi\n	xorl %edi, %edi\n"
	"	xorl %r8d, %r8d\n	xorl %r9d, %r9d\n	xorl %r10d, %r10d\n	xorl %r11d, %r11d\n"
	"	pxor %xmm0, %xmm0\n	pxor %xmm1, %xmm1\n	pxor %xmm2, %xmm2\n	ret\n");

/* A stack on which a thread stopped before it began: above what il_switch pops stands where it returns to. */
static void *new_stack(unsigned thread, void (*begins)(void))
{
	uintptr_t *top = (uintptr_t *)(void *)&il.memory[ARENA + thread * STACK];

	memset(top - 8, 0, 8 * sizeof *top);
	top[-2] = (uintptr_t)begins;
	return top - 8;
}

/* Another one is the current thread, as far as the library sees that. */
static void become(unsigned thread)
{
	memcpy(me()->own, il.own, il.own_size);
	il.current = thread;
	il_entry = &me()->entry;
	memcpy(il.own, me()->own, il.own_size);
}

static void take(struct option o)
{
	struct thread *from = me(), *to = &il.threads[o.thread];

	if (o.what == TIMES_OUT)
		il_let_time_pass(time_of(to->until));
	if (o.what == RISES)
		to->state = READY;
	if (o.what != RUNS)
		to->hash = mix(to->hash, o.what);
	if (from == to)
		return;
	become(o.thread);
	il_switch(&from->stack, to->stack);
}

/* What costs one of the bound. */
static unsigned add_costly(struct option *options, unsigned n, unsigned others)
{
	for (unsigned t = 1; t <= il.count && il.budget > 0; t++) {
		bool sleeps = il.threads[t].state == SLEEPS;

		if (others >> t & 1)
			options[n++] = (struct option){ RUNS, t, 1 };
		if (sleeps && il.threads[t].until)
			options[n++] = (struct option){ TIMES_OUT, t, 1 };
		if (sleeps && il.flags & IL_SPURIOUS)
			options[n++] = (struct option){ RISES, t, 1 };
	}
	return n;
}

/* Those behind which no other thread has to run first. */
static unsigned may_run(void)
{
	unsigned set = il_ready(), may = 0;

	if (il.whole)
		return set;
	for (unsigned t = 1; t <= il.count; t++)
		may |= (unsigned)(set >> t & 1 && !(il.threads[t].behind & set)) << t;
	return may;
}

void il_yielded(void)
{
	struct thread *it = me();

	if (il.whole)
		return;
	it->behind |= it->enabled & ~it->ran & ~(1u << il.current);
	it->enabled = il_ready();
	it->ran = 0;
}

static void ran(void)
{
	if (il.whole)
		return;
	for (unsigned t = 1; t <= il.count; t++) {
		il.threads[t].behind &= ~(1u << il.current);
		il.threads[t].ran |= 1u << il.current;
		il.threads[t].enabled &= il_ready();
	}
}

__attribute__((noreturn)) static void fail_asleep(void)
{
	char told[200] = "";

	for (unsigned t = 1; t <= il.count; t++) {
		const struct thread *it = &il.threads[t];
		size_t at = strlen(told);

		if (it->state != ENDED)
			snprintf(told + at, sizeof told - at, "; thread %u %s%s", t, it->state == BLOCKED ? "waits for a mutex" : "sleeps",
				 it->state == SLEEPS && *it->word != it->is ? " though its word changed" : "");
	}
	il_fail("nobody goes on%s", told);
}

/* What it looks at is no access of a thread. */
static void ask_at_rest(void)
{
	il.running = false;
	il_rests();
	il.running = true;
}

void il_switch_away(void)
{
	struct option options[4 * ALL];
	unsigned n = 0, may = may_run(), ended = 0;
	bool late;

	il.point++;
	me()->place = __builtin_return_address(0);
	if (may & ~(1u << il.current))
		may &= ~(1u << il.current);
	for (unsigned t = 1; t <= il.count; t++)
		if (may >> t & 1)
			options[n++] = (struct option){ RUNS, t, 0 };
	if (n)
		n = add_costly(options, n, 0);
	/* Whoever is late comes before any time: else sleeps until a time might follow one another without end. */
	for (unsigned t = 1; t <= il.count && !may; t++)
		if (il.threads[t].state == LATE)
			options[n++] = (struct option){ RISES, t, 0 };
	late = n && !may;
	for (unsigned t = 1; t <= il.count && !may; t++) {
		const struct thread *it = &il.threads[t];

		if (it->state == SLEEPS && *it->word != it->is)
			fail_asleep();
		if (it->state == SLEEPS && it->until && !late)
			options[n++] = (struct option){ TIMES_OUT, t, 0 };
		ended += it->state == ENDED;
	}
	if (!may)
		ask_at_rest();
	if (ended == il.count)
		leave();
	if (!n)
		fail_asleep();
	take(choose(options, n, true));
}

void il_yield(void)
{
	if (++il.steps > STEPS)
		il_fail("a run without an end");
	il_commit(me());
	il_yielded();
	il_switch_away();
}

/* It comes more than once in a row, so it counts as what this thread did since the one before. */
void il_pause(void)
{
	if (!(il.flags & IL_PATIENT))
		return;
	ran();
	il_yield();
}

void il_late(void)
{
	me()->state = LATE;
	il_switch_away();
}

/* The function and line of a source. */
static void show_place(const char *before, const void *pc)
{
	char command[100];

	snprintf(command, sizeof command, "addr2line -s -f -p -e /proc/%d/exe %p", (int)getpid(), (const void *)((const char *)pc - 1));
	printf("%s", before);
	fflush(stdout);
	if (!pc || system(command))
		puts("its begin or end");
}

bool il_is_shared(const struct object *o)
{
	if (!il.whole)
		return o->shared;
	for (unsigned t = 1; t <= il.count; t++)
		if (t != il.current && (o->last_read[t] || o->last_write[t]))
			return true;
	return false;
}

void il_grows(void) { il.grown |= il.whole; }

void il_note(struct object *o, bool writes)
{
	uint8_t *last = writes ? &o->last_write[il.current] : &o->last_read[il.current];
	uint8_t position = (uint8_t)(me()->position + 1);

	if (*last >= position && !(o->under & ~me()->held))
		return;
	*last = *last < position ? position : *last;
	o->under &= me()->held;
	if (il_is_shared(o))
		il_grows();
}

/* Whether another thread may do before this what can't be exchanged with it. */
static bool is_dependent(const struct object *o, bool writes)
{
	if (o->under & me()->held)
		return false;
	for (unsigned t = 1; t <= il.count; t++) {
		unsigned position = il.threads[t].position;

		if (t == il.current || il.threads[t].state == ENDED)
			continue;
		if (o->last_write[t] > position || (writes && o->last_read[t] > position))
			return true;
	}
	return me()->lates; /* which would be seen from here on */
}

uint64_t il_lock_bit(const void *mutex, uint32_t number)
{
	unsigned k = 0;

	if (!mutex)
		return number < LOCKS && !il.goes_over ? (uint64_t)1 << (LOCKS + number) : 0;
	while (k < LOCKS && il.mutexes[k] && il.mutexes[k] != mutex)
		k++;
	if (k == LOCKS)
		return 0;
	il.mutexes[k] = mutex;
	return (uint64_t)1 << k;
}

void il_goes_over(void)
{
	if (!il.goes_over) {
		il.goes_over = true;
		il_grows();
	}
}

void il_has_no_more(uint64_t lock)
{
	for (unsigned t = 1; t <= il.count; t++)
		il.threads[t].held &= ~lock;
}

void il_has(uint64_t lock)
{
	il_has_no_more(lock);
	me()->held |= lock;
}

void il_position(size_t position) { me()->position = (uint8_t)position; }

struct object *il_before(const volatile void *at, bool writes, const char *op, const void *pc)
{
	struct object *o = il_object_of(at);
	unsigned both;

	if (!il.running)
		return o;
	*(writes ? &o->writes : &o->reads) |= (uint8_t)(1u << il.current);
	both = o->reads | o->writes;
	il.grown |= !il.whole && !o->shared && o->writes && both & (both - 1);
	il_note(o, writes);
	me()->place = __builtin_return_address(0);
	il.point++;
	if (++il.steps > STEPS)
		il_fail("a run without an end");
	me()->coming = pc;
	if (il.replay || (il.whole ? is_dependent(o, writes) : o->shared)) {
		struct option options[4 * ALL] = { { RUNS, il.current, 0 } };

		take(choose(options, add_costly(options, 1, may_run() & ~(1u << il.current)), false));
	}
	ran();
	me()->done = pc;
	me()->hash = mix(me()->hash, 11);
	if (il.replay) {
		printf("%5u  %*sthread %u: %s %p, ", il.point, 4 * (int)(il.current - 1), "", il.current, op, (const void *)(uintptr_t)at);
		show_place("", pc);
	}
	return o;
}

/* ---- runs ---- */

static void body(void)
{
	struct thread *it = me();

	il_thread(il.program->threads[il.current - 1]);
	if (it->specific)
		il.destructor(it->specific);
	il_waits("ends", NULL);
	il_commit(it);
	it->state = ENDED;
	ran();
	il_switch_away();
}

static void reset(void)
{
	memset(il.memory, 0, il.used);
	memcpy(__start_il_data, first_data, (size_t)(__stop_il_data - __start_il_data));
	memcpy(il.own, first_own, il.own_size);
	il.run++;
	il.used = il.point = il.steps = il.depth = il.current = 0;
	il_forget_gone();
	il_entry = &il.threads[0].entry;
	il.asked = 0;
	il.now = 1000000000;
	il.from = NULL;
	il.failed = il.given_up = il.running = false;
	for (unsigned t = 0; t < ALL; t++) {
		struct thread *it = &il.threads[t];

		memset(it, 0, sizeof *it);
		it->state = t && t <= il.count ? READY : ENDED;
		it->hash = mix(t, 99);
		it->ran = (1u << ALL) - 1;
		it->clocks.of[t] = 1;
		memcpy(it->own, first_own, il.own_size);
	}
}

static void line_up(void)
{
	il_setup(il.program);
	for (unsigned t = 1; t <= il.count; t++)
		il.threads[t].stack = new_stack(t, body);
	il.running = true;
}

void il_watch(void) { setitimer(ITIMER_VIRTUAL, &(struct itimerval){ .it_value.tv_sec = SECONDS }, NULL); }

/* All have ended. */
void il_end_run(void)
{
	become(0);
	il_check(il.program);
}

/* All threads stand before their first step, the first of them as the current one. */
void il_begin_run(void)
{
	reset();
	line_up();
	il.point++;
	become(1);
}

/* Once, by the choices so far. Whoever leaves comes back here. */
static void run(void)
{
	reset();
	il.runs++;
	il_watch();
	if (!_setjmp(il.explorer)) {
		line_up();
		il_switch_away();
	} else if (!il.failed && !il.given_up) {
		il_end_run();
	}
}

/* The next choices that weren't made, or false. */
static bool next_choices(void)
{
	while (il.depth && il.choices[il.depth - 1].taken + 1 >= il.choices[il.depth - 1].count)
		il.depth--;
	if (il.depth)
		il.choices[il.depth - 1].taken++;
	il.prefix = il.depth;
	return il.depth;
}

/* Between shared objects, as is known by now, and others. */
void il_begin_pass(void)
{
	for (struct object *o = il.objects; o < il.objects + OBJECTS; o++)
		o->shared = o->writes && (o->reads | o->writes) & ((o->reads | o->writes) - 1);
	il.grown = false;
	il.pass++;
}

/*
 * All schedules of this bound, unless one fails.  Another thread is let in only before what several threads access, as was
 * seen before: where more is seen to be, all begins anew.
 */
static void try_all(int bound)
{
	do {
		il_begin_pass();
		if (cached > CACHE / 4)
			memset(cache, 0, sizeof cache), cached = 0;
		il.prefix = il.depth = 0;
		do {
			il.budget = bound;
			run();
		} while (!il.failed && next_choices());
	} while (!il.failed && il.grown);
}

static const char *const said[] = {
	[RUNS] = "goes on", [RISES] = "is woken by nobody", [TIMES_OUT] = "wakes at its time",
	[DELAYS] = "isn't seen to have stored that before it goes on", [TICKS] = "looks as a time comes",
};

/* What failed, between which lines somebody was preempted, and the command that shows it. */
static void show_failure(bool whole)
{
	const char *comma = "";

	printf("\t%s\n", il.message);
	if (il.from)
		show_place("\tin ", il.from);
	for (const struct choice *k = il.choices; k < il.choices + il.depth; k++)
		if (k->option.cost) {
			printf("\tthread %u is between ", k->by);
			show_place("", k->done);
			show_place("\t\tand ", k->coming);
			printf("\t\tas thread %u %s\n", k->option.thread ? k->option.thread : k->by, said[k->option.what]);
		}
	printf("\tmake -C c replay-%s IT='", program_invocation_short_name);
	printf("%s-f %u -s ", whole ? "-w " : "", il.flags & 15);
	for (const struct choice *k = il.choices; k < il.choices + il.depth; k++)
		if (k->taken) {
			printf("%s%u%c%u", comma, k->point, k->option.what, k->option.thread);
			comma = ",";
		}
	printf("%s %s'\n", *comma ? "" : "0r1", il.program->name);
}

/* Of the processor. */
static double now(void) { return (double)clock() / CLOCKS_PER_SEC; }

static unsigned long all_states;

/* What two bounds find is found with few preemptions, and what threads access is known then. */
static struct whole explore_whole(double seconds)
{
	for (int bound = 0; bound <= 1 && !il.failed; bound++)
		try_all(bound);
	return il.failed ? (struct whole){ 0, "a failure ended it" } : il_try_whole(seconds);
}

static bool explore(int most, double seconds)
{
	double since = now();
	struct whole whole = { 0, NULL };
	int bound = 0;

	il_clears = most < 0;
	il.flags |= most == WHOLE_INSIDE ? IL_INSIDE : 0;
	if (most < 0)
		whole = explore_whole(seconds);
	else
		for (; bound <= most && !il.failed; bound++)
			try_all(bound);
	printf("%-22s %s, ", il.program->name, il.failed ? "FAILS" : "ok");
	if (whole.stopped)
		printf("not whole: %s, %u states", whole.stopped, whole.states);
	else if (most < 0)
		printf("whole, %u states", whole.states);
	else
		printf("bound %d", bound - 1);
	printf(", %lu runs, %.2f s\n", il.runs, now() - since);
	all_states += whole.states;
	if (il.failed)
		show_failure(whole.states > 0);
	fflush(stdout);
	return !whole.stopped;
}

/* By this schedule, which is shown. */
static void replay(const char *schedule, bool whole)
{
	il.whole = whole;
	il_clears = whole;
	il.replay = schedule;
	il.budget = 1 << 20;
	run();
	printf("%s: %s\n", il.program->name, il.failed ? il.message : "ok");
}

static void begin(const struct il_program *p, unsigned flags)
{
	il.program = p;
	il.flags = p->flags | flags;
	for (il.count = 0; il.count < IL_THREADS && p->threads[il.count];)
		il.count++;
	memset(il.objects, 0, sizeof il.objects);
	for (struct object *o = il.objects; o < il.objects + OBJECTS; o++)
		o->under = UINT64_MAX;
	memset(il.mutexes, 0, sizeof il.mutexes);
	memset(il.memory + ARENA, 0, IL_THREADS * STACK);
	il_forget_cells();
	il.goes_over = false;
	il.runs = 0;
	il.failed = false;
}

/* What is each thread's own lies below where the thread pointer points to, as x86_64 has it. */
static void find_own(void)
{
	const Elf64_Phdr *it = (const void *)getauxval(AT_PHDR);

	while (it->p_type != PT_TLS)
		it++;
	il.own_size = it->p_memsz;
	il.own = (char *)__builtin_thread_pointer() - (it->p_memsz + it->p_align - 1) / it->p_align * it->p_align;
	if ((size_t)(__stop_il_data - __start_il_data) > DATA || il.own_size > OWN)
		exit((fputs("interleave: DATA or OWN is too small\n", stderr), 2));
	memcpy(first_data, __start_il_data, (size_t)(__stop_il_data - __start_il_data));
	memcpy(first_own, il.own, il.own_size);
}

enum { UNASKED = -3 };
static const char usage[] = "usage: interleave [-b BOUND | -w: whole | -u: under its own bound, 1 at most] [-l SECONDS: at most, each that is to be whole]\n"
			    "\t[-f FLAGS] [-s SCHEDULE] [-1: until one fails] [-p PART/PARTS: each PARTSth program] [PROGRAM]\n";

int main(int argc, char **argv)
{
	const int signals[] = { SIGSEGV, SIGBUS, SIGILL, SIGFPE, SIGVTALRM };
	unsigned count = 0, whole = 0, failed = 0, flags = 0, part = 1, parts = 1, at = 0;
	const char *schedule = NULL;
	unsigned long runs = 0;
	double seconds = 120;
	int asked = UNASKED, is;
	bool stops = false, is_under = false;

	while ((is = getopt(argc, argv, "b:f:l:p:s:1uw")) != -1) {
		switch (is) {
		case 'b': asked = atoi(optarg); break;
		case 'f': flags = (unsigned)atoi(optarg); break;
		case 'l': seconds = atof(optarg); break;
		case 'p':
			if (sscanf(optarg, "%u/%u", &part, &parts) != 2 || part < 1 || part > parts)
				return fputs(usage, stderr), 2;
			break;
		case 's': schedule = optarg; break;
		case '1': stops = true; break;
		case 'u': is_under = true; break;
		case 'w': asked = WHOLE; break;
		default: return fputs(usage, stderr), 2;
		}
	}
	find_own();
	for (unsigned k = 0; k < sizeof signals / sizeof *signals; k++)
		sigaction(signals[k], &(struct sigaction){ .sa_handler = on_signal, .sa_flags = SA_NODEFER }, NULL);
	for (const struct il_program *p = il_programs; p->name && !(stops && failed); p++) {
		int most = is_under ? p->most == 1 ? 0 : 1 : asked == UNASKED ? p->most : asked;

		if (at++ % parts != part - 1 || (optind < argc && strcmp(argv[optind], p->name)))
			continue;
		begin(p, flags);
		if (schedule)
			replay(schedule, asked == WHOLE);
		else if (!explore(most, seconds))
			failed += !il.failed;
		else
			whole += most < 0;
		failed += il.failed;
		runs += il.runs;
		count++;
	}
	reset(); /* for what the library does at the program's end */
	printf("interleave: %u programs, %u by every schedule (%lu states), %u to a bound, ", count, whole, all_states, count - whole);
	printf("%lu runs, %.0f s, %u not as they should be\n", runs, now(), failed);
	return failed || !count;
}
