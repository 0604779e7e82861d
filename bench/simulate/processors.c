/*
 * processors.c - processors in virtual time.  Each has a clock, and runs a thread, which is a stack; the one with the smallest
 * clock goes on, until its clock is larger than another's.
 */
#include <errno.h>
#include "simulate.h"
#include "admit/class.h"

struct processor *processors;
struct thread *threads, *self;
unsigned processor_count, thread_count, current;
bool is_running;
int64_t counts_from, ends_at, next_clock;

/* Trees of the smaller times, their leaves from the middle on: clocks, that of the current processor NEVER_COMES; and timers. */
static int64_t clocks[2 * MOST_PROCESSORS], timers[2 * MOST_THREADS];
static void *outside;
/* What the library has for each thread (process.h), while that doesn't run. */
static struct ww_mine kept[MOST_THREADS];

/* Saves what the caller relies on, and all vector registers, since a thread may be left before any instruction. */
void switch_stacks(void **from, void *to);
__asm__(".text\n.globl switch_stacks\nswitch_stacks:\n"
	"pushq %rbx\npushq %rbp\npushq %r12\npushq %r13\npushq %r14\npushq %r15\nsubq $256,%rsp\n"
	".irp k,0,1,2,3,4,5,6,7,8,9,10,11,12,13,14,15\nmovups %xmm\\k,16*\\k(%rsp)\n.endr\n"
	"movq %rsp,(%rdi)\nmovq %rsi,%rsp\n"
	".irp k,0,1,2,3,4,5,6,7,8,9,10,11,12,13,14,15\nmovups 16*\\k(%rsp),%xmm\\k\n.endr\n"
	"addq $256,%rsp\npopq %r15\npopq %r14\npopq %r13\npopq %r12\npopq %rbp\npopq %rbx\nret\n");
/* Called before an access by instrument.py's code: it changes no register and no flag. */
__asm__(".globl sim_hook\nsim_hook:\npushq %rax\nlahf\nseto %al\npushq %rax\n"
	"pushq %rcx\npushq %rdx\npushq %r8\npushq %r9\npushq %r10\npushq %r11\n"
	"pushq %rbp\nmovq %rsp,%rbp\nandq $-16,%rsp\ncall access_memory\nmovq %rbp,%rsp\npopq %rbp\n"
	"popq %r11\npopq %r10\npopq %r9\npopq %r8\npopq %rdx\npopq %rcx\n"
	"popq %rax\naddb $127,%al\nsahf\npopq %rax\nret\n");

static void copy(struct ww_mine *to, const struct ww_mine *from)
{
	size_t words = sizeof *to / 8;

	__asm__ volatile("rep movsq" : "+D"(to), "+S"(from), "+c"(words)::"memory");
}

static inline unsigned first(const int64_t *tree, unsigned leaves)
{
	unsigned k = 1;

	while (k < leaves)
		k = tree[2 * k] <= tree[2 * k + 1] ? 2 * k : 2 * k + 1;
	return k - leaves;
}

static inline void set_leaf(int64_t *tree, unsigned k, int64_t to)
{
	tree[k] = to;
	while (k >>= 1)
		tree[k] = tree[2 * k] < tree[2 * k + 1] ? tree[2 * k] : tree[2 * k + 1];
	next_clock = clocks[1] < timers[1] ? clocks[1] : timers[1];
}

void set_clock(const struct processor *processor, int64_t clock)
{
	set_leaf(clocks, MOST_PROCESSORS + (unsigned)(processor - processors), clock);
}

void set_timer(const struct thread *thread, int64_t clock)
{
	set_leaf(timers, MOST_THREADS + (unsigned)(thread - threads), clock);
}

static void ring_timers(void)
{
	while (timers[1] != NEVER_COMES && timers[1] <= clocks[1]) {
		struct thread *it = &threads[first(timers, MOST_THREADS)];
		int64_t now = timers[1];

		set_timer(it, NEVER_COMES);
		is_ready(it, now, 0);
	}
}

/* Where threads wait for a processor, the others' last transactions would take long, so none is awaited. */
static bool has_ended(void) { return clocks[1] > (thread_count > processor_count ? ends_at : NEVER_COMES - 1); }

void go_on(void)
{
	struct thread *was = self;

	ring_timers();
	if (has_ended())
		switch_stacks(&was->stack, outside);
	current = first(clocks, MOST_PROCESSORS);
	set_clock(me(), NEVER_COMES);
	self = me()->runs;
	if (self == was)
		return;
	was->error = errno;
	copy(&kept[was - threads], &ww_mine);
	copy(&ww_mine, &kept[self - threads]);
	errno = self->error;
	switch_stacks(&was->stack, self->stack);
}

void in_order(void)
{
	if (me()->clock > next_clock) {
		set_clock(me(), me()->clock);
		go_on();
	}
}

void spend(int64_t time, enum spent on)
{
	if (!is_running)
		return;
	me()->clock += time;
	self->counted.spent[on] += time;
	in_order();
	if (me()->clock >= me()->preempts)
		look_at_queue();
}

static void begin(void)
{
	run_engine((unsigned)(self - threads));
	self->ended = true;
	leave_processor();
}

/* Threads begin one after another, on stacks of which no two begin in the same lines of a cache. */
static void prepare(unsigned k)
{
	enum { STACK = 1 << 18, SAVED = 256 + 6 * 8, APART = 37000 };
	char *end = (char *)take(STACK, 4096) + STACK - 64 - 64 * (k % 8);
	void **at = (void **)(void *)end;

	*--at = NULL;
	*--at = (void *)begin;
	threads[k].stack = (char *)at - SAVED;
	threads[k].on = &processors[k % processor_count];
	is_ready(&threads[k], k * APART, 0);
}

static bool all_have_ended(void)
{
	for (unsigned k = 0; k < thread_count; k++)
		if (!threads[k].ended)
			return false;
	return true;
}

bool run_all(void)
{
	for (unsigned k = 0; k < 2 * MOST_PROCESSORS; k++)
		clocks[k] = NEVER_COMES;
	for (unsigned k = 0; k < 2 * MOST_THREADS; k++)
		timers[k] = NEVER_COMES;
	for (unsigned k = 0; k < thread_count; k++)
		prepare(k);
	is_running = true;
	current = first(clocks, MOST_PROCESSORS);
	set_clock(me(), NEVER_COMES);
	self = me()->runs;
	switch_stacks(&outside, self->stack);
	is_running = false;
	return clocks[1] != NEVER_COMES || all_have_ended();
}
