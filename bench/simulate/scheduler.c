/*
 * scheduler.c - which thread runs on which processor, where there are more of them.  Simpler than Linux's, but alike in this:
 *
 * - Each processor has a queue, in the order of how long its threads have run.  A thread that is ready runs on the processor
 *   where it ran last if that is idle, else on another that is, else it waits for its own.  A processor that has nothing to do
 *   takes the first thread of the longest queue.  So none is idle while a thread waits.
 * - After a slice the first thread of the queue runs, if it has run for less.  So it does as soon as it is ready, if it has run
 *   for a slice less.  While a thread sleeps it falls behind the others, but by no more than a slice.
 *
 * How long threads have run is compared on one processor only, with `least` of it: of all that don't sleep none has run for less.
 */
#include "simulate.h"

/* What the thread here has run until now. */
static void count_run(struct processor *it, int64_t now)
{
	int64_t least = it->queue ? it->queue->ran : NEVER_COMES;

	if (it->runs && now > it->since) {
		it->runs->ran += now - it->since;
		it->since = now;
	}
	if (it->runs && it->runs->ran < least)
		least = it->runs->ran;
	if (least != NEVER_COMES && least > it->least)
		it->least = least;
}

/* From now on what it has run is compared with threads of this processor. */
static void move(struct thread *it, struct processor *to)
{
	it->ran += to->least - it->on->least;
	it->on = to;
}

static void join_queue(struct processor *it, struct thread *thread, int64_t now)
{
	struct thread **at = &it->queue;

	while (*at && (*at)->ran <= thread->ran)
		at = &(*at)->next;
	thread->next = *at;
	*at = thread;
	thread->ready = now;
}

static struct thread *take_first(struct processor *from)
{
	struct thread *it = from->queue;

	from->queue = it->next;
	return it;
}

static unsigned length(const struct processor *of)
{
	unsigned count = 0;

	for (const struct thread *it = of->queue; it; it = it->next)
		count++;
	return count;
}

/* What a processor that has nothing to do takes from the others' queues, or NULL. */
static struct thread *take_anothers(struct processor *to)
{
	struct processor *longest = processors;
	struct thread *taken;

	for (struct processor *it = processors; it < processors + processor_count; it++)
		if (length(it) > length(longest))
			longest = it;
	if (!longest->queue)
		return NULL;
	taken = take_first(longest);
	move(taken, to);
	return taken;
}

void run(struct processor *on, struct thread *thread, int64_t clock)
{
	thread->counted.spent[READY] += clock - thread->ready;
	on->runs = thread;
	on->clock = on->since = clock;
	on->ends = clock + model.slice;
	on->preempts = on->queue ? on->ends : NEVER_COMES;
	set_clock(on, clock);
}

/* Where it ran last, if that is idle, or else another one, or NULL. */
static struct processor *idle_for(const struct thread *thread)
{
	struct processor *it = processors;

	if (!thread->on->runs)
		return thread->on;
	while (it < processors + processor_count && it->runs)
		it++;
	return it < processors + processor_count ? it : NULL;
}

void is_ready(struct thread *thread, int64_t now, int64_t delay)
{
	struct processor *idle = idle_for(thread), *to = idle ? idle : thread->on;

	count_run(to, now);
	if (to != thread->on)
		move(thread, to);
	if (thread->ran < to->least - model.slice)
		thread->ran = to->least - model.slice;
	thread->sleeps_on = NULL;
	if (idle) {
		thread->ready = now + delay;
		thread->counted.spent[SLEEPS] += thread->ready - thread->slept;
		run(to, thread, thread->ready);
		return;
	}
	thread->counted.spent[SLEEPS] += now - thread->slept;
	join_queue(to, thread, now);
	to->preempts = to->runs->ran - thread->ran >= model.slice ? now : to->preempts < to->ends ? to->preempts : to->ends;
}

void leave_processor(void)
{
	struct processor *on = me();
	struct thread *next;

	count_run(on, on->clock);
	self->voluntary++;
	on->runs = NULL;
	next = on->queue ? take_first(on) : take_anothers(on);
	if (next)
		run(on, next, on->clock + model.context_switch);
	go_on();
}

void let_first_run(void)
{
	struct processor *on = me();
	struct thread *first;

	in_order();
	if (!on->queue)
		return;
	count_run(on, on->clock);
	first = take_first(on);
	join_queue(on, self, on->clock);
	self->involuntary++;
	run(on, first, on->clock + model.context_switch);
	go_on();
}

void look_at_queue(void)
{
	struct processor *on = me();

	in_order();
	count_run(on, on->clock);
	if (on->queue && on->queue->ran < self->ran) {
		let_first_run();
		return;
	}
	on->ends = on->clock + model.slice;
	on->preempts = on->queue ? on->ends : NEVER_COMES;
}
