/*
 * numbers.h - the numbers of the model, in picoseconds: name, value, and where it comes from.  `run` changes one by NAME=NANOSECONDS.
 * Measured: by measure.c, on an Intel Xeon at 2.5 GHz (Cascade Lake).  Fitted: so that what bench/measured.rows has by one thread,
 * or by four, comes out.  Assumed: neither.
 */
#ifndef NUMBERS_H
#define NUMBERS_H
#define NUMBERS(number) \
	number(instruction, 75, "fitted: contexts of one thread; four a cycle at 3.3 GHz") \
	number(own_line, 100, "assumed: an access that hits the first cache, beside others that go on") \
	number(second_cache, 3500, "assumed: 14 cycles less what goes on meanwhile") \
	number(third_cache, 18000, "assumed: an own line beyond both caches, or one that nobody has had") \
	number(from_modified, 37000, "measured: a line that another has changed") \
	number(from_shared, 37000, "assumed to be the same: a copy of a line that nobody has changed") \
	number(upgrade, 21000, "measured: an own copy is made exclusive") \
	number(contended, 80000, "fitted: a line that is on its way to another; by hand four threads make 12.4 million contexts") \
	number(busy_shared, 12000, "assumed: for how long a further copy keeps the line busy") \
	number(far, 0, "what each transfer between the two halves of the processors takes besides: two sockets") \
	number(locked, 5700, "measured: a locked instruction besides, once the own stores are out") \
	number(buffered, 2000000, "assumed: how far stores may be behind") \
	number(pause, 4550, "measured; 10 times as long on other processors") \
	number(yield, 240000, "measured: sched_yield, while nobody waits for the processor") \
	number(clock_read, 22000, "measured: clock_gettime") \
	number(futex_look, 199000, "measured: the call that sleeps, until it does, or finds another value") \
	number(futex_wake, 2000000, "measured: the call that wakes one") \
	number(futex_nobody, 135000, "measured: the call that finds nobody") \
	number(wake, 50000000, "assumed: from a wake-up, or a sleep's time, until the thread runs, on a processor in deep sleep; measured: 5 us") \
	number(mutex_call, 12000, "fitted: a call of a libc mutex besides its locked instruction; two locks take one thread 105 ns") \
	number(context_switch, 1000000, "rounded up from .84 us, measured on a later processor: from one thread to the next") \
	number(slice, 3000000000, "assumed: after so long another thread's turn comes; Linux has .7 to 6 ms") \
	number(slack, 50000000, "Linux's timer slack: a thread that sleeps by itself sleeps for so much longer") \
	number(usage_read, 250000, "measured on that later processor: getrusage of a thread") \
	number(drawing, 5000, "fitted: drawing one lock of a list; without locks a list of 8 takes 56 ns") \
	number(ahead, 300000, "how far a processor may be ahead of others where no line is shared, so that the simulation is fast")
#endif
