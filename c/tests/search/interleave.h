/* interleave.h - what a program gives to be run by every schedule, and what it may ask. */
#ifndef INTERLEAVE_H
#define INTERLEAVE_H
#include <stdbool.h>
#include <stddef.h>
#include <stdint.h>
#include <time.h>

enum { IL_THREADS = 4 };

/* What schedules may do besides switching threads, each for one of the bound. */
enum {
	IL_SPURIOUS = 1,	/* a futex wakes its thread though nobody asked */
	IL_DELAYS = 2,		/* a store that isn't sequentially consistent comes later than what its thread does next */
	IL_PATIENT = 4,		/* none of these, but calls never tire of looking before they queue or sleep, and others run meanwhile */
	IL_INSIDE = 8,		/* threads are switched inside steps of the proved library, too (x86_64) */
};

/* In place of a bound: every schedule (whole.c); with points inside the steps of the proved library, too. */
enum { WHOLE = -1, WHOLE_INSIDE = -2 };

/* A text for each thread, in the words of programs.c. */
struct il_program {
	const char *name, *threads[IL_THREADS];
	unsigned flags;		/* of the above and of programs.c */
	int most;		/* the bound, where no other is asked for, or one of these */
};
extern const struct il_program il_programs[];
/* The class that programs use. */
extern struct ww_class *const il_class;
/* The shared mutexes that programs use, of which there are two; or NULL. */
struct ww_shared_mutex *il_shared(unsigned k);
/* How often a call looks at a lock, awake, before it queues; and at its token, before it sleeps. */
extern unsigned il_looks;
/* Of how many bits each slot of a reader has one. */
extern unsigned il_bits;
void il_setup(const struct il_program *p);
void il_thread(const char *text);
/* Wherever all threads wait, or have ended. */
void il_rests(void);
/* Once all threads have ended. */
void il_check(const struct il_program *p);

/* Memory that each run finds as zeros, and at the same address. */
void *il_new(size_t size);
/* Whoever touches this later fails, and whoever did so before without being ordered before this. */
void il_gone(void *at, size_t size);
/* So many nanoseconds from now: schedules may let this time come at each look at the clock. */
struct timespec il_in(long nanoseconds);
/* Another thread has to do something before this one can go on; and in place of a pause between two looks. */
void il_yield(void);
void il_pause(void);
/* So far has this thread come in its text. */
void il_position(size_t position);
/* What this thread does next comes late: once all others wait, or have ended. */
void il_late(void);
/* Sleeps until the word isn't 0, and sets it, which orders what came before. */
void il_await(uint32_t *word);
void il_set(uint32_t *word);
/* A call says that the context reads that shared mutex from now on, or writes it; or it is about to read it no more, though others. */
struct ww_acquire_ctx;
void il_reads(unsigned k, const struct ww_acquire_ctx *x);
void il_reads_no_more(unsigned k, const struct ww_acquire_ctx *x);
void il_writes(unsigned k, const struct ww_acquire_ctx *x);
/* A shared mutex is gone, or there again. */
void il_hall(void);
/* Which thread this is, from 1; 0 sets up and checks. */
unsigned il_me(void);
__attribute__((noreturn, format(printf, 1, 2))) void il_fail(const char *format, ...);

#define MUST(fact)                                                                                     \
	do {                                                                                           \
		if (!(fact))                                                                           \
			il_fail("%s:%d: not so: %s", __FILE__, __LINE__, #fact);                       \
	} while (0)
#endif
