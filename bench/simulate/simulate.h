/* simulate.h - processors in virtual time, and the threads that they run: what the parts of the simulator share. All times are picoseconds. */
#ifndef SIMULATE_H
#define SIMULATE_H
#include <stdbool.h>
#include <stddef.h>
#include <stdint.h>

enum { MOST_PROCESSORS = 128, MOST_THREADS = 1024 };
#define NEVER_COMES INT64_MAX

#include "numbers.h"
#define FIELD(name, value, source) int64_t name;
extern struct model {
	NUMBERS(FIELD)
} model;
#undef FIELD

/* On what a thread spends its time. It is READY while it waits for a processor. */
enum spent { INSTRUCTIONS, OWN, CACHES, TRANSFERS, QUEUES, ATOMICS, PAUSES, YIELDS, SYSTEM, DRAWING, WORK, SLEEPS, READY, SPENT };

/* What instrument.py says of an access. */
enum access { READ, WRITE, CHANGE, LOCKED, FENCE, PAUSE };

/* What was counted of a thread, in the time that counts. */
struct counted {
	uint64_t done, retries, transfers, sleeps, yields;
	int64_t spent[SPENT], longest;
};

struct thread {
	void *stack;		/* where it goes on */
	struct processor *on;	/* where it runs, waits to run, or ran last */
	struct thread *next;	/* in the queue */
	int64_t ran, ready;	/* see scheduler.c; and since when it waits to run */
	uint32_t *sleeps_on;	/* the futex, or NULL */
	int64_t slept, until;	/* since when, and until when at most */
	int64_t began;		/* its transaction */
	bool ended, was_woken;
	int error;		/* errno */
	uint64_t voluntary, involuntary; /* how often it left a processor */
	struct counted counted;
};

struct processor {
	int64_t clock;
	int64_t stores_out;	/* when its last plain store is out */
	struct thread *runs;	/* NULL: it is idle */
	struct thread *queue;	/* what waits for it */
	int64_t since, ends, preempts, least; /* see scheduler.c */
	void *cached;		/* see lines.c */
};

extern struct processor *processors;
extern struct thread *threads, *self;
extern unsigned processor_count, thread_count, current;
extern bool is_running;
extern int64_t counts_from, ends_at;	/* what happens between these two is counted */

static inline struct processor *me(void) { return &processors[current]; }

/* ---- processors.c ---- */
/* The smallest clock of those that don't run. */
extern int64_t next_clock;
/* Lets all go on whose clock is smaller. */
void in_order(void);
/* This processor takes so long. */
void spend(int64_t time, enum spent on);
/* The one with the smallest clock goes on. If all are NEVER_COMES, the simulation ends. */
void go_on(void);
/* A processor's clock has become this one. */
void set_clock(const struct processor *processor, int64_t clock);
/* A thread that sleeps is ready then, if it isn't woken before. */
void set_timer(const struct thread *thread, int64_t clock);
/* False if some threads sleep forever. */
bool run_all(void);

/* ---- scheduler.c ---- */
/* The processor has nothing else to do until the thread runs on it, at this time. */
void run(struct processor *on, struct thread *thread, int64_t clock);
/* A thread that slept is ready now, and on an idle processor runs after a delay. */
void is_ready(struct thread *thread, int64_t now, int64_t delay);
/* The thread that runs here sleeps, or has ended. */
void leave_processor(void);
/* Another thread's turn on this processor may have come. */
void look_at_queue(void);
/* The first that waits for this processor runs, if there is one. */
void let_first_run(void);

/* ---- lines.c ---- */
void open_lines(void);
void access_memory(uintptr_t at, uint32_t code);
/* What lies there. The name is the same pointer for all that are counted together. */
void name_lines(const char *name, const void *at, size_t size);
/* What was transferred between processors, of each name. */
struct transfers {
	const char *name;
	uintptr_t from, to;
	uint64_t count;
	int64_t queued;
};
const struct transfers *all_transfers(unsigned *count);

/* ---- system.c ---- */
/* Where all memory of the library and of the load lies, so that no address is another one in the next run. */
#define ARENA ((uintptr_t)1 << 32)
enum { ARENA_SIZE = 1 << 29 };
void open_arena(void);
void *take(size_t size, size_t align);
/* This thread sleeps, or works, for so long. */
void nap(int64_t time);
void work(int64_t time);

/* ---- lists.c ---- */
enum { MOST_TAKEN = 256 };
struct list {
	unsigned count, at[MOST_TAKEN];
};
/* Chooses a load; false if there is none of this name. */
bool open_lists(const char *name, uint64_t seed);
unsigned all_locks(void);
uint64_t draw_number(unsigned thread);
void draw_list(struct list *list, unsigned thread);

/* ---- engines.c ---- */
/* Chooses an engine; false if there is none of this name. */
bool open_engine(const char *name);
/* Makes transactions, until the time is over. */
void run_engine(unsigned thread);

/* ---- names.c ---- */
/* Names what an open class has in memory. */
struct ww_pool;
void name_pool(const struct ww_pool *pool);

/* ---- main.c ---- */
/* What each transaction does besides: it works after each lock, and naps with all; and whether the class may have crowds. */
extern int64_t works, naps;
extern bool has_crowds;
/* A transaction has been made, after so many retries. */
void is_done(unsigned retries);
bool is_over(void);
/* Ends the simulation. */
__attribute__((noreturn)) void refuse(const char *why);
#endif
