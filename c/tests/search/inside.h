/* inside.h - what the two halves of the runtime share: who goes on (interleave.c), and what threads do (hooks.c). */
#ifndef INSIDE_H
#define INSIDE_H
#include "interleave.h"
#include "ww_steps.h"
#include <pthread.h>
#include <setjmp.h>
#include <string.h>

enum { ALL = IL_THREADS + 1, WIDE = 8 }; /* thread 0 sets up and checks; clocks of so many are compared at once */
enum { STACK = 1 << 15, ARENA = 1 << 18, DATA = 1 << 16, OWN = 1 << 10, OBJECTS = 1 << 13, DEPTH = 1 << 14 };
enum { LATES = 8, SEATS = 32, LOCKS = 32 };

/* What the checkers know of a run: part of its state. */
#define GHOST __attribute__((section("il_ghost")))

struct clocks {
	uint16_t of[WIDE];
};

/* Where a thread called the runtime, as entry.S notes it: what goes on from there is in these, and on the stack above. */
struct entry {
	uint64_t saved[6], stack, words[6]; /* registers that a call keeps, and those that hand words over */
	const void *pc;
};

struct thread {
	struct entry entry; /* first */
	const void *place;  /* in the runtime's call, where it stopped */
	void *stack; /* where it stopped */
	enum { READY, SLEEPS, BLOCKED, LATE, ENDED } state;
	uint32_t *word, is; /* it sleeps as long as the word is this, and until a time; or is blocked by a mutex there */
	const struct timespec *until;
	long skew;		   /* its clock is so much later: it yielded */
	uint64_t hash;		   /* of all that its next step depends on */
	const void *done, *coming; /* where its last access is, and the one that comes */
	struct clocks clocks;
	unsigned enabled, ran, behind; /* sets of threads: see il_yielded */
	struct late_store {
		void *at;
		uint64_t value;
		unsigned size;
		const void *pc;
	} late[LATES];
	unsigned lates;
	bool inside;	/* a guard, maybe, where it must not sleep */
	uint8_t position; /* in its text */
	uint64_t held;	/* locks */
	void *specific;
	char own[OWN]; /* what the library keeps for each thread */
};

/* What atomic accesses and calls are about, by address. */
struct object {
	uintptr_t key;
	uint8_t reads, writes;	 /* which threads did, in any run */
	bool orders;		 /* others by its clocks, in any run */
	bool shared;		 /* what that came to before this pass */
	uint8_t last_read[ALL], last_write[ALL]; /* up to which position each thread does, from 1, in any run */
	uint64_t under;		 /* locks that all who accessed it had */
	uint32_t run;		 /* what follows is of this run */
	uint64_t written, read;	 /* hashes */
	struct clocks clocks;
};

struct option {
	enum what { RUNS = 'r', RISES = 's', TIMES_OUT = 't', COMMITS = 'c', DELAYS = 'd', STANDS = 'n', TICKS = 'k' } what;
	unsigned thread, cost;
};

extern struct entry *il_entry; /* the current thread's */
extern struct il {
	const struct il_program *program;
	unsigned flags, count; /* of its threads */
	jmp_buf explorer;
	struct thread threads[ALL];
	unsigned current;
	bool running, failed, given_up, grown, whole, drawing;
	uint32_t run, pass, point, steps;
	int budget;
	long long now, asked; /* a time that the program waits for */
	struct choice {
		struct option option;
		unsigned count, taken, by;
		uint32_t point;
		const void *done, *coming;
	} choices[DEPTH];
	unsigned depth, prefix; /* so many choices are made, and given before */
	const char *replay;	/* a schedule */
	size_t used;
	uint64_t gone; /* a hash of what is gone */
	void (*destructor)(void *);
	char message[256];
	const void *from; /* where it failed */
	unsigned long runs;
	struct object objects[OBJECTS];
	const void *mutexes[LOCKS]; /* in the order in which they were met */
	bool goes_over;		    /* what one thread began by a seat another goes on with, in any run */
	char *own; /* where what the library keeps for each thread is, for the current one */
	size_t own_size;
	char memory[ARENA + IL_THREADS * STACK] __attribute__((aligned(4096)));
} il;

/* The data of the library and of the programs: a section that tests.mk names so. */
extern char __start_il_data[], __stop_il_data[];

static inline struct thread *me(void) { return &il.threads[il.current]; }
/* Where the library called. */
#define PC (me()->entry.pc)

static inline uint64_t mix(uint64_t a, uint64_t b)
{
	uint64_t h = (a + 0x9e3779b97f4a7c15u) * 0xff51afd7ed558ccdu;

	h = ((h ^ h >> 32) + b) * 0xc4ceb9fe1a85ec53u;
	return h ^ h >> 29;
}

static inline long long time_of(const struct timespec *at) { return at->tv_sec * 1000000000LL + at->tv_nsec; }

/* Before something that others may see, or that sees others. */
struct object *il_before(const volatile void *at, bool writes, const char *op, const void *pc);
/* Whether the second, which costs one of the bound. */
bool il_chooses(enum what first, enum what second);
/* whole.c: every schedule, without a bound; how many states these have, and why not all were met, unless they were. */
struct whole {
	uint32_t states;
	const char *stopped;
} il_try_whole(double seconds);
/* Which of several options the current thread's choice has. */
unsigned il_choose_whole(const struct option *options, unsigned count, bool forced);
/* Before this word changes that belongs to no part of the state that is copied. */
void il_keep(void *word);
/* What stands for a mutex of the C library, or for a lock of the proved one by its number; who has it. */
uint64_t il_lock_bit(const void *mutex, uint32_t number);
/* This thread goes on with what another one began by a seat: then nobody is known to have a lock of the proved library. */
void il_goes_over(void);
void il_has(uint64_t lock);
void il_has_no_more(uint64_t lock);
unsigned il_ready(void);
void il_begin_pass(void);
void il_begin_run(void);
void il_end_run(void);
/* From now on a thread may compute for so long. */
void il_watch(void);
void il_switch(void **from, void *to);
/* This thread can't go on, or yields.  Time passes for nothing only where nobody is ready. */
void il_switch_away(void);
/* Threads that were ready ever since this one yielded last, and didn't run, come before it (CHESS: Musuvathi, Qadeer 2008). */
void il_yielded(void);
void il_let_time_pass(long long to);
struct object *il_object_of(const volatile void *at);
/* What is known to be accessed in any run is more now. */
void il_grows(void);
/* Another program comes. */
void il_forget_cells(void);
void il_forget_gone(void);
bool il_begin_clocks(void); /* false where there are too many */
/* What of the clocks belongs to a state, and of how many bytes. */
const void *il_clocks(size_t *size);
/* Whether another thread accesses it, in any run. */
bool il_is_shared(const struct object *o);
/* The current thread accesses it. */
void il_note(struct object *o, bool writes);
/* What a thread stored, and others don't see yet, comes to be seen. */
void il_commit(struct thread *it);

/* What moves.c looks at: a step by a seat, what it answers, and whom it names; an atomic store, an unlock. */
void il_calls(const ww_handle *h, const void *pc);
void il_answers(const ww_handle *h, int32_t r);
/* What looked leaves the call that is on its way as it was. */
void il_looked(const ww_handle *h);
int32_t il_names(const ww_handle *h, int32_t k, const void *pc);
void il_stores(const volatile void *at, uint64_t was, uint64_t is, const void *pc);
void il_unlocks(const pthread_mutex_t *m, const void *pc);
/* And seats.c: each atomic access, with what was there and what is, which is all that one that reads saw; a step by a seat. */
enum il_how { IL_READS, IL_STORES, IL_CHANGES, IL_FAILS };
void il_access(enum il_how how, const volatile void *at, uint64_t was, uint64_t is, const void *pc);
void il_uses(const ww_handle *h, const void *pc);
bool il_is_user(unsigned seat); /* whether this thread uses it now */
/* And readers.c: what is put somewhere by an atomic access, as soon as others see it, and what one reads; a step; what that found. */
void il_puts(const volatile void *at, uint64_t was, uint64_t is, const void *pc);
void il_gets(const volatile void *at, uint64_t value, const void *pc);
void il_steps(const void *pc);
void il_finds_free(const ww_handle *h, uint32_t lock, const void *pc);
/* A class is freed; this thread waits, or ends. */
void il_closes(void);
void il_waits(const char *what, const void *pc);
#endif
