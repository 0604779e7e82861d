/* inside.h - what a world and a seat are, for the library's own sources and its tests. No program includes it. */
#ifndef WW_INSIDE_H
#define WW_INSIDE_H
#include "ww_poll.h"
#include "ww_steps.h"
#include <time.h>

#define LIKELY(fact) __builtin_expect(!!(fact), 1)
#define UNLIKELY(fact) __builtin_expect(!!(fact), 0)
/* Tells the compiler that the fact is never true. */
#define NEVER(fact) do { if (fact) __builtin_unreachable(); } while (0)
#define COLD __attribute__((noinline, cold))

/* The thread sanitizer can't see into the proved library's assembly. These calls tell it what a lock orders. */
#ifdef __SANITIZE_THREAD__
#define SANITIZES_THREADS 1
#elif defined(__has_feature)
#define SANITIZES_THREADS __has_feature(thread_sanitizer)
#else
#define SANITIZES_THREADS 0
#endif
#if SANITIZES_THREADS
#include <sanitizer/tsan_interface.h>
#else
static inline void __tsan_acquire(void *at) { (void)at; }
static inline void __tsan_release(void *at) { (void)at; }
#endif

struct ww_pool;
struct ww_seat;

/* What is counted for a context since it met another one: see age.h, and why.c. */
struct ww_met {
	uint64_t label;		  /* the program's label of the context */
	uint32_t waits, back_offs; /* how many waits and back-offs its seat had counted when it met the other one, modulo 2^32 */
	uint64_t waited;	  /* how many nanoseconds its threads have waited since */
	uint32_t target;	  /* the number of the mutex for which it waits, or last asked in vain, plus 1; or 0 */
	uint32_t lock;		  /* the number of the lock for which that call came to wait: that mutex's, or a slot's */
};

/*
 * What keeps something for each wait of its polls: a lock table, or retry.c. Only the poller that began such a poll may go on with it. If
 * the program ends the wait by ww_acquire_end_wait, `ends` gets what that call is about to return, and returns what the call returns.
 */
struct ww_poller {
	int (*ends)(struct ww_poller *it, struct ww_acquire_ctx *x, int r);
};

/* What a lock table has of a seat whose context has keys of that table; `release` releases them. */
struct ww_keys {
	void (*release)(struct ww_keys *it, struct ww_acquire_ctx *x);
	struct ww_keys *next; /* the same of another table */
};

/*
 * A seat: the place in the proved library from which one context, or one lock without a context, acts at a time. It has three cache
 * lines of its own. A context that never waits doesn't touch the second one, and the third one is for what is rare. ww_mutex.h
 * assumes that a seat begins with its handle.
 */
typedef struct ww_seat {
	ww_handle handle;
	uint32_t token;		/* the futex word on which the seat's user sleeps: see sleep.c */
	uint32_t busy;		/* whose the seat is: see seat.c */
	struct ww_pool *pool;	/* the class that the seat belongs to */
	struct ww_seats *of;	/* the array of seats that it belongs to */
	uint8_t ages;		/* how many contexts may share the present age: see age.h */
	uint8_t asks;		/* what the suspended poll of its context asks for: see context.h */
	uint32_t given;		/* of a seat of tasks: how often its user was through with it */
	struct ww_slot *slot;	/* the reader slot of its user: see shared.c; or NULL */
	struct ww_mutex *asked;	/* the mutex that the suspended poll asks for */
	uint64_t waits __attribute__((aligned(64))), back_offs; /* how often its users waited and backed off, in all */
	struct ww_waker waker;	/* the waker of the present wait */
	uint32_t armed;		/* how many waits its users had that left a waker */
	uint32_t awaits;	/* the number of the lock that its user waits for, plus 1; or 0: a hint */
	uint64_t lease;		/* of a seat of tasks: until then anybody may claim it; later it is handed to a task that waits */
	uint64_t user;		/* the number of the thread that last locked without a context from this seat */
	uint64_t ticket __attribute__((aligned(64))); /* the ticket of the value by which its context is suspended, or 0: see retry.c */
	uint32_t told;		/* the number of the mutex for which its user asked by the call that last returned -EDEADLK, */
	uint32_t puts;		/* and how often that number had been put back by then */
	struct ww_poller *poller; /* who made the suspended poll, or NULL */
	struct ww_keys *keys;	/* what tables have of the seat, each while the seat's context has keys of that table */
	struct ww_met met;
} __attribute__((aligned(64))) ww_seat;

#define WW_HIDDEN __attribute__((visibility("hidden")))

/*
 * Takes memory of zeros from the system itself, of which only pages that are written take room; or NULL. And returns it. A heap
 * might write the zeros, which would take room.
 */
WW_HIDDEN void *ww_take_zeros(size_t size);
WW_HIDDEN void ww_return_zeros(void *at, size_t size);

/*
 * This thread opens a world between these two calls. The second one returns pages of zeros to the system (see heap.c), and tells how
 * many bytes the world's large blocks have.
 */
WW_HIDDEN void ww_heap_opens(void);
WW_HIDDEN size_t ww_heap_opened(void);

#endif
