/* pool.h - what an open class consists of: its seats, the queues of those that wait for one, and its crowd. It isn't installed. */
#ifndef WW_POOL_H
#define WW_POOL_H
#include "slot.h"
#include "../base/limiter.h"
#include "../base/numbers.h"
#include "../base/process.h"

struct debug;

/*
 * A class for which the program sets no number of contexts has MANY_CONTEXTS seats, of which MANY_TASKS are for tasks. MANY_OWN
 * more seats are threads' own. At first tasks may claim EACH_TASKS seats for each processor. The search of schedules has few seats.
 */
#ifndef WW_FEW
enum { MANY_CONTEXTS = 1024, MANY_TASKS = 896, EACH_TASKS = 2 };
#else
enum { MANY_CONTEXTS = WW_FEW + 1, MANY_TASKS = WW_FEW, EACH_TASKS = WW_FEW };
#endif

/* The states of a waiter, `served_`: see queue.c. */
enum { WAITS, CALLED, SERVED };
/* The waiters that WAIT for a seat of an array, in the order in which they came; or those that are CALLED, in the order of their calls. */
struct ww_line {
	struct ww_seek *first, **end; /* the waiters, and the last link */
	uint32_t seekers;	      /* how many there are */
};
/*
 * An array of seats, and the waiters that found no seat of it free. A class has two arrays. `threads` has all seats that anybody may
 * use. `tasks` is the last part of these: the seats that polls may use, too. If the program sets how many contexts the class has,
 * `tasks` is empty, and tasks wait for seats of `threads`.
 */
struct ww_seats {
	struct ww_pool *pool;
	uint64_t id; /* names the array in a thread's `last`; NO_ID: no thread comes back to the seat it used last */
	ww_seat *seats;
	uint32_t count;
	uint32_t open;		      /* how many of the seats may be claimed now; of `threads` all may */
	uint32_t made;		      /* so many seats, the first in the order of claims, are made, and maybe others: see claim.c */
	uint32_t set_aside;	      /* so many of the tasks' contexts are suspended; so many more seats may be claimed */
	struct ww_line lines[SERVED]; /* of those that WAIT, and of those that are CALLED */
	uint64_t sought;	      /* how many have waited in all */
	uint64_t due;		      /* of tasks: when to look at the limiter next */
	struct ww_limiter limiter;
} __attribute__((aligned(64)));

/* A permit, by which a thread begins contexts in a crowd: see crowd.c. */
enum { MANY_PERMITS = MANY_PROCESSORS };
struct ww_permit {
	uint64_t ends;	     /* when its lease ends; or when it was put back */
	const ww_seat *seat; /* the own seat of its thread, by which that thread begins contexts; or NULL */
};
/* A thread that waits for a permit. */
struct ww_turn {
	struct ww_turn *next, **link; /* the next waiter, and the pointer that points to this one */
	uint32_t is_called; /* whether the thread was called since it last fell asleep: the futex word on which it sleeps */
};
struct ww_crowd {
	uint64_t begun __attribute__((aligned(64))); /* how many contexts were begun in this crowd */
	uint64_t quiet_until __attribute__((aligned(64))); /* no crowd begins before this time, since the last crowd was of no use */
	uint32_t waiting;			     /* how many threads wait for a permit */
	struct ww_turn *first, **end;		     /* these threads, in the order in which they came, and the last link */
	uint64_t sought;			     /* how many threads have waited in all */
	uint64_t due;				     /* when to look at the limiter next */
	struct ww_limiter limiter;		     /* this and all below is changed under the lock `queue` */
	struct ww_permit permits[MANY_PERMITS];
	uint32_t sleepers;			     /* how many leases on end had threads that slept elsewhere */
	bool is_long;				     /* contexts are long: the limiter has begun with the largest width */
	uint64_t was_short;			     /* when the last lease ended whose contexts were short */
	uint64_t since;				     /* when the crowd began */
	uint64_t looked;			     /* when the sums of waits and leases were last looked at */
	uint64_t held, waited; /* how long the leases were that have ended since, and how long their threads waited in them */
	uint64_t leased, backed_off; /* how many contexts began in these leases, and how often contexts backed off */
	uint64_t quiet;				     /* how long no crowd begins after the next one that is of no use */
};

/*
 * An open class. The memory of a pool outlives its class, and serves a class that is opened later: a thread that has given a seat
 * then reads `seekers`, and may lock the queue, though another thread may have freed the class meanwhile.
 */
struct ww_pool {
	union {
		struct ww_open open;
		struct {
			OPEN_CLASS;
		};
	};
	/*
	 * The seats of `threads`, threads' own seats, and the spare seat, which no context has. They lie in memory of zeros; a
	 * seat's part is written when the seat is made, by `world`: see claim.c.
	 */
	ww_seat *seats;
	ww_world world;
	struct ww_class *class_;
	uint64_t at_hand; /* the copy of the library whose threads find their own seats at hand; 0 if none do, as in a crowd */
	ww_seat *before_own; /* the seat before the first of threads' own */
	uint64_t span;	  /* copied into each context: see struct ww_acquire_ctx */
	uintptr_t words;
	uint32_t own_seats;	 /* how many seats are threads' own: MANY_OWN, or 0 */
	bool is_crowded;	 /* see crowd.c; it lies beside what is seldom written, since each begin in a crowd reads it */
	struct debug *debug;
	struct ww_shared_mutex *numbered; /* the mutexes by number (ww_number.h), an array that is made when the first number is taken */
	struct ww_seats threads, tasks;
	uint64_t called[MANY_TASKS]; /* for each seat of tasks the time until which the task called for it may come; 0: no task is called */
	pthread_mutex_t queue; /* the lock of both queues, and of `crowd` */
	size_t bytes;	       /* how much address space the class takes, without what is small */
	bool ends_waits;       /* the class was cancelled: each wait that something may end is to end, for good */
	uint32_t suspended;    /* how many contexts are suspended */
	uint32_t tables;       /* how many lock tables are open (doors/table.c) */
	struct ww_numbers numbers __attribute__((aligned(64)));
	struct ww_slot *slots[MANY_BITS]; /* lists of slots, one for each bit, that only grow, under the lock of `numbers` */
	/* The lock of the spare seat. */
	pthread_mutex_t spare __attribute__((aligned(64)));
	struct ww_crowd crowd;
};

/*
 * The words of the proved library's locks, two for each lock. As that library is compiled, a seat's memory begins with the address
 * of its table, and the table's second word is the address of an array. DRAWN_BEFORE words of that array come before these; the first
 * word of all counts the timestamps that contexts have drawn, which a debugger reads. tests/base/numbers.c tests that it is so.
 */
enum { DRAWN_BEFORE = 16 };
static inline const uint64_t *words_of(const ww_seat *s)
{
	return (const uint64_t *)(*(void **const *)s->handle.at)[1] + DRAWN_BEFORE;
}

/* So many bytes behind the begin of a seat's memory there is the timestamp of the seat's context, or 0. A debugger reads it. */
enum { STAMP_AT = 40 };

/* The next pool in the list of open classes, or of freed pools. Opening is locked. */
static inline struct ww_pool *next_pool(const struct ww_pool *p) { return (struct ww_pool *)p->next; }

/* The number of seats that contexts may have; and the spare seat, which lies behind these. */
static inline uint32_t seats_of(const struct ww_pool *p) { return p->threads.count + p->own_seats; }
static inline ww_seat *spare_of(const struct ww_pool *p) { return &p->seats[seats_of(p)]; }

/*
 * Makes the seat's own cancel pending, in the proved library. Between any two calls by a seat its cancel is pending, and calls don't
 * heed it. Only a wait that is to end is told to heed it (ww_heed_), and takes it; then it is made pending again.
 */
static inline void ww_make_cancel_pending(ww_seat *s) { (void)ww_cancel_(&s->handle, (uint16_t)(s - s->pool->seats)); }

/* Whether the class was cancelled: then each wait that something may end is to end. */
static inline bool ww_ends_waits(const struct ww_pool *p) { return __atomic_load_n(&p->ends_waits, __ATOMIC_SEQ_CST); }

/* How many processors the class's threads may use: a hint, since the library may learn of more. */
static inline uint32_t processors_of(const struct ww_pool *p) { return __atomic_load_n(&p->processors, __ATOMIC_RELAXED); }

/* How many wait for a seat of this array, called or not. */
static inline uint32_t waiters_of(const struct ww_seats *of)
{
	return __atomic_load_n(&of->lines[WAITS].seekers, __ATOMIC_RELAXED) +
	       __atomic_load_n(&of->lines[CALLED].seekers, __ATOMIC_RELAXED);
}

/* The array of seats that polls use. */
static inline struct ww_seats *of_tasks(struct ww_pool *p) { return p->tasks.count ? &p->tasks : &p->threads; }

/* Counts one more. Only one thread writes the number at a time, while others read it. */
static inline void count(uint64_t *counted)
{
	__atomic_store_n(counted, __atomic_load_n(counted, __ATOMIC_RELAXED) + 1, __ATOMIC_RELAXED);
}

#endif
