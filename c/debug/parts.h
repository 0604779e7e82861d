/* parts.h - what each part of the debug library has for the others: see debug.c. It isn't installed. */
#ifndef WW_PARTS_H
#define WW_PARTS_H
#include "../lock/lock.h"

/* ---- report.c ---- */

/*
 * What the debug library keeps is read by other threads while it changes.  Nothing is ordered by it, and what is read
 * may be out of date.
 */
#define READ_ONCE(word) __atomic_load_n(&(word), __ATOMIC_RELAXED)
#define WRITE_ONCE(word, value) __atomic_store_n(&(word), value, __ATOMIC_RELAXED)

static inline const char *name_of(const struct ww_class *c) { return c->name ? c->name : ""; }

/* The place in the program at which this thread's call is made. */
WW_HIDDEN extern __thread struct place ww_here;
/* Sets a place to another one, which may change meanwhile; or to that of this thread's call. */
WW_HIDDEN void ww_copy_place(struct place *at, const struct place *from);
static inline void ww_set_place(struct place *at) { ww_copy_place(at, &ww_here); }
WW_HIDDEN void ww_print_place(const struct place *at, FILE *to);
/*
 * Whether this thread's call said its line. Code that isn't compiled with WW_DEBUG has the quick calls compiled in, which the debug
 * library doesn't see, and its other calls don't say their lines.
 */
static inline bool is_seen(void) { return ww_here.file; }

/* Which mutex this thread's next report is about: the end of its line, or an empty text. */
WW_HIDDEN extern __thread char ww_about[160];
/*
 * Reports misuse, with the name of the class and the place of what began earlier, if these aren't NULL. The same words at the same
 * line, of the same class, come once with a backtrace, and then each time that their number has doubled.
 */
WW_HIDDEN void ww_fault(const struct ww_class *c, const char *call, const struct place *earlier, const char *why);
/* Reports a call that is right by itself, but dangerous: once for each line and class. */
__attribute__((format(printf, 4, 5)))
WW_HIDDEN void ww_warn(const struct ww_class *c, const char *call, const struct place *earlier, const char *format, ...);

/*
 * A report that is being made: in memory, or, if there is none, written at once. It is given to the program at its end, when the caller
 * has no lock of the library any more. pthread_cancel doesn't end the thread between begin and end: otherwise standard error would stay
 * locked, and whatever the call had acquired.
 */
struct report {
	char *text;
	size_t size;
	FILE *memory, *to;
	int may_end;
};
WW_HIDDEN void ww_begin_report(struct report *report, const struct ww_class *c, const char *call);
WW_HIDDEN void ww_end_warning(struct report *report, const struct place *earlier);

/* A prime, by which a number of 64 bits is mixed. */
#define MIX 1099511628211u
/* How often this was called with this number, this call included; and how often with these words, for this call, line and class. */
WW_HIDDEN unsigned ww_times(uint64_t about);
WW_HIDDEN unsigned ww_times_here(const struct ww_class *c, const char *call, const char *words);

/* ---- slow.c ---- */

/*
 * Counts a wait at this place that took so many nanoseconds, for a mutex that was acquired at `holder`; and an -EDEADLK of this
 * thread's call.
 */
WW_HIDDEN void ww_count_wait(const struct place *at, uint64_t took, const struct place *holder);
WW_HIDDEN void ww_count_back_off(void);

/* ---- check.c ---- */

/*
 * Checks the state of a seat. The caller is the seat's user, which doesn't sleep (IN_USE) or is through with the seat (IS_THROUGH);
 * or the thread that frees the class (UNUSED).
 */
enum use { IN_USE, IS_THROUGH, UNUSED };
WW_HIDDEN void ww_debug_check_seat(const ww_seat *s, enum use use);
/* Checks the state of a context that has begun. The caller is the thread that uses it. */
WW_HIDDEN void ww_debug_check_context(const struct ww_acquire_ctx *x);

/* ---- watch.c ---- */

/*
 * What is known of a mutex, by the mutex's number: its name, or NULL, and how often the number had been put back when the mutex was
 * named (ww_mutex_name). While it is held: the number, plus 1, of the seat that holds it, the thread that acquired it, and where.
 */
struct holding {
	const char *name;
	uint32_t puts;
	uint32_t seat;
	uint64_t thread;
	struct place acquired;
};

/*
 * What is known of a seat: its context; the index of that context in the order in which contexts began (`stamp`; 0 without a
 * context); and how many mutexes are held by the seat. While a context, or a lock without one, uses the seat: where that began, and
 * the thread that last made a call by it, or 0 for a task, which may go on in any thread. During a wait: the number, plus 1, of the
 * mutex (`wants`); where the wait began (`waits`), and when (`from`); where the mutex had been acquired (`behind`); the thread's
 * number in the system (`tid`); and the number of this wait among all without a time limit, or 0 (`endless`). From an -EDEADLK
 * until something is acquired: the mutex at which it came (`refused`), where the program asked for that mutex (`asked`), and
 * whether the -EDEADLK was made up (`is_injected`).
 */
struct watch {
	const struct ww_acquire_ctx *context;
	unsigned long stamp;
	uint64_t thread;
	uint32_t held, wants;
	uint64_t from;
	struct place began, waits, behind, asked, taken_back; /* `taken_back`: where its wait for `refused` was */
	struct place suspended; /* where its context was suspended, while it is */
	unsigned int interval;	/* the suspended context's deadlock_inject_interval */
	const struct ww_mutex *refused;
	long tid;
	uint64_t endless;
	bool is_polled, is_injected;
};

/*
 * When a wait for a context becomes long, unless a seat is handed over until then; and how many seats had been handed over when it
 * began.
 */
struct seeking {
	struct timespec is_long;
	uint64_t handed;
};

struct debug {
	unsigned long stamps;
	uint64_t handed[2];    /* how many seats were handed to waiters, of threads and of tasks */
	struct seeking tasks;  /* the wait of the tasks in the queue, under the queue's lock */
	bool is_leak_reported; /* it was reported that all contexts have been in use for long */
	struct holding *mutexes;
	struct watch seats[];
};

static inline struct watch *watch_of(const ww_seat *s) { return &s->pool->debug->seats[s - s->pool->seats]; }
static inline struct holding *holding_of(const struct ww_mutex *m) { return &m->pool->debug->mutexes[m->number]; }
/* The seat that holds the mutex of this number, or NULL. */
static inline struct watch *holder_with(const struct ww_pool *p, uint32_t number)
{
	uint32_t seat = READ_ONCE(p->debug->mutexes[number].seat);

	return seat ? &p->debug->seats[seat - 1] : NULL;
}

/*
 * The name of the mutex that has this number now, or an empty text; and what a format with NAMED takes for it. There is no such number
 * if a wait, whose number is read here, has ended meanwhile.
 */
static inline const char *name_of_mutex(const struct ww_pool *p, uint32_t number)
{
	const struct holding *it = number < p->numbers.locks ? &p->debug->mutexes[number] : NULL;
	const char *name = it ? READ_ONCE(it->name) : NULL;

	return name && READ_ONCE(it->puts) == puts_of(&p->numbers, number) ? name : "";
}
#define NAMED "%s%s%s"
#define NAME(name) *(name) ? " \"" : "", name, *(name) ? "\"" : ""

static inline bool is_seat_used(const struct watch *s) { return READ_ONCE(s->thread) || READ_ONCE(s->stamp); }

/* The thread that calls by the seat now; 0 for a task. */
static inline uint64_t user_of(const struct watch *s) { return READ_ONCE(s->is_polled) ? 0 : this_thread(); }

/* Notes that this thread makes a call by the seat; and that nobody uses a seat without a context any more, if nothing is held by it. */
WW_HIDDEN void ww_watch_use(struct watch *s);
WW_HIDDEN void ww_watch_unuse(struct watch *s);
/* Notes that a task uses the seat, if that isn't NULL. */
WW_HIDDEN void ww_watch_poll(ww_seat *s);
WW_HIDDEN void ww_watch_begin(struct ww_acquire_ctx *x);
WW_HIDDEN void ww_watch_end(struct watch *s);
WW_HIDDEN void ww_watch_suspend(const struct ww_acquire_ctx *x);
WW_HIDDEN void ww_watch_resume(struct ww_acquire_ctx *x);
WW_HIDDEN void ww_watch_acquire(const struct ww_mutex *m, const ww_seat *by);
WW_HIDDEN void ww_watch_release(const struct ww_mutex *m);

/* The pools of all classes. Their list is locked until ww_unlock_pools is called. */
WW_HIDDEN const struct ww_pool *ww_lock_pools(void);
WW_HIDDEN void ww_unlock_pools(void);
/*
 * What is asked of a seat: whether its context lies at an address, or was refused a mutex there; or whether a thread uses the seat,
 * has a context by it, holds a mutex by it, or waits by it.
 */
enum has { CONTEXT_AT, REFUSED_AT, ANYTHING, A_CONTEXT, A_MUTEX, A_WAIT };
/*
 * A seat of which this is so, in this class, or, if `further`, in any class from this one on in their list, which is locked; or
 * NULL.
 */
WW_HIDDEN const ww_seat *ww_seat_with(const struct ww_pool *p, bool further, enum has what, uintptr_t value);
/* A seat of which this is so, in any class; or NULL. */
WW_HIDDEN const ww_seat *ww_any_seat_with(enum has what, uintptr_t value);

/* Whether anything of the class is in use. The list of classes is locked. */
WW_HIDDEN bool ww_is_any_used(const struct ww_pool *p);

/* ---- waits.c ---- */

/* Notes that the seat begins to wait for the mutex, as does this thread, unless it polls; and that the wait has ended. */
WW_HIDDEN void ww_wait_begins(ww_seat *s, const struct ww_mutex *m, const struct ww_how *how);
WW_HIDDEN void ww_wait_ends(ww_seat *s);
/* Notes that this thread begins to wait for one of these seats, until a time; and that the wait has ended. */
WW_HIDDEN void ww_seek_begins(struct ww_seats *of, const struct timespec *until);
WW_HIDDEN void ww_seek_ends(void);
/* Notes that a thread or a task has come to wait for one of these seats; and that one of them is handed over, if that isn't NULL. */
WW_HIDDEN void ww_queue_grows(struct ww_seats *of);
WW_HIDDEN void ww_seat_handed(const struct ww_seats *of, const ww_seat *s);

#endif
