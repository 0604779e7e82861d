/*
 * debug.h - what the library's sources say to the debug library (NOTE), and ask of it. libww has nothing of this. It isn't
 * installed.
 */
#ifndef WW_DEBUG_H
#define WW_DEBUG_H
#include "../base/inside.h"

/* What is noted, when, and with which fields of struct ww_note. */
enum ww_noted {
	MISUSE,		   /* a call is refused, or ends the program: class_, call, why */
	ABOUT,		   /* the misuse that is noted next is of this mutex: mutex */
	TIME_LIMIT,	   /* a call has this time limit: until */
	CLASS_STAYS,	   /* a class can't be freed, since somebody uses it: class_ */
	CLASS_FREED,	   /* a class is freed, noted before its memory is: pool */
	CONTEXT_SOUGHT,	   /* a thread begins to wait for one of these seats: seats, until */
	CONTEXT_FOUND,	   /* a thread's wait for one of these seats has ended: seats */
	CONTEXT_QUEUED,	   /* a thread or a task has come to wait for one of these seats: seats */
	SEAT_HANDED,	   /* one of these seats is about to be handed to a waiter, or none is (NULL): seats, seat */
	SEAT_POLLED,	   /* a task uses the seat, or is about to, or has found none (NULL): seat */
	SEAT_GIVEN,	   /* the seat's user is through with it: seat */
	SEAT_CLOSED,	   /* the seat's class is freed: seat */
	CONTEXT_BEGUN,	   /* a context has begun by its seat: context */
	CONTEXT_CHANGED,   /* a context's loop has something else to do: context */
	WAIT_TAKEN_BACK,   /* a context doesn't wait first for the contended mutex any more, or owes none any more: context */
	CONTEXT_USED,	   /* a call names a context, maybe of another thread than the last such call: context */
	CONTEXT_STAYS,	   /* a context can't end: context */
	CONTEXT_SUSPENDED, /* a context is suspended, so from now on only a value names it: context */
	CONTEXT_RESUMED,   /* a context is resumed by its seat: context */
	CONTEXT_ENDS,	   /* a context ends, noted before it gives its seat: context */
	LOCK_ALONE,	   /* a mutex is asked for without a context: mutex, until */
	LOCK_WAITS,	   /* a lock call begins to wait: seat, mutex, how */
	LOCK_WAITED,	   /* a lock call has waited: seat */
	LOCK_ACQUIRED,	   /* a mutex is acquired, noted before it names its holder: mutex, and context or seat */
	LOCK_ENDS,	   /* a lock call ends with r, the program's or a loop's wait for the contended mutex: mutex, context, r */
	LOCK_RETURNS,	   /* a lock call that is no trylock and no slow lock returns r: mutex, context, r */
	LOCK_RELEASED,	   /* a mutex is released, noted before the step that does so: mutex */
	LOCK_UNHELD,	   /* a mutex is unlocked that nobody holds: mutex */
};

struct ww_note {
	enum ww_noted what;
	ww_seat *seat;
	const struct ww_mutex *mutex;
	struct ww_acquire_ctx *context;
	const struct ww_how *how;
	const struct timespec *until; /* the time limit of the call; NULL: none */
	struct ww_seats *seats;
	struct ww_pool *pool;
	const struct ww_class *class_; /* the class whose name is reported; or NULL */
	const char *call, *why;
	int r;
};

/* A place in the program at which a call is made. */
struct place {
	const char *file;
	int line;
};

/*
 * What is seen of a seat that is in use: its thread's number in the system, the number of its context, and the number, plus 1, of the
 * mutex that it waits for, each 0 if there is none or it isn't known; and since when it waits. The debug library knows where, too.
 */
struct ww_use {
	bool is_used, is_suspended;
	uint32_t thread, wants;
	uint64_t context, since;
	struct place began, waits, suspended;
};

#ifdef WW_DEBUG
/* The debug library looks at each call, so no call takes a short cut. */
enum { IS_DEBUG = true };
#define NOTE(noted, ...) ww_debug_note(&(struct ww_note){ .what = noted, __VA_ARGS__ })
WW_HIDDEN void ww_debug_note(const struct ww_note *note);

/* Makes what the debug library keeps of a class that is opened: 0, or -ENOMEM. */
WW_HIDDEN int ww_debug_open(struct ww_pool *p);
/* Whether the mutex still names a holder though a copy of the mutex was unlocked: that context may not exist any more. */
WW_HIDDEN bool ww_debug_is_stale(const struct ww_mutex *m);
/* Whether the context has ended by a copy of it, so that its seat isn't its own any more. */
WW_HIDDEN bool ww_debug_has_ended(const struct ww_acquire_ctx *x);
/* Whether the debug library refuses a call by this context that the proved library wouldn't refuse. Then it reports why. */
WW_HIDDEN bool ww_debug_refuses(const char *call, const struct ww_mutex *m, const struct ww_acquire_ctx *x);
/* What a lock call returns instead of r: -EDEADLK, made up, once the call has released the mutex that it acquired; or r. */
WW_HIDDEN int ww_debug_injects(struct ww_mutex *m, struct ww_acquire_ctx *x, int r);
/*
 * Whether the context may not lock this number, since its last -EDEADLK was made up, and it still holds mutexes. The proved library
 * doesn't know of that -EDEADLK, and wouldn't refuse the lock.
 */
WW_HIDDEN bool ww_debug_forbids(const struct ww_acquire_ctx *x, uint32_t number);
/* Whether the last -EDEADLK of the context was made up, at this mutex, and the context has released all since. */
WW_HIDDEN bool ww_debug_has_injected(const struct ww_mutex *m, const struct ww_acquire_ctx *x);

/* What the debug library knows of a seat that is in use; a mutex's name, or NULL; and where a mutex that is held was acquired. */
WW_HIDDEN void ww_debug_use(const struct ww_pool *p, uint32_t seat, struct ww_use *use);
WW_HIDDEN const char *ww_debug_name(const struct ww_pool *p, uint32_t number);
WW_HIDDEN void ww_debug_acquired(const struct ww_pool *p, uint32_t number, struct place *at);

#else
enum { IS_DEBUG = false };
#define NOTE(noted, ...) ((void)(0 && ((struct ww_note){ .what = noted, __VA_ARGS__ }).what)) /* read by compilers alone */
#define ww_debug_open(p) 0
#define ww_debug_is_stale(m) false
#define ww_debug_has_ended(x) false
#define ww_debug_refuses(call, m, x) false
#define ww_debug_injects(m, x, r) (r)
#define ww_debug_forbids(x, number) false
#define ww_debug_has_injected(m, x) false
#define ww_debug_use(p, seat, use) ((void)0)
#define ww_debug_name(p, number) NULL
#define ww_debug_acquired(p, number, at) ((void)0)
#endif

#define NOTE_MISUSE_OF(m, ...) (NOTE(ABOUT, .mutex = m), NOTE_MISUSE(__VA_ARGS__))
#define NOTE_MISUSE(c, name, reason) NOTE(MISUSE, .class_ = c, .call = name, .why = reason)

#endif
