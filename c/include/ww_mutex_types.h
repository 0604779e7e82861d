/*
 * ww_mutex_types.h - the structures of ww_mutex.h, which includes this
 *
 * The fields are the library's, except those that the head of ww_mutex.h names.  The structures belong to the binary interface
 * (ww_version): their sizes and places don't change without its first number.
 */
#ifndef WW_MUTEX_TYPES_H
#define WW_MUTEX_TYPES_H
#include "ww_steps.h" /* the version, and WW_MUST_CHECK */
#include <time.h>

struct ww_pool; /* the memory of an open class */
struct ww_seat;
struct timespec; /* <time.h> doesn't declare it with -std=c99 */

/* A class of mutexes: a context belongs to one, and locks the mutexes of that class alone. */
struct ww_class {
	struct ww_pool *pool;		/* NULL until the class is open */
	uint32_t mutexes, contexts;	/* how many the class has; 0: 65,536, and 1,024 besides threads' own */
	int is_wait_die;
	uint32_t permits;		/* how many threads begin contexts in a crowd; 0: as many as are measured to be best */
	const char *name;
};

struct ww_acquire_ctx;

struct ww_mutex_base {
	void *address_;
};

struct ww_mutex {
	__extension__ union {
		struct ww_mutex_base base;
		struct ww_acquire_ctx *ctx; /* NULL: no context holds the mutex */
	};
	struct ww_pool *pool;		/* NULL: the mutex has no number */
	__extension__ union {
		struct ww_class *class_; /* `pool` is NULL: the mutex's class; NULL: it isn't initialized */
		void *alone;		/* odd: the address of the seat by which the mutex is held without a context, plus 1 */
		struct ww_mutex *older;	/* else: what the holding context acquired before it, if that is listed */
	};
	uint32_t number;
	uint32_t waiters;
};

struct ww_acquire_ctx {
	struct ww_pool *pool;		/* its class's, if its locks may be quick; no class's if they have more to do, or it has ended */
	struct ww_seat *own;		/* the context's seat; NULL once it has ended */
	void *gives;			/* as `own`; or empty_, if an unlock has more to do */
	unsigned int acquired;		/* how many mutexes the context holds */
	unsigned int state;		/* flags, and what a loop has to do */
	struct ww_mutex *contending_lock; /* the mutex at which the last -EDEADLK came */
	struct ww_mutex *newest;	/* the mutex acquired last; outside loops only since the last unlock, and not by number */
	__extension__ union {		/* `state` says which one it is, or none: */
		struct ww_mutex *prelocked; /* IS_PRELOCKED: acquired before the body of a loop asked for it */
		struct ww_mutex *polled; /* IS_POLLED: the mutex for which a call of ww_poll.h waits */
	};
	unsigned int cancelled;
	unsigned int puts;		/* how often the number of `contending_lock` had been put back at that -EDEADLK */
	__extension__ union {
		__extension__ struct {
			unsigned int deadlock_inject_countdown, deadlock_inject_interval; /* of the debug library */
		};
		uint64_t span;		/* upper half: how many bytes the words of its class's mutexes have */
	};
	__extension__ union {
		unsigned long stamp;	/* of the debug library */
		uintptr_t words;	/* where the words of its class's mutexes lie, of which ww_mutex_lock fetches one ahead */
	};
	void *empty_[2];		/* in a loop an empty handle: by it an unlock returns that it has more to do */
};
#endif
