/*
 * process.h - what each thread has for itself, how an open class begins, and what process.c has for the library's other sources. It
 * isn't installed.
 */
#ifndef WW_PROCESS_H
#define WW_PROCESS_H
#include "inside.h"
#include <pthread.h>

/* So many threads at a time have a seat of their own in each class. The search of schedules has few. */
#ifndef WW_FEW
enum { MANY_OWN = 256 };
#else
enum { MANY_OWN = WW_FEW };
#endif

struct ww_mine {
	struct ww_known {
		uint64_t id;
		ww_seat *seat;
	} last;		 /* the seat for anybody that the thread used last, and the id of its array, if the thread may come back to that */
	uint64_t thread; /* the thread's number, which no other thread has, in any copy of the library; 0 until it takes a seat */
	size_t own_at;	 /* how many bytes behind each class's `before_own` the thread's own seat is; 0: it has no own seats */
	bool ends;	 /* the thread is about to end, and has no own seats any more */
	struct ww_my_permit {
		uint64_t id;		/* the id of the class for which the permit is, or was */
		struct ww_permit *it;
		uint64_t taken, ends;	/* when its lease began, and when it ends; 0: the thread has no lease */
		uint64_t seen, brief;	/* when the thread last read the clock; if it does so again within `brief`, `begins` is set */
		uint32_t begins;	/* how many contexts the thread begins before it reads the clock again */
		uint32_t begun, reported; /* how many contexts it has begun in this lease, and how many of them the crowd has counted */
		uint64_t waited;	/* how long the thread has waited for locks in this lease */
		uint64_t ran;		/* for how long the thread had had a processor when this lease began */
		uint64_t back_offs;	/* how often the contexts of its own seat had backed off by then */
	} permit;
	uint32_t too_long;	  /* how many of the thread's last waits took too long to stay awake: see wait.c */
	uint64_t waited, counted; /* the sum of the thread's waits, and since when it is summed up: see crowd.c */
	uint32_t sleeps;	  /* how often the thread slept in this library */
	uint64_t ran;		  /* for how long the thread had had a processor at the last look at its sleeps */
	uint32_t elsewhere;	  /* how often it had slept elsewhere by then, plus 1; 0: no look yet */
	int awake;		  /* the looks on end that found the thread awake, up to AWAKE; a look that found a sleep makes it -AWAKE */
	uint32_t lwp;		  /* for a debugger: the thread's number in the system; 0 while `thread` is 0 */
	uint64_t since;		  /* for a debugger: when the thread's last wait that slept began, up to 0.1 ms later */
};
WW_HIDDEN extern __thread struct ww_mine ww_mine __attribute__((tls_model("initial-exec")));

/* For each place of threads' own seats, the thread that owns it, or NULL. Opening is locked, except for a debugger, which reads this. */
WW_HIDDEN extern struct ww_mine *ww_owners[MANY_OWN];
/* How many threads have seats of their own. */
WW_HIDDEN extern uint32_t ww_threads;
/*
 * How many processors may be used by the process's first thread, by the threads that have seats of their own, and by this one,
 * together; at most MANY_PROCESSORS count. Opening is locked.
 */
enum { MANY_PROCESSORS = 64 };
WW_HIDDEN uint32_t ww_processors(void);
/* Gives this thread a number, unless it has one. */
WW_HIDDEN void ww_number_thread(void);
/* The number of this thread, which no other thread has or had. A thread that has no number yet gets one, so the number is never 0. */
static inline uint64_t this_thread(void)
{
	if (__builtin_expect(!ww_mine.thread, 0))
		ww_number_thread();
	return ww_mine.thread;
}
/* Gives this thread seats of its own, unless MANY_OWN threads have such seats, or the library wouldn't learn of the thread's end. */
WW_HIDDEN void ww_take_own(void);

/* Gives the program this message, or writes it to standard error: see ww_report_to. */
WW_HIDDEN void ww_report_message(const char *message);

/*
 * An open class begins with these fields: `next` is the next class in the list of all, and `copy` is the copy of the library that
 * opened it.
 */
#define OPEN_CLASS              \
	struct ww_open *next;   \
	uint64_t id, copy;      \
	bool gone /* the class was in use at a fork, and this process is the child */; \
	uint32_t processors /* how many of its threads run at a time */
struct ww_open {
	OPEN_CLASS;
};
/* The lock of the list of open classes, of the memory of freed classes, and of whose own seats are: see process.c. */
WW_HIDDEN extern pthread_mutex_t ww_opening;
/* The list of all open classes. Opening is locked. */
WW_HIDDEN extern struct ww_open *ww_all_open;
/* An id that no other class has or had, nor any class of another copy of the library. Opening is locked. */
WW_HIDDEN uint64_t ww_new_id(void);
/* The number from which this copy of the library counts its classes and threads. A process may have several copies. */
WW_HIDDEN extern uint64_t ww_this_copy;

/*
 * Comes when the library is loaded. `thread_ends` is called when a thread ends that has seats of its own, and `in_child` in a child
 * of a fork. Opening is locked during both.
 */
WW_HIDDEN void ww_load(void (*thread_ends)(void), void (*in_child)(void));
/* Comes before a class is opened. It returns 0, or -ENOMEM. Opening is locked. */
WW_HIDDEN int ww_prepare(void);

#endif
