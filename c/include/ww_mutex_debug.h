/*
 * ww_mutex_debug.h - what the debug library has besides; ww_mutex.h includes this where WW_DEBUG is defined
 *
 * Compile each file of the program with -DWW_DEBUG, and link -lww_debug instead of -lww: without -DWW_DEBUG the library reports that,
 * once.  Besides what a call returns, standard error then has:
 *
 * Misuse: with its line and a backtrace.  If the same comes again at that line, for the same class, a line says how often: at the second,
 * fourth, eighth time, and so on.
 *
 * States: if a context or the memory of a class is in a state that no call makes, by an internal error, or since the program overwrote
 * memory, that is written, and the program ends.
 *
 * Warnings, about calls that are right but dangerous, once for each line and class: a thread begins a second context; it locks with
 * NULL while it holds a mutex of the class; it waits for a context while it has a context or a mutex of any class; a context ends
 * after -EDEADLK, so that its age is lost, and no value keeps it (ww_retry.h); ww_class_free fails, and what is in use.  A context
 * belongs to the thread that last named it in a call.  A wait with a time limit gives no warning; a wait that a cancel can end may
 * give one.
 *
 * Deadlocks that no class detects, through several classes or locks with NULL: a thread that sleeps checks for them at intervals.
 * Each is reported once, with all its threads, and what each waits for, and where.
 *
 * Long waits: a thread has waited for a mutex for ten seconds, once for each line and class, with the place where its holder began; or
 * all contexts have been in use, once a class, with the place where the oldest began; a wait of tasks is reported by the next one that
 * comes to wait.  ww_report_long_waits sets another time.  A context may have been left by a return or a throw, without ww_acquire_fini:
 * if another one begins in its memory, that is reported as misuse.
 *
 * It also makes some lock calls of contexts that hold a mutex return -EDEADLK without need, so that the program's
 * retries are tested.
 */
#ifndef WW_MUTEX_DEBUG_H
#define WW_MUTEX_DEBUG_H
#include "ww_mutex.h"
#include <stdio.h>
#ifdef __cplusplus
extern "C" {
#endif
/*
 * Names the mutex in all that this library reports and gdb shows.  The library keeps the pointer: the text must stay as it is until the
 * mutex is destroyed or gets another name, and no other thread is in ww_class_print.  NULL takes the name away.  Without WW_DEBUG the call
 * compiles to nothing.
 */
#ifdef WW_DEBUG /* else ww_mutex.h has it */
void ww_mutex_name(struct ww_mutex *lock, const char *name) WW_NONNULL_(1);
#endif
/*
 * Writes a table, as the kernel's lock_stat: for each line that locks how often it waited, how long in all and how long at most,
 * and how often a context backed off there; and the line at which the mutex of the longest wait had been acquired.  A wait
 * counts once it has ended; each that hasn't has a line of its own.  If the environment has WW_LOCK_STAT, the library writes the table
 * to standard error as the program ends.  The call waits for threads that are just opening or freeing a class.
 */
void ww_lock_stat(FILE *to) WW_NONNULL_(1);
/* How many calls were misuse, also those of which nothing was written. */
unsigned long ww_debug_faults(void);
/* How many warnings and deadlocks were reported. */
unsigned long ww_debug_warnings(void);
/*
 * Sets the interval, in milliseconds, at which waits that begin from now on check for a deadlock; the second check that finds one reports
 * it.  The default is 1,000; 0: no checks.
 */
void ww_debug_check_interval(unsigned int milliseconds);
/*
 * Sets after how many seconds a wait without a time limit is long, by default 10; 0: never.  It holds for all waits that begin from now
 * on.
 */
void ww_report_long_waits(unsigned int seconds);
/* Says where the next call is made: in C or C++; or in another language, in which a backtrace says nothing. */
void ww_debug_at_(const char *file, int line);
void ww_debug_line_(const char *file, int line);
#ifdef __cplusplus
}
#endif

/* As in the kernel: a context with deadlock_inject_countdown ~0u gets no -EDEADLK without need. */
#define CONFIG_DEBUG_WW_MUTEX_SLOWPATH 1
#ifndef WW_CLASS_H
#define WW_HERE_ ww_debug_at_(__FILE__, __LINE__)
#define ww_mutex_init(...) (WW_HERE_, ww_mutex_init(__VA_ARGS__))
#define ww_mutex_name(...) (WW_HERE_, ww_mutex_name(__VA_ARGS__))
#define ww_mutex_destroy(...) (WW_HERE_, ww_mutex_destroy(__VA_ARGS__))
#define ww_mutex_end_(...) (WW_HERE_, ww_mutex_end_(__VA_ARGS__))
#define ww_acquire_init(...) (WW_HERE_, ww_acquire_init(__VA_ARGS__))
#define ww_acquire_init_checked(...) (WW_HERE_, ww_acquire_init_checked(__VA_ARGS__))
#define ww_acquire_init_until(...) (WW_HERE_, ww_acquire_init_until(__VA_ARGS__))
#define ww_acquire_done(...) (WW_HERE_, ww_acquire_done(__VA_ARGS__))
#define ww_acquire_end_try(...) (WW_HERE_, ww_acquire_end_try(__VA_ARGS__))
#define ww_acquire_unlock_all(...) (WW_HERE_, ww_acquire_unlock_all(__VA_ARGS__))
#define ww_acquire_end(...) (WW_HERE_, ww_acquire_end(__VA_ARGS__))
#define ww_acquire_fini(...) (WW_HERE_, ww_acquire_fini(__VA_ARGS__))
#define ww_mutex_lock(lock, ctx) (WW_HERE_, WW_LOCK_(lock, ctx))
#define ww_mutex_lock_interruptible(...) (WW_HERE_, ww_mutex_lock_interruptible(__VA_ARGS__))
#define ww_mutex_lock_slow(...) (WW_HERE_, ww_mutex_lock_slow(__VA_ARGS__))
#define ww_mutex_lock_slow_interruptible(...) (WW_HERE_, ww_mutex_lock_slow_interruptible(__VA_ARGS__))
#define ww_mutex_lock_until(...) (WW_HERE_, ww_mutex_lock_until(__VA_ARGS__))
#define ww_mutex_lock_slow_until(...) (WW_HERE_, ww_mutex_lock_slow_until(__VA_ARGS__))
#define ww_mutex_lock_all(...) (WW_HERE_, ww_mutex_lock_all(__VA_ARGS__))
#define ww_mutex_trylock(...) (WW_HERE_, ww_mutex_trylock(__VA_ARGS__))
#define ww_mutex_trylock_checked(...) (WW_HERE_, ww_mutex_trylock_checked(__VA_ARGS__))
#define ww_mutex_unlock(...) (WW_HERE_, ww_mutex_unlock(__VA_ARGS__))
#define ww_class_free(...) (WW_HERE_, ww_class_free(__VA_ARGS__))
#define ww_class_limit(...) (WW_HERE_, ww_class_limit(__VA_ARGS__))
#define ww_class_crowd(...) (WW_HERE_, ww_class_crowd(__VA_ARGS__))
#endif
#endif
