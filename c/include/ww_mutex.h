/*
 * ww_mutex.h - the Linux kernel's wound/wait mutexes (ww_mutex) in user space
 *
 * A thread locks several mutexes in any order, by a context.  If two contexts would deadlock, the younger one gets -EDEADLK,
 * releases everything, and begins again:
 *
 *	static DEFINE_WW_CLASS(boxes);
 *
 *	ww_mutex_init(&box->lock, &boxes);
 *
 *	ww_acquire_init(&ctx, &boxes);
 *	ww_until_all_locked(&ctx) {
 *		err = ww_mutex_lock(&box->lock, &ctx);
 *		ww_retry_on_contention(&ctx);
 *		if (err)
 *			break;
 *	}
 *	if (!err)
 *		box->count++;
 *	ww_acquire_unlock_all(&ctx);
 *	ww_acquire_fini(&ctx);
 *
 * Compatibility.  Names, signatures and return values are those of <linux/ww_mutex.h>, so code written for it compiles
 * unchanged; the kernel's ww-mutex-design document explains when to use what.  The page PORTING lists what differs: for example,
 * after -EDEADLK a context acquires nothing while it still holds a mutex (-EINVAL), and ww_mutex_destroy returns an error.
 *
 * Return values, and what to do:
 *
 *	0, a trylock 1  done
 *	-EDEADLK        an older context goes first, with which this one might deadlock: release everything, lock that mutex by
 *	                ww_mutex_lock_slow, and begin again; a loop does so by itself (ww_retry_on_contention)
 *	-EALREADY       the context holds the mutex: nothing to do; or it was cancelled before
 *	-EINTR          ww_acquire_cancel or ww_class_cancel ended the wait; what was held stays held
 *	-ETIMEDOUT      the time limit passed; what was held stays held
 *	-EBUSY          somebody uses the mutex, the class or the context: try again; of ww_class_limit, the class is open
 *	-EINPROGRESS    of ww_poll.h: the call waits; make it again after the waker
 *	-EAGAIN         all contexts of the class are in use, or change hands, or admission is limited (ww_class_crowd): wait by
 *	                ww_acquire_init, or try again
 *	-ENOSPC         all mutexes of the class are in use: see ww_class_limit
 *	-ENOMEM         there is no memory to open the class
 *	-EINVAL         misuse, or a class in use at a fork: the debug library says why
 *
 * Threads.  A context belongs to no thread: one thread at a time uses it, and any thread may go on with it, unlock what it holds and end
 * it, also after the thread that began it has ended, if the program orders the calls of the two, as by a lock of its own.  If a thread
 * goes on with a context, and its first call is ww_mutex_unlock, which names no context, it calls ww_acquire_here before.  A thread
 * unlocks what it locked without a context (NULL), before it ends.  No call but ww_class_print may come from a signal handler.  Which
 * calls may run at the same time in different threads:
 *
 *	call                              at the same time
 *	lock, trylock, unlock,            these of the same mutex, and one ww_mutex_destroy, as long as that returns
 *	is_locked, is_held_by             -EBUSY
 *	ww_mutex_init                     no call of the same mutex
 *	ww_acquire_cancel                 any call of the same context between ww_acquire_init and ww_acquire_fini;
 *	                                  and ww_acquire_end
 *	ww_class_cancel                   any call of the same class except ww_class_free
 *	all else of a context             no call of the same context except ww_acquire_cancel
 *	ww_class_init, ww_class_limit,    no call of the same class: they come before its first use
 *	ww_class_crowd
 *	ww_class_free                     no call that begins to use the class
 *
 * Fields.  Callers may read ctx of a mutex (the context that holds it; other threads read it atomically) and acquired of a
 * context (how many mutexes it holds).  base has an address, so that lockdep_assert_held(&object->lock.base) compiles.
 *
 * fork.  In the child, a class goes on with its mutexes if no mutex of it was held, no context had begun and no thread was in a call at
 * the fork.  Any other class that was open gives out no mutexes and no contexts (-EINVAL) until ww_class_free has released it there, and
 * a mutex that had its number can't be locked until it is destroyed and initialized again.  A context from before the fork may release
 * what it holds, and end.  Once one of its lock calls would have to wait, that call and all later ones return -EINVAL; only a read
 * beside other reads of the context may return 0.  A program's own handlers of pthread_atfork may lock mutexes, unless they were
 * registered before the library was loaded (dlopen).  A child of _Fork or clone, which call no such handlers, may use nothing of the
 * library.
 *
 * Several copies.  Each copy of the library, as in a plugin that is linked with the archive, has classes of its own: the program ends
 * with a message where a copy uses a class that another one opened, also before it was closed and loaded again.  Each loaded copy of the
 * shared library takes 216 bytes of static thread-local storage: a process can load about seven.
 *
 * The lock protocol underneath is formally verified; the code of this interface is tested.
 */
#ifndef WW_MUTEX_H
#define WW_MUTEX_H
#include "ww_mutex_types.h" /* the structures, which callers embed, and of which they may read two fields */

#ifdef __cplusplus
extern "C" {
#endif

/* ---- the kernel's calls ---- */

/*
 * A class, static or not, opened at its first use.  Deadlocks are detected among its contexts.  Wound-Wait:
 *	static DEFINE_WW_CLASS(boxes);
 */
#define DEFINE_WW_CLASS(classname) struct ww_class classname = { NULL, 0, 0, 0, 0, #classname }
/* A class as DEFINE_WW_CLASS makes it, but Wait-Die. */
#define DEFINE_WD_CLASS(classname) struct ww_class classname = { NULL, 0, 0, 1, 0, #classname }

/*
 * Gives the mutex a number of its class.  It doesn't read what the memory contained, so the number of a mutex that wasn't
 * destroyed is never used again.  The program ends with a message if all numbers are in use, or the class can't be opened.
 */
void ww_mutex_init(struct ww_mutex *lock, struct ww_class *ww_class) WW_NONNULL_(1, 2);
/*
 * Frees the mutex's number; the mutex may not be used again before the next ww_mutex_init.  -EBUSY: somebody holds the mutex or waits for
 * it, and nothing has changed; -EINVAL: the mutex was destroyed before.  Once this returns 0, no other thread accesses the mutex any
 * more: its memory may be freed, even if another thread's ww_mutex_unlock hasn't returned yet.
 */
int ww_mutex_destroy(struct ww_mutex *lock) WW_NONNULL_(1);
/*
 * Begins a context.  If all contexts of the class are in use, the call waits for one to end, in FIFO order, so also behind a thread that
 * gets no processor.  A context that isn't ended stays in use, and threads that hold something in one context and wait for another can
 * deadlock: the debug library reports when none came free for ten seconds.
 *
 * The age of a context, which decides collisions, is that of this call.  But up to 16 contexts of a thread, one after another, share an
 * age if each backs off by itself: if its first lock comes in ww_until_all_locked, with ww_mutex_lock_all, by number or after
 * WW_MAY_BE_OLDER.  The first of these that waits for a mutex, or releases one for which another context waits, is the last.  So a
 * context may back off for up to 15 contexts of each other thread that began after it, but never if no context of the class backs off by
 * itself.  A context that locks without the loop after one of those 16 has the age of its first lock call.  In the debug library each
 * context has the age of its own ww_acquire_init.
 */
void ww_acquire_init(struct ww_acquire_ctx *ctx, struct ww_class *ww_class) WW_NONNULL_(1, 2);
/*
 * Says that the context has all its locks.  Only the debug library reports a later lock.  The program ends with a message if the context
 * is done already, or has ended.
 */
void ww_acquire_done(struct ww_acquire_ctx *ctx) WW_NONNULL_(1);
/* Ends the context. The program ends with a message if the context still holds a mutex, or has ended already. */
void ww_acquire_fini(struct ww_acquire_ctx *ctx) WW_NONNULL_(1);
/*
 * Ends the context, for destructors and languages with exceptions: ends a poll's wait and all reads, and does what ww_acquire_unlock_all
 * and ww_acquire_fini do.  So after ww_acquire_begin_tries it ends a context in any state; without that, tries, a loop or a list, the
 * program ends with a message if the context holds what it doesn't list.  -EINVAL: the context has ended before, or never began.
 * ww_acquire_cancel may run at the same time, or later, if no other context begins in this memory and the class isn't freed.
 */
int ww_acquire_end(struct ww_acquire_ctx *ctx) WW_NONNULL_(1);
/*
 * Acquires the mutex, and waits for it.  -EDEADLK: release all that the context holds, then call ww_mutex_lock_slow with this mutex;
 * -EALREADY: the context holds the mutex.  -EINVAL: the context has ended, it got -EDEADLK and still holds a mutex, it is of another
 * class, or the mutex isn't initialized.  The first lock of a context never returns -EDEADLK.  In Wound-Wait -EDEADLK also comes if the
 * older context, which waited for what this one holds, has given up since, by a time limit or a cancel: its wound lasts until this one
 * holds nothing.  Where WW_CHECK_LOCKS or WW_DEBUG is defined the compiler warns if the program doesn't look at what this returns (in C++
 * only gcc), except if ctx is the constant NULL.
 *
 * With NULL the mutex is acquired without a context: the call returns 0, or the program ends with a message, since callers don't look at
 * that value.  A thread may hold several mutexes so.  Each uses one of the class's contexts while it is held, for which the call waits as
 * ww_acquire_init does.
 */
int ww_mutex_lock(struct ww_mutex *lock, struct ww_acquire_ctx *ctx) WW_NONNULL_(1);
/* As ww_mutex_lock, but ww_acquire_cancel may end the wait: -EINTR, and what was held stays held.  With NULL misuse returns -EINVAL. */
WW_MUST_CHECK int ww_mutex_lock_interruptible(struct ww_mutex *lock, struct ww_acquire_ctx *ctx);
/* After -EDEADLK of this mutex, with nothing held: acquires the mutex, and waits for it.  Otherwise the program ends with a message. */
void ww_mutex_lock_slow(struct ww_mutex *lock, struct ww_acquire_ctx *ctx);
/* As ww_mutex_lock_slow, but ww_acquire_cancel may end the wait: -EINTR; and misuse returns -EINVAL. */
WW_MUST_CHECK int ww_mutex_lock_slow_interruptible(struct ww_mutex *lock, struct ww_acquire_ctx *ctx);
/*
 * Returns 1 if it acquired the mutex, else 0: somebody holds it or waits for it, or the context may acquire nothing now; with
 * NULL also if all contexts of the class are in use.  The program ends with a message for a context of another class.
 */
WW_MUST_CHECK int ww_mutex_trylock(struct ww_mutex *lock, struct ww_acquire_ctx *ctx) WW_NONNULL_(1);
/*
 * Releases the mutex, for the thread that uses its context, or that acquired it without one.  The program ends with a message if nobody
 * holds it.
 */
void ww_mutex_unlock(struct ww_mutex *lock) WW_NONNULL_(1);
/* Whether somebody holds the mutex, or it is being handed to a waiter: that may be out of date when this returns. */
bool ww_mutex_is_locked(struct ww_mutex *lock) WW_NONNULL_(1);

/* ---- loops and lists: contexts that back off by themselves ---- */

/*
 * A loop for mutexes that are found while others are held, like drm_exec:
 *
 *	ww_until_all_locked(&ctx) {
 *		for (..) {
 *			err = ww_mutex_lock(&object->lock, &ctx);
 *			ww_retry_on_contention(&ctx);
 *			if (err)
 *				goto fails;
 *		}
 *	}
 *
 * The body ends at its last line, or by a `break` or `continue`.  If a lock call returned -EDEADLK, everything that was acquired in
 * the loop is then released, and the body begins again, whatever it made of that error; otherwise the loop ends.
 * ww_retry_on_contention does the same from within an inner loop.  Only `return` and `goto` leave the loop without that.  The next
 * lock call first waits for the contended mutex, at which -EDEADLK came, with its own time limit and cancel; a later lock call
 * of that mutex returns 0 (a trylock 1).  A trylock that succeeds before, or a slow lock of that mutex, replaces that wait.  The
 * body may also release everything itself, and go on with ww_mutex_lock_slow.  The context holds nothing when the loop begins.
 *
 * The contended mutex must still exist when the body begins again, though nothing is held then.  If another thread could destroy
 * it, the body keeps a reference to its object until everything is released again:
 *		if (ww_is_contended(&ctx)) {
 *			get(object);
 *			ww_acquire_unlock_all(&ctx);
 *			put(kept); the one of the back-off before, if any
 *			kept = object;
 *		}
 *		ww_retry_on_contention(&ctx);
 *
 * ww_retry_on_contention is a goto to the loop's label, and leaves blocks as any goto does.  A function has one such label: if it has
 * more loops, all except one name a label of their own, any word:
 *	ww_until_all_locked(&ctx, second) {
 *		err = ww_mutex_lock(&object->lock, &ctx);
 *		ww_retry_on_contention(&ctx, second);
 *	}
 */
#define ww_until_all_locked(...) WW_UNTIL_ALL_LOCKED_(__VA_ARGS__, ww_name_a_label_for_each_further_loop_, )
#define ww_retry_on_contention(...) WW_RETRY_ON_CONTENTION_(__VA_ARGS__, ww_name_a_label_for_each_further_loop_, )
/* Whether a lock call in a loop or tries of the context returned -EDEADLK, and the context hasn't backed off since. */
bool ww_is_contended(const struct ww_acquire_ctx *ctx) WW_NONNULL_(1);
/*
 * For the retry loop of a framework, which calls back: lock calls are in one function, the end of a try in another, the loop elsewhere.
 * ww_acquire_begin_tries comes after ww_acquire_init.  A try in which a lock call returned -EDEADLK goes back to the loop.
 * ww_acquire_end_try then releases everything: true, if the try has to be made again.  For that the context must not end: it keeps its
 * age, and the first lock call of its next try waits until the contended mutex is free.  After false the context ends, or goes on with
 * another try of the same age.
 *	lock_one(..)		err = ww_mutex_lock(&object->lock, ctx);
 *	release(..)		if (!ww_acquire_end_try(ctx))
 *					ww_acquire_fini(ctx);
 * ww_acquire_unlock_all would take that wait back, so that the next try comes at once, which the debug library reports.
 */
static inline void ww_acquire_begin_tries(struct ww_acquire_ctx *ctx) WW_NONNULL_(1);
static inline bool ww_acquire_end_try(struct ww_acquire_ctx *ctx) WW_NONNULL_(1);
/*
 * Releases everything that the context holds, the newest mutex first, and reads and keys of tables too.  The program ends with a message
 * if the context waits by a poll, or holds a mutex that it doesn't list: without a loop, tries or a list of locks, a context lists what
 * it acquired since it last released a mutex, except by number.  So there unlock each mutex by itself, or first call
 * ww_acquire_begin_tries.
 */
void ww_acquire_unlock_all(struct ww_acquire_ctx *ctx) WW_NONNULL_(1);
/*
 * Takes a mark; and releases everything acquired after it, the newest first.  If mutexes from before the mark were released meanwhile, as
 * many of the later ones stay held instead.  A contended mutex that the context waited for and hasn't locked since doesn't count.  A
 * back-off releases everything, and the body takes the mark again.
 */
WW_MUST_CHECK size_t ww_acquire_mark(const struct ww_acquire_ctx *ctx) WW_NONNULL_(1);
void ww_acquire_unlock_to(struct ww_acquire_ctx *ctx, size_t mark) WW_NONNULL_(1);
/*
 * Acquires all mutexes of the list, in any order, and backs off by itself.  If it returns an error, it has released what it had acquired.
 * -EALREADY: the list has a mutex twice, or the context held one of them before; -EINTR; -EINVAL, -ENOSPC, -ENOMEM; -EDEADLK: only if the
 * context held a mutex before, which it has to release.  A context that held nothing is as in a loop from its first list on.  It may lock
 * several lists, also in loops.
 */
WW_MUST_CHECK int ww_mutex_lock_all(struct ww_acquire_ctx *ctx, struct ww_mutex *const *locks, size_t count);
/*
 * Calls a function that acquires what it likes by lock calls of this context, and returns the first error of these, or 0; or a number
 * above 0 to give up.  The function is called again after each -EDEADLK, with nothing held.  The context holds nothing before, and
 * nothing afterwards unless this returns 0.
 */
static inline int ww_mutex_lock_by(struct ww_acquire_ctx *ctx, int (*locks)(struct ww_acquire_ctx *ctx, void *data),
				   void *data) WW_NONNULL_(1, 2);
/*
 * Flags of a context.  WW_IGNORE_DUPLICATES applies from the context's first loop or list on, but not to polls to lock or to write
 * (ww_poll.h): these return -EALREADY.
 */
enum ww_flags {
	WW_IGNORE_DUPLICATES = 1,	/* a lock of what the context holds returns 0, acquires nothing and needs no unlock */
	WW_INTERRUPTIBLE = 2,		/* ww_acquire_cancel may end the context's waits, also those of ww_mutex_lock */
	WW_MAY_BE_OLDER = 4,		/* the context backs off by itself, so may share an age (ww_acquire_init); before its first lock */
};
void ww_acquire_flags(struct ww_acquire_ctx *ctx, unsigned int flags) WW_NONNULL_(1);

/*
 * This thread goes on with a context that another thread named last in a call.  Only the debug library uses this, to report a
 * ww_mutex_unlock by a thread that isn't the last one to name the mutex's context.
 */
void ww_acquire_here(struct ww_acquire_ctx *ctx) WW_NONNULL_(1);

/* ---- waits that end early ---- */

/*
 * Ends the interruptible wait of a context, its current one or the next one, as a signal does in the kernel.  -EALREADY: a cancel is
 * pending; -EINVAL: the context has ended.  Don't call it after ww_acquire_fini, since it would cancel whichever context begins next in
 * this memory: callers ensure that, as by a lock of theirs.  Any thread may call it.  A cancel that found no wait ends with its context.
 * A cancel ends a wait also if all contexts of the class are in use; so does a time limit.
 */
int ww_acquire_cancel(struct ww_acquire_ctx *ctx) WW_NONNULL_(1);
/*
 * Ends, with -EINTR, each wait of the class that ww_acquire_cancel or a time limit could end, and each wait for a context or a permit in
 * ww_acquire_init_until, also with NULL, or by a poll; and each later one at once, until ww_class_free.  It ends no other wait, and no
 * call that needn't wait.  So a program that ends needs no list of its contexts.  Any thread may call it.  -ENOMEM: the class can't be
 * opened; -EINVAL: the class was in use at a fork.
 */
int ww_class_cancel(struct ww_class *ww_class) WW_NONNULL_(1);
/*
 * As ww_mutex_lock_interruptible, but waits at most until this time of the monotonic clock: -ETIMEDOUT, and what was held stays held.  A
 * mutex that is free is acquired, however late it is.  NULL is no limit.  -EINVAL also if tv_nsec isn't 0 to 999,999,999.
 */
WW_MUST_CHECK int ww_mutex_lock_until(struct ww_mutex *lock, struct ww_acquire_ctx *ctx, const struct timespec *monotonic);
/*
 * As ww_mutex_lock_slow_interruptible, with the limit of ww_mutex_lock_until.  After -ETIMEDOUT or -EINTR the wait for the contended
 * mutex is over: the age stays, and any lock may come next.  (In a loop the next lock call waits for that mutex again, unless
 * ww_acquire_unlock_all takes that back.)
 */
WW_MUST_CHECK int ww_mutex_lock_slow_until(struct ww_mutex *lock, struct ww_acquire_ctx *ctx, const struct timespec *monotonic);
/*
 * As ww_acquire_init, but waits for a context, and for a permit (ww_class_crowd), at most until this time: -ETIMEDOUT.  A context that is
 * free is begun, however late it is.  -EINTR after ww_class_cancel, -EINVAL as ww_mutex_lock_until, and other errors as
 * ww_acquire_init_checked.
 */
WW_MUST_CHECK int ww_acquire_init_until(struct ww_acquire_ctx *ctx, struct ww_class *ww_class,
					const struct timespec *monotonic) WW_NONNULL_(1, 2);

/* ---- classes ---- */

/* Makes a class in the program's own memory, as DEFINE_WW_CLASS (0) or DEFINE_WD_CLASS (1) does. */
void ww_class_init(struct ww_class *ww_class, int is_wait_die, const char *name) WW_NONNULL_(1);
/*
 * Sets how many mutexes and contexts there may be at a time, before the first use of the class, which allocates memory for as many
 * mutexes: 65 MiB for a million mutexes.  0: 65,536 mutexes; and 1,024 contexts that anybody may use, of which tasks may have 896
 * (ww_poll.h), and one more for each thread: its own, which costs less to begin and end; the first 256 threads at a time have one.  A
 * mutex that is held without a context (NULL) counts as a context.  -EINVAL: more than 16,773,121 mutexes, or than 4,094 contexts;
 * -EBUSY: the class is open.
 */
WW_MUST_CHECK int ww_class_limit(struct ww_class *ww_class, uint32_t mutexes, uint32_t contexts) WW_NONNULL_(1);
/*
 * Sets how many threads at a time run contexts of the class in a crowd.  A crowd begins where threads spend an eighth of their time in
 * waits for its mutexes.  Only threads with a permit begin contexts then; the others wait in ww_acquire_init.  A permit lasts up to 1 ms,
 * and then it is the turn of the thread that has waited longest; if its context goes on, the next thread waits at most 16 ms longer, so no
 * wait for a permit is endless.  Threads that sleep by themselves, as those that do I/O under their locks, need no permit, nor does a
 * thread that runs a context already, or a context that is resumed.  No begin of a thread goes around this: ww_acquire_init_checked
 * returns -EAGAIN.  0: as many as are measured to be best, at most one for each processor.  -EINVAL: more than 64, except WW_NO_CROWD,
 * with which no thread waits for a permit; -EBUSY: the class is open.
 */
#define WW_NO_CROWD UINT32_MAX
WW_MUST_CHECK int ww_class_crowd(struct ww_class *ww_class, uint32_t permits) WW_NONNULL_(1);
/* Opens the class now, if it isn't open: it allocates the memory of all its mutexes. -ENOMEM. */
WW_MUST_CHECK int ww_class_open(struct ww_class *ww_class) WW_NONNULL_(1);
/*
 * Opens the class for a server: with so many contexts, also suspended ones (0: as ww_class_limit), and for so many keys (0: 65,536), each
 * a mutex that is locked at a time.  If `bytes` isn't NULL, it says how much address space the class takes.  Opening takes time that
 * grows with the keys.  -EINVAL, -EBUSY as ww_class_limit.
 */
WW_MUST_CHECK int ww_class_open_for(struct ww_class *ww_class, uint32_t contexts, uint32_t keys, size_t *bytes) WW_NONNULL_(1);
/*
 * Frees the class's memory, except a few kilobytes, which the class that is opened next uses; its next use opens it anew.  -EBUSY: the
 * class has a mutex or a lock table, a context is active, or a mutex is held.  It may be called until it returns 0, if no other thread
 * begins to use the class; another thread may still be ending its last context.
 */
int ww_class_free(struct ww_class *ww_class) WW_NONNULL_(1);
struct ww_class_counts {
	uint64_t back_offs, lock_waits, context_waits, permit_waits;
	uint64_t contexts, context_waiters, task_contexts; /* how many there are now */
};
/*
 * Counts since the class was opened: lock calls that returned -EDEADLK (back_offs; without those that the debug library forced), lock
 * calls that waited, however briefly (lock_waits), and calls that waited for a context (context_waits), or for a permit to begin one
 * (permit_waits: see ww_class_crowd).  And how many contexts are in use now (contexts), how many calls wait for one (context_waiters),
 * and how many tasks may have at a time (task_contexts: see ww_poll.h).  All are 0 if it isn't open.
 */
void ww_class_stats(struct ww_class *ww_class, struct ww_class_counts *counts) WW_NONNULL_(1, 2);
/*
 * Writes to the file descriptor what of the class is in use, or of all open classes if it is NULL: a line for each thread that has a
 * context, or locks without one, with what it waits for, since when, and who holds that; and a line for each mutex that is held.  Threads
 * have their numbers in the system (gettid); what is over by then may be there, too.  It takes no lock and allocates nothing, and may be
 * called in a signal handler.  It takes some 2 ms in a class of 65,536 mutexes, and half a millisecond more for each context that reads;
 * and longer in a larger class.  The debug library adds lines of the program, and names of mutexes.
 *
 * A program that is linked with libww.so or the debug library needn't call it: if the environment has WW_PRINT=SIGUSR2, or another
 * signal's number, that signal writes all classes to standard error.  One that is linked with libww.a has this by
 * -Wl,-u,ww_class_print.  tools/picture draws from these lines who waits for whom.
 */
void ww_class_print(struct ww_class *ww_class, int fd);

/* ---- other calls that the kernel doesn't have ---- */

/*
 * A mutex of this class, static or not, instead of ww_mutex_init:
 *	static struct ww_mutex lock = WW_MUTEX_INIT(&boxes);
 * Its first lock gives it its number, and returns -ENOSPC or -ENOMEM where ww_mutex_init_checked would; ww_mutex_lock with NULL and
 * ww_mutex_trylock end the program then.
 */
#define WW_MUTEX_INIT(of_class) { { { NULL } }, NULL, { of_class }, 0, 0 }
/*
 * Whether this context holds the mutex; with NULL: whether this thread acquired it without one.  That is certain for the thread that uses
 * the context, and for NULL; for others it may be out of date when this returns.
 */
bool ww_mutex_is_held_by(const struct ww_mutex *lock, const struct ww_acquire_ctx *ctx) WW_NONNULL_(1);
/*
 * NAME_checked does what NAME does, but returns an error where NAME would end the program: -EINVAL for misuse; -ENOSPC if all numbers are
 * in use, -ENOMEM if the class can't be opened, and -EAGAIN if all contexts are in use, or admission is limited, for which
 * ww_acquire_init_checked doesn't wait.
 */
WW_MUST_CHECK int ww_mutex_init_checked(struct ww_mutex *lock, struct ww_class *ww_class) WW_NONNULL_(1, 2);
WW_MUST_CHECK int ww_acquire_init_checked(struct ww_acquire_ctx *ctx, struct ww_class *ww_class) WW_NONNULL_(1, 2);
WW_MUST_CHECK int ww_acquire_done_checked(struct ww_acquire_ctx *ctx) WW_NONNULL_(1);
WW_MUST_CHECK int ww_acquire_fini_checked(struct ww_acquire_ctx *ctx) WW_NONNULL_(1);
WW_MUST_CHECK int ww_mutex_lock_slow_checked(struct ww_mutex *lock, struct ww_acquire_ctx *ctx);
WW_MUST_CHECK int ww_mutex_trylock_checked(struct ww_mutex *lock, struct ww_acquire_ctx *ctx);
WW_MUST_CHECK int ww_mutex_unlock_checked(struct ww_mutex *lock) WW_NONNULL_(1);
/*
 * From now on this function gets each message that ends the program, and each of the debug library's, instead of standard error, to which
 * NULL returns.  A message has no line feed at its end, but may have several lines.  Any thread calls it, maybe several at a time; it
 * calls nothing of this library.  The program ends once it returns, if the message says why.  While ww_report_to is called, no other
 * thread makes a call of this library.
 */
void ww_report_to(void (*function)(void *data, const char *message), void *data);
/* The sizes of the three structures in this library, for languages that don't read this header. */
size_t ww_class_size(void);
size_t ww_mutex_size(void);
size_t ww_acquire_size(void);

#ifdef __cplusplus
}
#endif
#include "ww_mutex_inline.h" /* what is compiled into callers */
#ifdef WW_DEBUG
#include "ww_mutex_debug.h" /* the debug library's calls, and what reports the line of each call */
#else
/* What the debug library's call, by which its reports name the mutex, is without that library: nothing. */
__attribute__((__unused__)) static inline void ww_mutex_name(struct ww_mutex *lock, const char *name) { (void)lock, (void)name; }
#endif
#endif
