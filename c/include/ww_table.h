/*
 * ww_table.h - locks by keys of any bytes, as a database's lock manager has them
 *
 * A context locks keys shared or exclusive, in any order, beside its other mutexes of the class, but outside loops and tries:
 *
 *	ww_acquire_init(&ctx, &rows);
 *	while ((err = transfer(table, &ctx)) == -EDEADLK)
 *		ww_table_unlock_to(table, &ctx, 0);
 *	..
 *	ww_table_unlock_to(table, &ctx, 0);
 *	ww_acquire_fini(&ctx);
 *
 * Different keys never wait for one another.  All calls of one context come from one thread at a time, whichever; the context may
 * move.  A key uses one of the class's mutexes while it is locked or waited for, and each context keeps up to 32 for its next keys.
 */
#ifndef WW_TABLE_H
#define WW_TABLE_H
#include "ww_poll.h"
#include "ww_shared.h"

#ifdef __cplusplus
extern "C" {
#endif

struct ww_table;
enum ww_table_mode { WW_TABLE_SHARED, WW_TABLE_EXCLUSIVE };
enum ww_table_wait { WW_TABLE_WAITS, WW_TABLE_TRIES, WW_TABLE_POLLS };

/*
 * Opens a table: at most `keys` keys are locked or waited for at a time, and kept; 0: as many as the class has mutexes.  -ENOMEM;
 * -EINVAL: the class was in use at a fork.  In a child of a fork a context may release its keys, and end; nothing else of the table is
 * used.
 */
WW_MUST_CHECK int ww_table_open(struct ww_table **table, struct ww_class *ww_class, uint32_t keys) WW_NONNULL_(1, 2);
/*
 * Closes the table, and ends the contexts of all owners.  -EBUSY: a key is locked or waited for, or an owner's context holds something
 * else or waits by a poll, and nothing has changed.
 */
int ww_table_close(struct ww_table *table) WW_NONNULL_(1);

/* A user of a key, which has it or waits for it; the key's memory is the table's. */
struct ww_table_user {
	const void *key;
	size_t length; /* bytes */
	uint64_t owner; /* the `owner` of its lock call */
	enum ww_table_mode mode;
	bool waits;
};

/*
 * How a lock call waits, and what the program decides before.  If the key is taken, `meets` is called with each other context that has
 * it, while that part of the table is locked: it calls nothing of the table.  If each call returns true, they keep their locks, but
 * who asks from then on doesn't wait for these: so locks expire.  Who waits already waits on, until its time passes.  Otherwise `waits`
 * is called, with nothing locked.  It may change `until`; if it returns an error, so does the lock call.  Whenever that time has passed,
 * the call looks at the key anew, and asks `waits` again.
 */
struct ww_table_how {
	uint64_t owner;			/* shown to others */
	enum ww_table_wait by;
	const struct timespec *until;	/* a time of the monotonic clock; NULL: forever */
	const struct ww_waker *waker;	/* a poll's waker, which makes no call of the table; NULL: the call ends the wait */
	bool (*meets)(void *data, const struct ww_table_user *user);
	int (*waits)(void *data, struct ww_table_how *how);
	void *data;
};

/*
 * Locks the key, or raises a shared lock of it to an exclusive one; `how` NULL: waits forever.  After each error it has what it had
 * before:
 *	-EALREADY	the context has the key in this mode, or exclusive
 *	-EDEADLK	release all that the context holds, and lock again; until then each call returns this.  The next lock call waits
 *			for the contended key first, unless its time passes.  Never with nothing held
 *	-ETIMEDOUT	the time limit, or a poll without a waker; -EINTR: a cancel.  Any key may come next
 *	-EBUSY		a try: the key is taken; or the context waits by a poll of another call
 *	-EINPROGRESS	a poll waits: make the same call again, as ww_poll.h says
 *	-ENOSPC		as many keys as the table may have, or no mutex of the class is left: lock a coarser key
 *	-ENOMEM, -EINVAL
 */
WW_MUST_CHECK int ww_table_lock(struct ww_table *table, struct ww_acquire_ctx *ctx, const void *key, size_t length,
				enum ww_table_mode mode, const struct ww_table_how *how) WW_NONNULL_(1, 2);
/*
 * Releases the key.  Who asks from then on for what was shared doesn't wait for this context; who waited to have it alone waits until
 * the context shares no key.  -EINVAL: the context doesn't have it; -EBUSY: it waits by a poll; nothing has changed.
 */
int ww_table_unlock(struct ww_table *table, struct ww_acquire_ctx *ctx, const void *key, size_t length) WW_NONNULL_(1, 2);
/* How many keys the context has; and releases all but the first `mark` of them, the newest first, unless the context waits by a poll. */
size_t ww_table_mark(struct ww_table *table, const struct ww_acquire_ctx *ctx) WW_NONNULL_(1, 2);
void ww_table_unlock_to(struct ww_table *table, struct ww_acquire_ctx *ctx, size_t mark) WW_NONNULL_(1, 2);
/*
 * Calls `see` with each user of the key, the newest first; or, if `key` is NULL, of all keys, part by part.  A context that waits to
 * raise its lock is seen twice.  `see` calls nothing of the table.  Returns how many there are.  The calls of ww_why.h know contexts by
 * labels, and name no keys: this does, and `meets`.
 */
size_t ww_table_see(struct ww_table *table, const void *key, size_t length, void (*see)(void *data, const struct ww_table_user *user),
		    void *data) WW_NONNULL_(1);

/*
 * For frameworks that know transactions by numbers, and no contexts: the context of this owner, which is begun if there is none, as
 * ww_acquire_init_until.  If `former` has left with `again`, the context goes on with the age of `former`: of the owner itself, or of the
 * transaction that this one retries.  0; or an error of ww_acquire_resume.  One thread at a time names an owner.
 */
WW_MUST_CHECK int ww_table_join(struct ww_table *table, uint64_t owner, uint64_t former, const struct timespec *until,
				struct ww_acquire_ctx **ctx) WW_NONNULL_(1, 5);
/*
 * Releases all keys of the owner, and ends its context; `again`: the age is kept for a further ww_table_join, if the class allows that
 * many.  -EINVAL: the owner has no context; -EBUSY: the context holds something else, or waits by a poll.
 */
int ww_table_leave(struct ww_table *table, uint64_t owner, bool again) WW_NONNULL_(1);

#if defined(WW_DEBUG) && !defined(WW_CLASS_H)
#define ww_table_lock(...) (WW_HERE_, ww_table_lock(__VA_ARGS__))
#define ww_table_unlock(...) (WW_HERE_, ww_table_unlock(__VA_ARGS__))
#define ww_table_unlock_to(...) (WW_HERE_, ww_table_unlock_to(__VA_ARGS__))
#define ww_table_join(...) (WW_HERE_, ww_table_join(__VA_ARGS__))
#define ww_table_leave(...) (WW_HERE_, ww_table_leave(__VA_ARGS__))
#endif

#ifdef __cplusplus
}
#endif
#endif
