/*
 * ww_why.h - who is in the way: labels of contexts, who has a mutex or waits for it, cycles of waits, and counts
 *
 * A database says so to its user: "transaction 7 waits for row 3, which transaction 5 has".  Each context may have a label, a number of
 * the program's, by which the others find it.  After -EDEADLK, -ETIMEDOUT or -EINTR, and before it releases anything, a context asks
 * where its call ended, and who has that mutex:
 *
 *	err = ww_mutex_lock_until(&row->lock, &ctx, &soon);
 *	if (err == -ETIMEDOUT && !ww_acquire_why(&ctx, &why) && why.at.mutex)
 *		printf("%lu has it\n", why.at.by.label);
 *
 * Each call looks at other contexts, which go on meanwhile: so its result may be out of date when it returns.  A mutex that is named may
 * have been destroyed by then.  A call takes a microsecond or two, by the number of contexts of the class, and costs others nothing.
 */
#ifndef WW_WHY_H
#define WW_WHY_H
#include "ww_mutex.h"

#ifdef __cplusplus
extern "C" {
#endif

enum ww_part { WW_NOBODY = 0, WW_HOLDS, WW_READS, WW_WAITS };
struct ww_user {
	uint64_t label;		/* of the user's context; 0: it has none, or the mutex is locked without a context */
	uint32_t place;		/* the number of the context, which no other of the class has at the same time */
	enum ww_part part;	/* WW_NOBODY: nobody is there */
};
struct ww_place {
	struct ww_mutex *mutex; /* NULL: none; of a number: that of ww_number_at; of a shared mutex: its member */
	uint32_t number;	/* of a mutex by number */
	struct ww_user by;
};

/* Labels the context until it ends, also while it is suspended and resumed.  It has an age of its own then. -EINVAL: it has ended. */
int ww_acquire_label(struct ww_acquire_ctx *ctx, uint64_t label) WW_NONNULL_(1);
/*
 * Where the context's last call ended that returned -EDEADLK, -ETIMEDOUT or -EINTR, or waited, and who has that mutex now (`at`).  And a
 * mutex that the context still has, for which another context waits, with that one (`wanted`): in Wound-Wait -EDEADLK comes because of
 * such a one.  -EINVAL: the context has ended; -EBUSY: it waits by a poll.
 */
struct ww_why {
	struct ww_place at, wanted;
};
int ww_acquire_why(const struct ww_acquire_ctx *ctx, struct ww_why *why) WW_NONNULL_(1, 2);
/*
 * The cycle of waits that the context's -EDEADLK broke: first where its call ended, and who has that mutex; then for what that one waits,
 * and who has it; the last one is the context itself.  Returns how many these are; 0: there is no cycle any more, or none that `path` has
 * room for.  -EDEADLK also comes where there is no cycle yet.
 */
size_t ww_acquire_cycle(const struct ww_acquire_ctx *ctx, struct ww_place *path, size_t room) WW_NONNULL_(1);
/* Who holds the mutex, reads it (ww_shared.h) or waits for it. Returns how many, of which `users` gets as many as there is room for. */
size_t ww_mutex_users(const struct ww_mutex *lock, struct ww_user *users, size_t room) WW_NONNULL_(1);
/* How often the context has waited for mutexes and got -EDEADLK, and for how long its threads have waited, since it began. */
struct ww_acquire_counts {
	uint64_t waits, back_offs, waited_ns;
};
int ww_acquire_count(const struct ww_acquire_ctx *ctx, struct ww_acquire_counts *counts) WW_NONNULL_(1, 2);

#ifdef __cplusplus
}
#endif
#endif
