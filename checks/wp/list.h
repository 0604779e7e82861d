/*
 * list.h - lists of locks: of each mutex in one, whichever that is.
 *
 * source: lock/list.c
 * proves: retry lock_further begin_list ends_by_hand
 * inlines: is_loop begin_loop let_be_older share_age
 */
#include "lock.h"
#include "../lock/loop.h"
#include "../lock/mutex.h"

#define GONE(x) x->own->pool->gone
#define OWES(x) ((x->state & IS_PRELOCKED) != 0 && lists_owed == 1)
/*@ ghost
  struct ww_mutex *the_mutex; // it has the_lock
  size_t the_index;	      // and stands in the list that is locked, if there are so many in that
  int had_lock;		      // whether the seat had the_lock before
  unsigned listed;	      // how many mutexes the context's list has
  unsigned unlisted;	      // how many the context had in BY_HAND before the call, of which its list has none
  unsigned level;	      // how many the context had when it had just acquired the_mutex; 0: that isn't listed
  unsigned held_before;	      // how many it had before the call, without one that it owed
  int lists_owed;	      // whether what it owes is listed
  struct ww_mutex *was_owed;  // which mutex it owed before, or waited for first
*/
/*@ // the context's list: in a loop of all that it acquired since, by hand maybe of the newest alone
    predicate is_counted(struct ww_acquire_ctx *x) = level <= x->acquired && listed <= x->acquired && (x->newest == \null <==> listed == 0) &&
	(level != 0 ==> level > x->acquired - listed) && (loops(x) ==> listed == x->acquired - unlisted) && (OWES(x) ==> listed > 0);
    predicate is_asked(struct ww_mutex **locks, integer count) = the_index < count && locks[the_index] == the_mutex;
    // it has the_mutex yet to ask for, and had that to do before
    predicate is_kept(struct ww_acquire_ctx *x) = OWES(x) && x->prelocked == the_mutex && was_owed == the_mutex && level > 0;
    // what was acquired since is listed behind all that it had
    predicate is_known(struct ww_acquire_ctx *x) = core_has == 0 || had_lock == 1 || GONE(x) || is_kept(x) ||
	level > held_before + (OWES(x) && x->prelocked == was_owed ? 1 : 0);
    predicate are_locks(struct ww_mutex **locks, size_t count, struct ww_acquire_ctx *x) = \valid_read(locks + (0 .. count - 1)) &&
	\separated(locks + (0 .. count - 1), x, x->own, x->own->pool);
    predicate is_user_of(struct ww_acquire_ctx *x) = \valid(x) && x->own != \null && \valid(x->own) && \separated(x, x->own, x->own->pool);
    // a context that waits for a mutex first holds nothing
    predicate waits_with_none(struct ww_acquire_ctx *x) = (x->state & WAITS_FIRST) != 0 ==> x->acquired == 0;
*/

/*
 * A lock of any mutex, as mutex.h and loop.h have it.  A context that waits for another mutex first has that, too, and then it is listed,
 * whatever the call returns.  What the mutexes say isn't spoken of, and they lie apart from the array.  By hand none is one by number,
 * which no list would have.
 */
/*@ requires \valid(x);
    assigns x->pool, x->acquired, x->state, x->contending_lock, x->puts, x->newest, x->prelocked, x->cancelled, x->own->ages, x->own->met, listed, level, lists_owed, CORE, core_context;
    ensures took: \result == 0 && m == the_mutex ==> core_has == 1;
    ensures others: core_has == \old(core_has) || core_has == 1;
    ensures counts: x->acquired >= \old(x->acquired) && x->acquired - \old(x->acquired) == listed - \old(listed) && (\old(is_counted(x)) ==> is_counted(x)) && (waits_with_none{Old}(x) ==> waits_with_none(x));
    // what it acquires it lists, behind what it waited for first
    ensures lists: core_has == \old(core_has) || GONE(x) ||
	level > \old(x->acquired) + (OWES(x) && !\old(OWES(x)) && x->prelocked != the_mutex ? 1 : 0);
    // what was listed stays where it is, unless what was owed is asked for, and put behind all
    ensures stays: level >= \old(level) || (\old(OWES(x)) && !OWES(x) && level == \old(level) - 1 && level > 0);
    ensures asked: \old(OWES(x)) && !OWES(x) ==> m == \old(x->prelocked) && (m == the_mutex && core_has == 1 ==> level == x->acquired);
    // only what it owed, or waited for first, it owes, until that is asked for
    ensures owes: OWES(x) ==> (\old(OWES(x)) && x->prelocked == \old(x->prelocked)) ||
	(\old((x->state & WAITS_FIRST) != 0) && !\old(OWES(x)) && x->prelocked == \old(x->contending_lock) && x->acquired > \old(x->acquired));
    ensures waits: (x->state & WAITS_FIRST) != 0 ==> \old((x->state & WAITS_FIRST) != 0) && x->contending_lock == \old(x->contending_lock);
    ensures told: \result == -EDEADLK ==> (loops(x) ==> (x->state & HAS_TO_BACK_OFF) != 0); */
int ww_mutex_lock(struct ww_mutex *m, struct ww_acquire_ctx *x);
/* As loop.h has it: the newest is released, and nothing else. */
/*@ requires is_user_of(x) && is_counted(x) && listed > 0;
    assigns x->acquired, x->newest, listed, level, lists_owed, CORE;
    ensures counts: x->acquired == \old(x->acquired) - 1 && listed == \old(listed) - 1 && is_counted(x);
    ensures released: \old(level) == \old(x->acquired) ==> core_has == 0 || GONE(x);
    ensures others: GONE(x) || core_has == 0 || core_has == \old(core_has);
    ensures stays: \old(level) != \old(x->acquired) ==> level == \old(level); */
static inline int release_newest(struct ww_acquire_ctx *x);
/* All that is listed is released. */
#define RELEASES_LIST(x) \
	ensures empty: x->newest == \null && is_counted(x); \
	ensures released: \old(level) > 0 ==> core_has == 0 || GONE(x); \
	ensures others: GONE(x) || core_has == 0 || core_has == \old(core_has); \
	ensures owes: !OWES(x)
/*@ requires contended: (x->state & HAS_TO_BACK_OFF) != 0;
    requires is_user_of(x) && is_counted(x);
    assigns x->pool, x->acquired, x->state, x->newest, x->own->ages, x->own->met, listed, level, lists_owed, CORE;
    RELEASES_LIST(x); */
void ww_back_off_(struct ww_acquire_ctx *x);
/*@ requires is_user_of(x) && is_counted(x) && loops(x);
    assigns x->pool, x->acquired, x->state, x->newest, x->own->ages, x->own->met, listed, level, lists_owed, CORE;
    RELEASES_LIST(x); */
void ww_acquire_unlock_all(struct ww_acquire_ctx *x);
/* Without what it owes, if that is listed. */
/*@ requires is_user_of(x) && is_counted(x);
    assigns \nothing;
    ensures \result == x->acquired - (OWES(x) ? 1 : 0); */
size_t ww_acquire_mark(const struct ww_acquire_ctx *x);

/*@ requires is_user_of(x);
    assigns x->newest, x->empty_[0 .. 1], x->gives, x->pool, x->own->ages, x->own->met;
    ensures begins: loops(x) && x->newest == \null; */
static inline void begin_list(struct ww_acquire_ctx *x, struct ww_mutex *const *locks, size_t count);

#define OF_LIST(x) x->pool, x->acquired, x->state, x->contending_lock, x->puts, x->newest, x->prelocked, x->cancelled, x->own->ages, x->own->met, listed, level, lists_owed, CORE, \
	core_context
/*@ // what holds between the lock calls of a list
    predicate goes_on(struct ww_acquire_ctx *x) = is_user_of(x) && is_counted(x) && loops(x) && waits_with_none(x) && is_known(x) &&
	unlisted <= held_before && x->acquired >= held_before + (OWES(x) && x->prelocked == was_owed ? 1 : 0) &&
	(held_before != 0 ==> (x->state & WAITS_FIRST) == 0 && (OWES(x) ==> x->prelocked == was_owed)); */
/*@ requires goes_on(x) && are_locks(locks, count, x);
    assigns OF_LIST(x);
    ensures told: \result == -EDEADLK ==> (x->state & HAS_TO_BACK_OFF) != 0;
    ensures took: \result == 0 && is_asked(locks, count) ==> core_has == 1;
    ensures counts: is_user_of(x) && is_counted(x) && loops(x) && waits_with_none(x) && unlisted <= held_before;
    ensures known: is_known(x);
    ensures holds: x->acquired >= held_before + (OWES(x) && x->prelocked == was_owed ? 1 : 0);
    ensures owes: held_before != 0 ==> (x->state & WAITS_FIRST) == 0 && (OWES(x) ==> x->prelocked == was_owed); */
static inline int lock_each(struct ww_acquire_ctx *x, struct ww_mutex *const *locks, size_t count);
/*@ requires goes_on(x) && are_locks(locks, count, x) && held == held_before;
    requires told: r == -EDEADLK ==> (x->state & HAS_TO_BACK_OFF) != 0;
    requires took: r == 0 && is_asked(locks, count) ==> core_has == 1;
    assigns OF_LIST(x);
    ensures took: \result == 0 && is_asked(locks, count) ==> core_has == 1;
    ensures known: goes_on(x); */
static int retry(struct ww_acquire_ctx *x, struct ww_mutex *const *locks, size_t count, size_t held, int r);

/*
 * In a loop, or behind a list, all or nothing: 0 only if the seat has the lock of each, and else none that it hadn't before, unless it
 * owed that, or waited for it first; or this is a forked child.  Of ww_mutex_lock_all, which calls this, nothing is proved.
 */
/*@ requires is_user_of(x) && is_counted(x) && loops(x) && unlisted == 0 && waits_with_none(x) && are_locks(locks, count, x);
    requires had_lock == core_has && (core_has == 0 || core_has == 1);
    ensures took: \result == 0 && is_asked(locks, count) ==> core_has == 1;
    ensures none: \result != 0 && had_lock == 0 ==> core_has == 0 || GONE(x) || the_mutex == was_owed; */
static int lock_further(struct ww_acquire_ctx *x, struct ww_mutex *const *locks, size_t count);
/* After a list by hand, of which an error releases all. */
/*@ requires is_user_of(x) && is_counted(x) && loops(x);
    assigns x->gives, x->pool, x->acquired, x->state, x->contending_lock, x->newest, x->own->ages, x->own->met, listed, level, lists_owed, CORE;
    ensures exact: \result == r;
    ensures keeps: r == 0 ==> core_has == \old(core_has);
    ensures released: r != 0 && \old(level) > 0 ==> core_has == 0 || GONE(x);
    ensures others: GONE(x) || core_has == 0 || core_has == \old(core_has); */
static int ends_by_hand(struct ww_acquire_ctx *x, struct ww_mutex *contending_lock, int r);
