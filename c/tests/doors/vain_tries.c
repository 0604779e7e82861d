/*
 * A lock call in vain changes nothing: not what a context got -EDEADLK for, nor what a loop has waited for.
 *
 * By Wait-Die, so that one thread has both contexts: the older one is in the way, and the younger one tries.
 */
#include "../mutex_test.h"
#include "../../lock/context.h"
#include "ww_shared.h"

static DEFINE_WD_CLASS(boxes);
static struct ww_mutex a, b, taken;
static struct ww_shared_mutex written, is_read;
static struct ww_acquire_ctx older, x;
static const struct timespec past;

static int nothing(void) { return 0; }
static int tries(void) { return ww_mutex_trylock(&taken, &x); }
static int tries_to_write(void) { return ww_shared_mutex_trylock(&written, &x); }
static int tries_to_read(void) { return ww_shared_mutex_trylock_shared(&written, &x); }
static int tries_to_write_what_is_read(void) { return ww_shared_mutex_trylock(&is_read, &x); }
static int waits(void) { return ww_mutex_lock_until(&taken, &x, &past) + ETIMEDOUT; }
static int waits_to_read(void) { return ww_shared_mutex_lock_shared_until(&written, &x, &past) + ETIMEDOUT; }
static int waits_to_write(void) { return ww_shared_mutex_lock_until(&written, &x, &past) + ETIMEDOUT; }
static int waits_for_readers(void) { return ww_shared_mutex_lock_until(&is_read, &x, &past) + ETIMEDOUT; }
static int destroys(void) { return ww_shared_mutex_destroy(&is_read) + EBUSY + ww_shared_mutex_destroy(&written) + EBUSY; }
static int unlocks(void) { return ww_shared_mutex_unlock(&is_read, &x) + EINVAL + ww_shared_mutex_unlock_shared(&is_read, &x) + EINVAL; }
/* Each of these returns 0 if it is refused as it should be. */
static int (*const vain[])(void) = { nothing, tries, tries_to_write, tries_to_read, tries_to_write_what_is_read, waits, waits_to_read,
				     waits_to_write, waits_for_readers, destroys, unlocks };
enum { VAIN = sizeof vain / sizeof *vain };
static bool may_wait(int (*call)(void)) { return call == waits || call == waits_to_read || call == waits_to_write || call == waits_for_readers; }

/*
 * What of a context says what comes next, and what of the mutexes does.  Only a call that may wait makes steps in vain, so that the
 * proved library forgets an -EDEADLK; the context says so (WAS_TOLD) to a later call.
 */
static bool is_same(const struct ww_acquire_ctx *was, bool may_have_waited)
{
	const unsigned hidden = may_have_waited ? WAS_TOLD : 0;

	return x.acquired == was->acquired && (x.state | hidden) == (was->state | hidden) && x.gives == was->gives &&
	       (x.gives == x.own /* by hand nothing is listed */ || x.newest == was->newest) &&
	       x.contending_lock == was->contending_lock && x.prelocked == was->prelocked && x.own == was->own;
}

static void begins(void)
{
	ww_acquire_init(&older, &boxes);
	MUST(!ww_mutex_lock(&a, &older) && !ww_mutex_lock(&taken, &older));
	MUST(!ww_shared_mutex_lock(&written, &older) && !ww_shared_mutex_lock_shared(&is_read, &older));
	ww_acquire_init(&x, &boxes);
}

static void ends(void)
{
	MUST(!x.acquired);
	ww_acquire_fini(&x);
	ww_mutex_unlock(&taken);
	MUST(!ww_shared_mutex_unlock(&written, &older));
	ww_acquire_end_reads(&older);
	ww_acquire_fini(&older);
}

/* By hand: then it waits for what it was told, by a slow lock or by a wait that holds nothing. */
static void by_hand(int (*tries_in_vain)(void), bool awaits)
{
	struct ww_acquire_ctx was;

	begins();
	MUST(!ww_mutex_lock(&b, &x) && ww_mutex_lock(&a, &x) == -EDEADLK);
	ww_mutex_unlock(&b);
	was = x;
	MUST(!tries_in_vain() && is_same(&was, may_wait(tries_in_vain)));
	MUST(!tries_in_vain() && is_same(&was, may_wait(tries_in_vain)));
	ww_mutex_unlock(&a);
	if (awaits) {
		MUST(!ww_shared_mutex_await(&x, NULL) && !x.acquired);
	} else {
		ww_mutex_lock_slow(&a, &x);
		ww_mutex_unlock(&a);
	}
	ends();
}

/* In a loop that has backed off: its first lock still waits for what it was told. */
static void in_a_loop(int (*tries_in_vain)(void))
{
	struct ww_acquire_ctx was;

	begins();
	ww_acquire_begin_tries(&x);
	MUST(!ww_mutex_lock(&b, &x) && ww_mutex_lock(&a, &x) == -EDEADLK && ww_acquire_end_try(&x));
	was = x;
	MUST(!tries_in_vain() && is_same(&was, may_wait(tries_in_vain)));
	MUST(ww_mutex_lock_until(&b, &x, &past) == -ETIMEDOUT && !x.acquired);
	ww_mutex_unlock(&a);
	MUST(!ww_mutex_lock(&b, &x) && x.acquired == 2 && x.state & IS_PRELOCKED);
	was = x;
	if (!may_wait(tries_in_vain))
		MUST(!tries_in_vain() && is_same(&was, false));
	MUST(!ww_mutex_lock(&a, &x) && x.acquired == 2 && !ww_acquire_end_try(&x));
	ends();
}

/* What the loop has waited for is kept for it, also if that can't be written yet, since another has come to read it. */
static void upgrades_what_it_waited_for(void)
{
	struct ww_acquire_ctx was;

	begins();
	ww_acquire_begin_tries(&x);
	MUST(!ww_mutex_lock(&b, &x) && ww_shared_mutex_lock(&written, &x) == -EDEADLK && ww_acquire_end_try(&x));
	ww_shared_mutex_downgrade(&written, &older);
	MUST(!ww_mutex_lock(&b, &x) && x.acquired == 2 && x.prelocked == &written.mutex_);
	was = x;
	MUST(!ww_shared_mutex_trylock(&written, &x) && is_same(&was, false) && written.mutex_.ctx == &x);
	MUST(!ww_shared_mutex_trylock(&written, &x) && is_same(&was, false));
	MUST(ww_shared_mutex_lock_until(&written, &x, &past) == -ETIMEDOUT && is_same(&was, true) && written.mutex_.ctx == &x);
	ww_acquire_end_reads(&older);
	MUST(ww_shared_mutex_trylock(&written, &x) == 1 && x.acquired == 2 && !(x.state & IS_PRELOCKED));
	MUST(!ww_acquire_end_try(&x) && !x.acquired);
	MUST(!ww_shared_mutex_lock(&written, &older) && !ww_shared_mutex_lock_shared(&is_read, &older));
	ww_mutex_unlock(&a);
	ends();
}

int main(void)
{
	ww_mutex_init(&a, &boxes);
	ww_mutex_init(&b, &boxes);
	ww_mutex_init(&taken, &boxes);
	ww_shared_mutex_init(&written, &boxes);
	ww_shared_mutex_init(&is_read, &boxes);
	for (unsigned k = 0; k < VAIN; k++) {
		by_hand(vain[k], false);
		by_hand(vain[k], true);
		in_a_loop(vain[k]);
	}
	upgrades_what_it_waited_for();
	puts("vain_tries: a call in vain changes nothing");
	return 0;
}
