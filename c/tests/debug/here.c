/*
 * A context goes on in another thread: by every kind of call it begins and locks in one, and unlocks and ends in the other.
 *
 * Each is right, and nothing is reported: a call that names the context says whose it is, and before a ww_mutex_unlock, which doesn't,
 * ww_acquire_here says it.  Without that the unlock is reported, and so is that of a mutex which another thread locked without a context.
 */
#ifndef WW_DEBUG
#define WW_DEBUG
#endif
#include "../mutex_test.h"
#include "ww_retry.h"
#include "ww_shared.h"

static DEFINE_WW_CLASS(c);
static struct ww_mutex m, n;
static struct ww_shared_mutex s, w;
static uint32_t number, other;
static struct ww_acquire_ctx x;
static struct ww_retry retry;

enum kind { BY_HAND, IN_A_LOOP, BY_NUMBER, SHARED, NUMBERED, LISTED, IN_A_TRY, SUSPENDED, IN_SILENCE, WITHOUT_CONTEXT };

static void *locks(void *arg)
{
	struct ww_mutex *const both[] = { &m, &n };
	enum kind kind = *(enum kind *)arg;

	if (kind != WITHOUT_CONTEXT)
		ww_acquire_init(&x, &c);
	x.deadlock_inject_countdown = ~0u;
	switch (kind) {
	case BY_HAND: case SUSPENDED: case IN_SILENCE: MUST(!ww_mutex_lock(&m, &x) && !ww_mutex_lock(&n, &x)); break;
	case IN_A_LOOP: ww_until_all_locked(&x) MUST(!ww_mutex_lock(&m, &x) && !ww_mutex_lock(&n, &x)); break;
	case BY_NUMBER: MUST(!ww_number_lock(number, &x) && ww_number_trylock(other, &x)); break;
	case SHARED: MUST(!ww_shared_mutex_lock_shared(&s, &x) && !ww_shared_mutex_lock(&w, &x)); break;
	case NUMBERED:
		MUST(!ww_shared_mutex_lock_shared(ww_number_at(number, &c), &x) && !ww_shared_mutex_lock(ww_number_at(other, &c), &x));
		break;
	case LISTED: MUST(!ww_mutex_lock_all(&x, both, 2)); break;
	case IN_A_TRY: ww_acquire_begin_tries(&x); MUST(!ww_shared_mutex_lock_shared(&s, &x) && !ww_number_lock(number, &x)); break;
	case WITHOUT_CONTEXT: MUST(!ww_mutex_lock(&m, NULL)); break;
	}
	return NULL;
}

static void *unlocks(void *arg)
{
	enum kind kind = *(enum kind *)arg;

	switch (kind) {
	case BY_HAND: case SUSPENDED:
		ww_acquire_here(&x);
		ww_mutex_unlock(&m);
		ww_mutex_unlock(&n);
		break;
	case IN_A_LOOP: ww_acquire_here(&x); ww_mutex_unlock(&m); ww_acquire_unlock_all(&x); break;
	case BY_NUMBER: MUST(!ww_number_unlock(number, &x) && !ww_number_unlock(other, &x)); break;
	case SHARED:
		MUST(!ww_shared_mutex_unlock_shared(&s, &x));
		ww_shared_mutex_downgrade(&w, &x);
		MUST(!ww_shared_mutex_unlock_shared(&w, &x));
		break;
	case NUMBERED:
		MUST(!ww_shared_mutex_unlock_shared(ww_number_at(number, &c), &x) && !ww_shared_mutex_unlock(ww_number_at(other, &c), &x));
		break;
	case LISTED: ww_acquire_unlock_all(&x); break;
	case IN_A_TRY: MUST(!ww_acquire_end_try(&x)); break;
	case IN_SILENCE: ww_mutex_unlock(&m); ww_acquire_here(&x); ww_mutex_unlock(&n); break;
	case WITHOUT_CONTEXT: ww_mutex_unlock(&m); return NULL;
	}
	MUST(kind != SUSPENDED || (!ww_acquire_suspend(&x, &retry) && !ww_acquire_resume(&x, &c, &retry, NULL)));
	ww_acquire_fini(&x);
	return NULL;
}

/* Once it has given up the wait for the contended mutex, any lock may come next. */
static void gives_up_its_wait(void)
{
	static const struct timespec past;

	ww_acquire_init(&x, &c);
	x.deadlock_inject_countdown = 0;
	MUST(!ww_mutex_lock(&m, &x) && ww_mutex_lock(&n, &x) == -EDEADLK);
	ww_mutex_unlock(&m);
	MUST(!ww_mutex_lock(&n, NULL) && ww_mutex_lock_slow_until(&n, &x, &past) == -ETIMEDOUT && !ww_mutex_lock(&m, &x));
	ww_mutex_unlock(&n);
	ww_mutex_unlock(&m);
	ww_acquire_fini(&x);
	MUST(!ww_debug_faults());
}

int main(void)
{
	unsigned long warnings;

	ww_mutex_init(&m, &c);
	ww_mutex_init(&n, &c);
	ww_shared_mutex_init(&s, &c);
	ww_shared_mutex_init(&w, &c);
	MUST(!ww_number_take(&number, &c) && !ww_number_take(&other, &c));
	gives_up_its_wait();
	warnings = ww_debug_warnings();
	for (enum kind kind = BY_HAND; kind <= WITHOUT_CONTEXT; kind++) {
		if (kind == WITHOUT_CONTEXT) /* a thread that ends holds nothing without one */
			locks(&kind);
		else
			end_thread(begin_thread(locks, &kind));
		end_thread(begin_thread(unlocks, &kind));
		MUST(ww_debug_faults() == (kind < IN_SILENCE ? 0 : kind - IN_SILENCE + 1) && ww_debug_warnings() == warnings);
	}
	return 0;
}
