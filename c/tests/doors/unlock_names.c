/*
 * An unlock ends what it names: pairs of calls nest, and none ends what an outer pair holds.
 *
 * An outer function writes a shared mutex, and calls one that reads it for a while; or it reads it, and calls one that upgrades
 * it; also in loops, where all that is held is listed.
 */
#include "../mutex_test.h"
#include "ww_shared.h"

static DEFINE_WW_CLASS(boxes);
static struct ww_shared_mutex m, other;

static void *tries(void *to_read)
{
	struct ww_acquire_ctx x;
	bool got;

	ww_acquire_init(&x, &boxes);
	got = to_read ? ww_shared_mutex_trylock_shared(&m, &x) : ww_shared_mutex_trylock(&m, &x);
	if (got)
		MUST(!(to_read ? ww_shared_mutex_unlock_shared : ww_shared_mutex_unlock)(&m, &x));
	ww_acquire_fini(&x);
	return got ? &m : NULL;
}

/* Whether a context of another thread could read it now; and write it. */
static bool others(bool read)
{
	pthread_t thread = begin_thread(tries, read ? &m : NULL);
	void *got;

	MUST(!pthread_join(thread, &got));
	return got;
}
static bool is_written(struct ww_acquire_ctx *x) { return ww_shared_mutex_is_written_by(&m, x) && !others(true); }
static bool is_read(struct ww_acquire_ctx *x) { return ww_shared_mutex_is_read_by(&m, x) && others(true) && !others(false); }

static void reads_within(struct ww_acquire_ctx *x)
{
	MUST(!ww_shared_mutex_lock_shared(&m, x) && is_written(x) && ww_shared_mutex_is_read_by(&m, x));
	MUST(!ww_shared_mutex_unlock_shared(&m, x) && is_written(x));
	MUST(ww_shared_mutex_trylock_shared(&m, x) == 1 && !ww_shared_mutex_unlock_shared(&m, x) && is_written(x));
	MUST(!ww_shared_mutex_lock_shared(&m, x) && !ww_shared_mutex_end_read(&m, x) && is_written(x) && !ww_shared_mutex_is_read_by(&m, x));
	MUST(ww_shared_mutex_unlock_shared(&m, x) == -EINVAL && is_written(x));
}

static void writes_within(struct ww_acquire_ctx *x)
{
	MUST(is_read(x) && ww_shared_mutex_unlock(&m, x) == -EINVAL && is_read(x));
	MUST(!ww_shared_mutex_lock(&m, x) && is_written(x) && !ww_shared_mutex_unlock(&m, x) && is_read(x));
	MUST(ww_shared_mutex_trylock(&m, x) == 1 && is_written(x) && !ww_shared_mutex_unlock(&m, x) && is_read(x));
}

static void nest(struct ww_acquire_ctx *x)
{
	MUST(!ww_shared_mutex_lock(&m, x));
	reads_within(x);
	MUST(!ww_shared_mutex_unlock(&m, x) && others(false));
	MUST(!ww_shared_mutex_lock_shared(&m, x));
	writes_within(x);
	/* What isn't read is unlocked by no mutex beside it. */
	MUST(ww_shared_mutex_unlock_shared(&other, x) == -EINVAL && ww_shared_mutex_unlock(&other, x) == -EINVAL && is_read(x));
	MUST(!ww_shared_mutex_unlock_shared(&m, x) && !x->acquired && others(false));
	/* From a write to a read, which the other unlock ends. */
	MUST(!ww_shared_mutex_lock(&m, x));
	ww_shared_mutex_downgrade(&m, x);
	MUST(is_read(x) && ww_shared_mutex_unlock(&m, x) == -EINVAL && !ww_shared_mutex_unlock_shared(&m, x) && !x->acquired);
}

/* What acquires nothing needs no unlock, also if that is no error. */
static void ignores_duplicates(struct ww_acquire_ctx *x)
{
	ww_acquire_flags(x, WW_IGNORE_DUPLICATES);
	MUST(!ww_shared_mutex_lock(&m, x) && !ww_shared_mutex_lock(&m, x) && x->acquired == 1 && is_written(x));
	ww_acquire_unlock_all(x);
	MUST(!x->acquired && others(false));
}

int main(void)
{
	struct ww_acquire_ctx x;

	ww_shared_mutex_init(&m, &boxes);
	ww_shared_mutex_init(&other, &boxes);
	ww_acquire_init(&x, &boxes);
	nest(&x);
	ww_acquire_begin_tries(&x);
	nest(&x);
	ignores_duplicates(&x);
	ww_acquire_fini(&x);
	MUST(!ww_shared_mutex_destroy(&m) && !ww_shared_mutex_destroy(&other) && !ww_class_free(&boxes));
	puts("unlock_names: each unlock ends what it names");
	return 0;
}
