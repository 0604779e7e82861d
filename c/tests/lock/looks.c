/*
 * A look takes no lock, so it waits for nobody: not even for a thread that was preempted within the library.
 *
 * Each call that only asks something is made while this thread has all of the class's own locks and that of all classes, which would
 * make it wait for ever.
 */
#include "../mutex_test.h"
#include "../../lock/lock.h"
#include "ww_shared.h"
#include "ww_why.h"

static DEFINE_WW_CLASS(boxes);
static struct ww_mutex held, alone, free_;
static struct ww_shared_mutex is_read, written, unused;
static struct ww_acquire_ctx x, y;
static uint32_t number;

static void locks_the_class(bool is)
{
	int (*const does)(pthread_mutex_t *) = is ? pthread_mutex_lock : pthread_mutex_unlock;

	MUST(!does(&ww_opening) && !does(&boxes.pool->spare) && !does(&boxes.pool->queue) && !does(&boxes.pool->numbers.lock));
}

static void *asks(void *arg)
{
	MUST(ww_mutex_is_locked(&held) && ww_mutex_is_locked(&alone) && !ww_mutex_is_locked(&free_));
	MUST(!ww_mutex_is_held_by(&alone, NULL) && ww_mutex_is_held_by(&held, &x) && !ww_mutex_is_held_by(&held, &y) && !ww_mutex_is_held_by(&free_, &x));
	MUST(ww_mutex_is_held_by(&ww_number_at(number, &boxes)->mutex_, &x));
	MUST(ww_shared_mutex_is_locked(&is_read) && ww_shared_mutex_is_locked(&written) && !ww_shared_mutex_is_locked(&unused));
	MUST(!ww_mutex_trylock(&held, NULL) && !ww_mutex_trylock(&alone, NULL));
	MUST(ww_mutex_destroy(&held) == -EBUSY && ww_mutex_destroy(&alone) == -EBUSY && ww_number_put(number, &boxes) == -EBUSY);
	return arg;
}

/* Whoever looks who uses a mutex has it by a seat that no other look sees. */
static void *asks_beside_a_look(void *arg)
{
	MUST(!ww_mutex_is_locked(&free_) && !ww_shared_mutex_is_locked(&unused) && ww_mutex_is_locked(&held) && !ww_mutex_is_held_by(&free_, NULL));
	return arg;
}

static void look_who_uses(uint32_t its)
{
	ww_handle *spare = &spare_of(boxes.pool)->handle;

	MUST(!ww_try_(spare, its));
	end_thread(begin_thread(asks_beside_a_look, NULL));
	MUST(!ww_unlock_(spare, its));
}

/* By a context: tries, and questions of what it has, and of who is in its way. */
static void *asks_by_context(void *arg)
{
	struct ww_acquire_counts counts;
	struct ww_user user;
	struct ww_why why;

	MUST(!ww_mutex_trylock(&held, &y) && !ww_mutex_trylock(&alone, &y) && !ww_number_trylock(number, &y));
	MUST(!ww_shared_mutex_trylock(&is_read, &y) && !ww_shared_mutex_trylock(&written, &y) && !ww_shared_mutex_trylock_shared(&written, &y));
	MUST(!ww_shared_mutex_is_read_by(&is_read, &y) && ww_shared_mutex_is_read_by(&is_read, &x) && ww_shared_mutex_is_written_by(&written, &x));
	MUST(!ww_acquire_mark(&y) && !ww_acquire_why(&y, &why) && !ww_acquire_cycle(&y, NULL, 0) && !ww_acquire_count(&y, &counts));
	MUST(ww_mutex_users(&held, &user, 1) == 1 && ww_mutex_users(&is_read.mutex_, &user, 1) == 1 && !ww_mutex_users(&free_, &user, 1));
	return arg;
}

int main(void)
{
	ww_mutex_init(&held, &boxes);
	ww_mutex_init(&alone, &boxes);
	ww_mutex_init(&free_, &boxes);
	ww_shared_mutex_init(&is_read, &boxes);
	ww_shared_mutex_init(&written, &boxes);
	ww_shared_mutex_init(&unused, &boxes);
	MUST(!ww_number_take(&number, &boxes));
	ww_mutex_lock(&alone, NULL);
	ww_acquire_init(&x, &boxes);
	ww_acquire_init(&y, &boxes);
	MUST(!ww_mutex_lock(&held, &x) && !ww_number_lock(number, &x));
	MUST(!ww_shared_mutex_lock_shared(&is_read, &x) && !ww_shared_mutex_lock(&written, &x));
	locks_the_class(true);
	end_thread(begin_thread(asks, NULL));
	end_thread(begin_thread(asks_by_context, NULL));
	locks_the_class(false);
	look_who_uses(free_.number);
	look_who_uses(unused.mutex_.number);
	puts("looks: each by itself");
	return 0;
}
