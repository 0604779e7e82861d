/*
 * Who holds a mutex without a context: the thread that acquired it, and none that never did anything.
 *
 * The holder uses its own seat, any seat, or one that it waited for; and it asks, as do a thread that never used the library, one
 * that uses another class, and one that holds another mutex of this class.
 */
#include "../mutex_test.h"
#include "../../lock/context.h"

static DEFINE_WW_CLASS(boxes);
static DEFINE_WW_CLASS(others);
static struct ww_mutex m, another, elsewhere;
enum { MANY = 2000 };
enum asks { NEVER_DID, USES_ANOTHER_CLASS, HOLDS_ANOTHER, TRIED, BEGAN, ASKS };

static void *says(void *what)
{
	struct ww_acquire_ctx x;
	bool is;

	switch ((enum asks)(size_t)what) {
	case NEVER_DID: return ww_mutex_is_held_by(&m, NULL) ? &m : NULL;
	case USES_ANOTHER_CLASS:
		ww_mutex_lock(&elsewhere, NULL);
		is = ww_mutex_is_held_by(&m, NULL);
		ww_mutex_unlock(&elsewhere);
		return is ? &m : NULL;
	case HOLDS_ANOTHER:
		ww_mutex_lock(&another, NULL);
		is = ww_mutex_is_held_by(&m, NULL) || !ww_mutex_is_held_by(&another, NULL);
		ww_mutex_unlock(&another);
		return is ? &m : NULL;
	case TRIED: return ww_mutex_trylock(&m, NULL) || ww_mutex_is_held_by(&m, NULL) ? &m : NULL;
	default:
		ww_acquire_init(&x, &boxes);
		is = ww_mutex_is_held_by(&m, NULL) || ww_mutex_is_held_by(&m, &x);
		ww_acquire_fini(&x);
		return is ? &m : NULL;
	}
}

static void is_held_here_alone(void)
{
	MUST(ww_mutex_is_held_by(&m, NULL));
	for (size_t k = 0; k < ASKS; k++) {
		pthread_t thread = begin_thread(says, (void *)k);
		void *said;

		MUST(!pthread_join(thread, &said) && !said);
	}
	ww_mutex_unlock(&m);
	MUST(!ww_mutex_is_held_by(&m, NULL));
}

/* By any seat, by its own, and by one more beside that. */
static void *holds(void *began)
{
	struct ww_acquire_ctx x;

	if (began) {
		ww_acquire_init(&x, &boxes);
		ww_acquire_fini(&x);
	}
	ww_mutex_lock(&m, NULL);
	is_held_here_alone();
	MUST(ww_mutex_trylock(&m, NULL) == 1);
	is_held_here_alone();
	ww_mutex_lock(&another, NULL);
	ww_mutex_lock(&m, NULL);
	ww_mutex_unlock(&another);
	is_held_here_alone();
	return NULL;
}

/* By the seat that lies right before those of threads, for which a thread without one may not take it. */
static void holds_by_the_last(void)
{
	static struct ww_acquire_ctx all[MANY];
	const ww_seat *last = boxes.pool->before_own;
	unsigned count = 0;

	do {
		MUST(count < MANY && !ww_acquire_init_checked(&all[count], &boxes));
	} while (all[count++].own != last);
	ww_acquire_fini(&all[--count]);
	MUST(ww_mutex_trylock(&m, NULL) == 1 && seat_of(&m) == last);
	is_held_here_alone();
	ww_mutex_lock(&m, NULL);
	MUST(seat_of(&m) == last);
	is_held_here_alone();
	while (count--)
		ww_acquire_fini(&all[count]);
}

static void *waits_for_a_seat(void *arg)
{
	ww_mutex_lock(arg, NULL);
	MUST(ww_mutex_is_held_by(arg, NULL));
	ww_mutex_unlock(arg);
	return NULL;
}

/* By a seat for which it waited, since the only one was in use. */
static void holds_by_the_only(void)
{
	static struct ww_class narrow = { .contexts = 1 };
	struct ww_acquire_ctx x;
	struct ww_mutex one;
	pthread_t thread;

	ww_mutex_init(&one, &narrow);
	ww_acquire_init(&x, &narrow);
	thread = begin_thread(waits_for_a_seat, &one);
	awaits_waiter(&one);
	ww_acquire_fini(&x);
	end_thread(thread);
}

int main(void)
{
	ww_mutex_init(&m, &boxes);
	ww_mutex_init(&another, &boxes);
	ww_mutex_init(&elsewhere, &others);
	end_thread(begin_thread(holds, &m)); /* first: nobody has locked by any seat yet */
	end_thread(begin_thread(holds, NULL));
	holds(NULL);
	holds_by_the_last();
	holds_by_the_only();
	puts("held_by: who acquired it, and nobody else");
	return 0;
}
