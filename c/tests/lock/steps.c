/*
 * What a call does between its steps, as ww_steps.h demands of its callers.
 *
 * After WW_AGAIN, when its seat may be inside a guard, it makes the next step and nothing else; and where somebody can
 * be due it asks whom to wake, until nobody is.  The steps, the library's locks and its system calls come by wrappers
 * (ld --wrap).
 */
#include "../mutex_test.h"
#include "../../lock/wait.h"
#include "ww_shared.h"
#include <stdarg.h>
#include <sys/syscall.h>

static DEFINE_WW_CLASS(wound_wait);
static DEFINE_WD_CLASS(wait_die);
static struct ww_class *c;
static struct ww_mutex m;

/* The call of this thread that was on its way last: its seat, what its last step answered, and whether it then asked to the end. */
static __thread struct {
	const ww_handle *seat;
	int32_t answer;
	bool asked;
	unsigned seen; /* a bit for each answer */
} at;
static __thread struct ww_acquire_ctx *cancelled_amid; /* before the first step, and behind each that answers WW_AGAIN, as by another thread */
static void (*before_a_step)(void); /* as another thread would, once */
static __thread unsigned shut_out, slept; /* so many tries to go inside a guard are in vain; and how often it slept behind one */
static __thread unsigned looks; /* at locks */
static __thread void (*asleep)(void); /* in place of its next sleep */

static bool has_to_ask(int32_t answer) { return answer <= 0 || answer == WW_SLEEPS; }
static void does_anything_else(void) { MUST(at.answer != WW_AGAIN); }

int32_t __real_ww_go_on_(ww_handle *seat);
int32_t __wrap_ww_go_on_(ww_handle *seat);
int32_t __wrap_ww_go_on_(ww_handle *seat)
{
	int32_t r;

	MUST(!at.seat || at.asked == has_to_ask(at.answer));
	if (cancelled_amid && has_to_ask(at.answer))
		ww_acquire_cancel(cancelled_amid);
	if (before_a_step) {
		void (*what)(void) = before_a_step;

		before_a_step = NULL;
		what();
	}
	r = shut_out ? WW_AWAITS : __real_ww_go_on_(seat);
	shut_out -= !!shut_out;
	if (r == WW_AGAIN && cancelled_amid)
		ww_acquire_cancel(cancelled_amid);
	at.seat = seat;
	at.answer = r;
	at.asked = false;
	at.seen |= r > 0 ? 1u << r : 1;
	return r;
}

int32_t __real_ww_next_wake_(ww_handle *seat);
int32_t __wrap_ww_next_wake_(ww_handle *seat);
int32_t __wrap_ww_next_wake_(ww_handle *seat)
{
	int32_t r;

	does_anything_else();
	r = __real_ww_next_wake_(seat);
	if (seat == at.seat) {
		MUST(has_to_ask(at.answer) && !at.asked);
		at.asked = r < 0;
	}
	return r;
}

int32_t __real_ww_cancel_(ww_handle *seat, uint16_t victim);
int32_t __wrap_ww_cancel_(ww_handle *seat, uint16_t victim);
int32_t __wrap_ww_cancel_(ww_handle *seat, uint16_t victim)
{
	does_anything_else();
	return __real_ww_cancel_(seat, victim);
}

int32_t __real_ww_look_(ww_handle *seat, uint32_t lock);
int32_t __wrap_ww_look_(ww_handle *seat, uint32_t lock);
int32_t __wrap_ww_look_(ww_handle *seat, uint32_t lock)
{
	looks++;
	return __real_ww_look_(seat, lock);
}

int __real_pthread_mutex_lock(pthread_mutex_t *mutex);
int __wrap_pthread_mutex_lock(pthread_mutex_t *mutex);
int __wrap_pthread_mutex_lock(pthread_mutex_t *mutex)
{
	does_anything_else();
	return __real_pthread_mutex_lock(mutex);
}

static __thread const struct timespec *sleeps_until;
long __real_syscall(long number, ...);
long __wrap_syscall(long number, ...);
long __wrap_syscall(long number, ...)
{
	long words[6] = { 0 };
	va_list list;

	va_start(list, number);
	for (unsigned k = 0; k < (number == SYS_futex ? 6 : 3); k++)
		words[k] = va_arg(list, long);
	va_end(list);
	does_anything_else();
	slept += at.answer == WW_AWAITS;
	sleeps_until = (const struct timespec *)words[3];
	if (asleep) {
		void (*what)(void) = asleep;

		asleep = NULL;
		what();
		return 0;
	}
	return __real_syscall(number, words[0], words[1], words[2], words[3], words[4], words[5]);
}

/* An older context of this thread holds the mutex, so each of these waits until it is cancelled, or until its time. */
static void waits_in_vain(void)
{
	struct ww_acquire_ctx older, x;

	ww_acquire_init(&older, c);
	ww_acquire_init(&x, c);
	MUST(!ww_mutex_lock(&m, &older));
	at.seen = 0;
	/* Where processors are short its time may come before it sleeps. */
	for (long ms = 20; !(at.seen & 1u << WW_SLEEPS); ms *= 2) {
		struct timespec soon = in_ms(ms);

		MUST(ms < 100000 && ww_mutex_lock_until(&m, &x, &soon) == -ETIMEDOUT && at.asked);
	}
	cancelled_amid = &x;
	for (unsigned k = 0; k < 3; k++)
		MUST(ww_mutex_lock_interruptible(&m, &x) == -EINTR && at.asked);
	cancelled_amid = NULL;
	ww_mutex_unlock(&m);
	ww_acquire_fini(&x);
	ww_acquire_fini(&older);
}

/* It doesn't stay awake for long, and doesn't only let others run: the one inside may be of a lower priority. */
static void is_shut_out(void)
{
	struct ww_acquire_ctx older, x;
	struct timespec soon = in_ms(1);

	ww_acquire_init(&older, c);
	ww_acquire_init(&x, c);
	MUST(!ww_mutex_lock(&m, &older));
	shut_out = 1000;
	slept = 0;
	MUST(ww_mutex_lock_until(&m, &x, &soon) == -ETIMEDOUT && !shut_out && slept > 200);
	ww_mutex_unlock(&m);
	ww_acquire_fini(&x);
	ww_acquire_fini(&older);
}

static uint32_t number;
static struct ww_acquire_ctx holder;

static void is_released_just_then(void) { MUST(!ww_number_unlock(number, &holder) && ww_number_put(number, c) == -EBUSY); }

/* A thread that waits for a number, and hasn't seen yet that it is free, gets it: it isn't put back meanwhile. */
static void is_awaited(void)
{
	struct ww_acquire_ctx x;

	ww_acquire_init(&holder, c);
	ww_acquire_init(&x, c);
	MUST(!ww_number_take(&number, c) && !ww_number_lock(number, &holder));
	before_a_step = is_released_just_then;
	MUST(!ww_number_lock(number, &x) && !before_a_step);
	MUST(ww_number_put(number, c) == -EBUSY && !ww_number_unlock(number, &x) && !ww_number_put(number, c));
	ww_acquire_fini(&x);
	ww_acquire_fini(&holder);
}

/* As many threads have seats of their own as there are processors, and so many more. */
static void are_more(uint32_t threads) { ww_threads = c->pool->processors + threads; }

static uint32_t more;

/* The mutex is released, and who waits for it hasn't gone on yet. */
static void has_no_owner(void)
{
	struct ww_acquire_ctx y;

	ww_acquire_init(&y, c);
	ww_mutex_unlock(&m);
	are_more(more % 2);
	looks = 0;
	MUST(!ww_mutex_lock(&m, &y) && (more ? looks == 1 : looks > 1));
	ww_mutex_unlock(&m);
	ww_acquire_fini(&y);
}

/*
 * Waits that were over soon, then ten that took too long, and then such as the first ones: from six of the long ones on the thread stays
 * awake for less long, until four were over soon again.  If the machine paused in a wait that was to be over soon, all begins anew.
 */
static void stays_awake_by_its_waits(ww_seat *s, uint64_t most)
{
	const struct ww_how how = { .who = THREAD };

	ww_mine.too_long = 0;
	for (unsigned k = 0; k < 30; k++) {
		struct ww_wait wait = ww_wait_of(s, NULL, &how);

		MUST(wait.awake == wait.from + (k >= 16 && k < 24 ? 500 : most));
		wait.from -= k / 10 == 1 ? most : 0;
		ww_learn_from(s, &wait);
		if (k / 10 != 1 && ww_now() - wait.from >= most) {
			ww_mine.too_long = 0;
			k = UINT32_MAX;
		}
	}
}

static void waits_without_an_owner(struct ww_acquire_ctx *x)
{
	struct ww_acquire_ctx older;

	ww_acquire_init(&older, c);
	ww_acquire_init(x, c);
	MUST(!ww_mutex_lock(&m, &older));
	asleep = has_no_owner;
	MUST(!ww_mutex_lock(&m, x) && !asleep);
	ww_mutex_unlock(&m);
	ww_acquire_fini(&older);
}

/*
 * Where threads are short of processors a call takes a mutex that nobody owns, though another thread waits for that, and doesn't look
 * at it any longer; and it stays awake for less long.  So it is in a class without threads' own seats, in which nobody knows that each
 * thread has a processor.
 */
static void by_processors(void)
{
	struct ww_class said, *was = c;
	struct ww_acquire_ctx x;
	uint32_t threads = ww_threads;

	for (more = 0; more < 2; more++) {
		waits_without_an_owner(&x);
		stays_awake_by_its_waits(x.own, more ? 20000 : 100000);
		ww_acquire_fini(&x);
	}
	ww_threads = threads;
	MUST(!ww_mutex_destroy(&m));
	c = &said;
	ww_class_init(c, was == &wait_die, "said");
	MUST(!ww_class_limit(c, 1, 3));
	ww_mutex_init(&m, c);
	waits_without_an_owner(&x);
	ww_acquire_fini(&x);
	MUST(!ww_mutex_destroy(&m) && !ww_class_free(c));
	c = was;
	ww_mutex_init(&m, c);
	ww_threads = threads;
}

/*
 * Each of three contexts waits for a mutex of the next one.  The call that ends such a cycle sees that at its first look: it stays awake
 * for no more of them.
 */
static void is_in_a_cycle(void)
{
	enum { ALL = 3 };
	const unsigned who = c == &wait_die ? ALL - 1 : 0, next = (who + 1) % ALL;
	struct ww_mutex of[ALL];
	struct ww_acquire_ctx x[ALL];
	struct timespec soon;

	for (unsigned k = 0; k < ALL; k++) {
		ww_mutex_init(&of[k], c);
		ww_acquire_init(&x[k], c);
		MUST(!ww_mutex_lock(&of[k], &x[k]));
	}
	for (unsigned k = 0; k < ALL; k++)
		x[k].own->awaits = k == who ? 0 : of[(k + 1) % ALL].number + 1;
	soon = in_ms(1);
	looks = 0;
	MUST(ww_mutex_lock_until(&of[next], &x[who], &soon) == (c == &wait_die ? -EDEADLK : -ETIMEDOUT) && looks == ALL);
	for (unsigned k = 0; k < ALL; k++) {
		x[k].own->awaits = 0;
		ww_mutex_unlock(&of[k]);
	}
	for (unsigned k = 0; k < ALL; k++) {
		ww_acquire_fini(&x[k]);
		MUST(!ww_mutex_destroy(&of[k]));
	}
}

/* ---- by several threads, where a step is made in vain inside a guard ---- */

enum { WAITERS = 2, ROUNDS = 1000, LOCKS = 50 };
static unsigned waiting;

static bool are_waiting(void) { return __atomic_load_n(&waiting, __ATOMIC_SEQ_CST); }

static void *waits(void *arg)
{
	for (unsigned k = 0; k < ROUNDS; k++) {
		struct ww_acquire_ctx x;

		ww_acquire_init(&x, c);
		cancelled_amid = &x;
		for (unsigned j = 0; j < LOCKS; j++) {
			int r = ww_mutex_lock_interruptible(&m, &x);

			MUST(!r || r == -EINTR);
			if (!r)
				ww_mutex_unlock(&m);
		}
		cancelled_amid = NULL;
		ww_acquire_fini(&x);
	}
	__atomic_fetch_sub(&waiting, 1, __ATOMIC_SEQ_CST);
	return arg;
}

static void *tries(void *arg)
{
	while (are_waiting()) {
		struct ww_acquire_ctx x;

		ww_acquire_init(&x, c);
		for (unsigned k = 0; k < LOCKS; k++)
			if (ww_mutex_trylock(&m, &x))
				ww_mutex_unlock(&m);
		ww_acquire_fini(&x);
	}
	return arg;
}

/* It has the lock that a cancel takes for most of the time. */
static void *asks(void *arg)
{
	MUST(!ww_number_take(&number, c));
	while (are_waiting())
		MUST(!ww_mutex_is_locked(&ww_number_at(number, c)->mutex_));
	MUST(!ww_number_put(number, c));
	return arg;
}

static void in_a_storm(void)
{
	pthread_t threads[WAITERS + 2];

	waiting = WAITERS;
	for (unsigned k = 0; k < WAITERS + 2; k++)
		threads[k] = begin_thread(k < WAITERS ? waits : k == WAITERS ? tries : asks, NULL);
	for (unsigned k = 0; k < WAITERS + 2; k++)
		end_thread(threads[k]);
}

/* ---- a thread waits for a context until a time, while its own seat is in use ---- */

static struct ww_acquire_ctx by_own, all_others[MANY_CONTEXTS];
static struct timespec awaited;
static bool is_asleep;

static uint64_t of_time(const struct timespec *time) { return (uint64_t)time->tv_sec * 1000000000 + (uint64_t)time->tv_nsec; }

/* It sleeps until that time at most, and at most for a lease, since nobody hands it its own seat, which comes free then. */
static void sleeps_for_own(void)
{
	MUST(of_time(sleeps_until) <= of_time(&awaited) && of_time(sleeps_until) <= ww_now() + LEASE);
	is_asleep = true;
	ww_acquire_fini(&by_own);
}

static void waits_for_its_own(uint64_t soon)
{
	struct ww_acquire_ctx x;

	for (is_asleep = false; !is_asleep; asleep = NULL) {
		uint64_t until = ww_now() + soon;

		awaited = (struct timespec){ .tv_sec = (time_t)(until / 1000000000), .tv_nsec = (long)(until % 1000000000) };
		asleep = sleeps_for_own;
		MUST(ww_acquire_init_until(&x, c, &awaited) == (is_asleep ? 0 : -ETIMEDOUT));
	}
	by_own = (struct ww_acquire_ctx){ 0 };
	ww_acquire_fini(&x);
	ww_acquire_init(&by_own, c);
}

static void sleeps_until_the_earlier(void)
{
	ww_acquire_init(&by_own, c);
	for (uint32_t k = 0; k < MANY_CONTEXTS; k++)
		MUST(!ww_acquire_init_checked(&all_others[k], c));
	for (unsigned k = 0; k < 10; k++) {
		waits_for_its_own(LEASE / 2);
		waits_for_its_own((uint64_t)10000000000);
	}
	for (uint32_t k = 0; k < MANY_CONTEXTS; k++)
		ww_acquire_fini(&all_others[k]);
	ww_acquire_fini(&by_own);
}

int main(void)
{
	for (unsigned kind = 0; kind < 2; kind++) {
		c = kind ? &wait_die : &wound_wait;
		ww_mutex_init(&m, c);
		waits_in_vain();
		is_shut_out();
		is_awaited();
		sleeps_until_the_earlier();
		by_processors();
		is_in_a_cycle();
		in_a_storm();
		MUST(!ww_mutex_destroy(&m) && !ww_class_free(c));
	}
	puts("steps: behind WW_AGAIN the next step, short sleeps before a guard, and nobody is asked for in vain");
	return 0;
}
