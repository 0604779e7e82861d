/*
 * When a waker comes, beside threads, and loops that watch a descriptor and are torn down.
 *
 * It comes at most once for each poll that waited, exactly once if ww_poll_take_back returned false, and never if it
 * returned true; it may come after another poll ended the wait.  Loops are torn down while others wake their tasks: by
 * the rule of ww_poll.h (each batch has one write, so it is taken only after a read that succeeded) nothing is written
 * behind their end.  Pauses before the write and after each unlock come by wrappers (ld --wrap).  poll_wakers [ROUNDS]
 */
#include "../mutex_test.h"
#include "ww_poll.h"
#include <fcntl.h>
#include <poll.h>
#include <stdarg.h>
#include <sys/eventfd.h>
#include <sys/syscall.h>

static DEFINE_WW_CLASS(wound_wait);
static DEFINE_WD_CLASS(wait_die);
static struct ww_class *c;
static struct ww_mutex m[2];
static unsigned rounds = 5000;
static bool stop;

/* ---- pauses, in threads that end waits ---- */

static __thread unsigned drawn; /* 0: none in this thread */

static void pauses(unsigned often)
{
	if (drawn && next(&drawn) % often == 0)
		usleep(next(&drawn) % 100);
}

static char written; /* what a write orders, before the read that finds it: the thread sanitizer knows it by this alone */

long __real_syscall(long number, ...);
long __wrap_syscall(long number, ...);
long __wrap_syscall(long number, ...)
{
	va_list list;
	long a[6] = { 0 };

	va_start(list, number);
	for (unsigned k = 0; k < (number == SYS_futex ? 6 : 3); k++)
		a[k] = va_arg(list, long);
	va_end(list);
	if (number == SYS_write) {
		pauses(2);
		__tsan_release(&written);
	}
	return __real_syscall(number, a[0], a[1], a[2], a[3], a[4], a[5]);
}

int __real_pthread_mutex_unlock(pthread_mutex_t *lock);
int __wrap_pthread_mutex_unlock(pthread_mutex_t *lock);
int __wrap_pthread_mutex_unlock(pthread_mutex_t *lock)
{
	int r = __real_pthread_mutex_unlock(lock);

	pauses(8);
	return r;
}

/* ---- threads that hold what tasks want, for a moment each ---- */

enum { DISTURBERS = 2 };
static unsigned long turns;

static void *disturbs(void *arg)
{
	size_t me = (size_t)arg;

	drawn = 77 * (unsigned)me + 5;
	while (!__atomic_load_n(&stop, __ATOMIC_RELAXED)) {
		struct ww_acquire_ctx x;
		unsigned first = next(&drawn) % 2;

		if (c == &wait_die) {
			ww_acquire_init(&x, c);
		} else if (ww_acquire_init_poll(&x, c, NULL, NULL)) {
			sched_yield();
			continue;
		}
		ww_until_all_locked(&x) {
			int r = ww_mutex_lock(&m[first], &x);

			ww_retry_on_contention(&x);
			MUST(!r);
			if (next(&drawn) % 2)
				usleep(next(&drawn) % 50);
			r = ww_mutex_lock(&m[!first], &x);
			ww_retry_on_contention(&x);
			MUST(!r);
		}
		__atomic_add_fetch(&turns, 1, __ATOMIC_RELAXED);
		ww_acquire_unlock_all(&x);
		ww_acquire_fini(&x);
		sched_yield();
	}
	return NULL;
}

static void with_disturbers(void (*what)(void))
{
	pthread_t threads[DISTURBERS];

	stop = false;
	turns = 0;
	for (size_t k = 0; k < DISTURBERS; k++)
		threads[k] = begin_thread(disturbs, (void *)k);
	while (__atomic_load_n(&turns, __ATOMIC_RELAXED) < 10)
		usleep(100);
	what();
	__atomic_store_n(&stop, true, __ATOMIC_RELAXED);
	for (unsigned k = 0; k < DISTURBERS; k++)
		end_thread(threads[k]);
}

/* ---- how often each waker is called ---- */

/* One for each poll, and kept to the end. */
struct lent {
	unsigned calls;
	bool taken, refused; /* back; what it returned was true, or false */
};
enum { MANY = 100000 };
static struct lent lents[MANY];
static unsigned lent;

static void counts(void *nothing, void *it)
{
	MUST(!nothing);
	__atomic_add_fetch(&((struct lent *)it)->calls, 1, __ATOMIC_SEQ_CST);
}

/* Waits for its call, or for a moment. */
static void awaits_call(const struct lent *it, bool surely)
{
	for (unsigned k = 0; (surely || k < 50) && !__atomic_load_n(&it->calls, __ATOMIC_SEQ_CST); k++)
		usleep(20);
}

/* Polls until the wait is over, the last one by NULL perhaps; what it returned. */
static int polls(struct ww_acquire_ctx *x, struct ww_seek *seek, struct ww_mutex *lock)
{
	static unsigned draws = 1;

	for (;;) {
		struct lent *it = lent < MANY ? &lents[lent++] : NULL;
		struct ww_waker waker = { counts, NULL, it };
		int r = seek ? ww_acquire_init_poll(x, c, seek, it ? &waker : NULL) : ww_mutex_lock_poll(lock, x, it ? &waker : NULL);

		if (r != -EINPROGRESS)
			return r;
		switch (next(&draws) % 4) {
		case 0: break; /* the next poll comes without need */
		case 1: awaits_call(it, false); break;
		case 2: usleep(next(&draws) % 60); /* fall through */
		default:
			it->taken = ww_poll_take_back(x, seek);
			it->refused = !it->taken;
			if (it->refused)
				awaits_call(it, true);
			else
				MUST(!ww_poll_take_back(x, seek) && !__atomic_load_n(&it->calls, __ATOMIC_SEQ_CST));
		}
	}
}

static void a_task_polls(void)
{
	for (unsigned k = 0; k < rounds && lent < MANY; k++) {
		struct ww_acquire_ctx x;
		struct ww_seek seek = { 0 };
		struct ww_mutex *first = &m[k % 2], *second = &m[!(k % 2)];
		int r = polls(&x, &seek, NULL);

		if (r)
			continue;
		r = polls(&x, NULL, first);
		while (!r && (r = polls(&x, NULL, second)) == -EDEADLK) {
			struct ww_mutex *was = first;

			ww_mutex_unlock(first);
			r = polls(&x, NULL, first = second);
			second = was;
		}
		if (!r)
			ww_mutex_unlock(second);
		if (ww_mutex_is_held_by(first, &x))
			ww_mutex_unlock(first);
		ww_acquire_fini(&x);
	}
}

static void wakers_come_once(void)
{
	lent = 0;
	memset(lents, 0, sizeof lents);
	with_disturbers(a_task_polls);
	for (unsigned k = 0; k < lent; k++)
		MUST(lents[k].taken ? !lents[k].calls : lents[k].refused ? lents[k].calls == 1 : lents[k].calls <= 1);
}

/* ---- loops that are torn down ---- */

/* A loop of its own for each of a few waits; then its descriptor's number is that of a file with this in it. */
static const char content[] = "what a file has that another part of the program made";

struct loop {
	struct ww_event event;
	struct ww_woken woken[2];
	unsigned lent; /* which are, and come by the event */
};

/* Reads the descriptor, and takes what was woken. */
static void takes_a_batch(struct loop *l)
{
	struct pollfd p = { .fd = l->event.descriptor, .events = POLLIN };
	eventfd_t count = 0;
	int r;

	while ((r = poll(&p, 1, 100)) <= 0)
		MUST(r == 0 || errno == EINTR);
	MUST(!eventfd_read(l->event.descriptor, &count) && count == 1);
	__tsan_acquire(&written);
	for (struct ww_woken *it = ww_event_take(&l->event), *after; it; it = after) {
		after = it->next;
		MUST(l->lent & 1u << (it - l->woken));
		l->lent &= ~(1u << (it - l->woken));
	}
}

/* All who were lent a waker are through with it, or come, and have written once they are taken. */
static void ends_loop(struct loop *l)
{
	while (l->lent)
		takes_a_batch(l);
	MUST(!l->event.first_ && !close(l->event.descriptor));
	memset(l, 0x55, sizeof *l);
	free(l);
}

/* A task of the loop polls for a mutex, which it releases at once; whether it is through, be it in vain. */
static bool goes_through(struct loop *l, unsigned k, struct ww_acquire_ctx *x, unsigned times)
{
	struct ww_waker waker = { ww_event_wake, &l->event, &l->woken[k] };
	int r;

	l->lent |= 1u << k; /* it may be called before the poll returns */
	r = ww_mutex_lock_poll(&m[k], x, times < 3 ? &waker : NULL);
	if (r != -EINPROGRESS || (times % 2 && ww_poll_take_back(x, NULL)))
		l->lent &= ~(1u << k);
	if (!r)
		ww_mutex_unlock(&m[k]);
	return r != -EINPROGRESS;
}

/* Both tasks, whose wakers may come in one batch. */
static void runs(struct loop *l, unsigned draws)
{
	struct ww_acquire_ctx x[2];
	unsigned times[2] = { draws % 2, draws / 2 % 2 }, runs = 0;

	for (unsigned k = 0; k < 2; k++)
		runs |= (unsigned)!ww_acquire_init_poll(&x[k], c, NULL, NULL) << k;
	while (runs) {
		for (unsigned k = 0; k < 2; k++) {
			if (!(runs & ~l->lent & 1u << k) || !goes_through(l, k, &x[k], times[k]++))
				continue;
			runs &= ~(1u << k);
			ww_acquire_fini(&x[k]);
		}
		if (runs && runs == (runs & l->lent))
			takes_a_batch(l);
	}
}

static void file_is_as_made(int file)
{
	char there[sizeof content + 16];

	MUST(pread(file, there, sizeof there, 0) == sizeof content && !memcmp(there, content, sizeof content));
	MUST(!close(file));
}

static void loops_come_and_go(void)
{
	unsigned draws = 3;
	int file = -1;

	for (unsigned k = 0; k < rounds; k++) {
		struct loop *l = malloc(sizeof *l);
		char name[] = "/tmp/poll_wakers_XXXXXX";
		int last;

		MUST(l);
		memset(l, 0, sizeof *l);
		l->event.descriptor = eventfd(0, EFD_NONBLOCK);
		last = l->event.descriptor;
		MUST(last >= 0);
		runs(l, next(&draws));
		ends_loop(l);
		if (file >= 0)
			file_is_as_made(file);
		file = mkstemp(name);
		MUST(file >= 0 && !unlink(name));
		if (file != last) { /* it gets the number of that descriptor */
			MUST(dup2(file, last) == last && !close(file));
			file = last;
		}
		MUST(pwrite(file, content, sizeof content, 0) == sizeof content && !lseek(file, 0, SEEK_SET));
	}
	file_is_as_made(file);
}

/* However many are woken before they are taken; and the last one that was woken comes first. */
static void each_batch_has_one_write(void)
{
	struct ww_event event = { .descriptor = eventfd(0, EFD_NONBLOCK) };
	struct ww_woken tasks[3];
	uint64_t writes;

	MUST(event.descriptor >= 0);
	for (unsigned k = 0; k < 4; k++) {
		struct ww_woken *it;

		for (unsigned j = 0; j < 3; j++)
			ww_event_wake(&event, &tasks[j]);
		MUST(read(event.descriptor, &writes, sizeof writes) == sizeof writes && writes == 1);
		it = ww_event_take(&event);
		for (unsigned j = 3; j--; it = it->next)
			MUST(it == &tasks[j]);
		MUST(!it && !ww_event_take(&event) && read(event.descriptor, &writes, sizeof writes) == -1);
	}
	MUST(!close(event.descriptor));
}

static void all(struct ww_class *of)
{
	c = of;
	for (unsigned k = 0; k < 2; k++)
		ww_mutex_init(&m[k], c);
	wakers_come_once();
	with_disturbers(loops_come_and_go);
	for (unsigned k = 0; k < 2; k++)
		MUST(!ww_mutex_destroy(&m[k]));
	MUST(!ww_class_free(c));
}

int main(int count, char **words)
{
	cpu_set_t usable, one;

	if (count > 1)
		rounds = (unsigned)atoi(words[1]);
	CPU_ZERO(&one); /* so tasks have two contexts */
	CPU_SET((size_t)sched_getcpu(), &one);
	MUST(!sched_getaffinity(0, sizeof usable, &usable) && !sched_setaffinity(0, sizeof one, &one) && !ww_class_open(&wound_wait));
	MUST(!sched_setaffinity(0, sizeof usable, &usable));
	each_batch_has_one_write();
	all(&wound_wait);
	MUST(!ww_class_limit(&wait_die, 0, 2));
	all(&wait_die);
	puts("poll_wakers: each comes once at most, and none behind the end of its loop");
	return 0;
}
