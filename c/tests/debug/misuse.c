/*
 * What libww_debug reports of wrong calls: each misuse, with its line and a backtrace.
 *
 * It returns -EDEADLK without need, after which a program goes on; and it shows who waits for whom (with the word
 * `waits` the test does only that, for tools/picture).
 */
#ifndef WW_DEBUG
#define WW_DEBUG
#endif
#include "../mutex_test.h"
#include "../said.h"
#include "ww_number.h"
#include "ww_poll.h"
#include "ww_shared.h"
#include "ww_table.h"
#include <fcntl.h>
#include <sys/mman.h>
#include <sys/wait.h>

static DEFINE_WD_CLASS(c);
static DEFINE_WW_CLASS(other);
static struct ww_mutex a, b, its;
static struct ww_acquire_ctx x, y; /* x is older; they hold a and b */
/* Of a child: the line of the call that is reported, and of the one that got -EDEADLK before. */
static struct lines {
	int here, asked;
} *lines;
#define HERE(call) (lines->here = __LINE__, (call))

static void wrong_class(void) { MUST(HERE(ww_mutex_lock(&its, &x)) == -EINVAL); }
static void wrong_class_again_and_again(void)
{
	for (unsigned k = 0; k < 9; k++)
		wrong_class();
	MUST(ww_debug_faults() == 9);
}
static void of_each_class(void)
{
	for (unsigned k = 0; k < 2; k++)
		MUST(HERE(ww_class_limit(k ? &other : &c, 8, 8)) == -EBUSY);
}
static void after_done(void)
{
	ww_acquire_done(&x);
	ww_mutex_unlock(&b);
	MUST(!HERE(ww_mutex_lock(&b, &x)) && x.acquired == 2);
}
static void tries_after_done(void)
{
	ww_acquire_done(&x);
	ww_mutex_unlock(&b);
	MUST(HERE(ww_mutex_trylock(&b, &x)) && x.acquired == 2);
}
static void done_twice(void)
{
	ww_acquire_done(&x);
	HERE(ww_acquire_done(&x));
}
static void fini_with_a_mutex(void) { HERE(ww_acquire_fini(&x)); }
static void fini_while_it_reads(void)
{
	static struct ww_shared_mutex read;

	ww_shared_mutex_init(&read, &c);
	ww_mutex_unlock(&a);
	MUST(!ww_shared_mutex_lock_shared(&read, &x));
	HERE(ww_acquire_fini(&x));
}
static void downgrades_what_it_reads(void)
{
	static struct ww_shared_mutex read;

	ww_shared_mutex_init(&read, &c);
	MUST(!ww_shared_mutex_lock_shared(&read, &x));
	HERE(ww_shared_mutex_downgrade(&read, &x));
}
static void locks_no_number(void) { MUST(HERE(ww_number_lock(UINT32_MAX, &x)) == -EINVAL); }
static void is_told(void)
{
	y.deadlock_inject_countdown = ~0u;
	lines->asked = __LINE__ + 1;
	MUST(ww_mutex_lock(&a, &y) == -EDEADLK);
}
static void another_after_deadlk(void)
{
	is_told();
	MUST(HERE(ww_mutex_lock_interruptible(&its, &y)) == -EINVAL);
}
static void holds_after_deadlk(void)
{
	is_told();
	MUST(HERE(ww_mutex_lock(&a, &y)) == -EINVAL);
}
/* As after pthread_mutex_lock: nothing has looked at what the lock call returned. */
static void unlocks_what_nobody_holds(void)
{
	is_told();
	ww_mutex_unlock(&a);
	HERE(ww_mutex_unlock(&a));
}
static void *unlocks_what_another_holds(void *arg)
{
	is_told();
	HERE(ww_mutex_unlock(&a));
	return arg;
}
static void unlocks_anothers(void) { end_thread(begin_thread(unlocks_what_another_holds, NULL)); }
static void ends_without_looking(void)
{
	is_told();
	HERE(ww_acquire_fini(&y));
}
static void another_first(void)
{
	is_told();
	ww_mutex_unlock(&b);
	MUST(!HERE(ww_mutex_lock(&b, &y)));
}
static void tries_another_first(void)
{
	is_told();
	ww_mutex_unlock(&b);
	MUST(HERE(ww_mutex_trylock(&b, &y)));
}
static void retries_at_once(void)
{
	ww_mutex_unlock(&b);
	ww_acquire_fini(&y);
	ww_acquire_init(&y, &c);
	ww_acquire_begin_tries(&y);
	MUST(!ww_mutex_lock(&b, &y));
	is_told();
	MUST(ww_acquire_end_try(&y));
	lines->asked = __LINE__ + 1;
	ww_acquire_unlock_all(&y);
	MUST(!HERE(ww_mutex_lock(&b, &y)));
}
static void slow_without_cause(void) { MUST(HERE(ww_mutex_lock_slow_interruptible(&b, &x)) == -EINVAL); }
static void slow_ends(void) { HERE(ww_mutex_lock_slow(&b, &x)); }
static void destroys_held(void) { MUST(HERE(ww_mutex_destroy(&a)) == -EBUSY); }
static void destroys_twice(void)
{
	MUST(!ww_mutex_destroy(&its));
	MUST(HERE(ww_mutex_destroy(&its)) == -EINVAL);
}
static void unlocks_in_vain(void) { HERE(ww_mutex_unlock(&its)); }
static void *unlocks_a(void *arg)
{
	(void)arg;
	HERE(ww_mutex_unlock(&a));
	return NULL;
}
static void unlocked_by_another(void) { end_thread(begin_thread(unlocks_a, NULL)); }
static void told_without_need(void)
{
	x.deadlock_inject_countdown = 0;
	MUST(ww_mutex_lock(&its, &x) == -EINVAL);
	ww_mutex_init(&its, &c);
	lines->asked = __LINE__ + 1;
	MUST(ww_mutex_lock(&its, &x) == -EDEADLK && !its.ctx);
	/* From here on each answer is as after one that wasn't made up. */
	MUST(ww_mutex_lock(&a, &x) == -EALREADY && !ww_mutex_trylock(&a, &x) && !ww_mutex_trylock(&its, &x) && x.acquired == 1);
	MUST(HERE(ww_mutex_lock(&its, &x)) == -EINVAL);
}

static void names_a_copy(void)
{
	struct ww_mutex copy = a;

	HERE(ww_mutex_name(&copy, "copy"));
}
static void names_none(void)
{
	static struct ww_mutex none;

	HERE(ww_mutex_name(&none, "none"));
}
static void locks_a_copy(void)
{
	struct ww_mutex copy = a;

	MUST(HERE(ww_mutex_lock(&copy, &x)) == -EALREADY);
}
static void unlocks_a_copy(void)
{
	struct ww_mutex copy = a;

	HERE(ww_mutex_unlock(&copy));
}
static void unlocks_a_copy_without_context(void)
{
	struct ww_mutex copy;

	ww_mutex_lock(&its, NULL);
	copy = its;
	HERE(ww_mutex_unlock(&copy));
}
/* By then its context, whose memory is another's, has ended. */
static void unlocks_behind_a_copy(void)
{
	struct ww_mutex copy = a;

	ww_mutex_unlock(&copy);
	ww_acquire_fini(&x);
	memset(&x, 0x5a, sizeof x);
	HERE(ww_mutex_unlock(&a));
}
static void ends_behind_a_copy(void)
{
	struct ww_acquire_ctx copy;

	ww_mutex_unlock(&a);
	copy = x;
	ww_acquire_fini(&copy);
	ww_acquire_init(&copy, &c); /* by the same seat */
	HERE(ww_acquire_fini(&x));
}
static void never(void *loop, void *task) { MUST(loop == task && !loop); }
static void locks_amid_a_poll(void)
{
	const struct ww_waker waker = { never, NULL, &x };

	MUST(ww_mutex_lock_poll(&b, &x, &waker) == -EINPROGRESS && HERE(ww_mutex_lock(&its, &x)) == -EBUSY);
}
static void locks_slowly_without_context(void) { MUST(HERE(ww_mutex_lock_slow_interruptible(&a, NULL)) == -EINVAL); }
static void unlocks_what_was_made_anew(void)
{
	ww_mutex_init(&a, &c);
	HERE(ww_mutex_unlock(&a));
}
static void locks_by_garbage(void)
{
	static struct ww_acquire_ctx garbage;

	memset(&garbage, 0x5a, sizeof garbage);
	MUST(HERE(ww_mutex_lock(&its, &garbage)) == -EINVAL);
}
static void limits_late(void) { MUST(HERE(ww_class_limit(&c, 8, 8)) == -EBUSY && HERE(ww_class_crowd(&c, 8)) == -EBUSY); }
static void overwrites_a_context(void)
{
	ww_mutex_init(&its, &c);
	x.state = 8;
	(void)!HERE(ww_mutex_lock(&its, &x));
}
static void overwrites_a_seat(void)
{
	ww_mutex_init(&its, &c);
	x.own->busy = 0;
	(void)!HERE(ww_mutex_lock(&its, &x));
}
static void limits_beyond(void) { MUST(HERE(ww_class_limit(&c, 1 << 25, 0)) == -EINVAL); }

static struct ww_table *keys;
static void locks_a_key_in_a_loop(void)
{
	ww_mutex_unlock(&b);
	ww_acquire_begin_tries(&y);
	MUST(!ww_table_open(&keys, &c, 0) && HERE(ww_table_lock(keys, &y, "k", 1, WW_TABLE_SHARED, NULL)) == -EINVAL);
}
static void unlocks_a_key_twice(void)
{
	MUST(!ww_table_open(&keys, &c, 0) && !ww_table_lock(keys, &x, "k", 1, WW_TABLE_SHARED, NULL));
	MUST(!ww_table_unlock(keys, &x, "k", 1) && HERE(ww_table_unlock(keys, &x, "k", 1)) == -EINVAL);
}

static void *is_to_end(void *arg)
{
	bool *comes_back = arg;

	MUST(!pthread_cancel(pthread_self()) && HERE(ww_mutex_destroy(&a)) == -EBUSY);
	*comes_back = true;
	pthread_testcancel();
	return NULL;
}

/* pthread_cancel doesn't end a thread during a message: the call returns, and others may write. */
static void told_by_a_thread_that_ends(void)
{
	bool comes_back = false;
	void *how;

	MUST(!pthread_join(begin_thread(is_to_end, &comes_back), &how));
	if (ftrylockfile(stderr))
		_exit(1);
	funlockfile(stderr);
	MUST(comes_back && how == PTHREAD_CANCELED);
}

static void *begins_y(void *arg)
{
	(void)arg;
	ww_acquire_init(&y, &c);
	return NULL;
}

/* In a child, which begins as this one does. */
static void prepare(void)
{
	ww_mutex_init(&a, &c);
	ww_mutex_init(&b, &c);
	ww_mutex_init(&its, &other);
	ww_acquire_init(&x, &c);
	end_thread(begin_thread(begins_y, NULL));
	MUST(!ww_mutex_lock(&a, &x) && !ww_mutex_lock(&b, &y));
}

static char said[16384]; /* by a child */

static void writes(void *to, const char *message) { MUST(dprintf(*(int *)to, "%s\n", message) > 0); }

/* Of standard error, or by a function of the program's. */
static void hear(bool function, void (*what)(void))
{
	int ends[2], status;
	ssize_t count, all = 0;
	pid_t child;

	MUST(!pipe(ends) && (child = fork()) >= 0);
	if (!child) {
		prepare();
		if (function)
			ww_report_to(writes, &ends[1]);
		else
			dup2(ends[1], 2);
		what();
		MUST(ww_debug_faults());
		_exit(0);
	}
	close(ends[1]);
	while ((count = read(ends[0], said + all, sizeof said - 1 - (size_t)all)) > 0)
		all += count;
	said[all] = 0;
	without_addresses(said);
	close(ends[0]);
	MUST(waitpid(child, &status, 0) == child);
}

/* $ is the place of the call that got -EDEADLK, * any words, and @ the mutex that the report is about. */
static void tells_by(bool function, void (*what)(void), const char *message)
{
	char place[512], asked[64] = "";
	const char *at = strpbrk(message, "$*");
	int length = (int)(at ? at - message : (ptrdiff_t)strlen(message));

	hear(function, what);
	if (at && *at == '$')
		snprintf(asked, sizeof asked, "tests/debug/misuse.c:%d", lines->asked);
	snprintf(place, sizeof place, "misuse.c:%d: %.*s%s%s%s", lines->here, length, message, asked, at && *at == '$' ? at + 1 : "",
		 at && *at == '*' ? "" : "\n");
	if (!strstr(said, place) || (HAS_BACKTRACE && !strstr(strstr(said, place), "[0x"))) {
		fprintf(stderr, "not told: %s\nbut %s\n", place, said);
		exit(1);
	}
}

static void tells(void (*what)(void), const char *message)
{
	tells_by(false, what, message);
	tells_by(true, what, message);
}

/* The first one of nine has a backtrace; after that there is a line each time that their number has doubled. */
static void tells_how_often(const char *message)
{
	char words[512];
	const char *rest = said;

	hear(false, wrong_class_again_and_again);
	for (unsigned times = 1; times <= 8; times *= 2) {
		int length = sprintf(words, "tests/debug/misuse.c:%d: %s", lines->here, message);

		if (times > 1)
			length += sprintf(words + length, " [%u times by now]\n", times);
		MUST(times > 2 ? !strncmp(rest, words, (size_t)length) : (rest = strstr(rest, words)) != NULL);
		rest += length;
		MUST(times > 1 || !HAS_BACKTRACE || strstr(rest, "[0x"));
	}
	MUST(!*rest);
}

/* At one line, of each class for the first time. */
static void tells_of_each_class(void)
{
	hear(false, of_each_class);
	MUST(strstr(said, "class \"c\": ") && strstr(said, "class \"other\": ") && !strstr(said, "times by now"));
}

/* A release of all that a context holds, its keys too, is no fault. */
static void releases_keys(void)
{
	MUST(!ww_table_open(&keys, &other, 0));
	ww_acquire_init(&x, &other);
	MUST(!ww_table_lock(keys, &x, "k", 1, WW_TABLE_SHARED, NULL) && !ww_table_lock(keys, &x, "l", 1, WW_TABLE_EXCLUSIVE, NULL));
	ww_acquire_unlock_all(&x);
	ww_acquire_fini(&x);
	MUST(!ww_table_close(keys) && !ww_debug_faults());
}

/* A program that backs off as it should gets its locks, however often it has to. */
static void goes_on(void)
{
	struct ww_mutex list[6], *locks[6];
	unsigned long bodies = 0, told = 0, before = ww_debug_faults();

	for (unsigned k = 0; k < 6; k++) {
		ww_mutex_init(&list[k], &c);
		locks[k] = &list[k];
	}
	for (unsigned i = 0; i < 300; i++) {
		struct ww_acquire_ctx z;
		unsigned slow = 6, k;
		int r;

		ww_acquire_init(&z, &c);
		MUST(z.deadlock_inject_interval == 1 && z.deadlock_inject_countdown < 16);
		if (i % 3 == 0)
			for (;;) {
				for (k = 0, r = 0; k < 6 && !r; k++)
					if (k != slow)
						r = ww_mutex_lock(&list[k], &z);
				if (!r)
					break;
				MUST(r == -EDEADLK && z.contending_lock == &list[k - 1]);
				for (unsigned j = 0; j < 6; j++)
					if (list[j].ctx == &z)
						ww_mutex_unlock(&list[j]);
				slow = k - 1;
				told++;
				if (i & 1)
					ww_mutex_lock_slow(&list[slow], &z);
				else
					MUST(!ww_mutex_lock_slow_interruptible(&list[slow], &z));
			}
		else if (i % 3 == 1)
			MUST(!ww_mutex_lock_all(&z, locks, 6));
		else
			ww_until_all_locked(&z) {
				bodies++;
				for (k = 0; k < 6; k++) {
					r = ww_mutex_lock(&list[k], &z);
					ww_retry_on_contention(&z);
					MUST(!r);
				}
			}
		MUST(z.acquired == 6);
		for (k = 0; k < 6; k++)
			ww_mutex_unlock(&list[k]);
		ww_acquire_done(&z);
		ww_acquire_fini(&z);
	}
	MUST(told > 30 && bodies > 130 && ww_debug_faults() == before);
	for (unsigned k = 0; k < 6; k++)
		MUST(!ww_mutex_destroy(&list[k]));
}

static void *waits(void *ctx)
{
	MUST(!ww_mutex_lock(ctx == &x ? &b : &a, ctx));
	ww_mutex_unlock(ctx == &x ? &b : &a);
	return NULL;
}

/* The older one waits for the younger, and one without a context for both. */
static void prints(int to)
{
	pthread_t threads[2];

	ww_mutex_name(&b, "the second");
	threads[0] = begin_thread(waits, &x);
	awaits_waiter(&b);
	threads[1] = begin_thread(waits, NULL);
	awaits_waiter(&a);
	ww_class_print(&c, to);
	ww_mutex_unlock(&b);
	end_thread(threads[0]);
	ww_mutex_unlock(&a);
	end_thread(threads[1]);
}

static DEFINE_WW_CLASS(busy);
static struct ww_mutex shared[3];
static bool is_over;

/* One context after the other, each with two of three mutexes. */
static void *transacts(void *arg)
{
	unsigned n = (unsigned)(size_t)arg;

	for (unsigned k = n; !__atomic_load_n(&is_over, __ATOMIC_RELAXED); k++) {
		struct ww_mutex *two[2] = { &shared[k % 3], &shared[(k + 1 + n % 2) % 3] };
		struct ww_acquire_ctx z;

		ww_acquire_init(&z, &busy);
		MUST(!ww_mutex_lock_all(&z, two, 2));
		ww_mutex_unlock(two[0]);
		ww_mutex_unlock(two[1]);
		ww_acquire_fini(&z);
	}
	return NULL;
}

/* The waits can be written out while others acquire and release. */
static void prints_beside_others(void)
{
	int to = open("/dev/null", O_WRONLY);
	pthread_t threads[4];

	MUST(to >= 0 && !ww_class_limit(&busy, 8, 8));
	for (unsigned k = 0; k < 3; k++)
		ww_mutex_init(&shared[k], &busy);
	for (size_t k = 0; k < 4; k++)
		threads[k] = begin_thread(transacts, (void *)k);
	for (unsigned k = 0; k < 2000; k++)
		ww_class_print(&busy, to);
	__atomic_store_n(&is_over, true, __ATOMIC_RELAXED);
	for (unsigned k = 0; k < 4; k++)
		end_thread(threads[k]);
	for (unsigned k = 0; k < 3; k++)
		MUST(!ww_mutex_destroy(&shared[k]));
	MUST(!ww_class_free(&busy) && !close(to));
}

#define NO_STATE " is in a state that none has, by an internal error, or since the program overwrote memory: "
#define NOT_LOOKED_AT "the context doesn't hold the mutex: nothing looked at the -EDEADLK that its lock returned at"

int main(int count, char **words)
{
	lines = mmap(NULL, sizeof *lines, PROT_READ | PROT_WRITE, MAP_SHARED | MAP_ANONYMOUS, -1, 0);
	MUST(lines != MAP_FAILED);
	if (count > 1 && !strcmp(words[1], "waits")) {
		MUST(!ww_class_limit(&c, 8, 4));
		prepare();
		prints(1);
		return 0;
	}
	tells(wrong_class, "ww_mutex_lock: the mutex is of another class, or isn't initialized@");
	tells_of_each_class();
	tells_how_often("ww_mutex_lock: the mutex is of another class, or isn't initialized@");
	tells(after_done, "ww_mutex_lock: class \"c\": the context is done: ww_acquire_done comes after its last lock@");
	tells(tries_after_done, "ww_mutex_lock: class \"c\": the context is done: ww_acquire_done comes after its last lock@");
	tells(done_twice, "ww_acquire_done: class \"c\": the context is done, or has ended");
	tells(fini_with_a_mutex, "ww_acquire_fini: class \"c\": the context still holds a mutex (unlock it before, or end by ww_acquire_end)@");
	tells(fini_while_it_reads, "ww_acquire_fini: class \"c\": the context still reads a mutex (ww_acquire_end_reads ends that)@");
	tells(downgrades_what_it_reads, "ww_shared_mutex_downgrade: class \"c\": the context doesn't write the mutex@");
	tells(locks_no_number, "ww_number_lock: class \"c\": the class has no mutex of this number");
	tells(ends_without_looking, "ww_acquire_fini: class \"c\": the context has to release all (ww_acquire_unlock_all), and still holds a mutex; it got -EDEADLK at $@");
	tells(another_after_deadlk, "ww_mutex_lock: the mutex is of another class, or isn't initialized@");
	tells(holds_after_deadlk, "ww_mutex_lock: class \"c\": the context has to release all (ww_acquire_unlock_all), and still holds a mutex; it got -EDEADLK at $@");
	tells(told_without_need, "ww_mutex_lock: class \"c\": the context has to release all (ww_acquire_unlock_all), and still holds a mutex; it got -EDEADLK at $@");
	tells(another_first, "ww_mutex_lock: class \"c\": after -EDEADLK another mutex comes first than that at which it came, at $@");
	tells(tries_another_first, "ww_mutex_lock: class \"c\": after -EDEADLK another mutex comes first than that at which it came, at $@");
	tells(retries_at_once, "ww_mutex_lock: class \"c\": after its back-off the context retries at once, and doesn't wait for "
	      "the mutex at which -EDEADLK came: that wait was taken back at $@");
	tells(slow_without_cause,
	      "ww_mutex_lock_slow: no -EDEADLK of this mutex came before, or the context still holds a mutex@");
	tells(slow_ends, "ww_mutex_lock_slow: class \"c\": no -EDEADLK of this mutex came before, or the context still holds a mutex@");
	tells(destroys_held, "ww_mutex_destroy: class \"c\": somebody holds the mutex, or waits for it@");
	tells(told_by_a_thread_that_ends, "ww_mutex_destroy: class \"c\": somebody holds the mutex, or waits for it@");
	tells(destroys_twice, "ww_mutex_destroy: the mutex isn't initialized@");
	tells(names_a_copy, "ww_mutex_name: class \"c\": the mutex is a copy of another one, or was moved@");
	tells(names_none, "ww_mutex_name: the mutex isn't initialized@");
	tells(locks_a_copy, "ww_mutex_lock: class \"c\": the mutex is a copy of another one, or was moved@");
	tells(unlocks_a_copy, "ww_mutex_unlock: class \"c\": the mutex is a copy of another one, or was moved@");
	tells(unlocks_a_copy_without_context, "ww_mutex_unlock: class \"other\": the mutex is a copy of another one, or was moved@");
	tells(unlocks_behind_a_copy, "ww_mutex_unlock: nobody holds the mutex, or it is a copy of that which is held@");
	tells(ends_behind_a_copy, "ww_acquire_fini: class \"c\": the context has ended by a copy of it, or the class has begun as many as it may");
	tells(locks_amid_a_poll, "ww_mutex_lock: class \"other\": the context waits by a poll@");
	tells(locks_slowly_without_context, "ww_mutex_lock_slow: no -EDEADLK of this mutex came before, or the context still holds a mutex@");
	tells(unlocks_what_was_made_anew, "ww_mutex_unlock: class \"c\": the mutex was initialized once more while somebody held it@");
	tells(locks_by_garbage, "ww_mutex_lock: the context was never begun@");
	tells(overwrites_a_context, "libww_debug: a context" NO_STATE "*");
	tells(overwrites_a_seat, "libww_debug: a seat" NO_STATE "*");
	tells(limits_late, "ww_class_crowd: class \"c\": the class is open: this comes before its first use");
	tells(limits_beyond, "ww_class_limit: class \"c\": a class has at most 16,773,121 mutexes and 4,094 contexts");
	tells(unlocks_in_vain, "ww_mutex_unlock: nobody holds the mutex, or it is a copy of that which is held@");
	tells(unlocks_what_nobody_holds, "ww_mutex_unlock: class \"c\": " NOT_LOOKED_AT " $@");
	tells(unlocks_anothers, "ww_mutex_unlock: class \"c\": " NOT_LOOKED_AT " $@");
	tells(unlocked_by_another, "ww_mutex_unlock: class \"c\": its context is another thread's, which named it last in a call: see ww_acquire_here@");
	tells(locks_a_key_in_a_loop, "ww_table_lock: class \"c\": the context has ended or was never begun, is of another class, or in a loop (ww_acquire_begin_tries)");
	tells(unlocks_a_key_twice, "ww_table_unlock: class \"c\": the context doesn't have the key");
	releases_keys();
	goes_on();
	prints_beside_others();
	MUST(!ww_debug_faults() && !ww_class_free(&c));
	puts("misuse: each fault is told with its line");
	return 0;
}
