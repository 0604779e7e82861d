/*
 * A program forks: a daemon, its own handlers, polls and reads in the child.
 *
 * Handlers (pthread_atfork), which it registered before any class was opened, lock a mutex meanwhile, or free a class
 * in the child.  A poll in the child of a program, one of whose threads was inside a guard then, returns.  That a guard
 * is shut comes by a wrapper (ld --wrap).  And a child amid readers and writers ends what its context reads and writes,
 * is refused where it would wait, and uses the class anew.  A class that nobody used goes on in the child, with all its seats;
 * one of which a thread had a lock, held a mutex or ran a context doesn't, nor in a child of that child.
 */
#include "../mutex_test.h"
#include "ww_number.h"
#include "ww_poll.h"
#include "../../admit/seat.h"
#include "ww_shared.h"
#include <signal.h>
#include <sys/wait.h>

static DEFINE_WW_CLASS(c);
static struct ww_mutex m = WW_MUTEX_INIT(&c);
static bool frees, locks;
static int freed = 1;

static void before(void)
{
	if (locks)
		(void)ww_mutex_lock(&m, NULL);
}
static void in_parent(void)
{
	if (locks)
		ww_mutex_unlock(&m);
}
static void in_child(void)
{
	if (locks)
		ww_mutex_unlock(&m);
	if (frees)
		freed = ww_class_free(&c);
}

/* Says by what a child ended that hangs. */
static void hangs(int signal)
{
	static const char it[] = "fork, or what follows, hangs\n";

	(void)!write(2, it, sizeof it - 1);
	_exit(signal);
}

/* By a thread that has used no class yet. */
static void *forks(void *arg)
{
	struct ww_acquire_ctx x;
	int status;
	pid_t child = fork();

	MUST(child >= 0);
	if (!child) {
		if (frees && !locks) {
			MUST(freed == -EBUSY && !ww_mutex_lock(&m, NULL));
			ww_mutex_unlock(&m);
			MUST(!ww_mutex_destroy(&m) && !ww_class_free(&c));
		} else if (frees) {
			struct ww_mutex n;

			MUST(!freed && !ww_class_free(&c));
			ww_mutex_init(&n, &c);
			MUST(!ww_mutex_lock(&n, NULL));
		} else {
			MUST(ww_acquire_init_checked(&x, &c) == -EINVAL && !ww_class_free(&c));
		}
		_exit(0);
	}
	MUST(waitpid(child, &status, 0) == child && WIFEXITED(status) && !WEXITSTATUS(status));
	MUST(!ww_mutex_lock(&m, NULL));
	ww_mutex_unlock(&m);
	return arg;
}

/* In a program that has registered its handlers, and opens a class. */
static void handlers_lock(void)
{
	locks = true;
	for (unsigned k = 0; k < 3; k++)
		end_thread(begin_thread(forks, NULL));
	forks(NULL);
}
static void handlers_free(void)
{
	frees = true;
	for (unsigned k = 0; k < 3; k++)
		end_thread(begin_thread(forks, NULL));
	forks(NULL);
}
static void handlers_do_both(void)
{
	locks = true;
	handlers_free();
}

static bool shut;
int32_t __real_ww_go_on_(ww_handle *s);
int32_t __wrap_ww_go_on_(ww_handle *s);
int32_t __wrap_ww_go_on_(ww_handle *s) { return shut ? WW_AWAITS : __real_ww_go_on_(s); }

static void never(void *loop, void *task) { MUST(!loop && task && false); }

/* In the child that guard stays shut. */
static void polls(void)
{
	const struct ww_waker waker = { never, NULL, &m };
	struct ww_acquire_ctx x, y, z;
	int status;
	pid_t child;

	ww_acquire_init(&x, &c);
	ww_acquire_init(&y, &c);
	ww_acquire_init(&z, &c);
	MUST(!ww_mutex_lock(&m, &x) && ww_mutex_lock_poll(&m, &z, &waker) == -EINPROGRESS);
	child = fork();
	MUST(child >= 0);
	if (!child) {
		shut = true;
		MUST(ww_mutex_lock_poll(&m, &y, &waker) == -EINVAL && ww_mutex_lock_poll(&m, &z, &waker) == -EINVAL);
		MUST(ww_mutex_lock_poll(&m, &y, NULL) == -EINVAL && ww_mutex_lock_interruptible(&m, &y) == -EINVAL);
		_exit(0);
	}
	MUST(waitpid(child, &status, 0) == child && WIFEXITED(status) && !WEXITSTATUS(status));
	MUST(ww_mutex_lock_poll(&m, &z, NULL) == -ETIMEDOUT);
	ww_mutex_unlock(&m);
	ww_acquire_fini(&z);
	ww_acquire_fini(&y);
	ww_acquire_fini(&x);
}

static unsigned holds;

/* Another thread has the lock meanwhile. */
static void *holds_lock(void *lock)
{
	pthread_mutex_lock(lock);
	__atomic_store_n(&holds, 1, __ATOMIC_SEQ_CST);
	while (__atomic_load_n(&holds, __ATOMIC_SEQ_CST))
		sched_yield();
	pthread_mutex_unlock(lock);
	return NULL;
}

static pthread_t begin_holder(pthread_mutex_t *lock)
{
	pthread_t holder = begin_thread(holds_lock, lock);

	while (!__atomic_load_n(&holds, __ATOMIC_SEQ_CST))
		sched_yield();
	return holder;
}

static void end_holder(pthread_t holder)
{
	__atomic_store_n(&holds, 0, __ATOMIC_SEQ_CST);
	end_thread(holder);
}

/* The child's contexts of another class exclude each other, though it has given a seat of the one that was in use. */
static void uses_another_class(void)
{
	static DEFINE_WW_CLASS(other);
	struct ww_mutex first = WW_MUTEX_INIT(&other);
	struct ww_acquire_ctx x, y;

	ww_acquire_init(&x, &other);
	ww_acquire_init(&y, &other);
	MUST(!ww_mutex_lock(&first, &x) && !ww_mutex_trylock(&first, &y));
}

/*
 * In a child nobody may lock the queue of those that wait for contexts, as another thread may have had it: not a poll that is
 * over, nor a task's context that ends while others wait, and a cancel of the class is refused.
 */
static void queue_is_locked(void)
{
	const struct ww_waker waker = { never, NULL, &m };
	struct ww_acquire_ctx held, tasks[900], z;
	struct ww_seek seek = { 0 };
	unsigned count = 0;
	pthread_t holder;
	int status;
	pid_t child;

	while (count < 900 && !ww_acquire_init_poll(&tasks[count], &c, &seek, &waker))
		count++;
	MUST(count >= 2 && count < 900 && seek.of_);
	ww_acquire_init(&held, &c);
	MUST(!ww_mutex_lock(&m, &held) && ww_mutex_lock_poll(&m, &tasks[0], &waker) == -EINPROGRESS);
	c.pool->tasks.due = 0;
	holder = begin_holder(&c.pool->queue);
	child = fork();
	MUST(child >= 0);
	if (!child) {
		MUST(ww_class_cancel(&c) == -EINVAL && ww_mutex_lock_poll(&m, &tasks[0], &waker) == -EINVAL);
		ww_acquire_fini(&tasks[1]);
		MUST(ww_acquire_init_poll(&z, &c, NULL, NULL) == -EINVAL && ww_poll_take_back(&z, &seek));
		uses_another_class();
		MUST(ww_acquire_init_poll(&z, &c, &seek, &waker) == -EINVAL);
		_exit(0);
	}
	end_holder(holder);
	MUST(waitpid(child, &status, 0) == child && WIFEXITED(status) && !WEXITSTATUS(status));
	MUST(ww_mutex_lock_poll(&m, &tasks[0], NULL) == -ETIMEDOUT && ww_acquire_init_poll(&z, &c, &seek, NULL) == -ETIMEDOUT);
	ww_mutex_unlock(&m);
	ww_acquire_fini(&held);
	while (count)
		ww_acquire_fini(&tasks[--count]);
}

/* Each in a program that has opened no class before. */
static void in_program(void (*what)(void))
{
	int status;
	pid_t child = fork();

	MUST(child >= 0);
	if (!child) {
		MUST(!ww_mutex_lock(&m, NULL));
		ww_mutex_unlock(&m);
		what();
		MUST(!ww_mutex_destroy(&m) && !ww_class_free(&c));
		_exit(0);
	}
	MUST(waitpid(child, &status, 0) == child && WIFEXITED(status) && !WEXITSTATUS(status));
}

/* ---- a class that nobody uses at the fork ---- */

enum { OTHERS = 6, ALL_CONTEXTS = MANY_CONTEXTS + 1 }; /* and this thread's own */
static pthread_barrier_t there;
static struct ww_shared_mutex read_first, never_read;
static uint32_t number;
static const ww_seat *of_forking_thread; /* its own, in the child */

/* Runs contexts by its own seat, which rests after them; reads; and is there at the fork. */
static void *has_its_own(void *arg)
{
	struct ww_acquire_ctx x;

	for (unsigned k = 0; k < 3; k++) {
		ww_acquire_init(&x, &c);
		MUST(x.own != of_forking_thread);
		ww_until_all_locked(&x) {
			MUST(!ww_shared_mutex_lock_shared(&read_first, &x));
			(void)!ww_number_lock(number, &x);
			ww_retry_on_contention(&x);
		}
		ww_acquire_unlock_all(&x);
		ww_acquire_fini(&x);
	}
	pthread_barrier_wait(&there);
	pthread_barrier_wait(&there);
	return arg;
}

static void uses_all(void)
{
	static struct ww_acquire_ctx x[ALL_CONTEXTS];
	struct ww_class_counts counts;

	for (unsigned k = 0; k < ALL_CONTEXTS; k++)
		MUST(!ww_acquire_init_checked(&x[k], &c));
	MUST(ww_acquire_init_checked(&(struct ww_acquire_ctx){ 0 }, &c) == -EAGAIN);
	for (unsigned k = 0; k < 3; k++)
		ww_acquire_begin_tries(&x[k]);
	MUST(!ww_mutex_lock(&m, &x[0]) && !ww_number_lock(number, &x[1]) && !ww_shared_mutex_lock(&read_first, &x[2]));
	MUST(ww_mutex_is_locked(&m) && !ww_mutex_trylock(&m, &x[3]));
	for (unsigned k = 0; k < ALL_CONTEXTS; k++) {
		ww_acquire_unlock_all(&x[k]);
		ww_acquire_fini(&x[k]);
	}
	ww_class_stats(&c, &counts);
	MUST(!counts.contexts && ww_threads == 1);
}

/* In the background: its parent has ended. This thread's own seat is no other's. */
static void is_daemon(int says)
{
	struct ww_acquire_ctx x;

	MUST(!pthread_barrier_init(&there, NULL, 1));
	for (unsigned k = 0; k < seats_of(c.pool); k++)
		MUST(!(c.pool->seats[k].busy & BUSY) && !c.pool->seats[k].ages);
	uses_all();
	ww_acquire_init(&x, &c);
	of_forking_thread = x.own;
	ww_acquire_fini(&x);
#if !SANITIZES_THREADS && !defined(__aarch64__) /* that, and qemu, which runs arm64's, end a child that begins threads */
	end_thread(begin_thread(has_its_own, NULL));
#endif
	MUST(!ww_number_put(number, &c) && !ww_shared_mutex_destroy(&read_first) && !ww_mutex_destroy(&m) && !ww_class_free(&c));
	MUST(write(says, "+", 1) == 1);
	_exit(0);
}

static void becomes_a_daemon(void)
{
	pthread_t threads[OTHERS];
	int ends[2], status;
	char said = 0;
	pid_t child;

	MUST(!pthread_barrier_init(&there, NULL, OTHERS + 1) && !pipe(ends) && !ww_number_take(&number, &c));
	ww_shared_mutex_init(&read_first, &c);
	for (unsigned k = 0; k < OTHERS; k++)
		threads[k] = begin_thread(has_its_own, NULL);
	pthread_barrier_wait(&there);
	MUST((child = fork()) >= 0);
	if (!child) {
		if (!fork())
			is_daemon(ends[1]);
		_exit(0);
	}
	MUST(waitpid(child, &status, 0) == child && !status);
	close(ends[1]);
	MUST(read(ends[0], &said, 1) == 1 && said == '+');
	close(ends[0]);
	pthread_barrier_wait(&there);
	for (unsigned k = 0; k < OTHERS; k++)
		end_thread(threads[k]);
	MUST(!ww_number_put(number, &c) && !ww_shared_mutex_destroy(&read_first));
}

/* In the child, and in its own child, once a context from before that has ended; which reads nothing more. */
static void is_refused(struct ww_acquire_ctx *ends)
{
	struct ww_acquire_ctx x;
	int status;
	pid_t child;

	MUST(ww_acquire_init_checked(&x, &c) == -EINVAL);
	MUST(!ends || ww_shared_mutex_lock_shared(&never_read, ends) == -EINVAL);
	if (ends)
		ww_acquire_fini(ends);
	child = fork();
	if (!child)
		_exit(ww_acquire_init_checked(&x, &c) != -EINVAL || ww_class_free(&c) || ww_acquire_init_checked(&x, &c));
	MUST(child > 0 && waitpid(child, &status, 0) == child && !status);
	_exit(0);
}

static void somebody_is_amid(void)
{
	pthread_mutex_t *locks[] = { &c.pool->queue, &c.pool->spare, &c.pool->numbers.lock, NULL, &c.pool->numbers.lock };
	struct ww_acquire_ctx x;

	ww_shared_mutex_init(&never_read, &c);
	for (unsigned k = 0; k < 5; k++) {
		bool begins = k > 2;
		pthread_t holder = 0;
		pid_t child;
		int status;

		if (begins)
			ww_acquire_init(&x, &c);
		if (locks[k])
			holder = begin_holder(locks[k]);
		MUST((child = fork()) >= 0);
		if (!child)
			is_refused(begins ? &x : NULL);
		MUST(waitpid(child, &status, 0) == child && !status);
		if (locks[k])
			end_holder(holder);
		if (begins)
			ww_acquire_fini(&x);
	}
	MUST(!ww_shared_mutex_destroy(&never_read));
}

/* ---- amid readers and writers ---- */

enum { SHARED = 6, AMONG_THREADS = 4, FORKS = 40 };
static struct ww_shared_mutex shared[SHARED];
static uint32_t is_over;

static void *reads_and_writes(void *arg)
{
	unsigned drawn = 7 + (unsigned)(size_t)arg;
	struct ww_acquire_ctx x;

	while (!__atomic_load_n(&is_over, __ATOMIC_RELAXED)) {
		ww_acquire_init(&x, &c);
		ww_until_all_locked(&x)
			for (unsigned k = 0; k < 4; k++) {
				struct ww_shared_mutex *it = &shared[next(&drawn) % AMONG_THREADS];
				int r = next(&drawn) % 3 ? ww_shared_mutex_lock_shared(it, &x) : ww_shared_mutex_lock(it, &x);

				ww_retry_on_contention(&x);
				if (!r && next(&drawn) % 4 == 0 && ww_shared_mutex_is_written_by(it, &x))
					ww_shared_mutex_downgrade(it, &x);
			}
		ww_acquire_unlock_all(&x);
		ww_acquire_fini(&x);
	}
	return NULL;
}

static void child_of_readers(struct ww_acquire_ctx *x, unsigned way)
{
	MUST(!ww_shared_mutex_is_locked(&shared[AMONG_THREADS]) && !ww_shared_mutex_is_locked(&shared[AMONG_THREADS + 1]));
	for (unsigned k = 0; k < AMONG_THREADS; k++) {
		int r = way % 2 ? ww_shared_mutex_lock(&shared[k], x) : ww_shared_mutex_lock_shared(&shared[k], x);

		MUST(!r || r == -EINVAL || r == -EDEADLK);
	}
	for (unsigned k = 0; k < SHARED; k++)
		while (ww_shared_mutex_is_written_by(&shared[k], x))
			MUST(!ww_shared_mutex_unlock(&shared[k], x));
	ww_acquire_end_reads(x);
	MUST(!ww_acquire_fini_checked(x));
	for (unsigned k = 0; k < SHARED; k++)
		MUST(!ww_shared_mutex_destroy(&shared[k]));
	MUST(!ww_class_free(&c));
	ww_shared_mutex_init(&shared[0], &c);
	ww_acquire_init(x, &c);
	MUST(!ww_shared_mutex_lock_shared(&shared[0], x) && !ww_shared_mutex_lock(&shared[0], x));
	MUST(!ww_shared_mutex_unlock(&shared[0], x) && !ww_shared_mutex_unlock_shared(&shared[0], x));
	ww_acquire_fini(x);
	_exit(ww_shared_mutex_destroy(&shared[0]) || ww_class_free(&c));
}

static void among_readers(void)
{
	pthread_t threads[4];

	for (unsigned k = 0; k < SHARED; k++)
		ww_shared_mutex_init(&shared[k], &c);
	for (size_t k = 0; k < 4; k++)
		threads[k] = begin_thread(reads_and_writes, (void *)k);
	for (unsigned k = 0; k < FORKS; k++) {
		struct ww_acquire_ctx x;
		int status;
		pid_t child;

		ww_acquire_init(&x, &c);
		MUST(!ww_shared_mutex_lock_shared(&shared[AMONG_THREADS], &x) && !ww_shared_mutex_lock(&shared[AMONG_THREADS + 1], &x));
		child = fork();
		MUST(child >= 0);
		if (!child)
			child_of_readers(&x, k);
		MUST(waitpid(child, &status, 0) == child && !status && !ww_shared_mutex_unlock(&shared[AMONG_THREADS + 1], &x));
		ww_acquire_end_reads(&x);
		ww_acquire_fini(&x);
	}
	__atomic_store_n(&is_over, 1, __ATOMIC_RELAXED);
	for (size_t k = 0; k < 4; k++)
		end_thread(threads[k]);
	_exit(0);
}

int main(void)
{
	MUST(!pthread_atfork(before, in_parent, in_child));
	signal(SIGTERM, hangs); /* by which the limit of time ends it */
	in_program(handlers_lock);
	in_program(handlers_free);
	in_program(handlers_do_both);
	in_program(polls);
	in_program(queue_is_locked);
	in_program(becomes_a_daemon);
	in_program(somebody_is_amid);
	in_program(among_readers);
	puts("forks: a daemon goes on, handlers of a fork may lock and free, and no poll or read of a child hangs");
	return 0;
}
