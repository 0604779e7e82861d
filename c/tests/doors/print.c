/*
 * ww_class_print: who holds what and who waits for whom, without a change of the program; also in signal handlers, and while classes are
 * opened and freed and threads end.
 */
#include "../mutex_test.h"
#include "../said.h"
#include "ww_shared.h"
#include "ww_retry.h"
#include "../../doors/print.h"
#include <fcntl.h>
#include <errno.h>
#include <pthread.h>
#include <signal.h>
#include <sys/mman.h>
#include <sys/syscall.h>
#include <sys/time.h>
#include <sys/uio.h>
#include <sys/wait.h>

static DEFINE_WW_CLASS(c);
static DEFINE_WW_CLASS(few);
static struct ww_mutex a, b, of_few;
static struct ww_shared_mutex s;
static long waiter;
static bool is_over;
#ifdef WW_DEBUG
enum { DEBUG = true };
#else
enum { DEBUG = false };
#endif

static long number_of_thread(void) { return syscall(SYS_gettid); }

static void *waits_for_a(void *arg)
{
	waiter = number_of_thread();
	ww_mutex_lock(&a, NULL);
	ww_mutex_unlock(&a);
	return arg;
}

/* In what is printed of the class there is a line that begins with these words, and has the others. */
static void shows(struct ww_class *it, const char *begin, const char *words)
{
	char *text = printed(it), *rest = text;
	bool is = false;

	for (char *line; !is && (line = strsep(&rest, "\n"));)
		is = !strncmp(line, begin, strlen(begin)) && strstr(line, words);
	if (!is) {
		fprintf(stderr, "no line begins with %s and has %s in\n%s\n", begin, words, printed(it));
		exit(1);
	}
	free(text);
}

static void shows_owners_and_waits(void)
{
	struct ww_acquire_ctx x;
	char me[64], other[64], words[128];
	pthread_t thread;

	snprintf(me, sizeof me, "thread %ld: context 1", number_of_thread());
	ww_acquire_init(&x, &c);
	MUST(!ww_mutex_lock(&a, &x) && !ww_shared_mutex_lock_shared(&s, &x));
	thread = begin_thread(waits_for_a, NULL);
	awaits_waiter(&a);
	usleep(150000); /* a wait shows since when it is once it sleeps */
	snprintf(other, sizeof other, "thread %ld: a lock without a context", waiter);
	snprintf(words, sizeof words, "for mutex %u, which thread %ld holds", a.number, number_of_thread());
	shows(&c, "class \"c\": 3 of ", " mutexes and 2 of ");
	shows(&c, me, "");
	shows(&c, other, words);
	snprintf(words, sizeof words, "mutex %u is held by thread %ld", a.number, number_of_thread());
	shows(&c, words, "");
	snprintf(me, sizeof me, "thread %ld reads mutex %u; for that it holds mutex ", number_of_thread(), s.mutex_.number);
	shows(&c, me, "");
	shows(NULL, other, "");
	ww_mutex_unlock(&a);
	ww_acquire_end_reads(&x);
	ww_acquire_fini(&x);
	end_thread(thread);
}

/* It says where each mutex is, since when a thread waits, and nothing of a class that isn't open. */
static void shows_as_it_is(void)
{
	static DEFINE_WW_CLASS(closed);
	char words[128], text[65536];
	pthread_t thread;
	int ends[2];

	ww_mutex_lock(&a, NULL);
	thread = begin_thread(waits_for_a, NULL);
	awaits_waiter(&a);
	usleep(1300000);
	MUST(!pipe(ends));
	ww_class_print(&closed, ends[1]);
	ww_class_print(&c, ends[1]);
	close(ends[1]);
	text[read(ends[0], text, sizeof text - 1)] = 0;
	close(ends[0]);
	snprintf(words, sizeof words, " for mutex %u at %p, which", a.number, (void *)&a);
	/* It says the seconds of a wait, which a busy machine makes longer. */
	MUST(!strncmp(text, "class \"c\"", 9) && strstr(text, words) && strstr(text, "; waits ") && atoi(strstr(text, "; waits ") + 8) >= 1);
	ww_mutex_unlock(&a);
	end_thread(thread);
}

/* In a class of few contexts a thread that holds is known only to the debug library, and one that sleeps is known by its wait. */
static void *waits_for_few(void *arg)
{
	struct ww_acquire_ctx x;

	waiter = number_of_thread();
	ww_acquire_init(&x, &few);
	MUST(!ww_mutex_lock(&of_few, &x));
	ww_mutex_unlock(&of_few);
	ww_acquire_fini(&x);
	return arg;
}
static void shows_few(void)
{
	struct ww_acquire_ctx x;
	struct ww_retry value = { 0 };
	char words[64], who[64];
	pthread_t thread;

	MUST(!ww_class_limit(&few, 8, 4));
	ww_mutex_init(&of_few, &few);
	ww_acquire_init(&x, &few);
	MUST(!ww_mutex_lock(&of_few, &x));
	thread = begin_thread(waits_for_few, NULL);
	awaits_waiter(&of_few);
	usleep(50000);
	snprintf(who, sizeof who, "thread %ld: context 2", waiter);
	if (DEBUG)
		snprintf(words, sizeof words, "which thread %ld holds", number_of_thread());
	else
		snprintf(words, sizeof words, "which the user of context 1 holds");
	shows(&few, who, words);
	ww_mutex_unlock(&of_few);
	end_thread(thread);
	MUST(!ww_acquire_suspend(&x, &value));
	shows(&few, "the user of context 1: context 1", "; suspended");
	MUST(!ww_acquire_resume(&x, &few, &value, NULL));
	ww_acquire_fini(&x);
	MUST(!ww_mutex_destroy(&of_few) && !ww_class_free(&few));
}

/* ---- at any time ---- */

/* A look at memory that isn't there says so, except under an emulator that has no process_vm_readv. */
static void looks_in_vain(void)
{
	uint64_t *at = mmap(NULL, 4096, PROT_READ | PROT_WRITE, MAP_PRIVATE | MAP_ANONYMOUS, -1, 0), word = 0;
	struct iovec none = { 0 };

	*at = 7;
	MUST(SEES(word, *at) && word == 7 && !munmap(at, 4096));
	MUST((process_vm_readv(getpid(), &none, 1, &none, 1, 0) < 0 && errno == ENOSYS) || !SEES(word, *at));
}

static unsigned long looks;
ssize_t __real_process_vm_readv(pid_t process, const struct iovec *to, unsigned long count, const struct iovec *from, unsigned long counts,
				unsigned long flags);
ssize_t __wrap_process_vm_readv(pid_t process, const struct iovec *to, unsigned long count, const struct iovec *from, unsigned long counts,
				unsigned long flags)
{
	__atomic_fetch_add(&looks, 1, __ATOMIC_RELAXED);
	return __real_process_vm_readv(process, to, count, from, counts, flags);
}

enum { SIGNALS = 60 };
static int nowhere;

/* Each look takes a system call. What a context reads takes one for each 64 of the class's mutexes, and no more than 200 besides. */
static void looks_seldom(void)
{
	unsigned long before = looks, alone;
	struct ww_acquire_ctx x;

	ww_class_print(&c, nowhere);
	alone = looks - before;
	ww_acquire_init(&x, &c);
	MUST(!ww_shared_mutex_lock_shared(&s, &x));
	before = looks;
	ww_class_print(&c, nowhere);
	MUST(looks - before - alone < 68000 / 64 + 200);
	ww_acquire_end_reads(&x);
	ww_acquire_fini(&x);
}

static unsigned long signals;
static const struct itimerval soon = { .it_value = { 0, 2000 } };
static void at_signal(int number)
{
	(void)number;
	ww_class_print(NULL, nowhere);
	if (__atomic_add_fetch(&signals, 1, __ATOMIC_RELAXED) < SIGNALS)
		setitimer(ITIMER_REAL, &soon, NULL);
}

static void *opens_and_frees(void *arg)
{
	static DEFINE_WW_CLASS(brief);
	struct ww_mutex m;

	while (!__atomic_load_n(&is_over, __ATOMIC_RELAXED)) {
		MUST(!ww_class_limit(&brief, 100, 4));
		ww_mutex_init(&m, &brief);
		ww_mutex_lock(&m, NULL);
		ww_mutex_unlock(&m);
		MUST(!ww_mutex_destroy(&m) && !ww_class_free(&brief));
	}
	return arg;
}

static void *locks_and_ends(void *arg)
{
	struct ww_acquire_ctx x;

	ww_acquire_init(&x, &c);
	ww_acquire_begin_tries(&x);
	do {
		if (!ww_mutex_lock(&a, &x))
			(void)!ww_mutex_lock(&b, &x);
	} while (ww_acquire_end_try(&x));
	ww_acquire_end(&x);
	return arg;
}

/* A timer interrupts whatever a thread does, while classes come and go, and threads end. */
static void prints_at_any_time(void)
{
	pthread_t opens = begin_thread(opens_and_frees, NULL), threads[4];

	MUST(!sigaction(SIGALRM, &(struct sigaction){ .sa_handler = at_signal, .sa_flags = SA_RESTART }, NULL) &&
	     !setitimer(ITIMER_REAL, &soon, NULL));
	while (__atomic_load_n(&signals, __ATOMIC_RELAXED) < SIGNALS) {
		for (unsigned k = 0; k < 4; k++)
			threads[k] = begin_thread(locks_and_ends, NULL);
		for (unsigned k = 0; k < 4; k++)
			end_thread(threads[k]);
	}
	__atomic_store_n(&is_over, true, __ATOMIC_RELAXED);
	end_thread(opens);
}

/* ---- by the environment ---- */

/* What this program writes to standard error as it is called with a word, and the environment names a signal. */
static char *said_by(const char *program, const char *name)
{
	static char text[65536];
	int ends[2], status;
	ssize_t count, all = 0;
	pid_t child;

	MUST(!pipe(ends) && (child = fork()) >= 0);
	if (!child) {
		dup2(ends[1], 2);
		setenv("WW_PRINT", name, 1);
		execl("/bin/sh", "sh", "-c", "exec $WW_RUN \"$0\" hangs", program, (char *)NULL); /* maybe by an emulator */
		_exit(9);
	}
	close(ends[1]);
	while ((count = read(ends[0], text + all, sizeof text - 1 - (size_t)all)) > 0)
		all += count;
	text[all] = 0;
	close(ends[0]);
	MUST(waitpid(child, &status, 0) == child && !status);
	return text;
}

static int hangs(void)
{
	ww_mutex_init(&a, &c);
	ww_mutex_lock(&a, NULL);
	raise(SIGUSR2);
	return 0;
}

int main(int count, char **words)
{
	char *text;

	if (count > 1)
		return hangs();
	text = said_by(words[0], "SIGUSR2");
	MUST(strstr(text, "class \"c\": 1 of ") && strstr(text, " is held by thread "));
	ww_mutex_init(&a, &c);
	ww_mutex_init(&b, &c);
	ww_shared_mutex_init(&s, &c);
	shows_owners_and_waits();
	shows_as_it_is();
	shows_few();
	looks_in_vain();
	MUST((nowhere = open("/dev/null", O_WRONLY)) >= 0);
	looks_seldom();
	prints_at_any_time();
	MUST(!ww_mutex_destroy(&a) && !ww_mutex_destroy(&b) && !ww_shared_mutex_destroy(&s) && !ww_class_free(&c));
	puts("print: who holds and who waits is shown, at any time");
	return 0;
}
