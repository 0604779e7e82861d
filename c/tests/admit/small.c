/*
 * A class costs what it uses: seats are made as they are first needed, and those that nobody needs take no memory.
 *
 * How many were made is counted.  Where it can be told how much memory is resident, a class that says nothing, and that one thread
 * uses, has at most 128 KiB of it; and while it opens it has the words and wait lists of its locks once, which are 3.6 MiB.
 */
#include "../resident.h"
#include "ww_poll.h"
#include "../../admit/seat.h"

enum { CLASSES = 50, MUTEXES = 4, MOST = 128 << 10, A_PAGE = 4096, THREADS = 8 };
/* As a class opens: the spare seat, and the first of threads and of tasks; and with it the own one of the thread that uses it. */
enum { FIRST = 3, WITH_OWN = FIRST + 1 };

static struct ww_class classes[CLASSES], *c;
static struct ww_mutex mutexes[CLASSES][MUTEXES];

/* How many seats were made; all others are as they were taken from the system. */
static unsigned made(const struct ww_class *of)
{
	static const ww_seat zeros;
	unsigned count = 0;

	for (uint32_t k = 0; k <= seats_of(of->pool); k++) {
		const ww_seat *s = &of->pool->seats[k];

		MUST(is_made(s) == !!s->handle.at && (is_made(s) || !memcmp(s, &zeros, sizeof zeros)));
		count += is_made(s);
	}
	return count;
}

/* By contexts one after the other, by hand and in loops, and without a context. */
static void uses(unsigned k)
{
	struct ww_acquire_ctx x;

	for (unsigned j = 0; j < MUTEXES; j++)
		ww_mutex_init(&mutexes[k][j], &classes[k]);
	for (unsigned times = 0; times < 3; times++) {
		ww_acquire_init(&x, &classes[k]);
		ww_until_all_locked(&x)
			for (unsigned j = 0; j < MUTEXES; j++)
				MUST(!ww_mutex_lock(&mutexes[k][j], &x));
		ww_acquire_unlock_all(&x);
		ww_acquire_fini(&x);
		MUST(!ww_mutex_lock(&mutexes[k][0], NULL));
		ww_mutex_unlock(&mutexes[k][0]);
	}
}

static void frees(unsigned k)
{
	for (unsigned j = 0; j < MUTEXES; j++)
		MUST(!ww_mutex_destroy(&mutexes[k][j]));
	MUST(!ww_class_free(&classes[k]));
}

/* So many classes that one thread uses; and what looks at all seats makes none. */
static void by_one_thread(bool told)
{
	struct ww_class_counts counts;
	long before, opened, looked;

	uses(0);
	frees(0);
	before = resident();
	for (unsigned k = 0; k < CLASSES; k++)
		uses(k);
	opened = resident() - before;
	for (unsigned k = 0; k < CLASSES; k++) {
		MUST(made(&classes[k]) == WITH_OWN && !ww_class_cancel(&classes[k]));
		ww_class_stats(&classes[k], &counts);
		MUST(ww_class_free(&classes[k]) == -EBUSY && made(&classes[k]) == WITH_OWN);
	}
	looked = resident() - before - opened;
	for (unsigned k = 0; k < CLASSES; k++)
		frees(k);
	printf("small: a class that one thread uses has %ld KiB resident\n", opened / CLASSES / 1024);
	MUST(!told || (opened <= (long)CLASSES * MOST && looked < (long)CLASSES * A_PAGE));
}

/* The most that was resident since it was last called, in KiB; or -1. */
static long most_resident(void)
{
	FILE *from = fopen("/proc/self/status", "r"), *to = fopen("/proc/self/clear_refs", "w");
	char line[256];
	long kib = -1;

	while (from && fgets(line, sizeof line, from))
		if (sscanf(line, "VmHWM: %ld", &kib) == 1)
			break;
	if (!to || fputs("5", to) < 0 || fclose(to))
		kib = -1;
	if (from)
		fclose(from);
	return kib;
}

static void while_it_opens(bool told)
{
	long before, most;

	(void)most_resident();
	before = most_resident();
	MUST(!ww_class_open(c));
	most = most_resident();
	MUST(!ww_class_free(c));
	if (before > 0 && most > 0 && told)
		printf("small: a class has at most %ld KiB resident while it opens\n", most - before);
	MUST(before < 0 || most < 0 || !told || most - before < 5 * MiB / 1024);
}

static pthread_barrier_t all_there;
static void *begins_with_others(void *arg)
{
	struct ww_acquire_ctx x;

	ww_acquire_init(&x, c);
	pthread_barrier_wait(&all_there);
	ww_acquire_fini(&x);
	pthread_barrier_wait(&all_there);
	return arg;
}

/* Each has a seat of its own, which the next thread uses that comes in its place. */
static void by_many_threads(void)
{
	pthread_t threads[THREADS];

	MUST(!ww_class_open(c) && made(c) == FIRST && !pthread_barrier_init(&all_there, NULL, THREADS));
	for (unsigned times = 0; times < 2; times++) {
		for (unsigned k = 0; k < THREADS; k++)
			threads[k] = begin_thread(begins_with_others, NULL);
		for (unsigned k = 0; k < THREADS; k++)
			end_thread(threads[k]);
		MUST(made(c) == FIRST + THREADS);
	}
	MUST(!pthread_barrier_destroy(&all_there) && !ww_class_free(c));
}

/* Contexts of one thread, all at a time, and then as many again: by its own seat, and by the next one of those for anybody. */
static void by_many_contexts(void)
{
	static struct ww_acquire_ctx all[MANY_CONTEXTS + 1];

	for (unsigned most = 1; most <= MANY_CONTEXTS + 1; most += most < 4 || most > 1020 ? 1 : 13) {
		unsigned was_there = most < 2 ? 2 : most < MANY_CONTEXTS + 1 ? 1 : 0; /* and isn't needed, but for the spare one */

		for (unsigned times = 0; times < 2; times++) {
			for (unsigned j = 0; j < most; j++)
				ww_acquire_init(&all[j], c);
			for (unsigned j = 0; j < most; j++)
				ww_acquire_fini(&all[j]);
			MUST(made(c) == 1 + most + was_there);
		}
	}
	MUST(!ww_class_free(c));
}

/* Tasks, too: as many as may begin at a time, and the last one within another. */
static void by_tasks(void)
{
	static struct ww_acquire_ctx all[EACH_TASKS * MANY_PROCESSORS + 1];
	struct ww_seek within = { .is_within = true };
	unsigned most;

	MUST(!ww_class_open(c));
	most = c->pool->tasks.open;
	MUST(most > 1 && most < sizeof all / sizeof *all);
	for (unsigned times = 0; times < 2; times++) {
		for (unsigned k = 0; k < most; k++) {
			MUST(!ww_acquire_init_poll(&all[k], c, NULL, NULL));
			MUST(times || made(c) == FIRST + k);
		}
		MUST(ww_acquire_init_poll(&all[most], c, NULL, NULL) == -ETIMEDOUT && made(c) == FIRST + most - !times);
		MUST(!ww_acquire_init_poll(&all[most], c, &within, NULL) && made(c) == FIRST + most);
		for (unsigned k = 0; k <= most; k++)
			ww_acquire_fini(&all[k]);
	}
	MUST(!ww_class_free(c));
}

int main(void)
{
#if defined(__SANITIZE_ADDRESS__) || defined(__SANITIZE_THREAD__) || !defined(__x86_64__) /* a sanitizer or an emulator has memory too */
	bool told = false;
#else
	bool told = is_told();
#endif

	if (!told)
		printf("what is resident can't be told here\n");
	for (int kind = 0; kind < 2; kind++) {
		for (unsigned k = 0; k < CLASSES; k++)
			ww_class_init(&classes[k], kind, "small");
		c = &classes[0];
		by_one_thread(told);
		while_it_opens(told);
		by_many_threads();
		if (!SANITIZES_THREADS) { /* that sees nothing where one thread does all */
			by_many_contexts();
			by_tasks();
		}
	}
	return 0;
}
