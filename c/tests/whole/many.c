/*
 * Many threads: a thousand on sixteen mutexes, and 64 on as many mutexes as a class may have.
 *
 * They have a context each, or fewer contexts than threads.  Nothing that they add under their mutexes is lost.
 */
#include "../mutex_test.h"

enum { SIXTEEN = 16, FEW = 24, TAKEN = 3, AWAKE = 64 };

static DEFINE_WW_CLASS(wound_wait);
static DEFINE_WD_CLASS(wait_die);
static struct ww_class *c;
static struct {
	struct ww_mutex lock;
	unsigned long count;
} *all;
static uint32_t mutexes;
static unsigned many = 1000, times = 20;
static pthread_barrier_t begun;

static void adds(struct ww_acquire_ctx *x, unsigned *drawn)
{
	uint32_t list[TAKEN];

	for (unsigned k = 0; k < TAKEN; k++)
		list[k] = next(drawn) % mutexes;
	ww_until_all_locked(x) {
		for (unsigned k = 0; k < TAKEN; k++) {
			int r = ww_mutex_lock(&all[list[k]].lock, x);

			ww_retry_on_contention(x);
			MUST(!r);
		}
	}
	for (unsigned k = 0; k < TAKEN; k++)
		all[list[k]].count++;
	ww_acquire_unlock_all(x);
}

/* The first context is there at once with those of all other threads, if there are so many. */
static void *works(void *arg)
{
	unsigned drawn = (unsigned)(size_t)arg;

	for (unsigned k = 0; k < times; k++) {
		struct ww_acquire_ctx x;

		ww_acquire_init(&x, c);
		ww_acquire_flags(&x, WW_IGNORE_DUPLICATES);
		if (k == 0 && c->contexts >= many)
			pthread_barrier_wait(&begun);
		adds(&x, &drawn);
		ww_acquire_fini(&x);
	}
	return NULL;
}

static void storm(unsigned threads, uint32_t of, uint32_t contexts)
{
	pthread_t *list = calloc(threads, sizeof *list);
	unsigned long sum = 0;
	pthread_attr_t small;

	mutexes = of;
	all = calloc(of, sizeof *all);
	MUST(list && all && !ww_class_limit(c, of, contexts));
	MUST(!pthread_attr_init(&small) && !pthread_attr_setstacksize(&small, 256 * 1024));
	MUST(!pthread_barrier_init(&begun, NULL, threads));
	for (uint32_t n = 0; n < of; n++)
		ww_mutex_init(&all[n].lock, c);
	for (size_t k = 0; k < threads; k++)
		MUST(!pthread_create(&list[k], &small, works, (void *)k));
	for (unsigned k = 0; k < threads; k++)
		end_thread(list[k]);
	for (uint32_t n = 0; n < of; n++) {
		sum += all[n].count;
		MUST(!ww_mutex_destroy(&all[n].lock));
	}
	MUST(sum == (unsigned long)threads * times * TAKEN && !ww_class_free(c));
	pthread_barrier_destroy(&begun);
	pthread_attr_destroy(&small);
	free(all);
	free(list);
}

/* many THREADS TIMES */
int main(int count, char **words)
{
	struct ww_class *classes[] = { &wound_wait, &wait_die };

	if (count > 1)
		many = (unsigned)atoi(words[1]);
	if (count > 2)
		times = (unsigned)atoi(words[2]);
	for (unsigned kind = 0; kind < 2; kind++) {
		c = classes[kind];
		storm(many, SIXTEEN, many);
		storm(many, SIXTEEN, FEW);
		storm(AWAKE, 65536, 0);
	}
	puts("many: exact sums");
	return 0;
}
