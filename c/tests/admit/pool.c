/*
 * Seats of many classes by many threads: more classes than a thread keeps seats of, more threads than contexts.
 *
 * Some threads end with a context begun.
 */
#include "../mutex_test.h"

enum { CLASSES = 20, CONTEXTS = 5, HANDED = 3 };

static struct ww_class classes[CLASSES];
static struct ww_mutex mutexes[CLASSES];
static unsigned long counters[CLASSES];
static unsigned times = 400;

/* One context after another, each of another class. */
static void *goes_around(void *arg)
{
	unsigned long x = (unsigned long)(size_t)arg * 2654435761u | 1;

	for (unsigned t = 0; t < times; t++) {
		struct ww_acquire_ctx ctx;
		unsigned k;

		x ^= x << 13, x ^= x >> 7, x ^= x << 17;
		k = (unsigned)(x >> 20) % CLASSES;
		ww_acquire_init(&ctx, &classes[k]);
		MUST(!ww_mutex_lock(&mutexes[k], &ctx));
		counters[k]++;
		ww_mutex_unlock(&mutexes[k]);
		ww_acquire_fini(&ctx);
		if (t % 16 == 0 && ww_mutex_trylock(&mutexes[k], NULL)) {
			counters[k]++;
			ww_mutex_unlock(&mutexes[k]);
		}
	}
	return NULL;
}

static void *begins_one(void *arg)
{
	ww_acquire_init(arg, &classes[0]);
	return NULL;
}

/* While admission is limited, as after many waits on a busy machine, a begin that doesn't wait gets no permit. So this one waits. */
static void begins(struct ww_acquire_ctx *x)
{
	struct timespec later = in_ms(60000);

	MUST(!ww_acquire_init_until(x, &classes[0], &later));
}

/* Some threads end while the contexts that they began go on; then all contexts can be had, and no more. */
static void outlive_their_threads(void)
{
	struct ww_acquire_ctx handed[HANDED], mine[CONTEXTS], more;

	for (unsigned again = 0; again < 100; again++) {
		for (unsigned k = 0; k < HANDED; k++)
			end_thread(begin_thread(begins_one, &handed[k]));
		for (unsigned k = 0; k < CONTEXTS - HANDED; k++)
			begins(&mine[k]);
		MUST(ww_acquire_init_checked(&more, &classes[0]) == -EAGAIN);
		for (unsigned k = 0; k < HANDED; k++)
			ww_acquire_fini(&handed[k]);
		for (unsigned k = 0; k < CONTEXTS - HANDED; k++)
			ww_acquire_fini(&mine[k]);
		for (unsigned k = 0; k < CONTEXTS; k++)
			begins(&mine[k]);
		MUST(ww_acquire_init_checked(&more, &classes[0]) == -EAGAIN);
		for (unsigned k = 0; k < CONTEXTS; k++)
			ww_acquire_fini(&mine[k]);
	}
}

int main(int count, char **words)
{
	pthread_t threads[16];

	if (count > 1)
		times = (unsigned)atoi(words[1]);
	for (unsigned again = 0; again < 3; again++) {
		unsigned long sum = 0;

		for (unsigned k = 0; k < CLASSES; k++) {
			ww_class_init(&classes[k], k % 2, "pool");
			MUST(!ww_class_limit(&classes[k], 4, CONTEXTS));
			ww_mutex_init(&mutexes[k], &classes[k]);
			counters[k] = 0;
		}
		for (unsigned rounds = 0; rounds < 2; rounds++) {
			for (size_t k = 0; k < 16; k++)
				threads[k] = begin_thread(goes_around, (void *)(k + 1));
			for (unsigned k = 0; k < 16; k++)
				end_thread(threads[k]);
		}
		outlive_their_threads();
		for (unsigned k = 0; k < CLASSES; k++) {
			sum += counters[k];
			MUST(!ww_mutex_destroy(&mutexes[k]) && !ww_class_free(&classes[k]));
		}
		MUST(sum >= 2ul * 16 * times);
	}
	printf("seats of %d classes\n", CLASSES);
	return 0;
}
