/*
 * A program that is wrong, in which the thread sanitizer has to find a race.
 *
 * One of its threads holds another mutex than it should, with a context or without.
 */
#include "../mutex_test.h"

static DEFINE_WD_CLASS(c);
static struct ww_mutex locks[2];
static unsigned long counter;
static pthread_barrier_t begun, ended; /* one alone would order what comes between */

static void *work(void *arg)
{
	struct ww_mutex *own = &locks[(size_t)arg];
	struct ww_acquire_ctx x;

	/* Both are there all the time: a seat that goes from one to the other would order what they do. */
	ww_acquire_init(&x, &c);
	pthread_barrier_wait(&begun);
	for (unsigned i = 0; i < 1000; i++) {
		MUST(!ww_mutex_lock(own, i & 1 ? &x : NULL));
		counter++;
		ww_mutex_unlock(own);
	}
	pthread_barrier_wait(&ended);
	ww_acquire_fini(&x);
	return NULL;
}

int main(void)
{
	MUST(!ww_class_limit(&c, 2, 4));
	for (unsigned k = 0; k < 2; k++)
		ww_mutex_init(&locks[k], &c);
	pthread_barrier_init(&begun, NULL, 2);
	pthread_barrier_init(&ended, NULL, 2);
	in_threads(2, work);
	printf("race: %lu\n", counter);
	return 0;
}
