/*
 * The program ends while a thread goes on, which first uses the library after the library's own end.
 *
 * A key for thread-specific data that other code has made since then, maybe with the number of the library's, isn't
 * touched.
 */
#include "../mutex_test.h"

static DEFINE_WW_CLASS(c);
static pthread_t thread;
static pthread_key_t theirs;
static bool goes_on;

static void their_end(void *own)
{
	printf("another one's key was given %p\n", own);
	_exit(1);
}

static void *uses(void *arg)
{
	struct ww_acquire_ctx x;

	while (!__atomic_load_n(&goes_on, __ATOMIC_SEQ_CST))
		usleep(100);
	ww_acquire_init(&x, &c);
	ww_acquire_fini(&x);
	return arg;
}

/* Of all destructors the last one. */
__attribute__((destructor(101))) static void comes_behind(void)
{
	if (pthread_key_create(&theirs, their_end))
		_exit(2);
	__atomic_store_n(&goes_on, true, __ATOMIC_SEQ_CST);
	pthread_join(thread, NULL);
	puts("exit: no other one's key was touched");
	fflush(stdout);
}

int main(void)
{
	struct ww_acquire_ctx x;

	ww_acquire_init(&x, &c);
	ww_acquire_fini(&x);
	thread = begin_thread(uses, NULL);
	return 0;
}
