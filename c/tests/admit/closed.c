/*
 * The library is closed (dlclose) while a thread that used it goes on, and another one, which closed it, ends.
 *
 * Again and again, so that no key is left either.  closed LIBRARY TIMES
 * It may be part of a plugin (CLOSABLE), whose last destructor uses a class: then too nothing calls it afterwards, as a thread
 * ends or the process forks.
 */
#include "../mutex_test.h"
#include <dlfcn.h>
#include <sys/wait.h>

static struct ww_class c;

#ifdef CLOSABLE
__attribute__((destructor(101))) static void last(void)
{
	struct ww_acquire_ctx x;

	ww_acquire_init(&x, &c);
	ww_acquire_fini(&x);
	MUST(!ww_class_free(&c));
}
#else
static struct ww_mutex m;
static pthread_barrier_t used, closed;

/* What the library has by these names. */
static struct {
	__typeof__(ww_mutex_init_checked) *init;
	__typeof__(ww_mutex_destroy) *destroy;
	__typeof__(ww_class_free) *gone;
	__typeof__(ww_mutex_trylock) *try;
	__typeof__(ww_mutex_unlock_checked) *unlock;
} library;

static void *named(void *handle, const char *name)
{
	void *it = dlsym(handle, name);

	MUST(it);
	return it;
}

static void *uses(void *arg)
{
	(void)arg;
	MUST(library.try(&m, NULL) == 1 && !library.unlock(&m));
	pthread_barrier_wait(&used);
	pthread_barrier_wait(&closed);
	return NULL;
}

static void *closes(void *handle)
{
	MUST(!library.destroy(&m) && !library.gone(&c) && !dlclose(handle));
	return NULL;
}

static void forks(void)
{
	int status;
	pid_t child = fork();

	if (!child)
		_exit(0);
	MUST(waitpid(child, &status, 0) == child && WIFEXITED(status));
}

int main(int count, char **words)
{
	MUST(count == 3);
	pthread_barrier_init(&used, NULL, 2);
	pthread_barrier_init(&closed, NULL, 2);
	for (int k = atoi(words[2]); k; k--) {
		void *handle = dlopen(words[1], RTLD_NOW);
		pthread_t thread;

		MUST(handle);
		*(void **)&library.init = named(handle, "ww_mutex_init_checked");
		*(void **)&library.destroy = named(handle, "ww_mutex_destroy");
		*(void **)&library.gone = named(handle, "ww_class_free");
		*(void **)&library.try = named(handle, "ww_mutex_trylock");
		*(void **)&library.unlock = named(handle, "ww_mutex_unlock_checked");
		c = (struct ww_class){ .mutexes = 4 };
		MUST(!library.init(&m, &c));
		thread = begin_thread(uses, NULL);
		pthread_barrier_wait(&used);
		end_thread(begin_thread(closes, handle));
		pthread_barrier_wait(&closed);
		end_thread(thread);
	}
	forks();
	puts("closed: closed, and its threads ended well");
	return 0;
}
#endif
