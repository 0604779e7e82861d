/*
 * Two copies of the library in one program, as two plugins that are linked with the archive have.
 *
 * Each has classes of its own, whose contexts work.  For a class that the other copy opened, each call that takes a
 * seat, or is about the whole class, ends the program with a message.  A plugin that was closed and is loaded again,
 * wherever it lies then, is another copy.  copies LIBRARY LIBRARY, of which the first one is gone once it is closed.
 */
#include "../mutex_test.h"
#include "ww_poll.h"
#include <dlfcn.h>
#include <sys/wait.h>

static struct copy {
	__typeof__(ww_mutex_init) *make;
	__typeof__(ww_mutex_destroy) *destroy;
	__typeof__(ww_mutex_lock) *lock;
	__typeof__(ww_mutex_unlock) *unlock;
	__typeof__(ww_mutex_is_held_by) *is_held_by;
	__typeof__(ww_acquire_init) *begin;
	__typeof__(ww_acquire_init_poll) *begin_poll;
	__typeof__(ww_acquire_fini) *end;
	__typeof__(ww_class_open) *open;
	__typeof__(ww_class_free) *free;
	__typeof__(ww_class_stats) *stats;
	__typeof__(ww_report_to) *report_to;
} copies[2];

static struct own {
	struct ww_class c;
	struct ww_mutex m;
} owns[2];

static void *named(void *handle, const char *name)
{
	void *it = dlsym(handle, name);

	MUST(it);
	return it;
}

static void *load(struct copy *it, const char *library)
{
	void *handle = dlopen(library, RTLD_NOW | RTLD_LOCAL);

	MUST(handle);
	*(void **)&it->make = named(handle, "ww_mutex_init");
	*(void **)&it->destroy = named(handle, "ww_mutex_destroy");
	*(void **)&it->lock = named(handle, "ww_mutex_lock");
	*(void **)&it->unlock = named(handle, "ww_mutex_unlock");
	*(void **)&it->is_held_by = named(handle, "ww_mutex_is_held_by");
	*(void **)&it->begin = named(handle, "ww_acquire_init");
	*(void **)&it->begin_poll = named(handle, "ww_acquire_init_poll");
	*(void **)&it->end = named(handle, "ww_acquire_fini");
	*(void **)&it->open = named(handle, "ww_class_open");
	*(void **)&it->free = named(handle, "ww_class_free");
	*(void **)&it->stats = named(handle, "ww_class_stats");
	*(void **)&it->report_to = named(handle, "ww_report_to");
	return handle;
}

/* Whom a message reaches may fork, as one that starts a debugger. */
static void tells(void *nobody, const char *message)
{
	pid_t child = fork();

	(void)nobody;
	if (!child)
		_exit(0);
	MUST(waitpid(child, NULL, 0) == child);
	fputs(message, stderr);
}

/* Each call by the second copy of what is the first one's: where it isn't refused it may find the mutex free, which is held. */
static void does(unsigned what)
{
	const struct copy *it = &copies[1];
	struct own *other = &owns[0];
	struct ww_class_counts counts;
	struct ww_mutex first = WW_MUTEX_INIT(&other->c);
	struct ww_acquire_ctx x;

	it->report_to(tells, NULL);
	switch (what) {
	case 0:
		it->begin(&x, &other->c);
		it->lock(&other->m, &x);
		break;
	case 1: it->lock(&other->m, NULL); break;
	case 2: MUST(!it->open(&other->c)); break;
	case 3: it->free(&other->c); break;
	case 4: it->stats(&other->c, &counts); break;
	case 5: it->lock(&first, NULL); break;
	case 6: MUST(!it->begin_poll(&x, &other->c, NULL, NULL)); break;
	}
}

enum { WAYS = 7 };

/* Each copy has a class, and the thread keeps a seat of it. */
static void uses(unsigned k)
{
	struct ww_acquire_ctx x;

	owns[k].c = (struct ww_class){ .name = "one" };
	copies[k].make(&owns[k].m, &owns[k].c);
	copies[k].begin(&x, &owns[k].c);
	copies[k].end(&x);
}

static void by_two_copies(unsigned what)
{
	struct ww_acquire_ctx x;

	uses(0);
	uses(1);
	copies[0].begin(&x, &owns[0].c);
	MUST(!copies[0].lock(&owns[0].m, &x));
	does(what);
}

static const char *plugin;

/* The second copy is the first one, loaded again, which has opened no class or as many. */
static void by_one_loaded_again(unsigned what)
{
	void *first = load(&copies[0], plugin);
	struct ww_acquire_ctx x;

	uses(0);
	copies[0].begin(&x, &owns[0].c);
	MUST(!copies[0].lock(&owns[0].m, &x));
	copies[0].unlock(&owns[0].m);
	copies[0].end(&x);
	MUST(!dlclose(first));
	load(&copies[1], plugin);
	if (what >= WAYS)
		uses(1);
	does(what % WAYS);
}

static void is_refused(void (*by)(unsigned what), unsigned what)
{
	char told[200] = "";
	int ends[2], status;
	pid_t child;

	MUST(!pipe(ends));
	child = fork();
	if (!child) {
		dup2(ends[1], 2);
		by(what);
		_exit(0);
	}
	close(ends[1]);
	MUST(waitpid(child, &status, 0) == child && read(ends[0], told, sizeof told - 1) > 0);
	close(ends[0]);
	MUST(WIFSIGNALED(status) && WTERMSIG(status) == SIGABRT && strstr(told, "class \"one\": another copy of the library opened it"));
}

/* This thread has its own seats in the second copy at the place at which the first thread has its own in the first copy. */
static void *asks_the_second(void *arg)
{
	uses(1);
	MUST(!copies[1].is_held_by(&owns[0].m, NULL));
	return arg;
}

/* What a thread holds without a context, by its own seat in one copy, no other thread holds by the other copy. */
static void is_held_by_one_thread(void)
{
	uses(0);
	MUST(!copies[0].lock(&owns[0].m, NULL) && copies[0].is_held_by(&owns[0].m, NULL));
	end_thread(begin_thread(asks_the_second, NULL));
	copies[0].unlock(&owns[0].m);
	for (unsigned k = 0; k < 2; k++)
		MUST(!copies[k].destroy(&owns[k].m) && !copies[k].free(&owns[k].c));
}

int main(int count, char **words)
{
	MUST(count == 3);
	plugin = words[1];
	for (unsigned what = 0; what < 2 * WAYS; what++)
		is_refused(by_one_loaded_again, what);
	for (unsigned k = 0; k < 2; k++)
		load(&copies[k], words[1 + k]);
	MUST(copies[0].begin != copies[1].begin);
	for (unsigned what = 0; what < WAYS; what++)
		is_refused(by_two_copies, what);
	is_held_by_one_thread();
	/* A context that one copy began may be used, and ended, by the other. */
	for (unsigned k = 0; k < 2; k++) {
		struct own *own = &owns[k];
		struct ww_acquire_ctx x;

		own->c = (struct ww_class){ .name = "one" };
		copies[k].make(&own->m, &own->c);
		for (unsigned again = 0; again < 3; again++) {
			copies[k].begin(&x, &own->c);
			MUST(!copies[!k].lock(&own->m, &x));
			copies[k].unlock(&own->m);
			copies[!k].end(&x);
		}
		MUST(!copies[k].destroy(&own->m) && !copies[k].free(&own->c));
	}
	puts("copies: a class is of one copy of the library alone");
	return 0;
}
