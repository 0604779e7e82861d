/*
 * What a class has for each processor, on machines of 1 to 8,192 processors, of which up to 64 count.
 *
 * Tasks have two contexts for each at first.  All of these are handed over or called for, also where there are many.
 * How many processors a thread may use comes by a wrapper (ld --wrap), which refuses a set that has no room for those
 * of the machine, as the kernel does.  Threads that run on one processor each count together, whichever opens the class.
 */
#include "../mutex_test.h"
#include "../../admit/class.h"

enum { MOST_CONTEXTS = 128 };

static size_t usable, of_machine; /* how many processors, the last ones of these */
static __thread size_t pinned;	  /* the only one of this thread, from 1 */
static size_t first_pinned;	  /* of the process's first one */

int __wrap_sched_getaffinity(pid_t pid, size_t size, cpu_set_t *set);
int __wrap_sched_getaffinity(pid_t pid, size_t size, cpu_set_t *set)
{
	size_t only = pid ? first_pinned : pinned;

	MUST(!pid || pid == getpid());
	if (8 * size < of_machine || size % sizeof(long)) {
		errno = EINVAL;
		return -1;
	}
	memset(set, 0, size);
	for (size_t k = of_machine - usable; k < of_machine; k++)
		if (!only || k == only - 1)
			CPU_SET_S(k, size, set);
	return 0;
}

static struct ww_class sized; /* by how many processors there are */
static struct ww_acquire_ctx all[MOST_CONTEXTS + 1];
static struct ww_seek seeks[MOST_CONTEXTS];
static int called[MOST_CONTEXTS];

static void calls(void *loop, void *task)
{
	MUST(loop == &sized);
	++*(int *)task;
}

static int begins(unsigned k, struct ww_acquire_ctx *x)
{
	return ww_acquire_init_poll(x, &sized, &seeks[k], &(struct ww_waker){ calls, &sized, &called[k] });
}

/* As many tasks wait; of those contexts that end, each is somebody's. */
static void none_is_lost(unsigned count)
{
	struct ww_acquire_ctx x;

	memset(seeks, 0, sizeof seeks);
	memset(called, 0, sizeof called);
	for (unsigned k = 0; k < count; k++)
		MUST(begins(k, &x) == -EINPROGRESS);
	for (unsigned k = 0; k < count; k++) { /* from both ends */
		ww_acquire_fini(&all[k % 2 ? count - 1 - k / 2 : k / 2]);
		for (unsigned j = 0; j < count; j++)
			MUST(called[j] == (j <= k));
	}
	for (unsigned k = 0; k < count; k++)
		MUST(!begins(count - 1 - k, &all[k]));
	/* Whoever begins next may have them; so one is called for each. */
	for (unsigned k = 0; k < count; k++)
		MUST(begins(k, &x) == -EINPROGRESS && called[k] == 1);
	for (unsigned k = 0; k < count; k++)
		all[k].own->lease = UINT64_MAX;
	for (unsigned k = count; k--;)
		ww_acquire_fini(&all[k]);
	for (unsigned k = 0; k < count; k++)
		MUST(called[k] == 2 && !begins(k, &all[k]));
	for (unsigned k = 0; k < count; k++)
		all[k].own->lease = 0;
}

static void has(size_t its, size_t processors, unsigned contexts)
{
	unsigned count = 0;

	of_machine = processors;
	usable = its;
	memset(all, 0, sizeof all);
	ww_class_init(&sized, 0, "sized");
	MUST(!ww_class_limit(&sized, 4, 0) && !ww_class_open(&sized));
	sized.pool->tasks.due = UINT64_MAX; /* nobody measures */
	while (count <= MOST_CONTEXTS && !ww_acquire_init_poll(&all[count], &sized, NULL, NULL))
		count++;
	MUST(count == contexts);
	none_is_lost(count);
	none_is_lost(count);
	while (count)
		ww_acquire_fini(&all[--count]);
	MUST(!ww_class_free(&sized));
}

static void *opens(void *processor)
{
	pinned = (size_t)processor;
	MUST(!ww_class_open(&sized));
	return NULL;
}

static void *uses(void *processor)
{
	struct ww_acquire_ctx x;

	pinned = (size_t)processor;
	ww_acquire_init(&x, &sized);
	ww_acquire_fini(&x);
	return NULL;
}

static uint32_t known(void) { return __atomic_load_n(&sized.pool->processors, __ATOMIC_RELAXED); }

/* The first thread may use all four, or runs on one, too. */
static void is_opened_on_one(bool first_is_pinned)
{
	of_machine = usable = 4;
	first_pinned = pinned = first_is_pinned;
	ww_class_init(&sized, 0, "sized");
	end_thread(begin_thread(opens, (void *)2));
	MUST(known() == (first_is_pinned ? 2 : 4));
	for (size_t k = 1; k <= 4; k++) {
		end_thread(begin_thread(uses, (void *)k));
		MUST(known() == (!first_is_pinned ? 4 : k < 2 ? 2 : k));
	}
	MUST(!ww_class_free(&sized) && !ww_class_open(&sized) && known() == (first_is_pinned ? 1 : 4) && !ww_class_free(&sized));
	first_pinned = pinned = 0;
}

int main(void)
{
	is_opened_on_one(false);
	is_opened_on_one(true);
	has(1, 1, 2);
	has(3, 8, 6);
	has(17, 20, 34);
	has(40, 40, 80);
	has(1024, 1024, 128);
	has(5, 1024, 10);
	has(2048, 2048, 128);
	has(20, 2048, 40);
	has(8192, 8192, 128);
	puts("processors: as many contexts of tasks as are due");
	return 0;
}
