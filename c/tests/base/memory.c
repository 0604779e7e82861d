/*
 * What a class asks of the system for its memory: large blocks come by mmap, and go by munmap as it is freed.
 *
 * A class asks that of memory alone that it took from the system itself: what malloc gives isn't always private memory
 * of no file, and what was asked for it would outlast the class.  The calls come by wrappers (ld --wrap).
 */
#include "../mutex_test.h"
#include "ww_shared.h"
#include <sys/mman.h>

enum { MOST = 64, MiB = 1 << 20 };

/* As MUST, amid a call of the library. */
#define IS(fact)                                                                                       \
	do {                                                                                           \
		if (!(fact)) {                                                                         \
			fprintf(stderr, "%s:%d: not so: %s\n", __FILE__, __LINE__, #fact);             \
			_exit(1);                                                                      \
		}                                                                                      \
	} while (0)

/* ---- what was taken from the system, and not returned ---- */

static pthread_mutex_t changes = PTHREAD_MUTEX_INITIALIZER;
static struct { char *at, *end; } taken[MOST];
static size_t most; /* bytes at a time */

static size_t bytes_taken(void)
{
	size_t sum = 0;

	for (unsigned k = 0; k < MOST; k++)
		sum += (size_t)(taken[k].end - taken[k].at);
	most = sum > most ? sum : most;
	return sum;
}

static void takes(char *at, size_t size)
{
	unsigned k = 0;

	pthread_mutex_lock(&changes);
	while (k < MOST && taken[k].at != taken[k].end)
		k++;
	IS(k < MOST);
	taken[k].at = at;
	taken[k].end = at + size;
	bytes_taken();
	pthread_mutex_unlock(&changes);
}

/* Whether the range lies in what was taken. */
static bool is_taken(const char *at, size_t size)
{
	bool is = false;

	pthread_mutex_lock(&changes);
	for (unsigned k = 0; k < MOST; k++)
		is |= at >= taken[k].at && at < taken[k].end && size <= (size_t)(taken[k].end - at);
	pthread_mutex_unlock(&changes);
	return is;
}

/* All of it, or what lies before or behind. */
static void gives(char *at, size_t size)
{
	IS(is_taken(at, size));
	pthread_mutex_lock(&changes);
	for (unsigned k = 0; k < MOST; k++) {
		char *end = taken[k].end;

		if (at < taken[k].at || at >= end)
			continue;
		taken[k].end = at;
		if (at + size < end) {
			pthread_mutex_unlock(&changes);
			takes(at + size, (size_t)(end - at) - size);
			return;
		}
		break;
	}
	pthread_mutex_unlock(&changes);
}

void *__real_mmap(void *at, size_t size, int prot, int flags, int file, off_t offset);
void *__wrap_mmap(void *at, size_t size, int prot, int flags, int file, off_t offset);
void *__wrap_mmap(void *at, size_t size, int prot, int flags, int file, off_t offset)
{
	char *p = __real_mmap(at, size, prot, flags, file, offset);

	IS(flags & MAP_ANONYMOUS && flags & MAP_PRIVATE && file == -1 && !(flags & MAP_FIXED));
	if (p != MAP_FAILED)
		takes(p, size);
	return p;
}

int __real_munmap(void *at, size_t size);
int __wrap_munmap(void *at, size_t size);
int __wrap_munmap(void *at, size_t size)
{
	gives(at, size);
	return __real_munmap(at, size);
}

int __real_madvise(void *at, size_t size, int advice);
int __wrap_madvise(void *at, size_t size, int advice);
int __wrap_madvise(void *at, size_t size, int advice)
{
	IS(is_taken(at, size));
	return __real_madvise(at, size, advice);
}

/* How many KiB of this process's memory are of large pages, or of small ones, for ever; 0 where that can't be told. */
static unsigned long asked_for(void)
{
	FILE *from = fopen("/proc/self/smaps", "r");
	unsigned long size = 0, sum = 0;
	char line[512];

	while (from && fgets(line, sizeof line, from)) {
		sscanf(line, "Size: %lu", &size);
		if (!strncmp(line, "VmFlags:", 8) && (strstr(line, " hg") || strstr(line, " nh")))
			sum += size;
	}
	if (from)
		fclose(from);
	return sum;
}

/* ---- classes of all sizes ---- */

/* One in so many numbers is locked, each by a context of its own; for a few of these another one waits in vain. */
static void all_work(struct ww_class *c, uint32_t mutexes, uint32_t every)
{
	const struct timespec past = { 0, 0 };
	uint32_t *numbers = malloc(mutexes / every * sizeof *numbers), count = mutexes / every;
	struct ww_acquire_ctx x, y;

	MUST(numbers);
	for (uint32_t k = 0; k < count; k++)
		MUST(!ww_number_take(&numbers[k], c));
	for (uint32_t k = 0; k < count; k++) {
		ww_acquire_init(&x, c);
		ww_acquire_init(&y, c);
		MUST(!ww_mutex_lock_until(&ww_number_at(numbers[k], c)->mutex_, &x, &past) && !ww_number_trylock(numbers[k], &y));
		if (k % 4096 == 0)
			MUST(ww_mutex_lock_until(&ww_number_at(numbers[k], c)->mutex_, &y, &past) == -ETIMEDOUT);
		MUST(!ww_number_unlock(numbers[k], &x) && ww_number_trylock(numbers[k], &y) && !ww_number_unlock(numbers[k], &y));
		ww_acquire_fini(&y);
		ww_acquire_fini(&x);
	}
	for (uint32_t k = 0; k < count; k++)
		MUST(!ww_number_put(numbers[k], c));
	free(numbers);
}

static void opens(uint32_t mutexes, uint32_t contexts, int kind)
{
	size_t before = bytes_taken();
	struct ww_class c;
	char *behind;

	ww_class_init(&c, kind, "large");
	MUST(!ww_class_limit(&c, mutexes, contexts) && !ww_class_open(&c));
	behind = malloc(100000); /* the program's own, which lies behind what malloc gave */
	MUST(behind);
	memset(behind, 1, 100000);
	if (mutexes >= 1 << 20)
		MUST(bytes_taken() - before >= 16 * MiB);
	all_work(&c, mutexes, mutexes > 65536 ? 251 : 7);
	MUST(!ww_class_free(&c) && bytes_taken() == before);
	free(behind);
}

int main(void)
{
	unsigned long before = asked_for();

	for (int kind = 0; kind < 2; kind++) {
		opens(64, 4, kind);
		opens(1000, 0, kind);
		opens(65536, 0, kind);
		opens(200000, 16, kind);
		opens(450000, 4094, kind);
		opens(1 << 20, 16, kind);
	}
	MUST(asked_for() == before && !bytes_taken() && most >= 16 * MiB);
	puts("memory: what is asked of the system is for memory of its own, and goes back");
	return 0;
}
