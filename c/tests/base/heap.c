/*
 * A class over another heap: one in a private mapping of a file, whose pages aren't zero once they went back.
 *
 * Heaps are so that are restored from a snapshot: a page that goes back to the system has what the file has.  Compiled
 * with -DHEAP this is that heap, which LD_PRELOAD puts in place, and else the program.
 */
#define _GNU_SOURCE
#ifdef HEAP
#include <stddef.h>
#include <stdint.h>
#include <string.h>
#include <sys/mman.h>
#include <unistd.h>

enum { SIZE = 256 << 20, SMALL = 1 << 20, PART = 4096, ALIGN = 16 };
static char *heap, *heap_at, small[SMALL], *small_at = small;
static int opens;

void *memalign(size_t align, size_t size);

static void open_heap(void)
{
	int file = memfd_create("snapshot", 0);
	char part[PART];

	opens = 1;
	memset(part, 0xaa, sizeof part);
	for (size_t k = 0; k < SIZE; k += sizeof part)
		if (write(file, part, sizeof part) != (ssize_t)sizeof part)
			_exit(2);
	heap = heap_at = mmap(NULL, SIZE, PROT_READ | PROT_WRITE, MAP_PRIVATE, file, 0);
	close(file);
}

/* Before a block lies its size. Nothing is freed. */
void *aligned_alloc(size_t align, size_t size)
{
	char **from, *p;

	if (!heap && !opens)
		open_heap();
	from = heap ? &heap_at : &small_at;
	align = align < ALIGN ? ALIGN : align;
	p = (char *)(((uintptr_t)*from + ALIGN + align - 1) & -align);
	if (p + size > (heap ? heap + SIZE : small + SMALL))
		return NULL;
	memcpy(p - sizeof size, &size, sizeof size);
	*from = p + size;
	return p;
}

void *memalign(size_t align, size_t size) { return aligned_alloc(align, size); }
void *malloc(size_t size) { return aligned_alloc(ALIGN, size); }
void free(void *p) { (void)p; }

void *calloc(size_t count, size_t size)
{
	void *p = malloc(count * size);

	return p ? memset(p, 0, count * size) : p;
}

void *realloc(void *p, size_t size)
{
	void *q = malloc(size);
	size_t was = 0;

	if (p)
		memcpy(&was, (char *)p - sizeof was, sizeof was);
	return p && q ? memcpy(q, p, was < size ? was : size) : q;
}

int posix_memalign(void **p, size_t align, size_t size)
{
	*p = aligned_alloc(align, size);
	return *p ? 0 : 12;
}
#else
#include "../mutex_test.h"

enum { MUTEXES = 60000 };

int main(void)
{
	for (int kind = 0; kind < 2; kind++) {
		struct ww_mutex *all = calloc(MUTEXES, sizeof *all);
		struct ww_class c;

		MUST(all);
		ww_class_init(&c, kind, "kept elsewhere");
		for (unsigned k = 0; k < MUTEXES; k++)
			ww_mutex_init(&all[k], &c);
		for (unsigned k = 0; k < MUTEXES; k += 7) {
			struct ww_acquire_ctx x;

			ww_acquire_init(&x, &c);
			MUST(ww_mutex_trylock(&all[k], &x) && !ww_mutex_trylock(&all[k], NULL) && ww_mutex_is_locked(&all[k]));
			ww_mutex_unlock(&all[k]);
			MUST(!ww_mutex_lock(&all[k], &x));
			ww_mutex_unlock(&all[k]);
			ww_acquire_fini(&x);
		}
		for (unsigned k = 0; k < MUTEXES; k++)
			MUST(!ww_mutex_destroy(&all[k]));
		MUST(!ww_class_free(&c));
		free(all);
	}
	puts("heap: all mutexes work");
	return 0;
}
#endif
