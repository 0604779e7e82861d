/*
 * heap.c - the heap of the proved library.  What the three functions have to do is written in the toolchain's libc
 * (src/heap.rt).
 *
 * A large block has pages of its own, and returns them to the system: so what is done with these here is right
 * whatever malloc the program has.  All others are malloc's.  A pointer to its pages, or NULL, stands before each
 * block, which begins with a cache line: so the words of four locks of a class lie in one.
 */
#define _GNU_SOURCE
#include <stdint.h>
#include <stdlib.h>
#include <string.h>
#include <sys/mman.h>
#include <unistd.h>
#include "../base/inside.h"

/* Whether it was granted, and the block; if it wasn't, an address that isn't null. */
struct tried {
	uint64_t ok;
	void *p;
};

struct tried rattle_alloc(size_t size, size_t align);
struct tried rattle_realloc(void *p, size_t kept, size_t size, size_t align);
void rattle_dealloc(void *p);
void *ww_heap_set(void *to, int byte, size_t size);

#ifndef MADV_POPULATE_READ
#define MADV_POPULATE_READ 22 /* of Linux 5.14 */
#endif

static char none;

/* From how many bytes on a block is large; how large a large page is; and how many bytes of a block's pages lie before the block. */
enum { LARGE = 64 << 10, LARGE_PAGE = 2 << 20, AHEAD = 64 };

/* The pages of a large block begin with this. */
struct pages {
	struct pages *older; /* of those that this thread took while it opens a world */
	size_t size;	     /* of all of them, in bytes */
	char unused[AHEAD - 3 * sizeof(size_t)];
	struct pages *here; /* right before the block: where its pages begin */
};

/* While this thread opens a world: the pages that it took last, or `no_pages`.  Otherwise NULL. */
static __thread struct pages *taken __attribute__((tls_model("initial-exec")));
static struct pages no_pages;
/* Memory that no block has yet: between two blocks some is left only while this thread opens a world. */
static __thread struct { char *at; size_t size; } room __attribute__((tls_model("initial-exec")));

static struct pages **pages_of(void *p) { return (struct pages **)p - 1; }

static size_t small_page(void) { return (size_t)sysconf(_SC_PAGESIZE); }

/* The first address from this one on at which a page begins of this size. */
static char *at_page(char *p, size_t page) { return p + (-(uintptr_t)p & (page - 1)); }

static void give_room(void)
{
	if (room.size)
		munmap(room.at, room.size);
	room.size = 0;
}

/*
 * Takes room for a block. A world that opens fills some large blocks with zeros, makes a copy of each, and frees them. So a block as
 * large as an earlier one is the first of the copies, all of which get room now. They are written whole, so they lie in large pages, side
 * by side: the system makes one page fault for each of these, and not for each small page, which halves the time of the copies. The system
 * takes the request for large pages as a hint.
 */
static bool make_room(size_t block)
{
	size_t sum = 0, size;
	bool copies = false;
	char *begin;

	for (struct pages *it = taken; it; it = it->older) {
		sum += it->size;
		copies |= it->size == block;
	}
	copies &= sum > LARGE_PAGE;
	size = copies ? sum + 2 * LARGE_PAGE : block;
	begin = mmap(NULL, size, PROT_READ | PROT_WRITE, MAP_PRIVATE | MAP_ANONYMOUS, -1, 0);
	if (begin == MAP_FAILED)
		return false;
	give_room();
	room.at = at_page(begin, copies ? LARGE_PAGE : 1);
	room.size = (size_t)(begin + size - room.at);
	if (room.at != begin)
		munmap(begin, (size_t)(room.at - begin));
	if (copies)
		madvise(room.at, room.size, MADV_HUGEPAGE);
	return true;
}

static void *take_pages(size_t size)
{
	size_t all = (AHEAD + size + small_page() - 1) & -small_page();
	struct pages *it;

	if (room.size < all && !make_room(all))
		return NULL;
	it = (struct pages *)(void *)room.at;
	room.at += all;
	room.size -= all;
	*it = (struct pages){ .older = taken, .size = all, .here = it };
	if (taken)
		taken = it;
	return it + 1;
}

static void *take_small(size_t size)
{
	char *it = aligned_alloc(AHEAD, AHEAD + ((size + AHEAD - 1) & -(size_t)AHEAD));

	if (!it)
		return NULL;
	*pages_of(it + AHEAD) = NULL;
	return it + AHEAD;
}

struct tried rattle_alloc(size_t size, size_t align)
{
	void *p = size >= LARGE ? take_pages(size) : take_small(size);

	(void)align;
	return (struct tried){ .ok = p != NULL, .p = p ? p : &none };
}

struct tried rattle_realloc(void *p, size_t kept, size_t size, size_t align)
{
	struct tried it = rattle_alloc(size, align);

	if (it.ok) {
		memcpy(it.p, p, kept < size ? kept : size);
		rattle_dealloc(p);
	}
	return it;
}

void rattle_dealloc(void *p)
{
	struct pages *it = *pages_of(p), **at = &taken;

	if (!it) {
		free((char *)p - AHEAD);
		return;
	}
	while (*at && *at != it)
		at = &(*at)->older;
	if (*at)
		*at = it->older;
	munmap(it, it->size);
}

/* ---- what a world writes as it opens ---- */

/*
 * The proved library's memset. A world that opens fills large blocks with zeros, of which it only makes copies. So the system takes back
 * the pages of such a block. Each is the system's one page of zeros then, until something else is written there; so the block takes no
 * memory that would be cleared and returned.
 */
void *ww_heap_set(void *to, int byte, size_t size)
{
	char *from = at_page(to, small_page()), *end = (char *)to + size;
	size_t inside = (size_t)(end - from) & -small_page();

	if (byte || size < LARGE || madvise(from, inside, MADV_DONTNEED))
		return memset(to, byte, size);
	memset(to, 0, (size_t)(from - (char *)to));
	memset(from + inside, 0, (size_t)(end - from) - inside);
	madvise(from, inside, MADV_POPULATE_READ);
	return to;
}

void ww_heap_opens(void) { taken = &no_pages; }

static bool is_zero(const char *at, size_t size) { return !*at && !memcmp(at, at + 1, size - 1); }

/*
 * All large blocks of a world that has just been opened are zero: the words of its locks, and its wait lists, in which nobody stands
 * (that these are zeros is proved, IsZerosIfEmpty of ww_invariant; how the compiler lays them out isn't, so they are looked at).
 * Their pages go back to the system, and are zero when they are next accessed; so a lock that nobody uses takes no memory. Where the
 * system refuses, they stay.
 *
 * The wait lists are the last large block, and lie in small pages from now on: a thread that waits for a lock makes one
 * of them resident, and would make 2 MiB.  So does any context with the beginning of the words.
 */
size_t ww_heap_opened(void)
{
	size_t bytes = 0;

	give_room();
	for (struct pages *it = taken, is; it != &no_pages; it = is.older) {
		is = *it;
		memset(it, 0, sizeof *it);
		if (is_zero((char *)it, is.size))
			madvise(it, is.size, MADV_DONTNEED);
		if (it == taken || is.size >= LARGE_PAGE)
			madvise(it, it == taken ? is.size : small_page(), MADV_NOHUGEPAGE);
		*it = is;
		bytes += is.size;
	}
	taken = NULL;
	return bytes;
}
