/*
 * The heap of the proved library by itself: blocks that grow, shrink and are freed, and pages that go back.
 *
 * A block that grows or shrinks keeps what was written, and nothing behind it is read or written; what is freed goes
 * back, whichever thread frees it.  Of the large blocks that a world has when it is open, those of zeros are returned to the
 * system, and no other.  The copies that it makes meanwhile lie side by side.  The heap's memset writes what memset writes, and takes no
 * memory for zeros.
 */
#define _GNU_SOURCE
#include "../resident.h"
#include <stdint.h>
#include <sys/mman.h>

static size_t page;

/* ---- memory whose end is that of its pages, with one behind that nobody may access ---- */

enum { MOST = 64 };
static struct { char *at, *from, *end; } there[MOST];
static pthread_mutex_t changes = PTHREAD_MUTEX_INITIALIZER;

static unsigned blocks(void)
{
	unsigned count = 0;

	for (unsigned k = 0; k < MOST; k++)
		count += !!there[k].at;
	return count;
}

static void *takes(size_t size, size_t align)
{
	size_t all = (size + page - 1) / page * page;
	unsigned k = 0;
	char *at = mmap(NULL, all + page, PROT_READ | PROT_WRITE, MAP_PRIVATE | MAP_ANONYMOUS, -1, 0);

	MUST(at != MAP_FAILED && !mprotect(at + all, page, PROT_NONE));
	pthread_mutex_lock(&changes);
	while (there[k].at)
		MUST(++k < MOST);
	there[k].from = at;
	there[k].end = at + all;
	there[k].at = at + (all - size) / align * align;
	pthread_mutex_unlock(&changes);
	return there[k].at;
}

static void gives(void *p)
{
	unsigned k = 0;

	pthread_mutex_lock(&changes);
	while (there[k].at != p)
		MUST(++k < MOST);
	there[k].at = NULL;
	pthread_mutex_unlock(&changes);
	/* The addresses are nobody's from now on. */
	MUST(mmap(there[k].from, (size_t)(there[k].end - there[k].from), PROT_NONE, MAP_PRIVATE | MAP_ANONYMOUS | MAP_FIXED, -1, 0) == there[k].from);
}

static void *maps(void *at, size_t size, int prot, int flags, int file, off_t offset)
{
	MUST(!at && prot == (PROT_READ | PROT_WRITE) && flags == (MAP_PRIVATE | MAP_ANONYMOUS) && file == -1 && !offset);
	return takes(size, page);
}

/* A part goes: what lies before and behind it stays. */
static int unmaps(void *at, size_t size)
{
	char *from = at, *end = from + size;
	unsigned k = 0, behind = 0;

	pthread_mutex_lock(&changes);
	while (!there[k].at || from < there[k].at || from >= there[k].end)
		MUST(++k < MOST);
	MUST(size && end <= there[k].end);
	while (there[behind].at)
		MUST(++behind < MOST);
	if (end < there[k].end) {
		there[behind].at = there[behind].from = end;
		there[behind].end = there[k].end;
	}
	there[k].end = from;
	if (from == there[k].at)
		there[k].at = NULL;
	pthread_mutex_unlock(&changes);
	MUST(mmap(at, size, PROT_NONE, MAP_PRIVATE | MAP_ANONYMOUS | MAP_FIXED, -1, 0) == at);
	return 0;
}

/* How many bytes were returned, and for how many large pages were asked for; and what has small pages from now on. */
static size_t returned, enlarged;
static char *small_from, *small_end;

static int advises(void *at, size_t size, int advice)
{
	MUST(!((uintptr_t)at % page));
	returned += advice == MADV_DONTNEED ? size : 0;
	enlarged += advice == MADV_HUGEPAGE ? size : 0;
	if (advice == MADV_NOHUGEPAGE && !small_from) {
		small_from = at;
		small_end = small_from + size;
	}
	return madvise(at, size, advice);
}

#define mmap(...) maps(__VA_ARGS__)
#define munmap(...) unmaps(__VA_ARGS__)
#define madvise(...) advises(__VA_ARGS__)
#define aligned_alloc(align, size) takes(size, align)
#define free(p) gives(p)
#include "../../core/heap.c"

static char *block(size_t size)
{
	struct tried it = rattle_alloc(size, 8);

	MUST(it.ok && it.p && !((uintptr_t)it.p % 64)); /* a cache line */
	return it.p;
}

static char of(size_t k) { return (char)(k * 7 + k / 251 + 1); }

/* ---- */

static void grow_and_shrink(void)
{
	const size_t sizes[] = { 1, 100, LARGE - 1, LARGE, LARGE + 1, 5 * LARGE, LARGE_PAGE + 100 };
	enum { SIZES = sizeof sizes / sizeof *sizes };

	for (unsigned j = 0; j < SIZES * SIZES; j++) {
		size_t from = sizes[j / SIZES], to = sizes[j % SIZES];
		char *p = block(from);
		struct tried it;

		for (size_t k = 0; k < from; k++)
			p[k] = of(k);
		it = rattle_realloc(p, from, to, 8);
		MUST(it.ok && blocks() == 1);
		p = it.p;
		for (size_t k = 0; k < from && k < to; k++)
			MUST(p[k] == of(k));
		memset(p, 1, to);
		rattle_dealloc(p);
		MUST(!blocks());
	}
}

static void *frees(void *p)
{
	rattle_dealloc(p);
	return NULL;
}

/* Another thread frees what this one took, as a class may be freed by any; what it still has is freed then. */
static void by_any_thread(bool opens)
{
	char *older = block(LARGE), *newer;

	if (opens)
		ww_heap_opens();
	newer = block(LARGE);
	if (opens)
		ww_heap_opened();
	end_thread(begin_thread(frees, newer));
	rattle_dealloc(older);
	MUST(!blocks());
}

/* While a world opens: blocks that are freed, and one that grows. */
static void freed_amid(void)
{
	char *one, *two;

	ww_heap_opens();
	one = block(LARGE);
	two = block(2 * LARGE);
	rattle_dealloc(one);
	one = rattle_realloc(two, 2 * LARGE, 4 * LARGE, 8).p;
	ww_heap_opened();
	rattle_dealloc(one);
	MUST(!blocks());
}

/* Of a block that isn't zero one byte isn't. */
static void zeros_go(size_t size)
{
	const size_t bytes[] = { 0, 1, size / 2, size - 1 };

	for (unsigned k = 0; k <= sizeof bytes / sizeof *bytes; k++) {
		bool stays_zero = k == sizeof bytes / sizeof *bytes;
		char *p;

		ww_heap_opens();
		p = block(size);
		memset(p, 0, size);
		if (!stays_zero)
			p[bytes[k]] = 1;
		returned = 0;
		MUST(ww_heap_opened() >= size);
		MUST(stays_zero ? returned >= size : !returned);
		MUST(stays_zero || p[bytes[k]] == 1);
		rattle_dealloc(p);
		MUST(!blocks());
	}
}

/*
 * As a world does: it makes blocks of zeros, a copy of each, and frees them. The last copy, which has the wait lists, has small pages from
 * then on. The copies are freed when the world is closed.
 */
static void copies(size_t one, size_t other, bool apart)
{
	char *zeros[2], *copy[2];
	size_t all;

	enlarged = 0;
	ww_heap_opens();
	for (unsigned k = 0; k < 2; k++) {
		zeros[k] = block(k ? other : one);
		ww_heap_set(zeros[k], 0, k ? other : one);
	}
	copy[1] = block(other);
	copy[0] = block(one);
	memcpy(copy[1], zeros[1], other);
	memcpy(copy[0], zeros[0], one);
	for (unsigned k = 0; k < 2; k++)
		rattle_dealloc(zeros[k]);
	returned = 0;
	small_from = NULL;
	all = ww_heap_opened();
	MUST(small_from == copy[0] - AHEAD && small_end >= copy[0] + one);
	MUST(all >= one + other && all < one + other + 4 * page && returned == all && blocks() == (apart ? 2 : 1));
	MUST(apart ? !enlarged : enlarged >= one + other);
	MUST(apart || (copy[0] > copy[1] && copy[0] < copy[1] + other + 2 * page && !(((uintptr_t)copy[1] - AHEAD) % LARGE_PAGE)));
	memset(copy[0], 1, one);
	memset(copy[1], 1, other);
	rattle_dealloc(copy[0]);
	copy[1][other - 1] = 2;
	rattle_dealloc(copy[1]);
	MUST(!blocks());
}

/* Sets all of a block but its first bytes and the last one: a new block, and one in which each byte is written before. */
static void sets(size_t size, int byte, bool is_new, bool told)
{
	enum { FIRST = 3 };
	char *p = block(size);
	long before = resident();

	for (size_t k = 0; !is_new && k < size; k++)
		p[k] = of(k) ? of(k) : 1;
	MUST(ww_heap_set(p + FIRST, byte, size - FIRST - 1) == p + FIRST);
	MUST(!told || !is_new || byte || size < LARGE_PAGE || resident() - before < (long)LARGE);
	for (size_t k = 0; k < size; k++)
		MUST(p[k] == (k >= FIRST && k < size - 1 ? (char)byte : is_new ? 0 : of(k) ? of(k) : 1));
	rattle_dealloc(p);
}

int main(void)
{
	const size_t sizes[] = { 100, LARGE, LARGE + 100, LARGE_PAGE + 3 * LARGE + 1 };
	bool told = is_told();

	page = (size_t)sysconf(_SC_PAGESIZE);
	if (!told)
		printf("what is resident can't be told here\n");
	for (unsigned k = 0; k < 4 * sizeof sizes / sizeof *sizes; k++)
		if (sizes[k / 4] >= LARGE || k & 1)
			sets(sizes[k / 4], k & 2 ? 7 : 0, !(k & 1), told);
	grow_and_shrink();
	by_any_thread(false);
	by_any_thread(true);
	by_any_thread(false);
	freed_amid();
	for (size_t size = LARGE; size < LARGE + 2 * page; size += page / 2)
		zeros_go(size);
	zeros_go(LARGE_PAGE + 3 * page + 1);
	copies(LARGE_PAGE + 100, LARGE_PAGE / 2, false);
	copies(LARGE_PAGE - LARGE, LARGE_PAGE / 2, false);
	copies(5 * LARGE, 2 * LARGE, true);
	puts("blocks: blocks grow, shrink and go, and only those of zeros are returned");
	return 0;
}
