/*
 * program.c - what the proved program, as `make` builds it, has of C: the error number of a call that failed; its heap,
 * which is malloc's; a start at which that gets large pages, since a quarter of a run on a long input were the faults
 * of small ones; and what it says to whoever gives it a word, since the proved program reads none. What the functions
 * have to do is written in the toolchain's os and libc.
 */
#define _DEFAULT_SOURCE
#include "ww_steps.h"
#include <errno.h>
#include <malloc.h>
#include <stdint.h>
#include <stdio.h>
#include <stdlib.h>
#include <string.h>
#include <sys/mman.h>
#include <unistd.h>

#define PAGE ((uintptr_t)2 << 20) /* a large one, on x86-64 and mostly on arm64 */
#define ROOM (32 * PAGE)          /* what the longest input allocates, except what each thread has for itself */

int rattle_errno(void);

int rattle_errno(void) { return errno; }

/* Whether it was granted, and the block; if it wasn't, an address that isn't null. */
struct tried {
	uint64_t ok;
	void *p;
};

struct tried rattle_alloc(size_t size, size_t align);
struct tried rattle_realloc(void *p, size_t kept, size_t size, size_t align);
void rattle_dealloc(void *p);

static char none;

static struct tried told(void *p) { return (struct tried){ .ok = p != NULL, .p = p ? p : &none }; }

/* 0 bytes may be asked for, for which malloc may return NULL; and no larger alignment than malloc gives. */
struct tried rattle_alloc(size_t size, size_t align) { return told(malloc(size ? size : align)); }

struct tried rattle_realloc(void *p, size_t kept, size_t size, size_t align)
{
	(void)kept;
	return told(realloc(p, size ? size : align));
}

void rattle_dealloc(void *p) { free(p); }

static const char help[] =
	"ww_run < INPUT\n"
	"\n"
	"Runs transactions under wound/wait locks, or replays a schedule of lock events. It reads one JSON object from standard input, to\n"
	"its end. Its options are --help and --version; it takes no other word.\n"
	"\n"
	"`man ww_run`, and FORMATS.md in share/doc/ww/program, say what an input may have, and what is printed. The tools in share/ww/tools:\n"
	"explain says where an input is wrong, and why; trace and picture show what was printed; json lays an input out.\n";

/* The C library calls it with the words of the program before that begins, as it calls begin_heap. */
__attribute__((constructor)) static void read_words(int count, char **words)
{
	if (count < 2)
		return;
	if (count == 2 && !strcmp(words[1], "--help"))
		exit(fputs(help, stdout) < 0 || fflush(stdout) ? 2 : 0);
	if (count == 2 && !strcmp(words[1], "--version"))
		exit(printf("ww_run %d.%d.%d\n", WW_VERSION_MAJOR, WW_VERSION_MINOR, WW_VERSION_PATCH) < 0 || fflush(stdout) ? 2 : 0);
	fputs("usage: ww_run < INPUT; --help says more\n", stderr);
	exit(4);
}

/* If the system has no large pages, or no heap that grows at its end, this has no effect. */
__attribute__((constructor)) static void begin_heap(void)
{
	void *volatile first; /* an allocation of all of it */
	uintptr_t end, from;

	mallopt(M_TOP_PAD, ROOM);
	mallopt(M_MMAP_THRESHOLD, ROOM / 2); /* the greatest value that is allowed */
	mallopt(M_TRIM_THRESHOLD, 2 * ROOM);
	first = malloc(1);
	end = (uintptr_t)sbrk(0);
	free(first);
	from = (end - ROOM + PAGE - 1) & -PAGE;
	madvise((void *)from, (end - from) & -PAGE, MADV_HUGEPAGE);
}
