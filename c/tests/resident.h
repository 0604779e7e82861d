/* How much of a test's memory is resident, where that can be told. */
#ifndef RESIDENT_H
#define RESIDENT_H
#include "mutex_test.h"
#include <sys/mman.h>

enum { MiB = 1 << 20 };

/* The bytes of this process that are resident and of no file, or -1. */
static inline long resident(void)
{
	FILE *from = fopen("/proc/self/smaps_rollup", "r");
	char line[256];
	long kib = -1;

	while (from && fgets(line, sizeof line, from))
		if (sscanf(line, "Anonymous: %ld", &kib) == 1)
			break;
	if (from)
		fclose(from);
	return kib < 0 ? -1 : kib * 1024;
}

/*
 * Whether it tells, and what a program frees or returns to the system isn't resident any more: of an emulator or valgrind
 * that isn't so.
 */
static inline bool is_told(void)
{
	const size_t size = 32 * MiB, part = size / 2;
	char *p = aligned_alloc(MiB, size);
	long before = resident(), there, returned, freed;

	MUST(p);
	memset(p, 1, size);
	there = resident();
	returned = madvise(p, part, MADV_DONTNEED) ? there : resident();
	free(p);
	freed = resident();
	return before >= 0 && there - returned > 12 * MiB && freed - before < 2 * MiB;
}
#endif
