/* print.h - how print.c writes, and what the debug library writes by it. It isn't installed. */
#ifndef WW_DOORS_PRINT_H
#define WW_DOORS_PRINT_H
#include "../lock/lock.h"

/* Copies what lies there, and returns false if nothing does. */
WW_HIDDEN bool ww_look(void *copy, const void *at, size_t size);
#define SEES(copy, it) ww_look(&(copy), &(it), sizeof(copy))

/* Where text is written: to the file, or, if that is NULL, to the file descriptor, when there is some. */
struct ww_out {
	FILE *file;
	int fd;
	unsigned size;
	char text[400];
};

/* Writes what of the class is in use; and a line for the wait by the seat, with what stands in its way. */
WW_HIDDEN void ww_print_pool(const struct ww_pool *p, struct ww_out *to);
WW_HIDDEN void ww_print_wait(const ww_seat *s, struct ww_out *to);

#endif
