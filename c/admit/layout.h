/* layout.h - a row of a table for debuggers: see layout.c. The debug library has one of its own. It isn't installed. */
#ifndef WW_LAYOUT_H
#define WW_LAYOUT_H
#include <stddef.h>
#include <stdint.h>

struct ww_row {
	char name[28];
	uint32_t is;
};
#define AT(type, field) { #type "." #field, offsetof(struct type, field) }
#define SIZE(type) { "sizeof " #type, sizeof(struct type) }
#define VALUE(name) { #name, name }

#endif
