/* said.h - what the library wrote, without what differs from run to run. */
#include <ctype.h>
#include <stdio.h>
#include <stdlib.h>
#include <string.h>

/* Takes addresses and times of waits out of the text, and leaves @ in place of the mutex that a report is about. */
static inline void without_addresses(char *text)
{
	char *to = text;

	for (const char *at = text; *at;) {
		size_t digits = !strncmp(at, " waits ", 7) ? strspn(at + 7, "0123456789.") : 0;

		if (!strncmp(at, " [mutex ", 8) && strchr(at, ']')) {
			at = strchr(at, ']') + 1;
			*to++ = '@';
		} else if (!strncmp(at, " at 0x", 6)) {
			for (at += 6; isxdigit((unsigned char)*at);)
				at++;
		} else if (digits && !strncmp(at + 7 + digits, " s ", 3)) {
			memcpy(to, " waits", 6);
			to += 6;
			at += 7 + digits + 2;
		} else {
			*to++ = *at++;
		}
	}
	*to = 0;
}

/* What ww_class_print writes of the class, without these; its caller frees it. */
static inline char *printed(struct ww_class *c)
{
	enum { MOST = 1 << 20 };
	FILE *to = tmpfile();
	char *text = calloc(1, MOST);

	MUST(to && text);
	ww_class_print(c, fileno(to));
	rewind(to);
	MUST(fread(text, 1, MOST - 1, to) < MOST - 1);
	fclose(to);
	without_addresses(text);
	return text;
}
