/* report.c - the debug library's messages: each with the line of the call, and a backtrace. */
#define _GNU_SOURCE
#include "parts.h"
#ifdef WW_DEBUG /* a build of libww may name all sources */
#include <stdarg.h>
#include <string.h>
/* Not every C library has backtrace(). */
#if __has_include(<execinfo.h>)
#include <execinfo.h>
#define HAS_BACKTRACE
#endif

static unsigned long faults, warnings;
__thread struct place ww_here;
__thread char ww_about[160];
static __thread const char *near_call; /* an address near the code that makes this thread's call, if that is of C or C++ */

void ww_debug_line_(const char *file, int line)
{
	ww_here = (struct place){ file, line };
	near_call = NULL;
}

void ww_debug_at_(const char *file, int line)
{
	ww_debug_line_(file, line);
	near_call = __builtin_return_address(0);
}

unsigned long ww_debug_faults(void) { return READ_ONCE(faults); }
unsigned long ww_debug_warnings(void) { return READ_ONCE(warnings); }

void ww_copy_place(struct place *at, const struct place *from)
{
	WRITE_ONCE(at->file, READ_ONCE(from->file));
	WRITE_ONCE(at->line, READ_ONCE(from->line));
}

void ww_print_place(const struct place *at, FILE *to)
{
	const char *file = READ_ONCE(at->file);

	if (file)
		fprintf(to, "%s:%d", file, READ_ONCE(at->line));
	else
		fputs("a line of code without -DWW_DEBUG", to);
}

unsigned ww_times(uint64_t about)
{
	enum { PLACES = 2048 };
	static uint64_t seen[PLACES];
	static unsigned times[PLACES];

	for (unsigned k = 0; k < PLACES; k++) {
		unsigned at = (about / PLACES + k) % PLACES;
		uint64_t is = 0;

		if (__atomic_compare_exchange_n(&seen[at], &is, about, false, __ATOMIC_RELAXED, __ATOMIC_RELAXED) ||
		    is == about)
			return __atomic_add_fetch(&times[at], 1, __ATOMIC_RELAXED);
	}
	return 1;
}

unsigned ww_times_here(const struct ww_class *c, const char *call, const char *words)
{
	uint64_t line = ((uintptr_t)ww_here.file * MIX ^ (unsigned)ww_here.line) * MIX ^ (uintptr_t)call;

	return ww_times(((line * MIX ^ (uintptr_t)words) * MIX ^ (uintptr_t)c) * MIX | 1);
}

/*
 * Writes a backtrace of this thread, without the library's own calls, which come before the one that is near `near_call`; and,
 * once, how to get names in it, unless a call of the same program has a name.
 */
static void trace(FILE *to)
{
#ifdef HAS_BACKTRACE
	enum { DEPTH = 32, NEAR = 4096 };
	static bool is_said;
	bool is_named = false;
	void *calls[DEPTH];
	int count = backtrace(calls, DEPTH), own = 0;
	char **names;

	while (own < count && (uintptr_t)calls[own] - (uintptr_t)near_call >= NEAR)
		own++;
	own = own < count ? own : 0;
	names = backtrace_symbols(calls + own, count - own);
	for (int k = 0; names && k < count - own; k++) {
		const char *name = strchr(names[k], '('); /* of "PROGRAM(NAME+0x1) [0x2]"; without a name +0x1, or nothing */

		fprintf(to, "%s\n", names[k]);
		is_named |= name && name[1] != '+' && name[1] != ')' && !strncmp(names[k], names[0], (size_t)(name - names[k]) + 1);
	}
	free(names);
	if (count && !is_named && !__atomic_exchange_n(&is_said, true, __ATOMIC_RELAXED))
		fputs("[link with -rdynamic: then these have the names of functions, except static ones]\n", to);
#endif
	(void)to;
}

void ww_begin_report(struct report *report, const struct ww_class *c, const char *call)
{
	pthread_setcancelstate(PTHREAD_CANCEL_DISABLE, &report->may_end);
	report->text = NULL;
	report->memory = open_memstream(&report->text, &report->size);
	report->to = report->memory ? report->memory : stderr;
	if (ww_here.file)
		fprintf(report->to, "%s:%d: ", ww_here.file, ww_here.line);
	fprintf(report->to, "%s: ", call);
	if (c)
		fprintf(report->to, "class \"%s\": ", name_of(c));
}

/* If the call's line is of another language than C, there is no backtrace, since the calls of C would be the interpreter's. */
static void end_report(struct report *report, const struct place *earlier, unsigned times)
{
	if (earlier) {
		fputc(' ', report->to);
		ww_print_place(earlier, report->to);
	}
	fputs(ww_about, report->to);
	if (times > 1)
		fprintf(report->to, " [%u times by now]", times);
	fputc('\n', report->to);
	if (times == 1 && (near_call || !ww_here.file))
		trace(report->to);
	if (report->memory && !fclose(report->memory)) {
		report->text[report->size - 1] = 0; /* in place of the last line feed */
		ww_report_message(report->text);
	}
	free(report->text);
	pthread_setcancelstate(report->may_end, NULL);
}

void ww_end_warning(struct report *report, const struct place *earlier)
{
	end_report(report, earlier, 1);
	*ww_about = 0;
	__atomic_fetch_add(&warnings, 1, __ATOMIC_RELAXED);
}

void ww_fault(const struct ww_class *c, const char *call, const struct place *earlier, const char *why)
{
	unsigned times = is_seen() ? ww_times_here(c, call, why) : 1;

	if (!(times & (times - 1))) {
		struct report report;

		ww_begin_report(&report, c, call);
		fputs(why, report.to);
		end_report(&report, earlier, times);
	}
	*ww_about = 0;
	__atomic_fetch_add(&faults, 1, __ATOMIC_RELAXED);
}

void ww_warn(const struct ww_class *c, const char *call, const struct place *earlier, const char *format, ...)
{
	struct report report;
	va_list words;

	if (ww_times_here(c, call, format) > 1) {
		*ww_about = 0;
		return;
	}
	ww_begin_report(&report, c, call);
	va_start(words, format);
	vfprintf(report.to, format, words);
	va_end(words);
	ww_end_warning(&report, earlier);
}
#endif
