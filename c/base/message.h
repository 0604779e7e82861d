/* message.h - messages that end the program, the debug library's look at a time limit, and probes. It isn't installed. */
#ifndef WW_MESSAGE_H
#define WW_MESSAGE_H
#include "../debug/debug.h"
#include "process.h"
#include <stdio.h>
#include <stdlib.h>

/*
 * The probes for perf and bpftrace, if SystemTap's header is installed. Each is an instruction that does nothing, at a place where
 * a call waits anyway. No probe has the program's line: a tracer finds that on the stack by the unwind tables, as tools/slow does.
 */
#if __has_include(<sys/sdt.h>)
#include <sys/sdt.h>
#ifdef __clang__
#pragma clang diagnostic ignored "-Wgnu-zero-variadic-macro-arguments" /* SystemTap's header gives this warning */
#endif
#else
#define DTRACE_PROBE1(...) ((void)0)
#define DTRACE_PROBE2(...) ((void)0)
#define DTRACE_PROBE3(...) ((void)0)
#define DTRACE_PROBE5(...) ((void)0)
#endif

/*
 * Ends the program with a message, which names the class, if that isn't NULL. Cancelling the thread is disabled, since a cancel in
 * the message's output would end the thread, but not the program.
 */
__attribute__((noreturn, cold)) static inline void end_of(const struct ww_class *c, const char *call, const char *why)
{
	bool is_named = c && c->name;
	char text[512];
	int may_end;

	NOTE_MISUSE(c, call, why);
	pthread_setcancelstate(PTHREAD_CANCEL_DISABLE, &may_end);
	snprintf(text, sizeof text, is_named ? "%s: class \"%s\": %s" : "%s: %s%s", call, is_named ? c->name : "", why);
	ww_report_message(text);
	abort();
}

__attribute__((noreturn, cold)) static inline void end(const char *call, const char *why) { end_of(NULL, call, why); }

/*
 * A pointer that the program gave to a public call, at the place where the call first follows it. If the pointer is NULL, the debug
 * library ends the program with a message that names the call: this function, or `call`. The headers mark such a parameter by WW_NONNULL_.
 */
#ifdef WW_DEBUG
#define NONE_OF(it) \
	_Generic((it), struct ww_class *: "there is no class", struct ww_table *: "there is no table", \
		 struct ww_acquire_ctx *: "there is no context", const struct ww_acquire_ctx *: "there is no context", \
		 struct ww_mutex *: "there is no mutex", const struct ww_mutex *: "there is no mutex", \
		 struct ww_shared_mutex *: "there is no mutex", const struct ww_shared_mutex *: "there is no mutex", \
		 default: "an argument is NULL")
#define NEEDED_BY(call, it) ((it) ? (it) : (end(call, NONE_OF(it)), (it)))
#else
#define NEEDED_BY(call, it) (it)
#endif
#define NEEDED(it) NEEDED_BY(__func__, it)

/* Whether a thread can sleep until this time. NULL is no limit. */
static inline bool is_time(const struct timespec *at)
{
	NOTE(TIME_LIMIT, .until = at);
	return !at || (at->tv_nsec >= 0 && at->tv_nsec < 1000000000);
}

#endif
