/* shared.h - the calls of shared.c by any way to wait, which a table makes. It isn't installed. */
#ifndef WW_DOORS_SHARED_H
#define WW_DOORS_SHARED_H
#include "poll.h"
#include "ww_shared.h"

/* Reads the mutex, or writes it. */
WW_HIDDEN int ww_shared_read_by(struct ww_shared_mutex *m, struct ww_acquire_ctx *x, struct ww_how how);
WW_HIDDEN int ww_shared_write_by(struct ww_shared_mutex *m, struct ww_acquire_ctx *x, struct ww_how how);
/* Waits for the mutex at which the context got -EDEADLK, and holds nothing then. */
WW_HIDDEN int ww_await_contended(struct ww_acquire_ctx *x, struct ww_how how);

#endif
