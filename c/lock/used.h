/* used.h - who still uses a mutex that the program destroys: see used.c. It isn't installed. */
#ifndef WW_USED_H
#define WW_USED_H
#include "lock.h"
#include "ww_shared.h"

/* Whether a context reads the mutex of this number by this slot; or by a slot with one of these bits. */
WW_HIDDEN bool ww_slot_reads(const struct ww_pool *p, struct ww_slot *slot, uint32_t number);
WW_HIDDEN bool ww_is_read_by(const struct ww_pool *p, uint32_t number, uint64_t bits);
/* Whether somebody has the mutex of this number, waits for it or reads it: a struct ww_shared_mutex, or NULL if its memory is gone. */
WW_HIDDEN bool ww_has_users(struct ww_numbers *n, uint32_t number, const void *m);
/* Leaves a number by which nobody begins anything any more: it is freed once nobody uses it. */
WW_HIDDEN void ww_leave_number(struct ww_numbers *n, uint32_t number);

#endif
