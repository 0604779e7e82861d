/*
 * used.c - who still uses a mutex that the program destroys, if the mutex is shared or known by its number. If somebody still uses
 * it, its number is left: a thread that later finds no free number looks whether anybody still uses a number that was left. So a mark
 * never counts as a read of the number's next mutex. (If marks counted how often a number was taken, they would be four times as large.)
 */
#define _GNU_SOURCE
#include "used.h"

/* If the slot's own seat has the slot, and the slot counts a read that hasn't ended, then a mark in the slot isn't from before. */
bool ww_slot_reads(const struct ww_pool *p, struct ww_slot *slot, uint32_t number)
{
	const uint64_t *marks = marks_at(slot, number);

	return owner_of_word(look_at(p, &slot->mutex)) == slot->seat + 1 && __atomic_load_n(&slot->reads, __ATOMIC_ACQUIRE) &&
	       __atomic_load_n(marks, __ATOMIC_ACQUIRE) & mark_of(number);
}

bool ww_is_read_by(const struct ww_pool *p, uint32_t number, uint64_t bits)
{
	for (; bits; bits &= bits - 1) {
		struct ww_slot *slot = __atomic_load_n(&p->slots[__builtin_ctzll(bits)], __ATOMIC_SEQ_CST);

		for (; slot; slot = slot->next)
			if (ww_slot_reads(p, slot, number))
				return true;
	}
	return false;
}

/*
 * The spare seat has the mutex's lock during the looks, so that between them no holder becomes a reader, and no reader a holder. If
 * the mutex's memory is gone, and the bits of its readers with it, each slot is looked at, since a read still has its mark.
 */
bool ww_has_users(struct ww_numbers *n, uint32_t number, const void *mutex)
{
	const struct ww_shared_mutex *m = mutex;
	struct ww_pool *p = (struct ww_pool *)((char *)n - offsetof(struct ww_pool, numbers));
	ww_seat *spare = spare_of(p);
	struct ww_waker waker = { 0 };
	bool is_used;

	if (owner_word(p, number))
		return true;
	pthread_mutex_lock(&p->spare);
	is_used = ww_try_(&spare->handle, number);
	if (!is_used) {
		is_used = (m && __atomic_load_n(&m->mutex_.waiters, __ATOMIC_SEQ_CST) & ~(IS_TAKEN | IS_OF_NUMBER)) ||
			  ww_is_read_by(p, number, m ? __atomic_load_n(&m->readers_, __ATOMIC_SEQ_CST) : UINT64_MAX);
		waker = ww_give_back(spare, number);
	}
	pthread_mutex_unlock(&p->spare);
	call_waker(waker);
	__tsan_acquire((void *)(uintptr_t)mutex);
	return is_used;
}

void ww_leave_number(struct ww_numbers *n, uint32_t number) { ww_leave_used(n, number, ww_has_users); }
