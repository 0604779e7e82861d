/*
 * why.c - who is in the way. These calls read the seats of other contexts, which go on meanwhile, so what they return is a hint. A
 * context writes the words that they read only once it has met another one (struct ww_met).
 */
#define _GNU_SOURCE
#define WW_NO_INLINE /* ww_mutex.h compiles none of its calls into this file */
#include "../lock/mutex.h"
#include "../lock/used.h"
#include "ww_why.h"

int ww_acquire_label(struct ww_acquire_ctx *x, uint64_t label)
{
	if (!NEEDED(x)->own)
		return -EINVAL;
	draw_age_by_hand(x);
	note_meeting(x->own);
	__atomic_store_n(&x->own->met.label, label, __ATOMIC_RELAXED);
	return 0;
}

/* ---- who has a lock, or waits for it ---- */

/*
 * The context that uses the seat now, by its label. It may end while the label is read, and another context begin by the seat. So each
 * caller reads once more the word that led it to this seat, as the owner word of a mutex, and tries again if that has changed. The label
 * is acquired, so that the caller's second read comes after it.
 */
static struct ww_user user_by(const ww_seat *s, enum ww_part part)
{
	return (struct ww_user){ .label = __atomic_load_n(&s->met.label, __ATOMIC_ACQUIRE), .place = place_among(s) - 1, .part = part };
}

/* The user that has the lock, or nobody. The spare seat is nobody, since it has a lock for a moment only. */
static struct ww_user owner_of(const struct ww_pool *p, uint32_t lock)
{
	uint64_t word = owner_word(p, lock), was;
	struct ww_user user;

	do {
		uint32_t owner = owner_of_word(word);

		user = owner && owner <= seats_of(p) ? user_by(&p->seats[owner - 1], WW_HOLDS) : (struct ww_user){ 0 };
		was = word;
		word = owner_word(p, lock);
	} while (word != was);
	return user;
}

static bool has_lock(const ww_seat *s, uint32_t lock) { return owner_of_word(owner_word(s->pool, lock)) == place_among(s); }

/* The mutex for which a call asked, by its number plus 1, and who has the lock to which that call came; nothing if `asked` is 0. */
static struct ww_place place_of(const struct ww_pool *p, uint32_t asked, uint32_t lock)
{
	if (!asked)
		return (struct ww_place){ 0 };
	return (struct ww_place){ .mutex = mutex_with(&p->numbers, asked - 1), .number = asked - 1, .by = owner_of(p, lock) };
}

static uint32_t asked_by(const ww_seat *s) { return __atomic_load_n(&s->met.target, __ATOMIC_RELAXED); }
static uint32_t awaited_by(const ww_seat *s) { return __atomic_load_n(&s->awaits, __ATOMIC_ACQUIRE); }

/* For which lock a seat waits, what its call asks for, and whose call that is: all of one wait, or no lock. */
struct wait {
	uint32_t lock, asked;
	struct ww_user by;
};
static struct wait present_wait(const ww_seat *s)
{
	struct wait it;

	do {
		it = (struct wait){ .lock = awaited_by(s) };
		if (!it.lock)
			return it;
		it.asked = asked_by(s);
		it.by = user_by(s, WW_WAITS);
	} while (awaited_by(s) != it.lock || asked_by(s) != it.asked);
	return it;
}

static struct ww_place ended_at(const ww_seat *s) { return place_of(s->pool, s->ages == MET ? asked_by(s) : 0, s->met.lock); }

int ww_acquire_why(const struct ww_acquire_ctx *x, struct ww_why *why)
{
	const ww_seat *s = NEEDED(x)->own;

	*NEEDED(why) = (struct ww_why){ 0 };
	if (!s || is_polled(x))
		return s ? -EBUSY : -EINVAL;
	why->at = ended_at(s);
	for (uint32_t k = 0; k < seats_of(s->pool) && !why->wanted.mutex; k++) {
		const ww_seat *other = &s->pool->seats[k];
		struct wait it = other == s ? (struct wait){ 0 } : present_wait(other);

		if (it.lock && has_lock(s, it.lock - 1)) {
			why->wanted = place_of(s->pool, it.asked, it.lock - 1);
			why->wanted.by = it.by;
		}
	}
	return 0;
}

size_t ww_acquire_cycle(const struct ww_acquire_ctx *x, struct ww_place *path, size_t room)
{
	const ww_seat *s = NEEDED(x)->own;
	struct ww_place at = s && !is_polled(x) ? ended_at(s) : (struct ww_place){ 0 };

	for (size_t k = 0; k < room && at.by.part != WW_NOBODY; k++) {
		const ww_seat *owner = &s->pool->seats[at.by.place];
		struct wait it = present_wait(owner);

		path[k] = at;
		if (owner == s)
			return k + 1;
		at = place_of(s->pool, it.lock ? it.asked : 0, it.lock - 1);
	}
	return 0;
}

struct users {
	struct ww_user *all;
	size_t count, room;
};
static void add(struct users *to, struct ww_user user)
{
	if (user.part != WW_NOBODY && to->count++ < to->room)
		to->all[to->count - 1] = user;
}

size_t ww_mutex_users(const struct ww_mutex *m, struct ww_user *users, size_t room)
{
	const struct ww_pool *p = pool_at(NEEDED(m));
	struct users found = { users, 0, room };

	if (!p || p->gone)
		return 0;
	if (!is_handed(owner_word(p, m->number))) /* a task to which the mutex was handed waits until it polls, and is found below */
		add(&found, owner_of(p, m->number));
	for (uint32_t k = 0; k < seats_of(p); k++) {
		struct wait it = present_wait(&p->seats[k]);

		if (it.lock && it.asked == m->number + 1)
			add(&found, it.by);
	}
	for (uint32_t k = 0; k < MANY_BITS; k++)
		for (struct ww_slot *slot = __atomic_load_n(&p->slots[k], __ATOMIC_SEQ_CST); slot; slot = slot->next)
			if (ww_slot_reads(p, slot, m->number)) {
				struct ww_user user = user_by(&p->seats[slot->seat], WW_READS);

				if (ww_slot_reads(p, slot, m->number))
					add(&found, user);
			}
	return found.count;
}

int ww_acquire_count(const struct ww_acquire_ctx *x, struct ww_acquire_counts *counts)
{
	const ww_seat *s = NEEDED(x)->own;

	*NEEDED(counts) = (struct ww_acquire_counts){ 0 };
	if (!s)
		return -EINVAL;
	if (s->ages == MET)
		*counts = (struct ww_acquire_counts){ (uint32_t)s->waits - s->met.waits, (uint32_t)s->back_offs - s->met.back_offs, s->met.waited };
	return 0;
}
