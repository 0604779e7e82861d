/*
 * moves.c - holds the library to the six moves of a driver, by which no wake-up is lost, and no deadlock lasts.
 *
 * They are those that crates/ww_callers states:
 *
 *	calls d		a step of the proved library by seat d, which doesn't sleep, and of which no other step is on its way
 *	names d u	ww_next_wake_ answers u, likewise
 *	wakes d u	at once: whoever was told u gives that seat its token before it makes any step, waits or ends
 *	parks d		its token comes to say that it sleeps, or is armed: it was told to, has nobody to name and owes no token
 *	rises d		it takes its token; or makes a step though it was told to sleep: it rose by chance
 *	halts		anything else: a token for a seat that nobody named, which rises by chance then; and a waker that is taken
 *			back or left anew, while the seat sleeps on
 *
 * The laws of endless runs ask besides that each waking that is due is made in the end: so where a thread waits or ends, or a
 * seat goes to another user, nobody is left to name, and no token owed.
 */
#include "inside.h"
#include "../../admit/seat.h"
#include "../../base/sleep.h"

static GHOST ww_seat *seats; /* of the class that was called last in this run; and how many */
static GHOST unsigned seat_count;
static GHOST uint32_t run;
static GHOST struct slot {
	unsigned by;		/* the thread that called it last */
	bool is_stepping;	/* a step is on its way, */
	bool is_amid;		/* or a call that wants another one */
	bool told, was_told;	/* to sleep, and hasn't risen; and before the step that is on its way */
} slots[SEATS];
static GHOST uint32_t owed[ALL]; /* the seats to which a thread owes a token */

int32_t __real_ww_next_wake_(ww_handle *h);

#define ASK(fact, ...)                                                                                 \
	do {                                                                                           \
		if (!(fact))                                                                           \
			il_fail(__VA_ARGS__);                                                          \
	} while (0)

static struct slot *slot_of(const ww_handle *h)
{
	const ww_seat *s = (const void *)h;

	if (run != il.run || seats != s->pool->seats) {
		run = il.run;
		seats = s->pool->seats;
		seat_count = seats_of(s->pool) + 1;
		ASK(seat_count <= SEATS, "SEATS is too small");
		memset(slots, 0, sizeof slots);
		memset(owed, 0, sizeof owed);
	}
	return &slots[s - seats];
}

static unsigned number_of(const struct slot *d) { return (unsigned)(d - slots); }
static bool sleeps(const struct slot *d) { return seats[number_of(d)].token >= ARMED; }

static void is_at_hand(const struct slot *d)
{
	ASK(!d->is_stepping, "seat %u makes a step amid another one", number_of(d));
	ASK(!sleeps(d), "seat %u makes a step while it sleeps", number_of(d));
}

/* As the library says itself, which changes nothing if there is nobody, but what the handle knows. */
static void has_nobody_to_name(const struct slot *d, const char *now)
{
	ww_handle *h = &seats[number_of(d)].handle, was = *h;
	int32_t left = __real_ww_next_wake_(h);

	*h = was;
	ASK(left < 0, "seat %u %s, and hasn't named seat %d", number_of(d), now, left);
}

static void owes_no_token(const char *now)
{
	uint32_t set = owed[il.current];

	ASK(!set, "the thread %s, and seat %d, which was named, has no token", now, __builtin_ctz(set));
}

void il_calls(const ww_handle *h, const void *pc)
{
	struct slot *d = slot_of(h);

	il.from = pc;
	is_at_hand(d);
	owes_no_token("makes a step");
	il.from = NULL;
	d->is_stepping = true;
	d->was_told = d->told;
	d->told = false;
	d->by = il.current;
}

void il_answers(const ww_handle *h, int32_t r)
{
	struct slot *d = slot_of(h);

	d->is_stepping = false;
	d->is_amid = r > 0;
	d->told = r == WW_SLEEPS;
}

void il_looked(const ww_handle *h)
{
	slot_of(h)->is_stepping = false;
	slot_of(h)->told = slot_of(h)->was_told;
}

int32_t il_names(const ww_handle *h, int32_t k, const void *pc)
{
	il.from = pc;
	is_at_hand(slot_of(h));
	il.from = NULL;
	if (k >= 0)
		owed[il.current] |= 1u << k;
	return k;
}

static void parks(const struct slot *d, uint32_t was)
{
	ASK(was == NOTHING, "seat %u sleeps over its token", number_of(d));
	ASK(d->told, "seat %u sleeps, and wasn't told to", number_of(d));
	has_nobody_to_name(d, "sleeps");
	owes_no_token("sleeps");
}

static void changes_token(struct slot *d, uint32_t was, uint32_t is)
{
	if (is >= ARMED) {
		parks(d, was);
	} else if (is == TOKEN) {
		owed[il.current] &= ~(1u << number_of(d));
	} else if (was == TOKEN) {
		ASK(d->told, "seat %u takes its token, and wasn't told to sleep", number_of(d));
		d->told = false;
	}
}

static void goes_to_another(const struct slot *d)
{
	ASK(!d->is_amid && !sleeps(d), "seat %u is given away amid a call", number_of(d));
	has_nobody_to_name(d, "is given away");
}

void il_stores(const volatile void *at, uint64_t was, uint64_t is, const void *pc)
{
	size_t offset = (uintptr_t)at - (uintptr_t)seats, k = offset / sizeof *seats;

	if (run != il.run || k >= seat_count)
		return;
	il.from = pc;
	if (offset % sizeof *seats == offsetof(ww_seat, token))
		changes_token(&slots[k], (uint32_t)was, (uint32_t)is);
	if (offset % sizeof *seats == offsetof(ww_seat, busy) && !(is & BUSY) && was & BUSY)
		goes_to_another(&slots[k]);
	il.from = NULL;
}

void il_unlocks(const pthread_mutex_t *m, const void *pc)
{
	il.from = pc;
	if (run == il.run && m == &seats->pool->spare)
		goes_to_another(&slots[seat_count - 1]);
	il.from = NULL;
}

void il_closes(void)
{
	for (const struct slot *d = slots; run == il.run && d < &slots[seat_count]; d++)
		goes_to_another(d);
	run = 0;
}

void il_waits(const char *now, const void *pc)
{
	if (run != il.run)
		return;
	il.from = pc;
	owes_no_token(now);
	for (const struct slot *d = slots; d < &slots[seat_count]; d++)
		if (d->by == il.current)
			has_nobody_to_name(d, now);
	il.from = NULL;
}
