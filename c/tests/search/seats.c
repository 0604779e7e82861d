/*
 * seats.c - holds the library to the steps by which seats are used: two threads never use one, and none is lost.
 *
 * They are those that crates/ww_protocols states.
 *
 * Each access of a `busy` has to be one of these steps, by what was there, what is, and whose it is; the tables at the head of
 * seat.c have all of them.  Who uses a seat is what these steps made of it, and no library's word; a step of the proved
 * library by a seat is its user's.  That another goes on with what one began (goes_over) is no access: whoever
 * gives a seat, or makes a step by it, is its user.
 */
#include "inside.h"
#include "../../admit/seat.h"

static GHOST uint64_t class_id; /* of the class that was open last; and of which run it was */
static GHOST uint32_t run;
static GHOST struct known {
	unsigned user;	    /* a thread, from 1; 0: nobody, or a value by which its context is suspended */
	uint32_t read[ALL]; /* what each thread read last */
} known[SEATS];

static unsigned mine(void) { return il.current + 1; }
static uint32_t read_last(const struct known *s) { return s->read[il.current]; }

static const struct ww_pool *open_class(void)
{
	const struct ww_pool *p = il_class->pool;

	if (p && (run != il.run || class_id != p->id)) {
		run = il.run;
		class_id = p->id;
		memset(known, 0, sizeof known);
		if (seats_of(p) > SEATS)
			il_fail("SEATS is too small");
	}
	return p;
}

static bool has_user(struct known *s)
{
	if (!s->user)
		return false;
	if (s->user != mine())
		il_goes_over();
	s->user = mine();
	return true;
}

/* Nobody else may use it. */
static bool comes(struct known *s)
{
	if (s->user)
		il_fail("a second one comes to use seat %u", (unsigned)(s - known));
	s->user = mine();
	return true;
}

static bool goes(struct known *s)
{
	bool was = has_user(s);

	s->user = 0;
	return was;
}

/*
 * uses_own, by a thread that read it free (finds_own_free); returns_own.  Whose own a seat is, is no part of its word:
 * takes_own and leaves_own are ww_take_own and end_thread.  Before that the seat is made, which is no step: nobody looks there.
 */
static bool is_store(struct known *s, uint32_t was, uint32_t is)
{
	if (!was && is == IS_OWN)
		return !s->user;
	return was == IS_OWN && is == (IS_OWN | BUSY) ? read_last(s) == IS_OWN && comes(s) :
							was == (IS_OWN | BUSY) && is == IS_OWN && goes(s);
}

/* claims; gives */
static bool is_exchange(struct known *s, uint32_t was, uint32_t is)
{
	return !was && is == BUSY ? comes(s) : was == BUSY && !is && goes(s);
}

/* suspends; takes. Of copies of a value one is the first. */
static bool is_of_ticket(struct known *s, enum il_how how, uint64_t was, uint64_t is)
{
	return how == IL_STORES ? !was && is && goes(s) : how != IL_CHANGES || (was && !is && comes(s));
}

void il_access(enum il_how how, const volatile void *at, uint64_t was, uint64_t is, const void *pc)
{
	const struct ww_pool *p = open_class();
	size_t offset = p ? (uintptr_t)at - (uintptr_t)p->seats : 0, k = offset / sizeof *p->seats;
	struct known *s = &known[k];
	bool fits = true;

	if (p && k < seats_of(p) && offset % sizeof *p->seats == offsetof(ww_seat, ticket) && !is_of_ticket(s, how, was, is))
		il_fail("from %u to %u is no step of the ticket of seat %zu", (uint32_t)was, (uint32_t)is, k);
	if (!p || k >= seats_of(p) || offset % sizeof *p->seats != offsetof(ww_seat, busy))
		return;
	il.from = pc;
	switch (how) {
	case IL_READS: break;
	case IL_STORES: fits = is_store(s, (uint32_t)was, (uint32_t)is); break;
	case IL_CHANGES: fits = is_exchange(s, (uint32_t)was, (uint32_t)is); break;
	case IL_FAILS: break;
	}
	if (!fits)
		il_fail("from %u to %u is no step of seat %zu, which thread %d uses", (uint32_t)was, (uint32_t)is, k, (int)s->user - 1);
	s->read[il.current] = (uint32_t)is;
	il.from = NULL;
}

bool il_is_user(unsigned seat) { return open_class() && known[seat].user == mine(); }

void il_uses(const ww_handle *h, const void *pc)
{
	const struct ww_pool *p = open_class();
	size_t k = p ? (size_t)((const ww_seat *)(const void *)h - p->seats) : 0;

	il.from = pc;
	if (p && k < seats_of(p) && !has_user(&known[k]))
		il_fail("nobody uses seat %zu, and it makes a step", k);
	il.from = NULL;
}
