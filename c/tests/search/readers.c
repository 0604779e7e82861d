/*
 * readers.c - holds the library to the moves of readers and writers: nobody reads what another context writes.
 *
 * They are those that crates/ww_protocols states (specs/Hall.antt).
 *
 * The hall is kept here beside each run: who has each lock, as its word says; bits and marks, as atomic accesses left them; and what
 * each context, by the number of its seat, has found by its own accesses.  Each of these is moves, or none:
 *
 *	a lock's word names another	unlocks, locks; of a slot stands_up or quits, sits or visits
 *	a lock is found free		finds_free, finds_free_again
 *	bits are set, are cleared	sets_bit, clears_bit
 *	     are read			finds_bit; and by the mutex's owner finds_no_bit, of each that isn't there
 *	a mark is set, is cleared	sets_mark, clears_mark
 *	     is read			by the mutex's owner finds_no_mark, if it isn't there
 *	a list of slots is read		likewise, of each slot that comes into it later
 *	a call says that it reads	none, if it does; or reads_as_owner, before it released the mutex
 *	a call says that it writes	begins_to_write
 *
 * A look by which nothing more is known is no move.  A context may give up a try to read (reads_no_more), but who reads goes on until
 * it leaves its slot, or the program ends that read alone.  What holds of all reached halls is asked again where a call ends, so that this file isn't taken at its word.
 */
#include "inside.h"
#include "../../lock/context.h"
#include "ww_shared.h"

enum { MUTEXES = 2, WORD = 64, WORDS = 2 };

/* How far a context has come with reading a mutex. */
enum progress { APART, HAS_MARK, FOUND_FREE, FOUND_BIT, READS };
static const char *const lacks[] = {
	[APART] = "has set no mark",
	[HAS_MARK] = "hasn't found it free since it set its mark",
	[FOUND_FREE] = "hasn't found its bit since it found it free",
	[FOUND_BIT] = "hasn't found it free again since it found its bit",
};

static GHOST struct ww_pool *pool; /* of the class that is open */
static GHOST uint32_t run;
/* Who has a lock is 1 more than the number of a seat, or 0. */
static GHOST struct mutex {
	const struct ww_shared_mutex *at;
	bool is_there; /* as long as it has a number */
	uint32_t number;
	uint64_t word;	    /* of its lock */
	unsigned owner;
	uint64_t bits;
	uint8_t progress[SEATS];
	/* Found by its owner since that has it: bits that weren't set, bits whose list of slots it read, and slots without its mark. */
	uint64_t no_bit, listed;
	uint32_t no_mark;
	bool is_written;
} mutexes[MUTEXES];
static GHOST struct slot {
	const struct ww_slot *at; /* or NULL, as long as the seat has none */
	uint64_t word;
	unsigned sitter;
	uint64_t marks[WORDS];
} slots[SEATS];
static GHOST unsigned seat_count, slot_count;

int32_t __real_ww_look_(ww_handle *h, uint32_t lock);

#define ASK(fact, ...)                                                                                 \
	do {                                                                                           \
		if (!(fact))                                                                           \
			il_fail("no move of ww_protocols: " __VA_ARGS__);                                \
	} while (0)

static char name_of(const struct mutex *m) { return (char)('a' + (m - mutexes)); }
static bool is_mine(unsigned owner) { return owner && il_is_user(owner - 1); }
static bool has_bit(const struct slot *d, uint64_t bits) { return d->at && d->at->bit & bits; }
static bool is_marked(const struct slot *d, uint32_t number) { return d->marks[number / WORD] >> number % WORD & 1; }

/* ---- locks ---- */

/* As the library says itself, which changes nothing. */
static unsigned owner_of(uint32_t number)
{
	ww_handle *h = &pool->seats[seat_count].handle, was = *h;
	bool running = il.running;
	int32_t whose;

	il.running = false;
	whose = __real_ww_look_(h, number);
	il.running = running;
	*h = was;
	if (whose < 0)
		il_fail("nobody can say whose lock %u is", number);
	return (unsigned)whose & (WW_OLDER_ - 1);
}

/* Whether the lock may have another owner than before. */
static bool has_changed(uint64_t *word, uint32_t number)
{
	uint64_t is = __atomic_load_n(&words_of(pool->seats)[2 * number], __ATOMIC_RELAXED);
	bool has = is != *word;

	*word = is;
	return has;
}

/* As late as it may: the owner reads what it has a bit and a mark of. */
static void reads_as_owner(struct mutex *m, unsigned seat)
{
	if (m->owner == seat + 1 && m->progress[seat] != APART && has_bit(&slots[seat], m->bits))
		m->progress[seat] = READS;
}

static void look_at_mutex(struct mutex *m)
{
	unsigned owner = m->is_there && has_changed(&m->word, m->number) ? owner_of(m->number) : m->owner;

	if (owner == m->owner)
		return;
	if (m->owner)
		reads_as_owner(m, m->owner - 1);
	m->owner = owner;
	m->no_bit = m->listed = m->no_mark = 0;
	m->is_written = false;
}

static void look_at_slot(struct slot *d)
{
	unsigned seat = (unsigned)(d - slots), sitter = d->sitter;

	if (d->at && has_changed(&d->word, d->at->mutex.number))
		sitter = owner_of(d->at->mutex.number);
	if (sitter == d->sitter)
		return;
	for (struct mutex *m = mutexes; m < mutexes + MUTEXES && d->sitter == seat + 1; m++)
		m->progress[seat] = APART;
	d->sitter = sitter;
}

/* ---- what there is ---- */

/* A mutex that is made anew is another one, with the mark of its number. */
static void is_made_or_gone(struct mutex *m)
{
	const struct ww_shared_mutex *at = m->at;
	bool is_there = at->mutex_.pool == pool && (!is_of_number(&at->mutex_) || at->mutex_.waiters & IS_TAKEN);

	if (is_there == m->is_there && (!is_there || m->number == at->mutex_.number))
		return;
	for (unsigned seat = 0; seat < SEATS; seat++)
		ASK(m->progress[seat] != READS, "mutex %c is destroyed while seat %u reads it", name_of(m), seat);
	*m = (struct mutex){ .at = at, .is_there = is_there, .number = at->mutex_.number, .bits = at->readers_ };
	ASK(!is_there || !m->bits || is_of_number(&at->mutex_), "mutex %c is made with bits", name_of(m));
}

/* It had no marks until now, as is known to owners that read its list before. */
static void is_listed(const struct ww_slot *it)
{
	struct slot *d = &slots[it->seat];

	if (d->at)
		return;
	*d = (struct slot){ .at = it };
	slot_count++;
	for (struct mutex *m = mutexes; m < mutexes + MUTEXES; m++)
		m->no_mark |= (uint32_t)!!(m->listed & it->bit) << it->seat;
}

static void look_for_slots(void)
{
	for (unsigned k = 0; k < MANY_BITS && slot_count < pool->numbers.of_slots; k++)
		for (const struct ww_slot *d = pool->slots[k]; d; d = d->next)
			is_listed(d);
}

static void begin_run(void)
{
	run = il.run;
	seat_count = seats_of(pool);
	slot_count = 0;
	memset(mutexes, 0, sizeof mutexes);
	memset(slots, 0, sizeof slots);
	for (unsigned k = 0; k < MUTEXES; k++)
		mutexes[k].at = il_shared(k);
	if (seat_count > SEATS || pool->numbers.locks > WORDS * WORD)
		il_fail("SEATS or WORDS is too small");
}

/* What came meanwhile comes first. False where there are no shared mutexes. */
static bool is_hall(const void *pc)
{
	pool = il_shared(0) ? il_class->pool : NULL;
	if (!pool)
		return false;
	if (run != il.run)
		begin_run();
	il.from = pc;
	look_for_slots();
	for (struct mutex *m = mutexes; m < mutexes + MUTEXES; m++) {
		is_made_or_gone(m);
		look_at_mutex(m);
	}
	for (unsigned seat = 0; seat < seat_count; seat++)
		look_at_slot(&slots[seat]);
	return true;
}

/* ---- bits ---- */

/* A context may have come from another thread, so it isn't asked which one sets this, or a mark: no other context gets further by it. */
static void sets_bit(struct mutex *m, uint64_t bit)
{
	for (unsigned seat = 0; seat < seat_count; seat++)
		if (has_bit(&slots[seat], bit))
			return;
	ASK(false, "a bit of mutex %c is set, and no slot has it", name_of(m));
}

/* A try to read it, by what is cleared now, is given up. */
static void gives_up(struct mutex *m, unsigned seat, const char *what)
{
	ASK(m->progress[seat] != READS, "seat %u reads mutex %c by the %s that it clears", seat, name_of(m), what);
	m->progress[seat] = APART;
}

static void clears_bit(struct mutex *m, uint64_t bit)
{
	unsigned seat = m->owner - 1;

	ASK(is_mine(m->owner), "a thread clears a bit of mutex %c, which it doesn't have", name_of(m));
	for (unsigned d = 0; d < seat_count; d++)
		ASK(d == seat || !has_bit(&slots[d], bit) || m->no_mark >> d & 1,
		    "seat %u clears a bit of mutex %c, and hasn't found that slot %u has no mark", seat, name_of(m), d);
	ASK(slot_count == seat_count || m->listed & bit, "seat %u clears a bit of mutex %c, and hasn't looked which slots have it",
	    seat, name_of(m));
	if (has_bit(&slots[seat], bit))
		gives_up(m, seat, "bit");
}

static void changes_bits(struct mutex *m, uint64_t was, uint64_t is)
{
	ASK(was == m->bits, "the bits of mutex %c were changed by no atomic access", name_of(m));
	for (uint64_t left = was ^ is; left; left &= left - 1)
		(is & left & -left ? sets_bit : clears_bit)(m, left & -left);
	m->bits = is;
}

static void reads_bits(struct mutex *m, uint64_t bits)
{
	for (unsigned seat = 0; seat < seat_count; seat++)
		if (m->progress[seat] == FOUND_FREE && has_bit(&slots[seat], bits) && il_is_user(seat))
			m->progress[seat] = FOUND_BIT;
	if (is_mine(m->owner))
		m->no_bit |= ~bits;
}

/* ---- marks ---- */

static void sets_mark(unsigned seat, uint32_t number)
{
	for (struct mutex *m = mutexes; m < mutexes + MUTEXES; m++) {
		if (!m->is_there || m->number != number)
			continue;
		ASK(slots[seat].sitter == seat + 1, "mutex %c is marked at slot %u, and its context isn't there", name_of(m), seat);
		ASK(m->progress[seat] == APART, "seat %u marks mutex %c again", seat, name_of(m));
		m->progress[seat] = HAS_MARK;
		return;
	}
	ASK(false, "seat %u marks number %u, which no shared mutex has", seat, number);
}

static void clears_mark(unsigned seat, uint32_t number)
{
	const struct slot *d = &slots[seat];

	ASK(is_mine(d->sitter), "a thread clears a mark of slot %u, which it doesn't have", seat);
	for (struct mutex *m = mutexes; m < mutexes + MUTEXES; m++)
		if (m->is_there && m->number == number && d->sitter == seat + 1)
			gives_up(m, seat, "mark");
}

static void changes_marks(unsigned seat, unsigned word, uint64_t was, uint64_t is)
{
	struct slot *d = &slots[seat];

	ASK(was == d->marks[word], "the marks of slot %u were changed by no atomic access", seat);
	for (uint64_t left = was ^ is; left; left &= left - 1)
		(is & left & -left ? sets_mark : clears_mark)(seat, word * WORD + (uint32_t)__builtin_ctzll(left));
	d->marks[word] = is;
}

static void reads_marks(unsigned seat, unsigned word)
{
	for (struct mutex *m = mutexes; m < mutexes + MUTEXES; m++)
		if (is_mine(m->owner) && m->number / WORD == word && !is_marked(&slots[seat], m->number))
			m->no_mark |= 1u << seat;
}

/* ---- looks at a lock ---- */

static void finds_free(struct mutex *m, unsigned seat)
{
	ASK(!m->owner || il.flags & IL_INSIDE, "mutex %c is found free, and seat %u has it", name_of(m), m->owner - 1);
	if (m->progress[seat] == HAS_MARK || m->progress[seat] == FOUND_BIT)
		m->progress[seat]++;
}

/* ---- what hooks.c tells ---- */

/* What lies there: the bits of a mutex, its lock's word, a word of a slot's marks, or the list of the slots with a bit. */
static enum home { ELSEWHERE, BITS, OWNER, MARKS, LIST } place_of(const volatile void *at, unsigned *whose, unsigned *word)
{
	size_t list, mark;

	if (run != il.run && !is_hall(NULL))
		return ELSEWHERE;
	for (*whose = 0; *whose < MUTEXES; ++*whose)
		if (at == &mutexes[*whose].at->readers_)
			return BITS;
		else if (mutexes[*whose].is_there && at == &words_of(pool->seats)[2 * mutexes[*whose].number])
			return OWNER;
	for (*whose = 0; *whose < seat_count; ++*whose) {
		mark = slots[*whose].at ? ((uintptr_t)at - (uintptr_t)slots[*whose].at->marks) / sizeof(uint64_t) : WORDS;
		*word = (unsigned)mark;
		if (mark < (pool->numbers.locks + WORD - 1) / WORD)
			return MARKS;
	}
	list = ((uintptr_t)at - (uintptr_t)pool->slots) / sizeof *pool->slots;
	*whose = (unsigned)list;
	return list < MANY_BITS ? LIST : ELSEWHERE;
}

void il_puts(const volatile void *at, uint64_t was, uint64_t is, const void *pc)
{
	unsigned whose, word;
	enum home place = place_of(at, &whose, &word);

	if (place == ELSEWHERE || !is_hall(pc))
		return;
	if (place == BITS)
		changes_bits(&mutexes[whose], was, is);
	else if (place == MARKS)
		changes_marks(whose, word, was, is);
	il.from = NULL;
}

void il_gets(const volatile void *at, uint64_t value, const void *pc)
{
	unsigned whose, word;
	enum home place = place_of(at, &whose, &word);

	if (place == ELSEWHERE || !is_hall(pc))
		return;
	if (place == BITS)
		reads_bits(&mutexes[whose], value);
	else if (place == MARKS)
		reads_marks(whose, word);
	for (unsigned seat = 0; seat < seat_count && place == OWNER && !value; seat++)
		if (il_is_user(seat))
			finds_free(&mutexes[whose], seat);
	for (struct mutex *m = mutexes; m < mutexes + MUTEXES && place == LIST; m++)
		m->listed |= (uint64_t)is_mine(m->owner) << whose;
	il.from = NULL;
}

void il_steps(const void *pc)
{
	is_hall(pc);
	il.from = NULL;
}

void il_hall(void) { is_hall(NULL); }

void il_finds_free(const ww_handle *h, uint32_t lock, const void *pc)
{
	size_t seat = is_hall(pc) ? (size_t)((const ww_seat *)(const void *)h - pool->seats) : SEATS;

	for (struct mutex *m = mutexes; m < mutexes + MUTEXES && seat < seat_count; m++)
		if (m->is_there && m->number == lock)
			finds_free(m, (unsigned)seat);
	il.from = NULL;
}

/* ---- what programs tell: a call returned 0 ---- */

/* By the crate's theorem nobody else does, if these are its moves. */
static void excludes(const struct mutex *m, unsigned seat, bool writes)
{
	ASK(!m->is_written || m->owner == seat + 1, "seat %u reads mutex %c beside its writer", seat, name_of(m));
	for (unsigned other = 0; other < seat_count && writes; other++)
		ASK(other == seat || m->progress[other] != READS, "seat %u writes mutex %c beside a reader", seat, name_of(m));
}

void il_reads(unsigned k, const struct ww_acquire_ctx *x)
{
	struct mutex *m = &mutexes[k];
	unsigned seat = (unsigned)(x->own - x->own->pool->seats);

	is_hall(NULL);
	reads_as_owner(m, seat);
	ASK(m->progress[seat] == READS, "seat %u reads mutex %c, and %s", seat, name_of(m), lacks[m->progress[seat]]);
	excludes(m, seat, false);
}

void il_reads_no_more(unsigned k, const struct ww_acquire_ctx *x)
{
	unsigned seat = (unsigned)(x->own - x->own->pool->seats);

	is_hall(NULL);
	if (mutexes[k].progress[seat] == READS)
		mutexes[k].progress[seat] = HAS_MARK;
}

void il_writes(unsigned k, const struct ww_acquire_ctx *x)
{
	struct mutex *m = &mutexes[k];
	unsigned seat = (unsigned)(x->own - x->own->pool->seats);
	uint64_t all = il_bits == MANY_BITS ? UINT64_MAX : ((uint64_t)1 << il_bits) - 1;

	is_hall(NULL);
	ASK(m->owner == seat + 1, "seat %u writes mutex %c, which it doesn't have", seat, name_of(m));
	for (unsigned d = 0; d < seat_count; d++)
		ASK(d == seat || !slots[d].at || m->no_mark >> d & 1 || has_bit(&slots[d], m->no_bit),
		    "seat %u writes mutex %c, and didn't find that its bit of slot %u, or its mark there, isn't set", seat, name_of(m), d);
	ASK(slot_count == seat_count || !(all & ~(m->no_bit | m->listed)),
	    "seat %u writes mutex %c, and hasn't looked whether there are more slots", seat, name_of(m));
	m->is_written = true;
	excludes(m, seat, true);
}
