/*
 * table.c - locks by keys, over shared mutexes by number. An entry exists while its key is locked or waited for. It has a number of
 * the class, which it keeps while it is spare. A use belongs to one context, which has the entry's key or waits for it; a context
 * that raises a lock has two uses. The uses of a context are listed with its seat, so that the context may go on in any thread.
 * Spare entries and uses are listed with a seat, too, and only the seat's user accesses them, so they are in its cache where
 * threads have seats of their own.
 *
 *	an entry	where it is		its uses	what comes next, and by what
 *	live		in its bucket's tree	some		spare: its last use ends (end_use); dead: try_key disowns it
 *	dead		nowhere			some		spare: its last use ends (end_use)
 *	spare		in a list of a seat	none		live: the seat's user needs one (new_entry)
 *
 * A tree has an entry at each node. A bit of an entry's hash says in which of two subtrees the entry comes, the next bit in which
 * of that subtree's two, and so on. So a bucket grows and shrinks by its entries alone, and nothing is ever moved to a larger
 * place.
 *
 * All of a bucket is accessed under the bucket's lock. A key is tried under that lock, and waited for without it, by a use that
 * keeps the entry. A key is released without that lock, and then the use ends: so a context that is woken finds the bucket's lock
 * free, and for a moment it may see the use of a context that doesn't have the key any more.
 */
#define _GNU_SOURCE
#define WW_NO_INLINE
#include "shared.h"
#include "../lock/loop.h"
#include "../lock/mutex.h"
#include "ww_retry.h"
#include "ww_table.h"
#include <string.h>

/* How many buckets a table has. The search of schedules has one, so that its tree has all keys. */
#ifndef WW_BUCKETS
#define WW_BUCKETS 1024
#endif
enum { BUCKETS = WW_BUCKETS, SPARES = 32, ROOM = 40 };

struct use {
	struct ww_table_user shown; /* how the context has the key, or waits for it: what the program is shown */
	struct entry *of;
	struct use *next, *before, *earlier, *later; /* among the entry's uses, or the spare ones; and among the context's uses */
	struct use *raises; /* the use by which the context shares the key, if it waits to have the key to itself */
	uint32_t seat;
};

struct entry {
	struct entry *ways[2]; /* the subtrees */
	uint64_t hash;
	struct use *uses;
	struct ww_shared_mutex *lock;
	size_t length, room;
	bool is_dead, is_told; /* a context got -EDEADLK at it, and may come back to wait for its mutex */
	uint8_t key[];
};

struct of_seat {
	struct ww_keys keys; /* comes first: see release_all_keys */
	struct use *newest, *polled, *spare_uses; /* the uses by which the seat's context has keys, and by which its poll waits */
	struct entry *spare[SPARES];
	uint32_t has, spares; /* how many keys the context has, and how many spare entries there are */
	bool is_in;	      /* a call of the context locks a key, or its poll waits */
	struct of_seat *other;	/* the next one in its list of owners */
	uint64_t owner;
	struct ww_retry retry;	/* the context of an owner that has left; `x` is that of one that hasn't */
	struct ww_acquire_ctx x;
} __attribute__((aligned(64)));

struct bucket {
	pthread_mutex_t lock;
	struct entry *root;
	struct of_seat *joined;
} __attribute__((aligned(64)));

struct ww_table {
	struct ww_poller poller; /* comes first: see end_polled */
	struct ww_pool *pool;
	uint64_t seed;
	uint32_t limit, spares, entries; /* how many entries there may be, how many each seat may keep, how many there are */
	struct bucket buckets[BUCKETS];
	struct of_seat seats[];
};

/* What a call asks for, of which table, and by which context. */
struct asked {
	struct ww_table *of;
	struct ww_acquire_ctx *x;
	struct of_seat *me;
	uint64_t hash;
	struct ww_table_user user; /* as which others see the context while it waits */
};

static void release_all_keys(struct ww_keys *it, struct ww_acquire_ctx *x);

static uint64_t mixed(uint64_t h) { return (h ^ h >> 32) * 0xD6E8FEB86659FD93u; }

/*
 * The hash of a key, by eight bytes at a time and then by those that are left. Each table has a seed of its own, so which keys share a
 * bucket differs from table to table.
 */
static uint64_t hash_of(const struct ww_table *t, const uint8_t *at, size_t length)
{
	uint64_t h = t->seed ^ length, w = 0;

	for (; length >= sizeof w; at += sizeof w, length -= sizeof w) {
		memcpy(&w, at, sizeof w);
		h = mixed(h ^ w);
	}
	for (w = 0; length; length--)
		w = w << 8 | *at++;
	return mixed(mixed(mixed(h ^ w)));
}

static inline int ask(struct asked *asked, const char *call, struct ww_table *t, struct ww_acquire_ctx *x, const void *key, size_t length)
{
	if (!NEEDED_BY(call, x)->own || x->own->pool != NEEDED_BY(call, t)->pool || is_loop(x)) {
		NOTE_MISUSE(t->pool->class_, call,
			    "the context has ended or was never begun, is of another class, or in a loop (ww_acquire_begin_tries)");
		return -EINVAL;
	}
	*asked = (struct asked){ t, x, &t->seats[place_among(x->own) - 1], hash_of(t, key, length),
				 { .key = key, .length = length, .waits = true } };
	return 0;
}

static struct bucket *bucket_of(struct ww_table *t, uint64_t hash) { return &t->buckets[(hash >> 32) % BUCKETS]; }

static struct bucket *lock_bucket(struct ww_table *t, uint64_t hash)
{
	struct bucket *b = bucket_of(t, hash);

	pthread_mutex_lock(&b->lock);
	return b;
}

/* ---- entries ---- */

static bool is_of(const struct entry *e, const struct asked *asked)
{
	return e->hash == asked->hash && e->length == asked->user.length && !memcmp(e->key, asked->user.key, asked->user.length);
}

/* The place in its bucket's tree at which the key's entry is, or is to come. */
static struct entry **place_in_tree(const struct asked *asked)
{
	struct entry **at = &bucket_of(asked->of, asked->hash)->root;

	for (uint64_t h = asked->hash; *at && !is_of(*at, asked); h /= 2)
		at = &(*at)->ways[h % 2];
	return at;
}

/*
 * Takes the entry out of its tree. The bucket is locked. An entry that has none below itself comes to its place, which may be any of
 * those below it, or itself.
 */
static void unlist_entry(struct ww_table *t, struct entry *e)
{
	struct entry **at = &bucket_of(t, e->hash)->root, **leaf, *last;

	for (uint64_t h = e->hash; *at != e; h /= 2)
		at = &(*at)->ways[h % 2];
	for (leaf = at; (*leaf)->ways[0] || (*leaf)->ways[1];)
		leaf = &(*leaf)->ways[!(*leaf)->ways[0]];
	last = *leaf;
	*at = last;
	*leaf = NULL;
	memmove(last->ways, e->ways, sizeof e->ways);
	e->is_dead = true;
}

/* Frees the entry. The context that released its mutex may still be about to leave it, so the number is left, and not put back. */
static void free_entry(struct ww_table *t, struct entry *e)
{
	ww_number_leave(e->lock->mutex_.number, t->pool->class_);
	free(e);
	__atomic_fetch_sub(&t->entries, 1, __ATOMIC_RELAXED);
}

/*
 * The number is that of another key from now on. A context that got -EDEADLK at this one either counted itself as a waiter before this
 * exchange, so that is_awaited finds it; or else it finds that the number was put back, and waits for neither (await_refused).
 */
COLD static void retire(struct ww_table *t, struct ww_mutex *m)
{
	count_put(&t->pool->numbers, m->number);
	__atomic_fetch_or(&m->waiters, 0, __ATOMIC_SEQ_CST);
}
static bool is_awaited(const struct ww_mutex *m)
{
	return __atomic_load_n(&m->waiters, __ATOMIC_SEQ_CST) != (IS_TAKEN | IS_OF_NUMBER);
}

/* Puts a spare entry or a new one for the key at this place of the tree. The bucket is locked. */
static int new_entry(const struct asked *asked, struct entry **at)
{
	struct ww_table *t = asked->of;
	struct of_seat *me = asked->me;
	size_t length = asked->user.length, room = length > ROOM ? length : ROOM;
	struct entry *e = me->spares ? me->spare[me->spares - 1] : NULL;
	uint32_t number;

	if (e && e->room >= length && LIKELY(!is_awaited(&e->lock->mutex_))) {
		me->spares--;
	} else {
		int r = __atomic_fetch_add(&t->entries, 1, __ATOMIC_RELAXED) >= t->limit ? -ENOSPC : 0;

		e = r ? NULL : malloc(sizeof *e + room);
		r = r ? r : e ? ww_number_take(&number, t->pool->class_) : -ENOMEM;
		if (r) {
			free(e);
			__atomic_fetch_sub(&t->entries, 1, __ATOMIC_RELAXED);
			return r;
		}
		*e = (struct entry){ .lock = ww_number_at(number, t->pool->class_), .room = room };
	}
	*e = (struct entry){ .hash = asked->hash, .lock = e->lock, .length = length, .room = e->room };
	memcpy(e->key, asked->user.key, length);
	*at = e;
	return 0;
}

/* ---- uses ---- */

/* The use by which the context has the entry's key, or NULL, also if there is no entry. The bucket is locked. */
static struct use *held_by(const struct entry *e, const struct ww_acquire_ctx *x)
{
	bool has = e && (ww_shared_mutex_is_written_by(e->lock, x) || ww_shared_mutex_is_read_by(e->lock, x));
	struct use *u = has ? e->uses : NULL;

	while (u && u->seat != place_among(x->own))
		u = u->next;
	return u;
}

/* Begins a use of the entry that waits for the key. The bucket is locked. */
static struct use *begin_use(const struct asked *asked, struct entry *e, struct use *had)
{
	struct use *u = asked->me->spare_uses;

	asked->me->spare_uses = u->next;
	*u = (struct use){ .shown = asked->user, .of = e, .next = e->uses, .raises = had, .seat = place_among(asked->x->own) };
	u->shown.key = e->key;
	if (e->uses)
		e->uses->before = u;
	return e->uses = u;
}

/* Ends a use. With its last use the entry becomes spare, or is freed. The bucket is locked. */
static void end_use(struct ww_table *t, struct of_seat *me, struct use *u)
{
	struct entry *e = u->of;

	*(u->before ? &u->before->next : &e->uses) = u->next;
	if (u->next)
		u->next->before = u->before;
	u->next = me->spare_uses;
	me->spare_uses = u;
	if (e->uses)
		return;
	if (!e->is_dead)
		unlist_entry(t, e);
	if (e->is_told)
		retire(t, &e->lock->mutex_);
	if (me->spares < t->spares)
		me->spare[me->spares++] = e;
	else
		free_entry(t, e);
}

/* Releases the use's key, unless the context has just ended all its reads at once: see release_all_keys. */
static void release(const struct use *u, struct ww_acquire_ctx *x)
{
	if (u->shown.mode == WW_TABLE_EXCLUSIVE)
		(void)ww_shared_mutex_unlock(u->of->lock, x);
	else if (reads_it(x, &u->of->lock->mutex_))
		(void)ww_shared_mutex_end_read(u->of->lock, x);
}

/*
 * From its first key of the table on, until it has released its last one, the context's seat lists the table: so ww_acquire_unlock_all,
 * which has ended all reads by then, releases the keys, too.
 */
static void list_keys(const struct asked *asked)
{
	asked->me->keys = (struct ww_keys){ .release = release_all_keys, .next = asked->x->own->keys };
	asked->x->own->keys = &asked->me->keys;
	asked->x->state |= HAD_KEYS;
}

/* A thread that closes the table sees by these stores that the call accesses nothing of the table any more. */
static void note_has(struct of_seat *me, uint32_t has) { __atomic_store_n(&me->has, has, __ATOMIC_RELEASE); }
static void note_in(struct of_seat *me, bool is) { __atomic_store_n(&me->is_in, is, __ATOMIC_RELEASE); }

static void unlist_keys(const struct asked *asked)
{
	struct ww_keys **link = &asked->x->own->keys;

	while (*link != &asked->me->keys)
		link = &(*link)->next;
	*link = asked->me->keys.next;
}

/*
 * Ends a use's wait, of which r says how it ended: the context has the key by this use from now on, or by the use that it raises; or
 * the use ends. Returns -ESTALE if the entry was disowned meanwhile, so that the use waited in vain. The bucket is locked.
 */
static inline int end_attempt(const struct asked *asked, struct use *u, int r)
{
	if (!r)
		forget_told(asked->x);
	if (!r && !u->raises && !u->of->is_dead) {
		u->shown.waits = false;
		u->earlier = asked->me->newest;
		if (u->earlier)
			u->earlier->later = u;
		asked->me->newest = u;
		if (!asked->me->has)
			list_keys(asked);
		note_has(asked->me, asked->me->has + 1);
		return 0;
	}
	if (!r && u->raises) {
		u->raises->shown.mode = WW_TABLE_EXCLUSIVE;
		(void)ww_shared_mutex_end_read(u->of->lock, asked->x);
	} else if (!r) {
		release(u, asked->x);
		r = -ESTALE;
	}
	end_use(asked->of, asked->me, u);
	return r;
}

static int settle(const struct asked *asked, struct use *u, int r)
{
	struct bucket *b = lock_bucket(asked->of, u->of->hash);

	if (UNLIKELY(r == -EDEADLK))
		u->of->is_told = true;
	r = end_attempt(asked, u, r);
	pthread_mutex_unlock(&b->lock);
	return r;
}

/* ---- tries ---- */

/* Whether somebody has the entry's key, and `meets` agrees for each of these that nobody waits for it. The bucket is locked. */
static bool agree(const struct entry *e, const struct ww_table_how *how)
{
	unsigned holders = 0, agreed = 0;

	for (const struct use *u = how->meets ? e->uses : NULL; u; u = u->next)
		if (!u->shown.waits) {
			holders++;
			agreed += how->meets(how->data, &u->shown);
		}
	return holders && agreed == holders;
}

static int lock_entry(const struct asked *asked, const struct entry *e, struct ww_how how)
{
	return (asked->user.mode == WW_TABLE_EXCLUSIVE ? ww_shared_write_by : ww_shared_read_by)(e->lock, asked->x, how);
}

/*
 * Whether the context got -EDEADLK and still has to release all. The proved library says so by -EINVAL, at a try of any mutex that the
 * context doesn't hold. So this mutex is tried, and released again if that succeeds.
 */
static bool has_to_release(struct ww_acquire_ctx *x, struct ww_mutex *m)
{
	int r = x->state & IS_TOLD && x->acquired ? ww_try_by(m, x) : -EBUSY;

	if (!r)
		(void)unlock_unlisted(m, x);
	return r == -EINVAL;
}

/*
 * Tries the key. If it is taken, and the call waits, `*used` is a use that waits for the key. If the program says of each holder of the
 * key's entry that nobody waits for it, the entry is disowned, unless this context is a holder, and the key is to be tried again: -ESTALE.
 */
static int try_key(const struct asked *asked, const struct ww_table_how *how, struct use **used)
{
	struct bucket *b = lock_bucket(asked->of, asked->hash);
	struct entry **at = place_in_tree(asked);
	struct use *had = held_by(*at, asked->x), **spare = &asked->me->spare_uses, *u;
	int r = 0;

	if (had && (had->shown.mode == WW_TABLE_EXCLUSIVE || asked->user.mode == WW_TABLE_SHARED))
		r = -EALREADY;
	else if (!*spare && !(*spare = calloc(1, sizeof *u)))
		r = -ENOMEM;
	else if (!*at)
		r = new_entry(asked, at);
	if (!r) {
		u = begin_use(asked, *at, had);
		if (has_to_release(asked->x, &u->of->lock->mutex_))
			r = -EDEADLK;
		else if ((r = lock_entry(asked, u->of, (struct ww_how){ .who = NOBODY })) && r != -ENOMEM)
			r = -EBUSY;
		if (r == -EBUSY && !had && agree(u->of, how)) {
			unlist_entry(asked->of, u->of);
			r = -ESTALE;
		}
		if (r == -EBUSY && how->by != WW_TABLE_TRIES)
			*used = u;
		else
			r = end_attempt(asked, u, r);
	}
	pthread_mutex_unlock(&b->lock);
	return r;
}

/* ---- waits ---- */

/*
 * The program has ended the wait of a poll by another call than the table's: so the use ends, if the poll had one already. A context that
 * holds nothing gets no -EDEADLK, as by the table's calls, and waits for nothing first from then on, as after a poll without a waker.
 */
static int end_polled(struct ww_poller *it, struct ww_acquire_ctx *x, int r)
{
	struct ww_table *t = (struct ww_table *)(void *)it;
	const struct asked asked = { .of = t, .x = x, .me = &t->seats[place_among(x->own) - 1] };

	if (!x->acquired) {
		forget_told(x);
		r = r == -EDEADLK ? 0 : r;
	}
	if (asked.me->polled)
		(void)settle(&asked, asked.me->polled, r ? r : -EINTR);
	asked.me->polled = NULL;
	note_in(asked.me, false);
	return r;
}

/* How a lock call waits, unless it tries. A poll goes on, and ends, by the table alone: see end_polled. */
static struct ww_how way_of(const struct asked *asked, const struct ww_table_how *how)
{
	bool polls = how->by == WW_TABLE_POLLS;

	return (struct ww_how){ .who = polls ? TASK : THREAD, .is_interruptible = true, .until = polls ? NULL : how->until,
				.waker = how->waker, .poller = &asked->of->poller };
}

/*
 * Waits first for what the context was told of last, in whichever table or at whichever mutex that was. If the context gives up that
 * wait, it may lock anything.
 */
COLD static int await_told_key(const struct asked *asked, const struct ww_table_how *how)
{
	int r = ww_await_contended(asked->x, way_of(asked, how));

	if (r == -EINPROGRESS || r == -EINTR)
		return r;
	forget_told(asked->x);
	return 0;
}

static inline int await_refused(const struct asked *asked, const struct ww_table_how *how)
{
	return UNLIKELY(asked->x->state & IS_TOLD) && !asked->x->acquired ? await_told_key(asked, how) : 0;
}

/*
 * Waits for the key by this use, which the context's seat has noted if the context waits by a poll. Returns -ESTALE if the key is to be
 * looked at anew: the entry was disowned meanwhile; or the time has passed, and `waits` is to be asked again.
 */
static int wait_for(const struct asked *asked, struct use *u, struct ww_table_how *how)
{
	int r = how->waits && !is_polled(asked->x) ? how->waits(how->data, how) : 0;

	if (r)
		return settle(asked, u, r);
	asked->me->polled = how->by == WW_TABLE_POLLS ? u : NULL;
	do {
		r = await_refused(asked, how);
		if (!r)
			r = lock_entry(asked, u->of, way_of(asked, how));
	} while (r == -EDEADLK && !asked->x->acquired);
	if (r == -EINPROGRESS) /* another thread may use the context by now */
		return r;
	asked->me->polled = NULL;
	if (r && !asked->x->acquired)
		forget_told(asked->x); /* the program doesn't see an -EDEADLK at which this call waited anew */
	if (r == -ETIMEDOUT && how->waits && how->by == WW_TABLE_WAITS)
		r = -ESTALE;
	return settle(asked, u, r);
}

int ww_table_lock(struct ww_table *t, struct ww_acquire_ctx *x, const void *key, size_t length, enum ww_table_mode mode,
		  const struct ww_table_how *how)
{
	struct ww_table_how h = how ? *how : (struct ww_table_how){ 0 };
	struct asked asked;
	int r = ask(&asked, "ww_table_lock", t, x, key, length);
	struct use *u = r ? NULL : asked.me->polled;

	if (r)
		return r;
	asked.user.owner = h.owner;
	asked.user.mode = mode;
	if (is_polled(x) && (h.by != WW_TABLE_POLLS || x->own->poller != &t->poller ||
			     (u && (!is_of(u->of, &asked) || u->shown.mode != mode))))
		return -EBUSY;
	note_in(asked.me, true);
	do {
		r = u || h.by == WW_TABLE_TRIES ? 0 : await_refused(&asked, &h);
		if (!r && !u)
			r = try_key(&asked, &h, &u);
		if (u)
			r = wait_for(&asked, u, &h);
		u = NULL;
	} while (r == -ESTALE);
	if (r != -EINPROGRESS)
		note_in(asked.me, false);
	return r;
}

/* ---- unlocks ---- */

/* In a forked child the uses stay, since a thread that isn't there may have a bucket's lock. */
static void give_up(const struct asked *asked, struct use *u)
{
	*(u->later ? &u->later->earlier : &asked->me->newest) = u->earlier;
	if (u->earlier)
		u->earlier->later = u->later;
	release(u, asked->x);
	if (LIKELY(!asked->of->pool->gone))
		(void)settle(asked, u, -EINVAL);
	if (asked->me->has == 1)
		unlist_keys(asked);
	note_has(asked->me, asked->me->has - 1);
}

/* The context's use of the key is of the entry in the tree, or else of an entry that was disowned. */
int ww_table_unlock(struct ww_table *t, struct ww_acquire_ctx *x, const void *key, size_t length)
{
	struct asked asked;
	int r = is_polled(NEEDED(x)) ? -EBUSY : ask(&asked, "ww_table_unlock", t, x, key, length);
	struct bucket *b;
	struct use *u;

	if (r)
		return r;
	b = lock_bucket(t, asked.hash);
	u = held_by(*place_in_tree(&asked), x);
	pthread_mutex_unlock(&b->lock);
	for (struct use *each = asked.me->newest; each && !u; each = each->earlier)
		u = is_of(each->of, &asked) ? each : NULL;
	if (u)
		give_up(&asked, u);
	else
		NOTE_MISUSE(t->pool->class_, "ww_table_unlock", "the context doesn't have the key");
	return u ? 0 : -EINVAL;
}

size_t ww_table_mark(struct ww_table *t, const struct ww_acquire_ctx *x)
{
	const struct of_seat *me = NEEDED(x)->own && x->own->pool == NEEDED(t)->pool ? &t->seats[place_among(x->own) - 1] : NULL;

	return me ? me->has : 0;
}

void ww_table_unlock_to(struct ww_table *t, struct ww_acquire_ctx *x, size_t mark)
{
	struct asked asked;

	if (is_polled(NEEDED(x)) || ask(&asked, "ww_table_unlock_to", t, x, NULL, 0))
		return;
	for (size_t left = asked.me->has; left > mark; left--)
		give_up(&asked, asked.me->newest);
}

/* The context releases all that it holds, in ww_acquire_unlock_all, which has ended all reads by now: so all its keys of the table. */
static void release_all_keys(struct ww_keys *it, struct ww_acquire_ctx *x)
{
	struct of_seat *seats = (struct of_seat *)(void *)it - (place_among(x->own) - 1);

	ww_table_unlock_to((struct ww_table *)(void *)((char *)seats - offsetof(struct ww_table, seats)), x, 0);
}

/* ---- who has a key, or waits for it ---- */

/* Shows the uses of the entry, and, if `all`, of all entries below it. The bucket is locked. */
static size_t show(const struct entry *e, bool all, void (*see)(void *data, const struct ww_table_user *user), void *data)
{
	size_t count = 0;

	for (const struct use *u = e ? e->uses : NULL; u; u = u->next, count++)
		see(data, &u->shown);
	for (unsigned k = 0; e && all && k < 2; k++)
		count += show(e->ways[k], all, see, data);
	return count;
}

size_t ww_table_see(struct ww_table *t, const void *key, size_t length, void (*see)(void *data, const struct ww_table_user *user),
		    void *data)
{
	struct asked asked = { .of = NEEDED(t), .hash = key ? hash_of(t, key, length) : 0, .user = { .key = key, .length = length } };
	size_t count = 0;

	for (unsigned k = 0; k < (key ? 1 : BUCKETS); k++) {
		struct bucket *b = lock_bucket(t, key ? asked.hash : (uint64_t)k << 32);

		count += show(key ? *place_in_tree(&asked) : b->root, !key, see, data);
		pthread_mutex_unlock(&b->lock);
	}
	return count;
}

/* ---- owners ---- */

static struct bucket *lock_owners(struct ww_table *t, uint64_t owner) { return lock_bucket(t, mixed(mixed(owner ^ t->seed))); }

static void add_owner(struct ww_table *t, uint64_t owner, struct of_seat *seat)
{
	struct bucket *b = lock_owners(t, owner);

	seat->owner = owner;
	seat->other = b->joined;
	b->joined = seat;
	pthread_mutex_unlock(&b->lock);
}

/* The seat of the owner, or NULL. A call that takes the seat, maybe only that of an owner that has left, takes it out of the list. */
enum finding { FINDS, TAKES, TAKES_LEFT };
static struct of_seat *find_owner(struct ww_table *t, uint64_t owner, enum finding how)
{
	struct bucket *b = lock_owners(t, owner);
	struct of_seat **at = &b->joined, *seat;

	while (*at && ((*at)->owner != owner || (how == TAKES_LEFT && !(*at)->retry.ticket_)))
		at = &(*at)->other;
	seat = *at;
	if (seat && how != FINDS)
		*at = seat->other;
	pthread_mutex_unlock(&b->lock);
	return seat;
}

/*
 * An owner that has left keeps its seat by `retry`. If the contended mutex isn't free in time, the owner's context goes on all the
 * same, and may lock other keys.
 */
int ww_table_join(struct ww_table *t, uint64_t owner, uint64_t former, const struct timespec *until, struct ww_acquire_ctx **ctx)
{
	struct of_seat *seat = find_owner(NEEDED(t), owner, FINDS);
	struct ww_acquire_ctx x;
	int r = 0;

	if (!seat && (seat = find_owner(t, former, TAKES_LEFT)))
		add_owner(t, owner, seat);
	if (!seat) {
		r = ww_acquire_init_until(&x, t->pool->class_, until);
		if (r)
			return r;
		seat = &t->seats[place_among(x.own) - 1];
		seat->x = x;
		NOTE(CONTEXT_RESUMED, .context = &seat->x); /* the context lies there from now on */
		add_owner(t, owner, seat);
	} else if (seat->retry.ticket_) {
		r = ww_acquire_resume(&seat->x, t->pool->class_, &seat->retry, until);
		if (r == -ETIMEDOUT) {
			ww_retry_at_once(&seat->retry);
			r = ww_acquire_resume(&seat->x, t->pool->class_, &seat->retry, until);
		}
	}
	*NEEDED(ctx) = &seat->x;
	return r;
}

/* Once its context has ended, the seat is another context's, so the owner isn't listed any more by then. */
int ww_table_leave(struct ww_table *t, uint64_t owner, bool again)
{
	struct of_seat *seat = find_owner(NEEDED(t), owner, FINDS);

	if (!seat)
		return -EINVAL;
	if (!seat->retry.ticket_) {
		ww_table_unlock_to(t, &seat->x, 0);
		if (is_polled(&seat->x) || seat->x.acquired)
			return -EBUSY;
	}
	if (again && (seat->retry.ticket_ || !ww_acquire_suspend(&seat->x, &seat->retry)))
		return 0;
	(void)find_owner(t, owner, TAKES);
	if (seat->retry.ticket_)
		return ww_retry_drop(&seat->retry);
	ww_acquire_fini(&seat->x);
	return 0;
}

/* ---- tables ---- */

static size_t bytes_of_table(const struct ww_pool *p) { return sizeof(struct ww_table) + seats_of(p) * sizeof(struct of_seat); }

static void count_tables(struct ww_pool *p, uint32_t by)
{
	pthread_mutex_lock(&ww_opening);
	p->tables += by;
	pthread_mutex_unlock(&ww_opening);
}

/*
 * The table has a place for each seat of the class, in pages of zeros that take memory once a context by that seat uses the table.  If
 * only few keys may be locked, seats keep no spare entries, so that the limit is exact.
 */
int ww_table_open(struct ww_table **made, struct ww_class *c, uint32_t keys)
{
	struct ww_table *t;
	struct ww_pool *p;
	int r = open_pool_of(NEEDED(c), &p);

	if (r || !(t = ww_take_zeros(bytes_of_table(p))))
		return r ? r : -ENOMEM;
	t->poller.ends = end_polled;
	t->pool = p;
	t->seed = ww_now() ^ (uintptr_t)t;
	t->limit = keys ? keys : p->numbers.mutexes;
	t->spares = t->limit / seats_of(p) / 2 < SPARES ? t->limit / seats_of(p) / 2 : SPARES;
	for (unsigned k = 0; k < BUCKETS; k++)
		pthread_mutex_init(&t->buckets[k].lock, NULL);
	count_tables(p, 1);
	*NEEDED(made) = t;
	return 0;
}

int ww_table_close(struct ww_table *t)
{
	struct of_seat *me, *last = NEEDED(t)->seats + seats_of(t->pool) - 1;

	for (me = t->seats; me <= last; me++)
		if (__atomic_load_n(&me->is_in, __ATOMIC_ACQUIRE) || __atomic_load_n(&me->has, __ATOMIC_ACQUIRE) ||
		    me->x.acquired || is_polled(&me->x))
			return -EBUSY;
	for (me = t->seats; me <= last; me++) {
		(void)ww_retry_drop(&me->retry);
		(void)!ww_acquire_fini_checked(&me->x);
		while (me->spares)
			free_entry(t, me->spare[--me->spares]);
		for (struct use *u; (u = me->spare_uses); free(u))
			me->spare_uses = u->next;
	}
	count_tables(t->pool, -1u);
	ww_return_zeros(t, bytes_of_table(t->pool));
	return 0;
}
