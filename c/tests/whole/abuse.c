/*
 * Four threads make any step of ww_steps.h in any state, with any number.
 *
 * Every step returns one of the codes, and every lock is exclusive.  Then they do so by handles that were never opened,
 * or were closed.
 */
#include "../test.h"

enum { THREADS = 4, LOCKS = 8, NONE = 65 }; /* no world has fewer locks */

static ww_handle handles[THREADS];
static volatile unsigned long counters[LOCKS];
static unsigned long added[THREADS][LOCKS], times = 2000000;

static int turned(unsigned me, int r)
{
	while (r > 0) {
		r = turn(&handles[me]); /* never sleeps: a waiter that looks again needs no waking */
		if (r > 0)
			sched_yield();
	}
	return r;
}

static bool is_code(int r)
{
	return (r >= 0 && r <= WW_AWAITS) || r == -EINTR || r == -EBUSY || r == -EINVAL || r == -ENOSPC ||
	       r == -EDEADLK || r == -EALREADY;
}

/* What one thread knows of its seat by the answers alone: of the locks that it owns, those that it is sure of. */
struct mine {
	unsigned me, wants;
	bool own[LOCKS], pending, giving;
};

static bool owns_none(struct mine *m)
{
	for (unsigned n = 0; n < LOCKS; n++)
		if (m->own[n])
			return false;
	return true;
}

static void gives_all(struct mine *m)
{
	ww_handle *h = &handles[m->me];

	for (unsigned n = 0; n < LOCKS; n++) {
		int r = ww_has_(h, n);

		MUST(r == 0 || (r == -EINVAL && !m->own[n]));
		if (r == 0)
			MUST(!turned(m->me, ww_unlock_(h, n)));
		m->own[n] = false;
	}
}

static void ends(struct mine *m, int r)
{
	if (m->pending && r <= 0 && r != -EBUSY) {
		m->pending = false;
		if (!r && !m->giving)
			m->own[m->wants] = true;
		m->giving = false;
		if (r == -EDEADLK)
			gives_all(m);
	}
}

/* A seat that is at work isn't idle, and can't be closed. */
static int idle(struct mine *m)
{
	ww_handle *h = &handles[m->me];
	int r = ww_idle_(h);

	MUST(r == -EBUSY || (!r && !m->pending && owns_none(m)));
	MUST(!r || (ww_close_(h) == -EBUSY && h->mode));
	return r;
}

static void any(struct mine *m, unsigned op, unsigned n, bool heeds)
{
	ww_handle *h = &handles[m->me];
	int r;

	switch (op) {
	case 0: r = ww_begin_(h); break;
	case 1: r = ww_end_(h); break;
	case 2: r = ww_done_(h); break;
	case 3:
		r = ww_cancel_(h, (uint16_t)n);
		MUST(n < THREADS || r == (m->pending ? -EBUSY : -EINVAL)); /* no such seat */
		for (int k; (k = ww_next_wake_(h)) >= 0;)
			MUST(k < THREADS);
		break;
	case 4: r = ww_try_(h, (uint8_t)n);
		if (!r)
			m->own[n] = true;
		break;
	case 5: case 6: case 7:
		r = op == 7 ? ww_lock_slow_(h, (uint8_t)n, heeds) : ww_lock_(h, (uint8_t)n, heeds);
		if (!r)
			m->own[n] = true;
		if (r > 0)
			m->pending = true, m->wants = n;
		break;
	case 8:
		r = ww_unlock_(h, (uint8_t)n);
		if (r >= 0)
			m->own[n] = false;
		if (r > 0)
			m->pending = m->giving = true;
		break;
	case 9:
		r = ww_has_(h, (uint8_t)n);
		MUST(r == (m->pending ? -EBUSY : n < LOCKS && m->own[n] ? 0 : -EINVAL));
		break;
	case 10: r = idle(m); break;
	case 11:
		r = ww_heed_(h);
		MUST(m->pending ? !r || r == -EBUSY : r == -EINVAL);
		break;
	case 12:
		r = ww_is_free_(h, (uint8_t)n);
		MUST(r == -EBUSY || (!m->pending && (r == -EINVAL ? n >= LOCKS : n >= LOCKS || !m->own[n])));
		break;
	case 13:
		r = ww_look_(h, (uint8_t)n);
		MUST(r == -EBUSY ? m->pending : n < NONE ? r >= 0 && r <= WW_NOBODY_ : r == -EINVAL);
		MUST(r == -EBUSY || n >= LOCKS || !m->own[n] || r == (int)m->me + 1);
		r = 0;
		break;
	case 14:
		r = ww_is_wounded_(h);
		MUST(r == 0 || r == 1 || (r == -EBUSY && m->pending));
		break;
	default:
		r = turn(h);
		ends(m, r);
	}
	MUST(is_code(r));
}

static void *work(void *arg)
{
	struct mine m = { .me = (unsigned)(size_t)arg };
	unsigned x = 12345 + m.me;

	for (unsigned long i = 0; i < times; i++) {
		unsigned drawn = next(&x), n = (drawn >> 8) % 10;

		any(&m, drawn % 16, n == 9 ? 255 : n == 8 ? NONE : n, drawn >> 12 & 1);
		for (n = 0; n < LOCKS; n++)
			if (m.own[n]) {
				counters[n]++;
				added[m.me][n]++;
			}
		if (!m.pending && (drawn >> 13) % 16 == 0)
			gives_all(&m);
	}
	if (m.pending)
		ends(&m, turned(m.me, 1));
	gives_all(&m);
	return NULL;
}

static void empty_handles(ww_handle *h)
{
	MUST(ww_begin_(h) == -EINVAL && ww_end_(h) == -EINVAL && ww_done_(h) == -EINVAL);
	MUST(ww_lock_(h, 0, true) == -EINVAL && ww_lock_slow_(h, 0, false) == -EINVAL && ww_try_(h, 0) == -EINVAL);
	MUST(ww_unlock_(h, 0) == -EINVAL && ww_has_(h, 0) == -EINVAL && ww_is_free_(h, 0) == -EINVAL && ww_heed_(h) == -EINVAL);
	MUST(ww_look_(h, 0) == -EINVAL && ww_is_wounded_(h) == -EINVAL);
	MUST(turn(h) == -EINVAL && ww_cancel_(h, 0) == -EINVAL && ww_next_wake_(h) == -EINVAL && !ww_idle_(h) && !ww_close_(h));
}

/* A world opens with any numbers that it may have, and each of its seats once, while it is there; its seats outlast it. */
static void opens_seats(uint32_t kind)
{
	ww_handle one = { 0 }, other = { 0 };
	ww_world world = { 0 };

	MUST(ww_open_world_(2, 8, 9, 4, &world) == -EINVAL && ww_open_world_(kind, 0, 9, 4, &world) == -EINVAL);
	MUST(ww_open_world_(kind, WW_MAX_LOCKS + 1, 9, 4, &world) == -EINVAL && ww_open_world_(kind, 8, 9, 0, &world) == -EINVAL);
	MUST(ww_open_world_(kind, 8, 9, 4096, &world) == -EINVAL && ww_open_world_(kind, 8, (uint64_t)1 << 52, 4, &world) == -EINVAL);
	MUST(ww_open_seat_(&world, 0, &one) == -EINVAL);
	ww_close_world_(&world);
	MUST(!ww_open_world_(kind, 8, 9, 4, &world) && ww_open_world_(kind, 8, 9, 4, &world) == -EINVAL);
	MUST(ww_open_seat_(&world, 4, &one) == -EINVAL && ww_open_seat_(&world, UINT16_MAX, &one) == -EINVAL);
	empty_handles(&one);
	MUST(!ww_open_seat_(&world, 3, &one) && ww_open_seat_(&world, 2, &one) == -EINVAL && ww_open_seat_(&world, 3, &other) == -EALREADY);
	empty_handles(&other);
	MUST(!ww_begin_(&one) && !ww_lock_(&one, 7, false) && !ww_open_seat_(&world, 0, &other) && ww_try_(&other, 7) == -EBUSY);
	MUST(ww_look_(&other, 7) == 3 + 1 && ww_cancel_(&other, 2) == 0 && ww_cancel_(&other, 2) == -EALREADY);
	MUST(ww_next_wake_(&other) == 2 && ww_next_wake_(&other) == -EINVAL);
	MUST(!ww_close_(&other) && ww_open_seat_(&world, 0, &other) == -EALREADY);
	ww_close_world_(&world);
	MUST(ww_open_seat_(&world, 1, &other) == -EINVAL && ww_close_(&one) == -EBUSY);
	MUST(!ww_unlock_(&one, 7) && !ww_end_(&one) && !ww_close_(&one));
	MUST(!ww_open_world_(kind, 8, 9, 4, &world));
	ww_close_world_(&world);
}

int main(int count, char **words)
{
	if (count > 1)
		times = strtoul(words[1], NULL, 10);
	for (uint32_t kind = 0; kind < 2; kind++) {
		ww_handle one = { 0 }, other = { 0 };

		empty_handles(&one);
		opens_seats(kind);
		MUST(!open_all(kind, 1, 1, &one, 1) && !ww_begin_(&one) && ww_close_(&one) == -EBUSY);
		MUST(ww_try_(&one, NONE) == -EINVAL && !ww_try_(&one, NONE - 1) && !ww_unlock_(&one, NONE - 1) && !ww_end_(&one));
		MUST(ww_begin_(&one) == -ENOSPC && !ww_lock_(&one, 0, false));
		ww_swap_(&one, &other);
		empty_handles(&one);
		MUST(!ww_has_(&other, 0));
		ww_swap_(&one, &other);
		empty_handles(&other);
		MUST(ww_idle_(&one) == -EBUSY && ww_close_(&one) == -EBUSY);
		MUST(!ww_unlock_(&one, 0) && !ww_idle_(&one) && !ww_close_(&one) && !ww_close_(&one));
		empty_handles(&one);
		MUST(!open_all(kind, LOCKS, UINT32_MAX, handles, THREADS));
		in_threads(THREADS, work);
		for (unsigned n = 0; n < LOCKS; n++) {
			unsigned long all = 0;

			for (unsigned k = 0; k < THREADS; k++) {
				all += added[k][n];
				added[k][n] = 0;
			}
			MUST(counters[n] == all);
			counters[n] = 0;
		}
		for (unsigned k = 0; k < THREADS; k++) {
			ww_end_(&handles[k]);
			MUST(!ww_close_(&handles[k]));
		}
	}
	printf("abuse: %lu turns in any state, every lock exclusive\n", 2 * THREADS * times);
	return 0;
}
