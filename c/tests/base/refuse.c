/*
 * Each allocation of a world's opening, and of its seats', is refused in turn: no handle is written, and nothing is left.
 *
 * This heap stands in for that of the library; refuse_class.c has that of a class.
 */
#include "../test.h"

struct tried {
	bool ok;
	void *p;
};

static long made, live, refused = -1;
static char nothing[16];

static struct tried told(void *p) { return (struct tried){ p != NULL, p ? p : nothing }; }

struct tried rattle_alloc(size_t size, size_t align);
struct tried rattle_realloc(void *p, size_t kept, size_t size, size_t align);
void rattle_dealloc(void *p);

static void *asked(void *p)
{
	live += p != NULL;
	return p;
}

struct tried rattle_alloc(size_t size, size_t align)
{
	return told(asked(made++ == refused ? NULL : malloc(size ? size : align)));
}

struct tried rattle_realloc(void *p, size_t kept, size_t size, size_t align)
{
	(void)kept;
	return told(made++ == refused ? NULL : realloc(p, size ? size : align));
}

void rattle_dealloc(void *p)
{
	live -= p != NULL;
	free(p);
}

/* The world's. Returns how many there are. */
static long opens_world(uint32_t kind, uint32_t locks, uint16_t seats, ww_world *world)
{
	int r;

	for (refused = 0;; refused++) {
		made = 0;
		r = ww_open_world_(kind, locks, 100, seats, world);
		if (!r)
			break;
		MUST(r == -ENOMEM && !live && ww_open_seat_(world, 0, &(ww_handle){ 0 }) == -EINVAL);
	}
	MUST(made == refused && live);
	return made;
}

/* A seat's, which the same call makes later. */
static long opens_seat(ww_world *world, uint16_t number, ww_handle *seat)
{
	long before = live;
	int r;

	for (refused = 0;; refused++) {
		made = 0;
		r = ww_open_seat_(world, number, seat);
		if (!r)
			break;
		MUST(r == -ENOMEM && live == before && !seat->at && !seat->mode);
	}
	MUST(made == refused);
	return made;
}

/* Afterwards no other call takes memory. */
static void opens_handles(uint32_t kind, uint32_t locks)
{
	ww_handle handles[16] = { { 0 } };
	ww_world world = { 0 };
	long all = opens_world(kind, locks, 16, &world), each = 0;

	for (uint16_t k = 16; k--;)
		each = opens_seat(&world, k, &handles[k]);
	made = 0;
	refused = -1;
	ww_close_world_(&world);
	for (uint32_t k = 0; k < 16; k++) {
		ww_handle *h = &handles[k];

		MUST(!ww_begin_(h) && !ww_lock_(h, k, false) && !ww_lock_(h, locks - 1, false));
		MUST(!ww_unlock_(h, k) && ww_has_(h, k) == -EINVAL && !ww_unlock_(h, locks - 1) && !ww_end_(h));
	}
	MUST(!made);
	for (unsigned k = 0; k < 16; k++)
		MUST(!ww_close_(&handles[k]));
	MUST(!live);
	printf("%ld allocations to open %u locks with 16 seats, and %ld for a seat, each refused in turn; none by the calls\n", all, locks, each);
}

/* However many seats there may be, the world itself takes as many allocations; and it goes with its last seat, or by itself. */
static void are_as_many(uint32_t kind)
{
	ww_world few = { 0 }, many = { 0 };
	long of_few = opens_world(kind, 64, 1, &few), before = live;
	ww_handle seat = { 0 };

	refused = -1;
	made = 0;
	MUST(!ww_open_world_(kind, 64, 100, WW_MAX_SEATS, &many) && made <= of_few + 1);
	MUST(!ww_open_seat_(&many, WW_MAX_SEATS - 1, &seat) && live > before);
	ww_close_world_(&many);
	MUST(live > before && !ww_close_(&seat) && live == before);
	ww_close_world_(&few);
	MUST(!live);
}

int main(void)
{
	const uint32_t sizes[] = { 64, 4096, 65536 };

	for (int kind = 0; kind < 2; kind++) {
		for (unsigned k = 0; k < sizeof sizes / sizeof *sizes; k++)
			opens_handles((uint32_t)kind, sizes[k]);
		are_as_many((uint32_t)kind);
	}
	return 0;
}
