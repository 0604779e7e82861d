/*
 * Contexts that begin in one thread and end in another, while threads come and go.
 *
 * Some threads end while a context of theirs goes on.  The classes have few contexts, whose seats any thread uses, or
 * seats that threads keep.  Each seat has one user, each mutex one holder, and no seat is lost.  moves TIMES
 */
#include "../mutex_test.h"
#include "../../admit/class.h"
#include "../../admit/crowd.h"

enum { MUTEXES = 3, LEFT = 32, ROUNDS = 12, MANY = 1000 };

struct box {
	struct ww_acquire_ctx x;
	unsigned seat;
};

static struct ww_class c;
static struct ww_mutex mutexes[MUTEXES];
static unsigned holders[MUTEXES], users[512], drawn;
static pthread_mutex_t leaving = PTHREAD_MUTEX_INITIALIZER;
static struct box *left[LEFT];
static unsigned many, moved;

static void enter(unsigned *word) { MUST(!__atomic_exchange_n(word, 1, __ATOMIC_SEQ_CST)); }
static void leave(unsigned *word) { MUST(__atomic_exchange_n(word, 0, __ATOMIC_SEQ_CST)); }

static struct box *begins(void)
{
	struct box *b = malloc(sizeof *b);
	struct timespec soon = in_ms(1);

	MUST(b);
	if (ww_acquire_init_until(&b->x, &c, &soon)) {
		free(b);
		return NULL;
	}
	b->seat = (unsigned)(b->x.own - c.pool->seats);
	enter(&users[b->seat]);
	return b;
}

static void ends(struct box *b)
{
	leave(&users[b->seat]);
	ww_acquire_fini(&b->x);
	free(b);
}

/* To the next thread that comes, if there is room. */
static struct box *leaves(struct box *b)
{
	pthread_mutex_lock(&leaving);
	if (many < LEFT) {
		left[many++] = b;
		moved++;
		b = NULL;
	}
	pthread_mutex_unlock(&leaving);
	return b;
}

static struct box *finds(void)
{
	struct box *b;

	pthread_mutex_lock(&leaving);
	b = many ? left[--many] : NULL;
	pthread_mutex_unlock(&leaving);
	return b;
}

static void uses(struct box *b, unsigned k)
{
	MUST(!ww_mutex_lock(&mutexes[k], &b->x));
	enter(&holders[k]);
	leave(&holders[k]);
	ww_mutex_unlock(&mutexes[k]);
}

static void *works(void *arg)
{
	unsigned x = __atomic_fetch_add(&drawn, 7919, __ATOMIC_RELAXED), k;

	(void)arg;
	for (unsigned round = 0; round < ROUNDS; round++) {
		struct box *b = begins(), *other;

		k = next(&x);
		if (b)
			uses(b, k % MUTEXES);
		if (b && k / 4 % 2)
			b = leaves(b);
		if (b)
			ends(b);
		other = k / 8 % 4 ? finds() : NULL;
		if (other) {
			uses(other, k / 32 % MUTEXES);
			ends(other);
		}
		if (k / 128 % 4 == 0 && ww_mutex_trylock(&mutexes[k % MUTEXES], NULL)) {
			enter(&holders[k % MUTEXES]);
			leave(&holders[k % MUTEXES]);
			ww_mutex_unlock(&mutexes[k % MUTEXES]);
		}
	}
	return NULL;
}

/* All contexts can be had, and no more, but this thread's own. */
static void nothing_is_lost(uint32_t contexts, bool has_own)
{
	struct ww_acquire_ctx all[64];
	uint32_t at_once = contexts + has_own;

	ww_reset_crowd(c.pool); /* the leases of threads that have ended go on for a while */
	for (uint32_t k = 0; k < at_once; k++)
		MUST(!ww_acquire_init_checked(&all[k], &c));
	MUST(ww_acquire_init_checked(&all[at_once], &c) == -EAGAIN);
	for (uint32_t k = 0; k < at_once; k++)
		ww_acquire_fini(&all[k]);
}

static void round_of(unsigned threads, uint32_t contexts, bool has_own)
{
	pthread_t *all = calloc(threads, sizeof *all);

	ww_class_init(&c, drawn % 2, "moves");
	MUST(all && !ww_class_limit(&c, MUTEXES, contexts) && !ww_class_open_with(&c, has_own));
	for (unsigned k = 0; k < MUTEXES; k++)
		ww_mutex_init(&mutexes[k], &c);
	for (unsigned k = 0; k < threads; k++)
		all[k] = begin_thread(works, NULL);
	for (unsigned k = 0; k < threads; k++)
		end_thread(all[k]);
	while (many)
		ends(left[--many]);
	nothing_is_lost(contexts, has_own);
	for (unsigned k = 0; k < MUTEXES; k++)
		MUST(!ww_mutex_destroy(&mutexes[k]));
	MUST(!ww_class_free(&c));
	free(all);
}

int main(int count, char **words)
{
	unsigned times = count > 1 ? (unsigned)atoi(words[1]) : 60;

	for (unsigned k = 0; k < times; k++) {
		round_of(4, 3, k % 2);
		if (k % 20 == 0)
			round_of(MANY, 16, k % 40);
	}
	MUST(moved > times);
	puts("moves: each seat has one user, whoever ends what another began");
	return 0;
}
