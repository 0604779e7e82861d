/*
 * Functions with several loops, in C and in C++.
 *
 * Loops stand in branches, one after another, one in another, in a switch, and are left from within blocks that have
 * something to clean up.  In each loop an older context has the second mutex at first.  A body that ends by `break` or
 * `continue` ends its round alone, so no transaction is lost by the most natural one.
 */
#include <stdbool.h>
#include <stdio.h>
#include <stdlib.h>
#include "ww_mutex.h"

#define MUST(fact)                                                                         \
	do {                                                                               \
		if (!(fact)) {                                                             \
			fprintf(stderr, "%s:%d: not so: %s\n", __FILE__, __LINE__, #fact); \
			exit(1);                                                           \
		}                                                                          \
	} while (0)

static DEFINE_WD_CLASS(outer_class);
static DEFINE_WD_CLASS(inner_class);

/* What a loop is about: its context, an older one, and two mutexes. */
struct scene {
	struct ww_acquire_ctx older, x;
	struct ww_mutex a, b;
	unsigned bodies;
};
static struct scene outer, inner;
static unsigned cleaned;

static void begins(struct scene *s, struct ww_class *c)
{
	ww_mutex_init(&s->a, c);
	ww_mutex_init(&s->b, c);
	ww_acquire_init(&s->older, c);
	ww_acquire_init(&s->x, c);
	s->bodies = 0;
}

static void ends(struct scene *s)
{
	MUST(!s->x.acquired && !s->older.acquired);
	ww_acquire_fini(&s->x);
	ww_acquire_fini(&s->older);
	MUST(!ww_mutex_destroy(&s->a) && !ww_mutex_destroy(&s->b));
}

static void is_in_the_way(struct scene *s) { MUST(!ww_mutex_lock(&s->b, &s->older)); }

/* The second one fails as long as the older context has it, which ends then. */
static int locks(struct scene *s, unsigned k)
{
	int r = ww_mutex_lock(k ? &s->b : &s->a, &s->x);

	if (r == -EDEADLK)
		ww_mutex_unlock(&s->b);
	return r;
}

/* It backed off once, and has both. */
static void has_both(struct scene *s)
{
	MUST(s->bodies == 2 && s->x.acquired == 2);
	ww_acquire_unlock_all(&s->x);
	s->bodies = 0;
}

static void in_branches(bool first)
{
	int err = 0;

	is_in_the_way(&outer);
	if (first)
		ww_until_all_locked(&outer.x) {
			outer.bodies++;
			for (unsigned k = 0; k < 2; k++) {
				err = locks(&outer, k);
				ww_retry_on_contention(&outer.x);
				MUST(!err);
			}
		}
	else
		ww_until_all_locked(&outer.x, other) {
			outer.bodies++;
			for (unsigned k = 2; k--;) {
				err = locks(&outer, !k);
				ww_retry_on_contention(&outer.x, other);
				MUST(!err);
			}
		}
	has_both(&outer);
}

/* With a variable in between, and one loop that never goes back by itself: it does so at its end. */
static unsigned one_after_another(void)
{
	int err = 0;

	is_in_the_way(&outer);
	ww_until_all_locked(&outer.x) {
		outer.bodies++;
		err = locks(&outer, 0);
		if (!err)
			err = locks(&outer, 1);
		ww_retry_on_contention(&outer.x);
	}
	MUST(!err);
	has_both(&outer);
	unsigned n = outer.x.acquired;

	is_in_the_way(&outer);
	ww_until_all_locked(&outer.x, second) {
		outer.bodies++;
		if (locks(&outer, 0) || locks(&outer, 1))
			continue;
		n++;
	}
	has_both(&outer);
	ww_until_all_locked(&outer.x, third)
		n += !locks(&outer, 0);
	ww_acquire_unlock_all(&outer.x);
	return n;
}

/* The inner loop backs off for itself, and then for the outer one, whose body begins it anew. */
static void one_in_another(void)
{
	is_in_the_way(&outer);
	is_in_the_way(&inner);
	ww_until_all_locked(&outer.x, outside) {
		outer.bodies++;
		MUST(!locks(&outer, 0));
		ww_until_all_locked(&inner.x, inside) {
			inner.bodies++;
			for (unsigned k = 0; k < 2; k++) {
				int err = locks(&inner, k);

				ww_retry_on_contention(&inner.x, inside);
				MUST(!err);
			}
			if (locks(&outer, 1))
				ww_acquire_unlock_all(&inner.x);
			ww_retry_on_contention(&outer.x, outside);
		}
	}
	MUST(inner.bodies == 3 && inner.x.acquired == 2);
	ww_acquire_unlock_all(&inner.x);
	has_both(&outer);
}

/* A break is no way out as long as the context has to back off, whatever the body makes of the error; else it is one. */
static void breaks(void)
{
	unsigned made = 0;
	int err = 0;

	is_in_the_way(&outer);
	ww_until_all_locked(&outer.x) {
		outer.bodies++;
		err = locks(&outer, 0);
		if (err)
			break;
		err = locks(&outer, 1);
		if (err)
			break;
		ww_retry_on_contention(&outer.x);
		made++;
	}
	MUST(!err && made == 1);
	has_both(&outer);
	is_in_the_way(&outer);
	ww_until_all_locked(&outer.x, second) {
		outer.bodies++;
		if (!locks(&outer, 0) && !locks(&outer, 1))
			break;
		err = -EIO; /* what it returns is of a round that counts for nothing */
		if (outer.bodies)
			continue;
		abort();
	}
	has_both(&outer);
	is_in_the_way(&outer);
	ww_until_all_locked(&outer.x, by_hand) {
		outer.bodies++;
		if (!locks(&outer, 0) && locks(&outer, 1))
			ww_mutex_unlock(&outer.a); /* it holds nothing, and still has to back off */
		break;
	}
	has_both(&outer);
	ww_until_all_locked(&outer.x, third) {
		outer.bodies++;
		break;
	}
	MUST(outer.bodies == 1 && !outer.x.acquired);
	outer.bodies = 0;
}

static void in_a_switch(unsigned way)
{
	is_in_the_way(&outer);
	switch (way) {
	case 0:
		ww_until_all_locked(&outer.x) {
			outer.bodies++;
			switch (locks(&outer, 0) ? 1 : locks(&outer, 1)) {
			case 1: abort();
			default: ww_retry_on_contention(&outer.x);
			}
		}
		break;
	default:
		ww_until_all_locked(&outer.x, last) {
			outer.bodies++;
			for (;;) {
				MUST(!locks(&outer, 0));
				while (locks(&outer, 1))
					ww_retry_on_contention(&outer.x, last);
				break;
			}
		}
	}
	has_both(&outer);
}

static void cleans(const unsigned *held) { cleaned += *held; }

/* The jump leaves its blocks as any goto does: what they have to clean up is, in C and in C++. */
static void cleans_up(void)
{
	is_in_the_way(&outer);
	cleaned = 0;
	ww_until_all_locked(&outer.x) {
		unsigned one __attribute__((cleanup(cleans), unused)) = 1;

		outer.bodies++;
		for (unsigned k = 0; k < 2; k++) {
			unsigned ten __attribute__((cleanup(cleans), unused)) = 10;
			int err = locks(&outer, k);

			ww_retry_on_contention(&outer.x);
			MUST(!err);
		}
	}
	MUST(cleaned == 2 * 1 + 4 * 10);
	has_both(&outer);
}

int main(void)
{
	begins(&outer, &outer_class);
	begins(&inner, &inner_class);
	in_branches(true);
	in_branches(false);
	MUST(one_after_another() == 2);
	one_in_another();
	breaks();
	in_a_switch(0);
	in_a_switch(1);
	cleans_up();
	ends(&inner);
	ends(&outer);
	puts("loops: several loops in a function");
	return 0;
}
