/*
 * The calls of ww_mutex.h, one after another, in both kinds: what each returns.
 *
 * And what a program that is written for the kernel relies on.
 */
#include "../mutex_test.h"
#include "ww_number.h"
#include "ww_retry.h"
#include <stddef.h>

/* Programs that were compiled before have each field at its place. A change of one changes WW_VERSION_MAJOR. */
#define AT(type, field, at) (offsetof(struct type, field) == (at))
_Static_assert(WW_VERSION_MAJOR == 7 &&
	AT(ww_class, pool, 0) && AT(ww_class, mutexes, 8) && AT(ww_class, contexts, 12) && AT(ww_class, is_wait_die, 16) &&
	AT(ww_class, permits, 20) && AT(ww_class, name, 24) && sizeof(struct ww_class) == 32 &&
	AT(ww_mutex, base, 0) && AT(ww_mutex, ctx, 0) && AT(ww_mutex, pool, 8) && AT(ww_mutex, class_, 16) && AT(ww_mutex, alone, 16) &&
	AT(ww_mutex, older, 16) && AT(ww_mutex, number, 24) && AT(ww_mutex, waiters, 28) && sizeof(struct ww_mutex) == 32 &&
	AT(ww_acquire_ctx, pool, 0) && AT(ww_acquire_ctx, own, 8) && AT(ww_acquire_ctx, gives, 16) && AT(ww_acquire_ctx, acquired, 24) &&
	AT(ww_acquire_ctx, state, 28) && AT(ww_acquire_ctx, contending_lock, 32) && AT(ww_acquire_ctx, newest, 40) &&
	AT(ww_acquire_ctx, prelocked, 48) && AT(ww_acquire_ctx, polled, 48) && AT(ww_acquire_ctx, cancelled, 56) &&
	AT(ww_acquire_ctx, puts, 60) && AT(ww_acquire_ctx, deadlock_inject_countdown, 64) &&
	AT(ww_acquire_ctx, deadlock_inject_interval, 68) && AT(ww_acquire_ctx, span, 64) && AT(ww_acquire_ctx, stamp, 72) &&
	AT(ww_acquire_ctx, words, 72) && AT(ww_acquire_ctx, empty_, 80) && sizeof(struct ww_acquire_ctx) == 96 &&
	sizeof(struct ww_retry) == 16, "the binary interface of version 7");

static DEFINE_WW_CLASS(wound_wait);
/* The struct's own name is a name for a class, too. */
static DEFINE_WD_CLASS(ww_class);
static struct ww_class *classes[] = { &wound_wait, &ww_class };
static DEFINE_WD_CLASS(other);

static void answers(struct ww_class *c)
{
	struct ww_mutex a, b;
	struct ww_acquire_ctx x;

	ww_mutex_init(&a, c);
	ww_mutex_init(&b, c);
	ww_acquire_init(&x, c);
	MUST(!ww_mutex_lock(&a, &x) && a.ctx == &x && x.acquired == 1 && ww_mutex_is_locked(&a));
	MUST(ww_mutex_lock(&a, &x) == -EALREADY && ww_mutex_lock_interruptible(&a, &x) == -EALREADY);
	MUST(!ww_mutex_trylock(&a, &x) && !ww_mutex_trylock(&a, NULL));
	MUST(ww_mutex_lock_slow_checked(&a, &x) == -EINVAL && ww_mutex_lock_slow_interruptible(&b, &x) == -EINVAL);
	MUST(ww_mutex_trylock(&b, &x) && b.ctx == &x && x.acquired == 2);
	MUST(ww_acquire_fini_checked(&x) == -EINVAL);
	ww_mutex_unlock(&a);
	MUST(!a.ctx && !ww_mutex_is_locked(&a) && x.acquired == 1);
	ww_acquire_done(&x);
	MUST(ww_acquire_done_checked(&x) == -EINVAL);
	/* Only the debug library tells of what comes then. */
	MUST(!ww_mutex_lock(&a, &x) && x.acquired == 2);
	ww_mutex_unlock(&a);
	MUST(ww_mutex_trylock(&a, &x));
	ww_mutex_unlock(&a);
	ww_mutex_unlock(&b);
	MUST(ww_mutex_unlock_checked(&b) == -EINVAL);
	ww_acquire_fini(&x);
	MUST(ww_acquire_fini_checked(&x) == -EINVAL && ww_acquire_done_checked(&x) == -EINVAL);
	MUST(ww_mutex_lock(&a, &x) == -EINVAL && ww_acquire_cancel(&x) == -EINVAL);
	MUST(!ww_mutex_destroy(&a) && !ww_mutex_destroy(&b));
	/* No context and no mutex any more. */
	MUST(ww_mutex_lock(&a, &x) == -EINVAL && ww_mutex_lock_interruptible(&a, &x) == -EINVAL);
	MUST(ww_mutex_unlock_checked(&a) == -EINVAL);
	/* Memory that was something else before: what the context says of it in a mutex isn't taken for a seat. */
	memset(&x, 0xff, sizeof x);
	ww_mutex_init(&a, c);
	ww_acquire_init(&x, c);
	MUST(!ww_is_contended(&x) && !x.acquired && !ww_mutex_lock(&a, &x));
	ww_mutex_unlock(&a);
	ww_acquire_fini(&x);
	MUST(!ww_mutex_is_locked(&a) && !ww_mutex_is_held_by(&a, NULL) && ww_mutex_unlock_checked(&a) == -EINVAL);
	MUST(!ww_mutex_destroy(&a));
}

static void is_no_context(struct ww_acquire_ctx *x, struct ww_mutex *a, struct ww_mutex *b)
{
	struct ww_mutex *const list[] = { a, b, a };

	for (size_t count = 0; count <= 3; count++)
		MUST(ww_mutex_lock_all(x, list, count) == -EINVAL);
	MUST(ww_mutex_lock(a, x) == -EINVAL && ww_mutex_lock_interruptible(a, x) == -EINVAL);
	MUST(ww_mutex_trylock_checked(a, x) == -EINVAL && ww_mutex_lock_slow_checked(a, x) == -EINVAL);
	MUST(ww_acquire_fini_checked(x) == -EINVAL && ww_acquire_done_checked(x) == -EINVAL && ww_acquire_end(x) == -EINVAL);
	MUST(ww_acquire_cancel(x) == -EINVAL && !ww_mutex_is_held_by(a, x) && !ww_mutex_is_locked(a));
}

/* Memory that is all zero is no context, nor is one that couldn't be begun there, or has ended. */
static void no_context(struct ww_class *c)
{
	struct ww_class one;
	struct ww_mutex a, b;
	struct ww_acquire_ctx x, y;

	ww_class_init(&one, c->is_wait_die, "one");
	MUST(!ww_class_limit(&one, 4, 1));
	ww_mutex_init(&a, &one);
	ww_mutex_init(&b, &one);
	memset(&x, 0, sizeof x);
	is_no_context(&x, &a, &b);
	ww_acquire_init(&y, &one);
	for (unsigned k = 0; k < 3; k++) { /* what was there before is no matter */
		memset(&x, k % 2 ? 0xff : 0, sizeof x);
		MUST(ww_acquire_init_checked(&x, &one) == -EAGAIN);
		is_no_context(&x, &a, &b);
	}
	ww_acquire_fini(&y);
	is_no_context(&y, &a, &b);
	MUST(!ww_mutex_destroy(&a) && !ww_mutex_destroy(&b) && !ww_class_free(&one));
}

/*
 * After a back-off the next lock waits for the contended mutex first; a mark doesn't count that one until the body asks for it.
 * If the body releases it before, it is owed no more.
 */
static void owed_and_released(void)
{
	struct ww_mutex a, b, d;
	struct ww_acquire_ctx x, y;
	unsigned rounds = 0;

	ww_mutex_init(&a, &other);
	ww_mutex_init(&b, &other);
	ww_mutex_init(&d, &other);
	ww_acquire_init(&x, &other); /* the older one */
	MUST(!ww_mutex_lock(&a, &x));
	ww_acquire_init(&y, &other);
	ww_until_all_locked(&y) {
		MUST(!ww_mutex_lock(rounds ? &d : &b, &y));
		if (!rounds++) {
			MUST(ww_acquire_mark(&y) == 1 && ww_mutex_lock(&a, &y) == -EDEADLK && ww_is_contended(&y));
			ww_mutex_unlock(&a);
			ww_retry_on_contention(&y);
		}
		MUST(ww_mutex_is_held_by(&a, &y) && y.acquired == 2 && ww_acquire_mark(&y) == 1);
		ww_mutex_unlock(&a);
		MUST(y.acquired == 1 && ww_acquire_mark(&y) == 1);
		MUST(!ww_mutex_lock(&b, &y) && ww_acquire_mark(&y) == 2);
		ww_acquire_unlock_to(&y, 2);
		MUST(!ww_mutex_lock(&a, &y) && ww_acquire_mark(&y) == 3);
		ww_acquire_unlock_to(&y, 1);
		MUST(y.acquired == 1 && ww_mutex_is_held_by(&d, &y));
	}
	MUST(rounds == 2);
	ww_acquire_unlock_all(&y);
	ww_acquire_fini(&y);
	ww_acquire_fini(&x);
	MUST(!ww_mutex_destroy(&a) && !ww_mutex_destroy(&b) && !ww_mutex_destroy(&d));
}

/* A list for which the context gives way, since it held something before, leaves it as it was, and in no loop. */
static void list_gives_way(unsigned flags)
{
	struct ww_mutex a, b, d;
	struct ww_mutex *const list[] = { &d, &a };
	struct ww_acquire_ctx x, y;

	ww_mutex_init(&a, &other);
	ww_mutex_init(&b, &other);
	ww_mutex_init(&d, &other);
	ww_acquire_init(&x, &other);
	MUST(!ww_mutex_lock(&a, &x));
	ww_acquire_init(&y, &other);
	ww_acquire_flags(&y, flags);
	MUST(!ww_mutex_lock(&b, &y) && ww_mutex_lock_all(&y, list, 2) == -EDEADLK);
	MUST(!ww_is_contended(&y) && y.acquired == 1 && ww_mutex_is_held_by(&b, &y) && !ww_mutex_is_locked(&d));
	ww_mutex_unlock(&b);
	ww_mutex_unlock(&a);
	MUST(!ww_is_contended(&y) && !ww_mutex_lock_all(&y, list, 2) && !ww_is_contended(&y));
	ww_mutex_unlock(&a);
	ww_mutex_unlock(&d);
	ww_acquire_fini(&y);
	ww_acquire_fini(&x);
	MUST(!ww_mutex_destroy(&a) && !ww_mutex_destroy(&b) && !ww_mutex_destroy(&d));
}

/* Without a context a thread holds several at once, also while it has a context. */
static void without_context(struct ww_class *c)
{
	struct ww_mutex list[6];
	struct ww_acquire_ctx x;

	for (unsigned k = 0; k < 6; k++)
		ww_mutex_init(&list[k], c);
	ww_acquire_init(&x, c);
	MUST(!ww_mutex_lock(&list[0], &x));
	MUST(!ww_mutex_lock(&list[1], NULL) && !ww_mutex_lock_interruptible(&list[2], NULL) && ww_mutex_trylock(&list[3], NULL));
	for (unsigned k = 1; k < 4; k++)
		MUST(!list[k].ctx && ww_mutex_is_locked(&list[k]) && !ww_mutex_trylock(&list[k], NULL) && !ww_mutex_trylock(&list[k], &x));
	MUST(!ww_mutex_lock(&list[4], &x) && x.acquired == 2 && list[4].ctx == &x);
	for (unsigned k = 0; k < 5; k++)
		ww_mutex_unlock(&list[k]);
	ww_acquire_fini(&x);
	for (unsigned k = 0; k < 6; k++)
		MUST(!ww_mutex_is_locked(&list[k]) && !ww_mutex_destroy(&list[k]));
}

/* Several contexts of one thread: the younger one backs off. Then it may take the lock in either way. */
static void two_contexts(struct ww_class *c, bool plainly)
{
	struct ww_mutex a, b;
	struct ww_acquire_ctx older, younger;

	ww_mutex_init(&a, c);
	ww_mutex_init(&b, c);
	ww_acquire_init(&older, c);
	ww_acquire_init(&younger, c);
	MUST(!ww_mutex_lock(&a, &older) && !ww_mutex_lock(&b, &younger));
	if (c->is_wait_die) {
		struct ww_mutex its, *list[] = { &a };

		MUST((plainly ? ww_mutex_lock(&a, &younger) : ww_mutex_lock_all(&younger, list, 1)) == -EDEADLK);
		MUST(younger.acquired == 1 && !ww_is_contended(&younger));
		MUST(ww_mutex_lock(&a, &younger) == -EINVAL && ww_mutex_lock_slow_checked(&a, &younger) == -EINVAL);
		MUST(!ww_mutex_trylock(&a, &younger));
		ww_mutex_unlock(&b);
		MUST(ww_mutex_lock_slow_checked(&b, &younger) == -EINVAL);
		ww_mutex_unlock(&a);
		/* Another class's mutex, of the same number. */
		ww_mutex_init(&its, &other);
		its.number = a.number;
		MUST(ww_mutex_lock_slow_checked(&its, &younger) == -EINVAL && ww_mutex_lock_slow_interruptible(&its, &younger) == -EINVAL);
		its.number = 0;
		MUST(!ww_mutex_destroy(&its));
		if (plainly)
			MUST(!ww_mutex_lock(&a, &younger));
		else
			ww_mutex_lock_slow(&a, &younger);
		MUST(a.ctx == &younger && !ww_mutex_lock(&b, &younger));
		ww_mutex_unlock(&a);
	} else {
		ww_mutex_unlock(&a);
	}
	ww_mutex_unlock(&b);
	ww_acquire_fini(&older);
	ww_acquire_fini(&younger);
	MUST(!ww_mutex_destroy(&a) && !ww_mutex_destroy(&b));
}

/* A mutex of another class has a number, too, but not of this class. */
static void another_class(struct ww_class *c)
{
	struct ww_mutex mine, its, zero = { 0 };
	struct ww_acquire_ctx x;
	struct timespec at = in_ms(0);

	ww_mutex_init(&mine, c);
	ww_mutex_init(&its, &other);
	ww_acquire_init(&x, c);
	MUST(ww_mutex_lock(&its, &x) == -EINVAL && ww_mutex_lock_interruptible(&its, &x) == -EINVAL);
	MUST(ww_mutex_lock_slow_interruptible(&its, &x) == -EINVAL && ww_mutex_lock_until(&its, &x, &at) == -EINVAL);
	MUST(ww_mutex_trylock_checked(&its, &x) == -EINVAL && ww_mutex_trylock_checked(&zero, NULL) == -EINVAL);
	MUST(!ww_mutex_is_locked(&its) && !ww_mutex_is_locked(&mine) && !x.acquired);
	MUST(ww_mutex_trylock_checked(&mine, &x) == 1 && !ww_mutex_trylock_checked(&mine, NULL) && !ww_mutex_trylock_checked(&mine, &x));
	ww_mutex_unlock(&mine);
	MUST(ww_mutex_lock(&zero, &x) == -EINVAL && ww_mutex_lock_interruptible(&zero, NULL) == -EINVAL);
	MUST(ww_mutex_destroy(&zero) == -EINVAL && ww_mutex_unlock_checked(&zero) == -EINVAL);
	MUST(!ww_mutex_lock(&its, NULL) && !ww_mutex_lock(&mine, &x));
	ww_mutex_unlock(&its);
	ww_mutex_unlock(&mine);
	ww_acquire_fini(&x);
	MUST(!ww_mutex_destroy(&mine) && !ww_mutex_destroy(&its));
}

/* Thousands in one context, released the newest first, or the oldest first. */
static void thousands(struct ww_class *c)
{
	enum { MANY = 4095 };
	static struct ww_mutex list[MANY];
	struct ww_acquire_ctx x;

	for (unsigned k = 0; k < MANY; k++)
		ww_mutex_init(&list[k], c);
	for (unsigned way = 0; way < 2; way++) {
		ww_acquire_init(&x, c);
		for (unsigned k = 0; k < MANY; k++)
			MUST(!ww_mutex_lock(&list[k], &x));
		MUST(x.acquired == MANY);
		for (unsigned k = 0; k < MANY; k++)
			ww_mutex_unlock(&list[way ? k : MANY - 1 - k]);
		ww_acquire_fini(&x);
	}
	for (unsigned k = 0; k < MANY; k++)
		MUST(!ww_mutex_destroy(&list[k]));
}

static struct ww_mutex awaited;

static void *waits(void *ctx)
{
	MUST(!ww_mutex_lock(&awaited, ctx));
	ww_mutex_unlock(&awaited);
	return NULL;
}

/* A mutex that is held or awaited isn't destroyed, and its class isn't freed. */
static void destroys(struct ww_class *c)
{
	struct ww_acquire_ctx x;
	pthread_t thread;

	ww_mutex_init(&awaited, c);
	MUST(ww_class_free(c) == -EBUSY && ww_class_limit(c, 1, 1) == -EBUSY);
	for (unsigned k = 0; k < 4; k++) {
		ww_acquire_init(&x, c);
		MUST(!ww_mutex_lock(&awaited, k & 1 ? &x : NULL) && ww_mutex_destroy(&awaited) == -EBUSY);
		thread = begin_thread(waits, NULL);
		awaits_waiter(&awaited);
		MUST(ww_mutex_destroy(&awaited) == -EBUSY && ww_class_free(c) == -EBUSY);
		ww_mutex_unlock(&awaited);
		end_thread(thread);
		ww_acquire_fini(&x);
	}
	MUST(!ww_mutex_destroy(&awaited) && ww_mutex_destroy(&awaited) == -EINVAL);
	ww_acquire_init(&x, c);
	MUST(ww_class_free(c) == -EBUSY);
	ww_acquire_fini(&x);
	MUST(!ww_class_free(c) && !ww_class_free(c));
}

/* A number is of one mutex at a time, and one that isn't destroyed keeps it. */
static void numbers(struct ww_class *c)
{
	struct ww_mutex list[9];

	MUST(ww_class_limit(c, WW_MAX_LOCKS - WW_MAX_SEATS + 1, 1) == -EINVAL && ww_class_limit(c, 1, WW_MAX_SEATS + 1) == -EINVAL);
	MUST(!ww_class_limit(c, 8, 2));
	for (unsigned round = 0; round < 3; round++) {
		for (unsigned k = 0; k < 8; k++) {
			ww_mutex_init(&list[k], c);
			for (unsigned j = 0; j < k; j++)
				MUST(list[j].number != list[k].number);
		}
		MUST(ww_mutex_init_checked(&list[8], c) == -ENOSPC);
		for (unsigned k = 0; k < 8; k++)
			MUST(!ww_mutex_lock(&list[k], NULL) && ww_mutex_destroy(&list[k]) == -EBUSY && !ww_mutex_unlock_checked(&list[k]));
		for (unsigned k = 0; k < 8; k++)
			MUST(!ww_mutex_destroy(&list[(3 * k + round) % 8]));
	}
	ww_mutex_init(&list[0], c);
	memset(&list[0], 0xa5, sizeof list[0]); /* memory that is used anew */
	for (unsigned k = 0; k < 7; k++)
		ww_mutex_init(&list[k], c);
	MUST(ww_mutex_init_checked(&list[8], c) == -ENOSPC && ww_class_free(c) == -EBUSY);
}

/* As many keys as it asks for; and it says what it takes. */
static void servers(void)
{
	static struct ww_class c, larger;
	struct ww_acquire_ctx x[4];
	uint32_t number[101];
	size_t bytes = 0, more = 0;

	MUST(ww_class_open_for(&c, WW_MAX_SEATS, 1, &bytes) == -EINVAL && ww_class_open_for(&c, 1, WW_MAX_LOCKS, NULL) == -EINVAL);
	MUST(ww_class_open_for(&c, 0, UINT32_MAX, NULL) == -EINVAL && !bytes && !ww_class_open_for(&c, 3, 100, &bytes));
	MUST(ww_class_open_for(&c, 3, 100, NULL) == -EBUSY);
	for (unsigned k = 0; k < 3; k++)
		MUST(!ww_acquire_init_checked(&x[k], &c));
	MUST(ww_acquire_init_checked(&x[3], &c) == -EAGAIN);
	for (unsigned k = 0; k < 100; k++)
		MUST(!ww_number_take(&number[k], &c));
	MUST(ww_number_take(&number[100], &c) == -ENOSPC);
	for (unsigned k = 0; k < 100; k++)
		MUST(!ww_number_put(number[k], &c));
	for (unsigned k = 0; k < 3; k++)
		ww_acquire_fini(&x[k]);
	MUST(!ww_class_open_for(&larger, 0, 0, &more) && more > bytes && !ww_class_free(&larger) && !ww_class_free(&c));
}

/* A class and its mutexes in memory that is aligned as malloc aligns it, and no better. */
static void in_memory(int kind)
{
	struct odd {
		char odd[8];
		struct ww_class c;
		struct ww_mutex m;
	} *it = malloc(sizeof *it);
	struct ww_acquire_ctx x;

	MUST(it);
	for (unsigned k = 0; k < 3; k++) {
		ww_class_init(&it->c, kind, "odd");
		MUST(!ww_class_limit(&it->c, 1, 1) && !ww_class_open(&it->c) && !ww_class_open(&it->c));
		ww_mutex_init(&it->m, &it->c);
		ww_acquire_init(&x, &it->c);
		MUST(!ww_mutex_lock(&it->m, &x) && !ww_mutex_trylock(&it->m, NULL));
		ww_mutex_unlock(&it->m);
		ww_acquire_fini(&x);
		MUST(!ww_mutex_destroy(&it->m) && !ww_class_free(&it->c));
	}
	free(it);
}

int main(void)
{
	for (unsigned kind = 0; kind < 2; kind++) {
		struct ww_class *c = classes[kind];

		MUST(!!c->is_wait_die == (kind == 1) && !c->pool);
		for (unsigned again = 0; again < 2; again++) {
			answers(c);
			no_context(c);
			without_context(c);
			two_contexts(c, again);
			another_class(c);
			thousands(c);
			destroys(c);
		}
		numbers(c);
		in_memory((int)kind);
	}
	servers();
	owed_and_released();
	list_gives_way(0);
	list_gives_way(WW_IGNORE_DUPLICATES);
	MUST(!ww_class_free(&other));
	puts("calls: each answer as due");
	return 0;
}
