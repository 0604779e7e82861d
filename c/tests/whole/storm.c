/*
 * Storms: 16 threads lock some of 10,000 objects in every way, while objects are destroyed and made anew.
 *
 * Each object has a mutex of its own, and is made anew by the thread that made it.  What a thread adds to the objects
 * under their locks is counted exactly.  The first word is how many transactions each thread makes.
 */
#include "../mutex_test.h"

enum { THREADS = 16, OBJECTS = 10000, SHARE = OBJECTS / THREADS, MOST = 6, HOT = 12 };

static DEFINE_WW_CLASS(wound_wait);
static DEFINE_WD_CLASS(wait_die);
static struct ww_class *c;
static unsigned long times = 1000;

struct object {
	struct ww_mutex lock;
	unsigned users;		/* who may use the mutex, */
	bool is_there;		/* and whether it is one */
	unsigned long count;	/* under the lock */
};
static struct object *objects;
static unsigned long added[THREADS], made[THREADS], backs, cancels, late;

/* A user says so before it looks whether the object is there; who destroys it looks for users after it said so. */
static struct object *use(unsigned drawn)
{
	struct object *o = &objects[drawn % 4 ? drawn / 4 % HOT * (SHARE / 2) : drawn / 4 % OBJECTS];

	__atomic_fetch_add(&o->users, 1, __ATOMIC_SEQ_CST);
	if (__atomic_load_n(&o->is_there, __ATOMIC_SEQ_CST))
		return o;
	__atomic_fetch_sub(&o->users, 1, __ATOMIC_SEQ_CST);
	return NULL;
}

static void unuse(struct object *o) { __atomic_fetch_sub(&o->users, 1, __ATOMIC_SEQ_CST); }

/* Its sum goes with it. */
static unsigned long unmake(struct object *o)
{
	unsigned long count;

	__atomic_store_n(&o->is_there, false, __ATOMIC_SEQ_CST);
	while (__atomic_load_n(&o->users, __ATOMIC_SEQ_CST))
		sched_yield();
	MUST(!ww_mutex_lock(&o->lock, NULL) && ww_mutex_destroy(&o->lock) == -EBUSY);
	count = o->count;
	ww_mutex_unlock(&o->lock);
	MUST(!ww_mutex_destroy(&o->lock) && ww_mutex_destroy(&o->lock) == -EINVAL);
	return count;
}

static void make(struct object *o)
{
	o->count = 0;
	ww_mutex_init(&o->lock, c);
	__atomic_store_n(&o->is_there, true, __ATOMIC_SEQ_CST);
}

/* Each of them once. */
static unsigned draw(unsigned *x, struct object **list)
{
	unsigned count = 0;

	for (unsigned k = 0; k < MOST; k++) {
		struct object *o = use(next(x));
		bool is_there = !o;

		for (unsigned j = 0; j < count && o; j++)
			is_there |= list[j] == o;
		if (!is_there)
			list[count++] = o;
		else if (o)
			unuse(o);
	}
	return count;
}

/* As the kernel's documents write it; now and then a lock waits until a time, or until a cancel that nobody makes. */
static void by_hand(struct ww_acquire_ctx *x, struct object **list, unsigned count, unsigned drawn)
{
	unsigned slow = count, k, lates = 0;

	for (;;) {
		int r = 0;

		if (slow < count)
			ww_mutex_lock_slow(&list[slow]->lock, x);
		for (k = 0; k < count && !r; k++) {
			struct timespec soon = in_ms(0);

			if (k == slow)
				continue;
			if (drawn % 8 == 0 && lates < 3)
				r = ww_mutex_lock_until(&list[k]->lock, x, &soon);
			else
				r = drawn % 8 < 4 ? ww_mutex_lock(&list[k]->lock, x) : ww_mutex_lock_interruptible(&list[k]->lock, x);
		}
		if (!r)
			return;
		MUST(r == -EDEADLK || r == -ETIMEDOUT);
		for (unsigned j = 0; j < count; j++)
			if (__atomic_load_n(&list[j]->lock.ctx, __ATOMIC_RELAXED) == x)
				ww_mutex_unlock(&list[j]->lock);
		MUST(!x->acquired);
		slow = r == -EDEADLK ? k - 1 : count;
		lates += r == -ETIMEDOUT;
		__atomic_fetch_add(r == -EDEADLK ? &backs : &late, 1, __ATOMIC_RELAXED);
	}
}

static void in_a_loop(struct ww_acquire_ctx *x, struct object **list, unsigned count)
{
	ww_until_all_locked(x) {
		for (unsigned k = 0; k < count; k++) {
			int r = ww_mutex_lock(&list[k]->lock, x);

			ww_retry_on_contention(x);
			MUST(!r && list[k]->lock.ctx == x);
		}
	}
}

static void all_at_once(struct ww_acquire_ctx *x, struct object **list, unsigned count)
{
	struct ww_mutex *locks[MOST + 1];
	int r;

	for (unsigned k = 0; k < count; k++)
		locks[k] = &list[k]->lock;
	locks[count] = locks[count ? count / 2 : 0];
	if (count)
		MUST((r = ww_mutex_lock_all(x, locks, count + 1)) == -EALREADY && !x->acquired);
	ww_acquire_flags(x, WW_IGNORE_DUPLICATES | WW_INTERRUPTIBLE);
	if (count && (count & 1))
		MUST(!ww_acquire_cancel(x) && ww_acquire_cancel(x) == -EALREADY);
	while ((r = ww_mutex_lock_all(x, locks, count ? count + 1 : 0)) == -EINTR) {
		MUST(!x->acquired);
		__atomic_fetch_add(&cancels, 1, __ATOMIC_RELAXED);
	}
	MUST(!r);
}

static unsigned long transact(struct object **list, unsigned count, unsigned drawn)
{
	struct ww_acquire_ctx x;

	ww_acquire_init(&x, c);
	switch (drawn % 3) {
	case 0: by_hand(&x, list, count, drawn / 3); break;
	case 1: in_a_loop(&x, list, count); break;
	default: all_at_once(&x, list, count);
	}
	ww_acquire_done(&x);
	MUST(x.acquired == count);
	for (unsigned k = 0; k < count; k++) {
		MUST(list[k]->lock.ctx == &x && ww_mutex_is_locked(&list[k]->lock));
		list[k]->count++;
		if (drawn % 5 == 0)
			sched_yield();
	}
	for (unsigned k = 0; k < count; k++)
		ww_mutex_unlock(&list[drawn & 64 ? k : count - 1 - k]->lock);
	ww_acquire_fini(&x);
	return count;
}

/* One alone, without a context. */
static unsigned long adds_one(struct object *o, unsigned drawn)
{
	struct timespec soon = in_ms(0);

	if (drawn & 1 ? !ww_mutex_trylock(&o->lock, NULL) : ww_mutex_lock_until(&o->lock, NULL, &soon) != 0)
		MUST(!ww_mutex_lock(&o->lock, NULL));
	o->count++;
	ww_mutex_unlock(&o->lock);
	return 1;
}

static void *work(void *arg)
{
	size_t me = (size_t)arg;
	unsigned x = 99 * (unsigned)me + 7;

	for (unsigned long i = 0; i < times; i++) {
		struct object *list[MOST], *own = &objects[me * SHARE + next(&x) % SHARE];
		unsigned count;

		if (next(&x) % 4 == 0)
			own = &objects[me * SHARE + next(&x) % 2 * SHARE / 2];
		made[me] += unmake(own);
		make(own);
		count = draw(&x, list);
		if (count && next(&x) % 8 == 0)
			added[me] += adds_one(list[0], next(&x));
		else
			added[me] += transact(list, count, next(&x));
		while (count)
			unuse(list[--count]);
	}
	return NULL;
}

static void storm(void)
{
	unsigned long all = 0, found = 0;

	for (unsigned k = 0; k < OBJECTS; k++)
		make(&objects[k]);
	in_threads(THREADS, work);
	for (unsigned k = 0; k < OBJECTS; k++)
		found += unmake(&objects[k]);
	for (unsigned k = 0; k < THREADS; k++) {
		all += added[k];
		found += made[k];
		added[k] = made[k] = 0;
	}
	MUST(all && found == all && !ww_class_free(c));
}

int main(int count, char **words)
{
	struct ww_class *classes[] = { &wound_wait, &wait_die };

	if (count > 1)
		times = strtoul(words[1], NULL, 10);
	MUST((objects = calloc(OBJECTS, sizeof *objects)));
	for (unsigned kind = 0; kind < 2; kind++) {
		c = classes[kind];
		backs = cancels = late = 0;
		storm();
		MUST(!ww_class_limit(c, OBJECTS, 5));
		storm();
		printf("storm: %lu back-offs, %lu called off, %lu too late\n", backs, cancels, late);
		MUST(backs);
	}
	free(objects);
	puts("storm: each sum is exact");
	return 0;
}
