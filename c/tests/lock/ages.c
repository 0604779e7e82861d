/*
 * Which of two contexts is the older one, by every way to begin, to lock and to end.
 *
 * A context that acquires by hand has the age of its own ww_acquire_init.  One that retries by itself may have that of
 * an earlier one of its thread, as long as no context of that age met anybody.  In Wait-Die the younger of two contexts
 * gets -EDEADLK when it asks for what the other holds, and the older one waits: that shows their ages.
 */
#include "../mutex_test.h"
#include "ww_shared.h"
#include "ww_poll.h"
#include <semaphore.h>
#include <sys/wait.h>

enum { SHARE_AGE = 16, MUTEXES = 4 };

static DEFINE_WD_CLASS(c);
static DEFINE_WD_CLASS(few);
static struct ww_mutex m[MUTEXES];
static uint32_t number, other_number; /* two more */
static struct ww_acquire_ctx x, y; /* x is the main thread's, and y that of another one */

/* The mutex of a number, for calls by address. */
static struct ww_shared_mutex *shared_at(uint32_t n) { return ww_number_at(n, &c); }
static struct ww_mutex *mutex_at(uint32_t n) { return &ww_number_at(n, &c)->mutex_; }

/* ---- another thread, which makes the calls that this one names ---- */

static sem_t told, done;
static void (*task)(void);

static void *obey(void *arg)
{
	(void)arg;
	for (;;) {
		MUST(!sem_wait(&told));
		if (!task)
			return NULL;
		task();
		MUST(!sem_post(&done));
	}
}

static void tell(void (*what)(void))
{
	task = what;
	MUST(!sem_post(&told));
}

static void await_done(void) { MUST(!sem_wait(&done)); }

static void there(void (*what)(void))
{
	tell(what);
	await_done();
}

static void y_begins(void) { ww_acquire_init(&y, &c); }
static void y_ends(void) { ww_acquire_fini(&y); }

/* ---- ways of a context of the main thread ---- */

#define LIST ((struct ww_mutex *const[]){ &m[0] })

static void lock_loop(void)
{
	ww_until_all_locked(&x) {
		int r = ww_mutex_lock(&m[0], &x);

		ww_retry_on_contention(&x);
		MUST(!r);
	}
}
static void lock_loop_flagged(void)
{
	ww_acquire_flags(&x, WW_INTERRUPTIBLE);
	lock_loop();
}
static void lock_list(void) { MUST(!ww_mutex_lock_all(&x, LIST, 1)); }
static void lock_flagged(void)
{
	ww_acquire_flags(&x, WW_MAY_BE_OLDER);
	MUST(!ww_mutex_lock(&m[0], &x));
}
static void lock_number(void)
{
	ww_acquire_flags(&x, WW_MAY_BE_OLDER);
	MUST(!ww_number_lock(number, &x));
}
static void lock_number_until(void)
{
	struct timespec soon = in_ms(1000);

	ww_acquire_flags(&x, WW_MAY_BE_OLDER);
	MUST(!ww_mutex_lock_until(mutex_at(number), &x, &soon));
}
static void by_lock(void) { MUST(!ww_mutex_lock(&m[0], &x)); }
static void by_try(void) { MUST(ww_mutex_trylock(&m[0], &x) == 1); }
static void by_interruptible(void) { MUST(!ww_mutex_lock_interruptible(&m[0], &x)); }
static void by_until(void)
{
	struct timespec soon = in_ms(1000);

	MUST(!ww_mutex_lock_until(&m[0], &x, &soon));
}
static void by_flags(void)
{
	ww_acquire_flags(&x, WW_INTERRUPTIBLE);
	MUST(!ww_mutex_lock(&m[0], &x));
}

/* Whichever of the two it holds, the first mutex or the number. */
static void unlock(void)
{
	if (ww_shared_mutex_is_written_by(shared_at(number), &x))
		MUST(!ww_number_unlock(number, &x));
	else if (ww_mutex_is_held_by(&m[0], &x))
		ww_mutex_unlock(&m[0]);
}

static void context(void (*lock)(void))
{
	ww_acquire_init(&x, &c);
	if (lock)
		lock();
	else
		MUST(!ww_mutex_lock_all(&x, (struct ww_mutex *const[]){ &m[3] }, 1));
	unlock();
	if (!lock)
		ww_mutex_unlock(&m[3]);
	ww_acquire_fini(&x);
}
static void context_checked(void (*lock)(void))
{
	MUST(!ww_acquire_init_checked(&x, &c));
	lock();
	unlock();
	MUST(!ww_acquire_fini_checked(&x));
}

static void never(void *loop, void *task) { MUST(loop == task && !loop); }

static int asks(const struct ww_waker *waker)
{
	return ww_shared_mutex_is_written_by(shared_at(number), &x) ? ww_mutex_lock_poll(mutex_at(number), &y, waker) : ww_mutex_lock_poll(&m[0], &y, waker);
}

/*
 * y, which has begun, holds nothing, and x holds the first mutex or the number: whether x is the older one.  A poll says so
 * immediately; if y would wait, that wait ends.
 */
static bool is_older(void)
{
	const struct ww_waker waker = { never, &x, NULL };
	int r;

	MUST(!ww_mutex_lock(&m[1], &y));
	r = asks(&waker);
	MUST(r == -EDEADLK || (r == -EINPROGRESS && asks(NULL) == -ETIMEDOUT));
	ww_mutex_unlock(&m[1]);
	return r == -EDEADLK;
}

/* Whether a context of this way, which begins after y, is older all the same. */
static bool goes_on(void (*lock)(void))
{
	bool older;

	there(y_begins);
	ww_acquire_init(&x, &c);
	lock();
	older = is_older();
	unlock();
	ww_acquire_fini(&x);
	there(y_ends);
	return older;
}

/* From now on no age rests in the main thread. */
static void draw(void) { context(by_lock); }

/* ---- what is so ---- */

static void by_hand_each_has_its_own(void)
{
	void (*const ways[])(void) = { by_lock, by_try, by_interruptible, by_until, by_flags };

	for (size_t k = 0; k < sizeof ways / sizeof *ways; k++) {
		draw();
		MUST(!goes_on(ways[k])); /* behind one by hand */
		context(lock_loop);
		MUST(!goes_on(ways[k])); /* behind one that left its age */
		context(lock_loop);
		/* What began first is older, whatever it does between. */
		ww_acquire_init(&x, &c);
		ways[k]();
		there(y_begins);
		MUST(is_older());
		unlock();
		MUST(!ww_mutex_lock(&m[0], &x) && is_older());
		unlock();
		ww_acquire_fini(&x);
		there(y_ends);
	}
}

static void others_go_on(void)
{
	void (*const ways[])(void) = { lock_loop, lock_loop_flagged, lock_list, lock_flagged, lock_number, lock_number_until };
	enum { WAYS = sizeof ways / sizeof *ways };

	for (size_t k = 0; k < WAYS * WAYS; k++) {
		draw();
		context(ways[k % WAYS]);
		MUST(goes_on(ways[k / WAYS]));
	}
	/* One that is ended by ww_acquire_fini_checked leaves none. */
	draw();
	context(lock_loop);
	context_checked(lock_loop);
	MUST(!goes_on(lock_loop));
	/* As long as one begins before y, it is older in any case. */
	draw();
	ww_acquire_init(&x, &c);
	there(y_begins);
	lock_loop();
	MUST(is_older());
	unlock();
	ww_acquire_fini(&x);
	there(y_ends);
}

/* So many contexts have one age, and no more: the last of them, and the next one, beside a y that began after the first. */
static void so_many_share_one(void)
{
	for (unsigned count = 1; count <= 2 * SHARE_AGE; count++) {
		draw();
		context(lock_loop);
		there(y_begins);
		for (unsigned k = 1; k < count; k++)
			context(lock_loop);
		ww_acquire_init(&x, &c);
		lock_loop();
		MUST(is_older() == (count < SHARE_AGE));
		unlock();
		ww_acquire_fini(&x);
		there(y_ends);
	}
}

/* In Wait-Die a context need not notice that it turned another back: so one is turned back by so many that began after it. */
static void one_gives_way_so_often(void)
{
	unsigned count = 0;

	draw();
	context(lock_loop);
	there(y_begins);
	for (bool older = true; older; count += older) {
		ww_acquire_init(&x, &c);
		lock_loop();
		older = is_older();
		unlock();
		ww_acquire_fini(&x);
	}
	there(y_ends);
	MUST(count == SHARE_AGE - 1);
}

/* ---- a context that met somebody is the last one of its age ---- */

static bool y_wants_number;
static void y_locks_it(void)
{
	y_begins();
	if (y_wants_number) {
		MUST(!ww_number_lock(number, &y) && !ww_number_unlock(number, &y));
	} else {
		MUST(!ww_mutex_lock(&m[0], &y));
		ww_mutex_unlock(&m[0]);
	}
	y_ends();
}
static void y_holds_0(void)
{
	y_begins();
	MUST(!ww_mutex_lock(&m[0], &y));
}
static void y_lets_0_go(void)
{
	ww_mutex_unlock(&m[0]);
	y_ends();
}

/* The thread that runs this context sleeps, so it stands in the list of a mutex. */
static void awaits_sleeper(struct ww_acquire_ctx *of)
{
	enum { LEAST_ASLEEP = 2 };
	ww_seat *s;

	while (!(s = __atomic_load_n(&of->own, __ATOMIC_ACQUIRE)) || __atomic_load_n(&s->token, __ATOMIC_SEQ_CST) < LEAST_ASLEEP)
		usleep(100);
}
static void y_lets_0_go_late(void)
{
	awaits_sleeper(&x);
	y_lets_0_go();
}
/* That it met somebody counts for the rest of the context. */
static void another_one(void)
{
	ww_acquire_flags(&x, WW_MAY_BE_OLDER);
	MUST(!ww_mutex_lock(&m[3], &x));
	ww_mutex_unlock(&m[3]);
}

/* Somebody waited for what it released. */
static void it_is_waited_for(void (*lock)(void))
{
	ww_acquire_init(&x, &c);
	lock();
	y.own = NULL;
	y_wants_number = ww_shared_mutex_is_written_by(shared_at(number), &x);
	tell(y_locks_it);
	awaits_sleeper(&y);
	unlock();
	await_done();
	another_one();
	ww_acquire_fini(&x);
}
static void loop_is_waited_for(void)
{
	ww_acquire_init(&x, &c);
	lock_loop();
	y.own = NULL;
	y_wants_number = false;
	tell(y_locks_it);
	awaits_sleeper(&y);
	ww_acquire_unlock_all(&x);
	await_done();
	another_one();
	ww_acquire_fini(&x);
}
/* It waits, and gets the mutex. */
static void it_waits(void)
{
	there(y_holds_0);
	ww_acquire_init(&x, &c);
	tell(y_lets_0_go_late);
	lock_loop();
	await_done();
	unlock();
	another_one();
	ww_acquire_fini(&x);
}
/* It waits, until its time has come. */
static void it_waits_in_vain(void)
{
	struct timespec soon = in_ms(3);

	there(y_holds_0);
	ww_acquire_init(&x, &c);
	ww_until_all_locked(&x)
		MUST(ww_mutex_lock_until(&m[0], &x, &soon) == -ETIMEDOUT);
	ww_acquire_fini(&x);
	there(y_lets_0_go);
}
/* It gets -EDEADLK: first it draws an age, younger than y's. */
static void it_backs_off(void)
{
	int r = 0;

	draw();
	there(y_holds_0);
	ww_acquire_init(&x, &c);
	ww_tries_begin_(&x);
	MUST(!ww_mutex_lock(&m[2], &x));
	r = ww_mutex_lock(&m[0], &x);
	MUST(r == -EDEADLK);
	ww_acquire_unlock_all(&x);
	ww_acquire_fini(&x);
	there(y_lets_0_go);
}

static void whoever_met_draws(void)
{
	for (unsigned k = 0; k < 8; k++) {
		draw();
		context(lock_loop);
		switch (k) {
		case 0: it_is_waited_for(lock_loop); break;
		case 1: it_is_waited_for(lock_list); break;
		case 2: it_is_waited_for(lock_flagged); break;
		case 3: it_is_waited_for(lock_number); break;
		case 4: loop_is_waited_for(); break;
		case 5: it_waits(); break;
		case 6: it_waits_in_vain(); break;
		default: it_backs_off(); break;
		}
		MUST(!goes_on(lock_loop));
		/* And then as before. */
		draw();
		context(lock_loop);
		MUST(goes_on(lock_loop));
	}
}

static void y_holds_number(void)
{
	y_begins();
	MUST(!ww_number_lock(number, &y));
}
static void y_releases_number(void) { MUST(!ww_number_unlock(number, &y)); }

/* By hand it goes on with its age behind a number, as long as it holds something, or has met somebody. */
static void numbers_first(void)
{
	draw();
	context(lock_loop);
	there(y_begins);
	ww_acquire_init(&x, &c);
	ww_acquire_flags(&x, WW_MAY_BE_OLDER);
	MUST(!ww_number_lock(other_number, &x) && !ww_mutex_lock(&m[0], &x) && is_older());
	ww_mutex_unlock(&m[0]);
	MUST(!ww_number_unlock(other_number, &x));
	ww_acquire_fini(&x);
	there(y_ends);
	MUST(goes_on(lock_loop));

#ifndef WW_NO_INLINE /* where a first turn by number is compiled in here, its context keeps its age unasked */
	draw();
	context(lock_loop);
	ww_acquire_init(&x, &c);
	MUST(!ww_number_lock(other_number, &x) && !ww_mutex_lock(&m[0], &x));
	ww_mutex_unlock(&m[0]);
	MUST(!ww_number_unlock(other_number, &x));
	ww_acquire_fini(&x);
	MUST(goes_on(lock_loop));
#endif

	/* y is older, and then a younger one. */
	draw();
	there(y_holds_number);
	context(NULL);
	ww_acquire_init(&x, &c);
	MUST(!ww_number_lock(other_number, &x) && ww_number_lock(number, &x) == -EDEADLK);
	MUST(!ww_number_unlock(other_number, &x));
	there(y_releases_number);
	there(y_ends);
	there(y_begins);
	MUST(!ww_mutex_lock(&m[0], &x) && is_older());
	ww_mutex_unlock(&m[0]);
	ww_acquire_fini(&x);
	there(y_ends);
}

/* ---- other uses of a seat that rests ---- */

/* Without a context it has no age: an older context that holds something waits, and so does a younger one. */
static void alone_it_has_none(void)
{
	for (unsigned k = 0; k < 2; k++) {
		draw();
		context(lock_loop);
		there(y_begins);
		if (k)
			MUST(ww_mutex_trylock(&m[0], NULL));
		else
			MUST(!ww_mutex_lock(&m[0], NULL));
		MUST(!is_older());
		ww_mutex_unlock(&m[0]);
		there(y_ends);
		MUST(!goes_on(lock_loop));
	}
}

/* And it has none afterwards, also where it waited. */
static void alone_lets_go(void)
{
	usleep(3000);
	y_lets_0_go();
}
static void alone_it_waits(void)
{
	for (unsigned k = 0; k < 20; k++) {
		there(y_holds_0);
		tell(alone_lets_go);
		MUST(!ww_mutex_lock(&m[0], NULL));
		await_done();
		ww_mutex_unlock(&m[0]);
		ww_acquire_init(&x, &c);
		MUST(!ww_mutex_lock_all(&x, (struct ww_mutex *const[]){ &m[0], &m[1] }, 2));
		ww_mutex_unlock(&m[0]);
		ww_mutex_unlock(&m[1]);
		ww_acquire_fini(&x);
	}
}

static void is_woken(void *loop, void *task) { MUST(!loop && task); }

/* The second context of a thread at once has none of its seats at hand, so it draws, and leaves no age. */
static void two_of_a_thread(void)
{
	const struct ww_waker waker = { is_woken, NULL, &m[1] };
	struct ww_acquire_ctx first, second;
	struct ww_mutex *const list[] = { &m[1] }, *const other[] = { &m[2] };

	for (unsigned k = 0; k < 3; k++) {
		ww_acquire_init(&first, &c);
		ww_acquire_init(&second, &c);
		MUST(!ww_mutex_lock_all(&second, list, 1) && !ww_mutex_lock_all(&first, other, 1));
		MUST(ww_mutex_lock_poll(&m[1], &first, &waker) == -EINPROGRESS && !ww_acquire_end_wait(&first));
		MUST(ww_mutex_lock(&m[2], &second) == -EDEADLK);
		ww_mutex_unlock(&m[1]);
		ww_mutex_unlock(&m[2]);
		ww_acquire_fini(&second);
		ww_acquire_fini(&first);
	}
}

/* Begun by the main thread, whose own seat it has, and ended by another one: the seat rests as if that were the main thread. */
static void x_ends_there(void) { ww_acquire_fini(&x); }

static void ended_elsewhere(void)
{
	draw();
	context(lock_loop);
	ww_acquire_init(&x, &c);
	lock_loop();
	unlock();
	there(x_ends_there);
	MUST(goes_on(lock_loop));
	MUST(goes_on(lock_loop));
}

static struct ww_mutex its;
static void of_few(void)
{
	struct ww_acquire_ctx z;
	struct ww_mutex *const list[] = { &its };

	ww_acquire_init(&z, &few);
	MUST(!ww_mutex_lock_all(&z, list, 1));
	ww_mutex_unlock(&its);
	ww_acquire_fini(&z);
}
static void *of_few_elsewhere(void *arg)
{
	(void)arg;
	of_few();
	of_few();
	return NULL;
}
static void y_of_few(void) { ww_acquire_init(&y, &few); }

/* x, of this class, which begins after y, is the younger one all the same. */
static void x_is_younger(struct ww_mutex *theirs)
{
	struct ww_mutex *const list[] = { &its };
	struct timespec soon = in_ms(5);

	ww_acquire_init(&x, &few);
	MUST(!ww_mutex_lock_all(&x, list, 1) && !ww_mutex_lock(theirs, &y));
	MUST(ww_mutex_lock_until(&its, &y, &soon) == -ETIMEDOUT);
	ww_mutex_unlock(&its);
	ww_mutex_unlock(theirs);
	ww_acquire_fini(&x);
}

/* Where no thread has a seat of its own, none rests: of such a class each context draws. */
static void free_for_others(void)
{
	struct ww_mutex other;

	MUST(!ww_class_limit(&few, 4, 2));
	ww_mutex_init(&its, &few);
	ww_mutex_init(&other, &few);
	of_few();
	end_thread(begin_thread(of_few_elsewhere, NULL));
	of_few();
	there(y_of_few);
	x_is_younger(&other);
	there(y_ends);
	MUST(!ww_mutex_destroy(&its) && !ww_mutex_destroy(&other) && !ww_class_free(&few) && !ww_class_limit(&few, 0, 0));
}

/* The seat of a thread that ended is another's then, without its age. */
static void *of_few_behind_it(void *other)
{
	x_is_younger(other);
	return NULL;
}
int ww_class_open_with(struct ww_class *c, bool has_own); /* class.h */
static void no_age_is_left_behind(void)
{
	struct ww_mutex other;

	for (unsigned k = 0; k < 4; k++) {
		MUST(!ww_class_limit(&few, 4, 1) && !ww_class_open_with(&few, true));
		ww_mutex_init(&its, &few);
		ww_mutex_init(&other, &few);
		for (unsigned left = 0; left <= k % 2; left++)
			end_thread(begin_thread(of_few_elsewhere, NULL));
		there(y_of_few);
		end_thread(begin_thread(of_few_behind_it, &other));
		there(y_ends);
		MUST(!ww_mutex_destroy(&its) && !ww_mutex_destroy(&other) && !ww_class_free(&few));
	}
	MUST(!ww_class_limit(&few, 0, 0));
}

/* The class goes though seats rest, in a child as well. */
static void class_goes(void)
{
	int status;
	pid_t child;

	for (unsigned k = 0; k < 3; k++) {
		ww_mutex_init(&its, &few);
		of_few();
		there(of_few);
		if (k == 1)
			end_thread(begin_thread(of_few_elsewhere, NULL));
		MUST((child = fork()) >= 0);
		if (!child) {
			MUST(!ww_mutex_destroy(&its) && !ww_class_free(&few));
			ww_mutex_init(&its, &few);
			of_few();
			of_few();
			_exit(0);
		}
		MUST(waitpid(child, &status, 0) == child && !status);
		MUST(!ww_mutex_destroy(&its) && !ww_class_free(&few));
	}
}

/* ---- all of it at once ---- */

enum { THREADS = 4, LIVES = 4, SHARED = 6 };
static unsigned long times = 1500;
static struct ww_mutex shared[SHARED];
static uint32_t numbers[SHARED];
static unsigned long sums[2 * SHARED]; /* each under its mutex; behind these, under those by number */
static unsigned long made[2 * SHARED];

/* Two of them, or the same one twice, as the kernel's document has it. */
static void both_by_hand(struct ww_acquire_ctx *z, unsigned a, unsigned b)
{
	int r = ww_mutex_lock(&shared[a], z);

	MUST(!r);
	while ((r = ww_mutex_lock(&shared[b], z)) == -EDEADLK) {
		unsigned was = a;

		ww_mutex_unlock(&shared[a]);
		ww_mutex_lock_slow(&shared[b], z);
		a = b;
		b = was;
	}
	MUST(!r || (r == -EALREADY && a == b));
}
static void both_by_number(struct ww_acquire_ctx *z, unsigned a, unsigned b)
{
	int r = ww_number_lock(numbers[a], z);

	MUST(!r);
	while ((r = ww_number_lock(numbers[b], z)) == -EDEADLK) {
		unsigned was = a;

		MUST(!ww_number_unlock(numbers[a], z));
		MUST(!ww_number_lock(numbers[b], z));
		a = b;
		b = was;
	}
	MUST(!r || (r == -EALREADY && a == b));
}
static void both_in_loop(struct ww_acquire_ctx *z, unsigned a, unsigned b)
{
	ww_until_all_locked(z) {
		int r = ww_mutex_lock(&shared[a], z);

		ww_retry_on_contention(z);
		MUST(!r);
		r = ww_mutex_lock(&shared[b], z);
		ww_retry_on_contention(z);
		MUST(!r || (r == -EALREADY && a == b));
	}
}

static void adds(unsigned k)
{
	sums[k]++;
	__atomic_fetch_add(&made[k], 1, __ATOMIC_RELAXED);
}

static void by_context(struct ww_class *of, unsigned way, unsigned a, unsigned b)
{
	struct ww_acquire_ctx z;
	bool by_number = way == 4 || way == 5;

	ww_acquire_init(&z, of);
	switch (way) {
	case 0: case 1: both_in_loop(&z, a, b); break;
	case 2: MUST(!ww_mutex_lock_all(&z, (struct ww_mutex *const[]){ &shared[a], &shared[b] }, 1 + (a != b))); break;
	case 3: both_by_hand(&z, a, b); break;
	case 4: ww_acquire_flags(&z, WW_MAY_BE_OLDER); __attribute__((fallthrough));
	case 5: both_by_number(&z, a, b); break;
	default: ww_acquire_fini(&z); return; /* nothing at all */
	}
	adds(by_number ? SHARED + a : a);
	if (a != b)
		adds(by_number ? SHARED + b : b);
	if (way < 3)
		ww_acquire_unlock_all(&z);
	else
		for (unsigned k = 0; k < 1 + (unsigned)(a != b); k++)
			if (by_number)
				MUST(!ww_number_unlock(numbers[k ? b : a], &z));
			else
				ww_mutex_unlock(&shared[k ? b : a]);
	ww_acquire_fini(&z);
}

static void *works(void *of)
{
	static unsigned threads;
	unsigned drawn = 77 * __atomic_add_fetch(&threads, 1, __ATOMIC_RELAXED);

	for (unsigned long k = 0; k < times; k++) {
		unsigned a = next(&drawn) % SHARED, b = next(&drawn) % SHARED, way = next(&drawn) % 9;

		if (way == 7) {
			ww_mutex_lock(&shared[a], NULL);
			adds(a);
			ww_mutex_unlock(&shared[a]);
		} else if (way == 8) {
			if (ww_mutex_trylock(&shared[a], NULL)) {
				adds(a);
				ww_mutex_unlock(&shared[a]);
			}
		} else {
			by_context(of, way, a, b);
		}
		if (next(&drawn) % 64 == 0)
			sched_yield();
	}
	return NULL;
}

/* By threads' own seats; and by fewer than there are threads. */
static void storm(struct ww_class *of, uint32_t contexts)
{
	pthread_t threads[THREADS];

	MUST(!ww_class_limit(of, 2 * SHARED, contexts));
	for (unsigned k = 0; k < SHARED; k++) {
		ww_mutex_init(&shared[k], of);
		MUST(!ww_number_take(&numbers[k], of));
	}
	for (unsigned life = 0; life < LIVES; life++) {
		for (unsigned k = 0; k < THREADS; k++)
			threads[k] = begin_thread(works, of);
		for (unsigned k = 0; k < THREADS; k++)
			end_thread(threads[k]);
	}
	for (unsigned k = 0; k < SHARED; k++) {
		MUST(sums[k] == made[k] && sums[SHARED + k] == made[SHARED + k]);
		MUST(!ww_mutex_destroy(&shared[k]) && !ww_number_put(numbers[k], of));
	}
	MUST(!ww_class_free(of));
}

static DEFINE_WW_CLASS(wound_wait);
static DEFINE_WD_CLASS(wait_die);

int main(void)
{
	pthread_t other;

	MUST(!ww_class_limit(&c, 16, 0));
	MUST(!sem_init(&told, 0, 0) && !sem_init(&done, 0, 0));
	other = begin_thread(obey, NULL);
	for (unsigned k = 0; k < MUTEXES; k++)
		ww_mutex_init(&m[k], &c);
	MUST(!ww_number_take(&number, &c) && !ww_number_take(&other_number, &c));
	by_hand_each_has_its_own();
	others_go_on();
	so_many_share_one();
	one_gives_way_so_often();
	whoever_met_draws();
	numbers_first();
	alone_it_has_none();
	alone_it_waits();
	free_for_others();
	no_age_is_left_behind();
	class_goes();
	ended_elsewhere();
	two_of_a_thread();
	tell(NULL);
	end_thread(other);
	for (unsigned k = 0; k < MUTEXES; k++)
		MUST(!ww_mutex_destroy(&m[k]));
	MUST(!ww_number_put(number, &c) && !ww_number_put(other_number, &c) && !ww_class_free(&c));
	for (unsigned k = 0; k < 2; k++) {
		storm(k ? &wait_die : &wound_wait, 0);
		storm(k ? &wait_die : &wound_wait, 3);
	}
	puts("ages: each context has the age that is due");
	return 0;
}
