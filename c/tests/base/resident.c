/*
 * A class of a million mutexes has next to no memory resident until they are used.
 *
 * What is zero once it is open is returned to the system.  Afterwards all of them work, those that wait for one or read
 * make little resident, and the class opens again.  The same of smaller classes of which one mutex is used.
 */
#include "../resident.h"
#include "ww_shared.h"
#include "../../admit/class.h"

/* Of so many mutexes so many are used, whose words lie all over the class; and of these one in so many is waited for. */
enum { MUTEXES = 1 << 20, NUMBERS = MUTEXES / 4, WAITERS = 16, APART = NUMBERS / WAITERS };

static DEFINE_WW_CLASS(wound_wait);
static DEFINE_WD_CLASS(wait_die);
static struct ww_class *c;
static uint32_t numbers[NUMBERS];
static unsigned long counters[NUMBERS];
static pthread_barrier_t turns;

static void locks(struct ww_acquire_ctx *x, unsigned k)
{
	MUST(!ww_number_lock(numbers[k], x));
	counters[k]++;
}

/* Between two turns it waits for one mutex. */
static void *waits(void *arg)
{
	(void)arg;
	for (unsigned k = 0; k < NUMBERS; k += APART) {
		struct ww_acquire_ctx x;

		ww_acquire_init(&x, c);
		pthread_barrier_wait(&turns);
		locks(&x, k);
		MUST(!ww_number_unlock(numbers[k], &x));
		ww_acquire_fini(&x);
		pthread_barrier_wait(&turns);
	}
	return NULL;
}

/* Somebody waits for it, as far as can be seen from here; the highest bits are no waiters. */
static void awaits_one(uint32_t number)
{
	while (!(__atomic_load_n(&c->pool->numbered[number].mutex_.waiters, __ATOMIC_SEQ_CST) << 3))
		usleep(100);
	usleep(2000);
}

/* How many waits make more than a MiB resident: a few may, since the system does other things meanwhile. */
static unsigned large_waits(void)
{
	pthread_t thread = begin_thread(waits, NULL);
	unsigned large = 0;

	for (unsigned k = 0; k < NUMBERS; k += APART) {
		struct ww_acquire_ctx x;
		long before;

		ww_acquire_init(&x, c);
		locks(&x, k);
		before = resident();
		pthread_barrier_wait(&turns);
		awaits_one(numbers[k]);
		MUST(!ww_number_unlock(numbers[k], &x));
		ww_acquire_fini(&x);
		pthread_barrier_wait(&turns);
		large += resident() - before > MiB;
	}
	end_thread(thread);
	return large;
}

/* Each number that was taken, from the last one to the first, a few at a time. */
static void uses_all(void)
{
	for (unsigned k = NUMBERS; k; k -= 4) {
		struct ww_acquire_ctx x;

		ww_acquire_init(&x, c);
		for (unsigned j = 1; j <= 4; j++)
			locks(&x, k - j);
		for (unsigned j = 1; j <= 4; j++)
			MUST(!ww_number_unlock(numbers[k - j], &x));
		ww_acquire_fini(&x);
	}
}

/* How much the contexts of a class take that read one mutex, of which each has a mark for every mutex. */
static long of_readers(void)
{
	enum { READERS = 12 };
	struct ww_acquire_ctx x[READERS];
	struct ww_shared_mutex m;
	long before = resident();

	ww_shared_mutex_init(&m, c);
	for (unsigned k = 0; k < READERS; k++) {
		ww_acquire_init(&x[k], c);
		MUST(!ww_shared_mutex_lock_shared(&m, &x[k]));
	}
	before = resident() - before;
	for (unsigned k = 0; k < READERS; k++) {
		ww_acquire_end_reads(&x[k]);
		ww_acquire_fini(&x[k]);
	}
	MUST(!ww_shared_mutex_destroy(&m));
	return before;
}

static void opens(bool told)
{
	long before = resident(), opened, reads;
	unsigned large;

	MUST(!ww_class_limit(c, MUTEXES, 16) && !ww_class_open(c));
	opened = resident() - before;
	reads = of_readers();
	for (unsigned k = 0; k < NUMBERS; k++)
		MUST(!ww_number_take(&numbers[k], c));
	large = large_waits();
	uses_all();
	for (unsigned k = 0; k < NUMBERS; k++)
		MUST(counters[k] == 1 + 2 * (k % APART == 0) && !ww_number_put(numbers[k], c));
	memset(counters, 0, sizeof counters);
	MUST(!ww_class_free(c));
	if (!told || (opened < 16 * MiB && large < WAITERS / 2 && reads < MiB))
		return;
	printf("%ld KiB resident with all mutexes unused; %u of %d waits made more than a MiB so, and twelve readers %ld KiB\n",
	       opened / 1024, large, WAITERS, reads / 1024);
	exit(1);
}

/* One context has a mutex for which another one waits, in a class of so many mutexes. */
static void uses_one(uint32_t mutexes, bool told)
{
	const struct timespec past = { 0, 0 };
	struct ww_acquire_ctx x, y;
	long before = resident();
	struct ww_class few;
	struct ww_mutex m;

	ww_class_init(&few, 0, "few");
	MUST(!ww_class_limit(&few, mutexes, 16) && !ww_class_open(&few));
	ww_mutex_init(&m, &few);
	ww_acquire_init(&x, &few);
	ww_acquire_init(&y, &few);
	MUST(!ww_mutex_lock(&m, &x) && ww_mutex_lock_until(&m, &y, &past) == -ETIMEDOUT);
	ww_mutex_unlock(&m);
	ww_acquire_fini(&y);
	ww_acquire_fini(&x);
	before = resident() - before;
	if (told && before >= MiB)
		printf("%ld KiB resident of a class of %u mutexes, of which one is used\n", before / 1024, mutexes);
	MUST(!told || before < MiB);
	MUST(!ww_mutex_destroy(&m) && !ww_class_free(&few));
}

int main(void)
{
	const uint32_t sizes[] = { 1000, 30000, 40000, 49000, 65536, 100000, 150000 };
	struct ww_class *classes[] = { &wound_wait, &wait_die, &wound_wait };
	bool told = is_told();

	if (!told)
		printf("what is resident can't be told here\n");
	for (unsigned k = 0; k < sizeof sizes / sizeof *sizes; k++)
		uses_one(sizes[k], told);
	MUST(!pthread_barrier_init(&turns, NULL, 2));
	for (unsigned k = 0; k < 3; k++) {
		c = classes[k];
		opens(told);
	}
	return 0;
}
