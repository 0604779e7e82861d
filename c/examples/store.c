/*
 * A small transactional store over ww_table.h.  Its clients retry by themselves, each time as a new transaction; another thread commits;
 * what a transaction did since a savepoint is taken back; and one that changes too many rows locks all of them by one key.
 */
#include <ww_table.h>
#include <pthread.h>
#include <stdio.h>
#include <string.h>

enum { CLIENTS = 4, ROWS = 64, KEYS = 24, TIMES = 2000, MOST = ROWS };

static DEFINE_WW_CLASS(rows);
static struct ww_table *table;
static long money[ROWS];
static const char all_rows[] = "accounts";

/* ---- the store ---- */

struct txn {
	uint64_t number; /* the owner of its locks */
	struct ww_acquire_ctx *ctx;
	bool has_all;
	struct { int row; long was; } undo[MOST];
	size_t changes;
};

struct savepoint { size_t mark, changes; };

static uint64_t numbers;

/* Goes on with the age of the transaction that it retries, or of none: 0. */
static int begin(struct txn *t, uint64_t retries)
{
	*t = (struct txn){ .number = __atomic_add_fetch(&numbers, 1, __ATOMIC_RELAXED) };
	return ww_table_join(table, t->number, retries, NULL, &t->ctx);
}

static int lock(struct txn *t, const char *key, enum ww_table_mode mode, const struct ww_table_how *how)
{
	int err = ww_table_lock(table, t->ctx, key, strlen(key), mode, how);

	return err == -EALREADY ? 0 : err;
}

/* Whoever changes a row shares the key of all, so nobody changes one while another has that key to itself. */
static int lock_row(struct txn *t, int row, enum ww_table_wait by)
{
	const struct ww_table_how how = { .owner = t->number, .by = by };
	char key[32];
	int err = t->has_all ? 0 : lock(t, all_rows, WW_TABLE_SHARED, &how);

	snprintf(key, sizeof key, "%s/%d", all_rows, row);
	if (!err && !t->has_all)
		err = lock(t, key, WW_TABLE_EXCLUSIVE, &how);
	if (err == -ENOSPC) {
		err = lock(t, all_rows, WW_TABLE_EXCLUSIVE, &how);
		t->has_all = !err;
	}
	return err;
}

static int add(struct txn *t, int row, long amount, enum ww_table_wait by)
{
	int err = lock_row(t, row, by);

	if (err)
		return err;
	t->undo[t->changes].row = row;
	t->undo[t->changes++].was = money[row];
	money[row] += amount;
	return 0;
}

static struct savepoint save(const struct txn *t) { return (struct savepoint){ ww_table_mark(table, t->ctx), t->changes }; }

/* The locks since then go, once what they protect is as it was; but who has all rows keeps that key. */
static void go_back_to(struct txn *t, struct savepoint to)
{
	while (t->changes > to.changes) {
		t->changes--;
		money[t->undo[t->changes].row] = t->undo[t->changes].was;
	}
	if (!t->has_all)
		ww_table_unlock_to(table, t->ctx, to.mark);
}

static int commit(const struct txn *t) { return ww_table_leave(table, t->number, false); }

/* What it changed is as it was; `again`: its age is kept for a retry. */
static int roll_back(struct txn *t, bool again)
{
	go_back_to(t, (struct savepoint){ 0 });
	return ww_table_leave(table, t->number, again);
}

/* ---- another thread commits ---- */

static struct {
	pthread_mutex_t lock;
	pthread_cond_t changed;
	struct txn *next;
	int clients, committed, failed;
} queue = { .lock = PTHREAD_MUTEX_INITIALIZER, .changed = PTHREAD_COND_INITIALIZER, .clients = CLIENTS };

static void hand_over(struct txn *t)
{
	pthread_mutex_lock(&queue.lock);
	while (queue.next)
		pthread_cond_wait(&queue.changed, &queue.lock);
	queue.next = t;
	pthread_cond_broadcast(&queue.changed);
	while (queue.next == t) /* it is the client's memory */
		pthread_cond_wait(&queue.changed, &queue.lock);
	pthread_mutex_unlock(&queue.lock);
}

static void *committer(void *arg)
{
	pthread_mutex_lock(&queue.lock);
	while (queue.clients || queue.next) {
		if (queue.next) {
			queue.failed |= commit(queue.next);
			queue.committed++;
			queue.next = NULL;
			pthread_cond_broadcast(&queue.changed);
		} else {
			pthread_cond_wait(&queue.changed, &queue.lock);
		}
	}
	pthread_mutex_unlock(&queue.lock);
	return arg;
}

/* ---- clients ---- */

/* Moves money; and, if its row is free, gives a part to a third one. */
static int transfer(struct txn *t, const int row[3])
{
	struct savepoint before;
	int err = add(t, row[0], -10, WW_TABLE_WAITS);

	if (!err)
		err = add(t, row[1], 10, WW_TABLE_WAITS);
	if (err)
		return err;
	before = save(t);
	err = add(t, row[1], -1, WW_TABLE_WAITS);
	if (!err)
		err = add(t, row[2], 1, WW_TABLE_TRIES);
	if (err == -EBUSY || err == -ENOSPC) {
		go_back_to(t, before);
		err = 0;
	}
	return err;
}

static int take_from_each(struct txn *t)
{
	int err = 0;

	for (int row = 1; row < ROWS && !err; row++)
		err = add(t, row, -1, WW_TABLE_WAITS);
	return err ? err : add(t, 0, ROWS - 1, WW_TABLE_WAITS);
}

static void *client(void *arg)
{
	unsigned x = (unsigned)(size_t)arg + 1;
	int failed = 0;

	for (int k = 0; k < TIMES && !failed; k++) {
		struct txn t = { 0 };
		int row[3], err;

		for (int i = 0; i < 3; i++)
			row[i] = (int)((x = x * 1664525u + 1013904223u) >> 8) % ROWS;
		do {
			err = begin(&t, t.number);
			if (err)
				break;
			err = k % 100 ? transfer(&t, row) : take_from_each(&t);
			if (err)
				failed = roll_back(&t, err == -EDEADLK);
		} while (err == -EDEADLK);
		if (!err)
			hand_over(&t);
		failed |= err;
	}
	pthread_mutex_lock(&queue.lock);
	queue.failed |= failed;
	queue.clients--;
	pthread_cond_broadcast(&queue.changed);
	pthread_mutex_unlock(&queue.lock);
	return NULL;
}

int main(void)
{
	pthread_t threads[CLIENTS + 1];
	long sum = 0;

	if (ww_table_open(&table, &rows, KEYS))
		return 1;
	for (size_t k = 0; k <= CLIENTS; k++)
		if (pthread_create(&threads[k], NULL, k < CLIENTS ? client : committer, (void *)k))
			return 1;
	for (size_t k = 0; k <= CLIENTS; k++)
		pthread_join(threads[k], NULL);
	for (int k = 0; k < ROWS; k++)
		sum += money[k];
	printf("store: %d committed, and the sum is %ld\n", queue.committed, sum);
	return sum || queue.failed || queue.committed != CLIENTS * TIMES || ww_table_close(table) || ww_class_free(&rows);
}
