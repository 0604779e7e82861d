/*
 * The paths of a file system.  A request names nodes, as a kernel does that asks a file system in user space.  It reads
 * all directories above a node, so that the path stays, and writes what it changes.  What is above a node is known once
 * the node is read, so there is no order in which to lock.  Path locks by hand deadlock: a copy reads the path of its
 * source, a rename waits to write a directory of that path, and the copy's other path, in the same directory, waits for
 * the rename.  And two renames, each of a directory into the other one, make a ring, unless one more lock lets only one
 * pass.  Here a cycle of waits ends by -EDEADLK, and a rename reads all that is above its target until it is done.
 */
#include <ww_shared.h>
#include <pthread.h>
#include <stdio.h>
#include <stdlib.h>

enum { DIRECTORIES = 512, NODES = 8192, THREADS = 4, REQUESTS = 20000 };

/* Where a node that is removed is freed, requests count references (see ww_until_all_locked); here it stays. */
struct node {
	struct ww_shared_mutex lock;	/* of all but `next` */
	struct node *parent;		/* NULL: it isn't in the tree */
	struct node *first;		/* what a directory contains */
	struct node *next;		/* in the same directory, under the lock of that */
	struct { long one, other; } text; /* of a file: its content, both halves of which are the same */
	long copies;			/* how often it was copied to */
};

struct request {
	enum { LOOK_UP, COPY, MOVE } kind; /* a move of what isn't in the tree creates it */
	struct node *node, *to; /* to: of a copy a file; of a move a directory, or NULL, which removes a file */
};

static DEFINE_WW_CLASS(paths);
static struct node nodes[NODES];	/* the first is the root, and those from DIRECTORIES on are files */
static long copies;

/* The node and all directories above it, of which none may be the one that moves below them. */
static int read_path(struct node *it, const struct node *moves, struct ww_acquire_ctx *ctx)
{
	for (;; it = it->parent) {
		int err = it == moves ? -ELOOP : ww_shared_mutex_lock_shared(&it->lock, ctx);

		if (err || it == &nodes[0])
			return err;
		if (!it->parent)
			return -ENOENT;
	}
}

/* Writes what changes before it reads: of two readers of a node that both come to write it, one has to back off. */
static int lock_paths(const struct request *r, struct ww_acquire_ctx *ctx)
{
	struct node *it = r->node, *to = r->to;
	bool moves = r->kind == MOVE;
	int err = moves ? ww_shared_mutex_lock(&it->lock, ctx) : 0;

	if (!err && moves && it->parent)
		err = ww_shared_mutex_lock(&it->parent->lock, ctx);
	if (!err && to)
		err = ww_shared_mutex_lock(&to->lock, ctx);
	if (!err && (!moves || !to || it->parent)) /* what is created has no path yet */
		err = read_path(it, NULL, ctx);
	if (!err && to)
		err = read_path(to, moves ? it : NULL, ctx);
	return err;
}

static void move(struct node *it, struct node *to)
{
	if (it->parent) {
		struct node **at = &it->parent->first;

		while (*at != it)
			at = &(*at)->next;
		*at = it->next;
	}
	it->parent = to;
	if (to) {
		it->next = to->first;
		to->first = it;
	}
}

static void perform(const struct request *r)
{
	if (r->node->text.one != r->node->text.other)
		abort();
	if (r->kind == MOVE)
		move(r->node, r->to);
	if (r->kind == COPY) {
		r->to->text = r->node->text;
		r->to->copies++;
		__atomic_add_fetch(&copies, 1, __ATOMIC_RELAXED);
	}
}

static int serve(const struct request *r)
{
	struct ww_acquire_ctx ctx;
	int err = 0;

	ww_acquire_init(&ctx, &paths);
	ww_acquire_flags(&ctx, WW_IGNORE_DUPLICATES); /* a rename within a directory writes that twice */
	ww_until_all_locked(&ctx) {
		err = lock_paths(r, &ctx);
		ww_retry_on_contention(&ctx); /* after -EDEADLK it begins again, with nothing held or read */
	}
	if (!err)
		perform(r);
	ww_acquire_unlock_all(&ctx);
	ww_acquire_fini(&ctx);
	return err;
}

static struct node *draw(unsigned *random, unsigned first, unsigned end)
{
	*random = *random * 1664525u + 1013904223u;
	return &nodes[first + (*random >> 8) % (end - first)];
}

static struct request draw_request(unsigned *random)
{
	struct node *file = draw(random, DIRECTORIES, NODES);

	switch (draw(random, 0, 40) - nodes) {
	case 0: return (struct request){ MOVE, file, NULL };
	case 1: return (struct request){ MOVE, file, draw(random, 0, DIRECTORIES) };
	case 2: return (struct request){ MOVE, draw(random, 1, DIRECTORIES), draw(random, 0, DIRECTORIES) };
	case 3: return (struct request){ COPY, file, draw(random, DIRECTORIES, NODES) };
	default: return (struct request){ LOOK_UP, file, NULL };
	}
}

static void *work(void *arg)
{
	unsigned random = (unsigned)(size_t)arg;

	for (int k = 0; k < REQUESTS; k++) {
		struct request r = draw_request(&random);
		int err = serve(&r);

		if (err && err != -ENOENT && err != -ELOOP)
			abort();
	}
	return NULL;
}

static void make_tree(void)
{
	for (int k = 0; k < NODES; k++) {
		ww_shared_mutex_init(&nodes[k].lock, &paths);
		nodes[k].text.one = nodes[k].text.other = k;
		if (k)
			move(&nodes[k], &nodes[k < DIRECTORIES ? (k - 1) / 2 : k % DIRECTORIES]);
	}
}

/* How many nodes are in this part of the tree, or far too many if one of them has another parent. */
static long count_tree(const struct node *it)
{
	long count = 1;

	for (const struct node *in = it->first; in; in = in->next)
		count += in->parent == it ? count_tree(in) : NODES;
	return count;
}

/* Each node that has a parent is below the root, once, and each copy was made. */
static bool is_right(void)
{
	long in_tree = 1, below = count_tree(nodes);

	for (int k = 0; k < NODES; k++) {
		in_tree += !!nodes[k].parent;
		copies -= nodes[k].copies;
		if (ww_shared_mutex_destroy(&nodes[k].lock))
			return false;
	}
	printf("paths: %ld nodes are in the tree, %ld below the root; %ld copies are lost\n", in_tree, below, copies);
	return in_tree == below && !copies && !ww_class_free(&paths);
}

int main(void)
{
	pthread_t threads[THREADS];

	make_tree();
	for (size_t k = 0; k < THREADS; k++)
		if (pthread_create(&threads[k], NULL, work, (void *)k))
			return 1;
	for (int k = 0; k < THREADS; k++)
		pthread_join(threads[k], NULL);
	return !is_right();
}
