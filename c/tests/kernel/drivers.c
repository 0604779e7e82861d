/*
 * Threads that call drivers of the kernel: drm_modeset_lock.c, ttm_execbuf_util.c and dma-resv.c.  Under each lock that
 * these acquire the threads count, without atomics, and each fence is referenced as long as a buffer has it.  0: no
 * count and no fence is lost, and neither the drivers nor the debug library reported anything.
 */
#include "drivers.h"
#include <drm/ttm/ttm_execbuf_util.h>

enum { THREADS = 4, TIMES = 10000, CRTCS = 4, PLANES = 8, OBJECTS = 4, LOCKS = 1 + CRTCS + PLANES + OBJECTS };
enum { BUFFERS = 8, MOST = 4 }; /* of which a transaction locks at most that many */

int shim_faults;
long shim_fences;
struct rcu_head *shim_freed;

static struct drm_device device = { .mode_config.mutex.it = PTHREAD_MUTEX_INITIALIZER };
static struct drm_crtc crtcs[CRTCS];
static struct drm_plane planes[PLANES];
static struct drm_private_obj objects[OBJECTS];
static struct drm_modeset_lock *locks[LOCKS];
static struct ttm_buffer_object buffers[BUFFERS];
static long lock_counts[LOCKS], buffer_counts[BUFFERS]; /* each under that lock */
static long counted;

/* Others come meanwhile. */
static void count(long *under_its_lock)
{
	long was = *under_its_lock;

	if (!prandom_u32_max(8))
		cond_resched();
	*under_its_lock = was + 1;
	__atomic_add_fetch(&counted, 1, __ATOMIC_RELAXED);
}

static void count_all(void)
{
	for (int k = 0; k < LOCKS; k++)
		count(&lock_counts[k]);
}

/* ---- drm_modeset_lock.c ---- */

static void lock_some(u32 flags)
{
	struct drm_modeset_acquire_ctx ctx;
	u32 which[MOST];
	int ret;

	for (int k = 0; k < MOST; k++)
		which[k] = prandom_u32_max(LOCKS);
	drm_modeset_acquire_init(&ctx, flags);
retry:
	for (int k = 0; k < MOST; k++) {
		ret = drm_modeset_lock(locks[which[k]], &ctx);
		if (ret == -EDEADLK && !drm_modeset_backoff(&ctx))
			goto retry;
		WARN_ON(ret);
	}
	for (int k = 0; k < MOST; k++)
		count(&lock_counts[which[k]]);
	drm_modeset_drop_locks(&ctx);
	drm_modeset_acquire_fini(&ctx);
}

static void lock_device(void)
{
	struct drm_modeset_acquire_ctx ctx;
	int ret;

	DRM_MODESET_LOCK_ALL_BEGIN((&device), ctx, 0, ret);
	count_all();
	DRM_MODESET_LOCK_ALL_END((&device), ctx, ret);
	WARN_ON(ret);
	drm_modeset_lock_all(&device);
	count_all();
	drm_modeset_unlock_all(&device);
}

/* One lock without a context, and by a context that only tries. */
static void lock_one(void)
{
	struct drm_modeset_acquire_ctx ctx;
	u32 which = prandom_u32_max(LOCKS);

	if (!WARN_ON(drm_modeset_lock(locks[which], NULL)))
		count(&lock_counts[which]);
	drm_modeset_unlock(locks[which]);
	if (!WARN_ON(drm_modeset_lock_single_interruptible(locks[which])))
		count(&lock_counts[which]);
	drm_modeset_unlock(locks[which]);
	drm_modeset_acquire_init(&ctx, 0);
	ctx.trylock_only = true;
	if (!drm_modeset_lock(locks[which], &ctx)) {
		count(&lock_counts[which]);
		drm_modeset_unlock(locks[which]);
	}
	drm_modeset_acquire_fini(&ctx);
}

/* ---- ttm_execbuf_util.c and dma-resv.c ---- */

static struct dma_fence *make_fence(uint64_t context, uint64_t seqno)
{
	struct dma_fence *fence = calloc(1, sizeof(*fence));

	*fence = (struct dma_fence){ .references = 1, .context = context, .seqno = seqno };
	__atomic_add_fetch(&shim_fences, 1, __ATOMIC_RELAXED);
	return fence;
}

static void signal_fence(struct dma_fence *fence)
{
	__atomic_store_n(&fence->is_signaled, true, __ATOMIC_RELEASE);
	dma_fence_put(fence);
}

/* Buffers for a device, of which some come twice. */
static void reserve_buffers(uint64_t me, uint64_t seqno)
{
	struct ttm_validate_buffer entries[MOST], *entry;
	struct dma_fence *fence = make_fence(me, seqno);
	struct ww_acquire_ctx ticket;
	LIST_HEAD(list);
	LIST_HEAD(twice);

	for (int k = 0; k < MOST; k++) {
		entries[k].bo = &buffers[prandom_u32_max(BUFFERS)];
		entries[k].num_shared = k % 2;
		list_add_tail(&entries[k].head, &list);
	}
	if (!WARN_ON(ttm_eu_reserve_buffers(&ticket, &list, seqno % 2, &twice))) {
		list_for_each_entry(entry, &list, head)
			count(&buffer_counts[entry->bo - buffers]);
		if (seqno % 3)
			ttm_eu_fence_buffer_objects(&ticket, &list, fence);
		else
			ttm_eu_backoff_reservation(&ticket, &list);
	}
	signal_fence(fence);
}

/* Two buffers, as dma-resv.c asks of its callers; and a third, of which only the fences are read. */
static void share_fences(uint64_t me, uint64_t seqno)
{
	struct ttm_buffer_object *one = &buffers[prandom_u32_max(BUFFERS)], *other = one, *was;
	struct dma_fence *fence = make_fence(me, seqno), *replacement = make_fence(me, seqno), *it, **fences;
	struct dma_resv *third = buffers[seqno % BUFFERS].base.resv;
	struct dma_resv_iter cursor;
	struct ww_acquire_ctx ctx;
	unsigned number, found = 0;
	int ret;

	while (other == one)
		other = &buffers[prandom_u32_max(BUFFERS)];
	ww_acquire_init(&ctx, &reservation_ww_class);
	WARN_ON(dma_resv_lock(one->base.resv, &ctx));
	while ((ret = dma_resv_lock(other->base.resv, &ctx)) == -EDEADLK) {
		dma_resv_unlock(one->base.resv);
		dma_resv_lock_slow(other->base.resv, &ctx);
		was = one, one = other, other = was;
	}
	WARN_ON(ret);
	ww_acquire_done(&ctx);
	count(&buffer_counts[one - buffers]);
	count(&buffer_counts[other - buffers]);
	WARN_ON(dma_resv_reserve_fences(one->base.resv, 1));
	dma_resv_add_fence(one->base.resv, fence, DMA_RESV_USAGE_WRITE);
	dma_resv_replace_fences(one->base.resv, me, replacement, DMA_RESV_USAGE_READ);
	WARN_ON(dma_resv_copy_fences(other->base.resv, one->base.resv));
	dma_resv_for_each_fence(&cursor, other->base.resv, DMA_RESV_USAGE_BOOKKEEP, it)
		found += it == replacement;
	WARN_ON(found != 1 || dma_resv_locking_ctx(one->base.resv) != &ctx);
	dma_resv_unlock(other->base.resv);
	dma_resv_unlock(one->base.resv);
	ww_acquire_fini(&ctx);
	if (!WARN_ON(dma_resv_get_fences(third, DMA_RESV_USAGE_READ, &number, &fences))) {
		while (number)
			dma_fence_put(fences[--number]);
		free(fences);
	}
	signal_fence(fence);
	signal_fence(replacement);
	WARN_ON(dma_resv_wait_timeout(third, DMA_RESV_USAGE_BOOKKEEP, false, 60 * HZ) <= 0);
}

static void *work(void *arg)
{
	for (uint64_t k = 1; k <= TIMES; k++) {
		lock_some(k % 2 ? DRM_MODESET_ACQUIRE_INTERRUPTIBLE : 0);
		if (k % 8 == 0)
			lock_device();
		if (k % 8 == 4)
			lock_one();
		reserve_buffers((size_t)arg, 2 * k);
		share_fences((size_t)arg, 2 * k + 1);
	}
	return NULL;
}

static void begin(void)
{
	struct drm_mode_config *config = &device.mode_config;
	struct drm_modeset_lock **next = locks;

	INIT_LIST_HEAD(&config->crtcs);
	INIT_LIST_HEAD(&config->planes);
	INIT_LIST_HEAD(&config->privobjs);
	*next++ = &config->connection_mutex;
	for (int k = 0; k < CRTCS; k++) {
		list_add_tail(&crtcs[k].head, &config->crtcs);
		*next++ = &crtcs[k].mutex;
	}
	for (int k = 0; k < PLANES; k++) {
		list_add_tail(&planes[k].head, &config->planes);
		*next++ = &planes[k].mutex;
	}
	for (int k = 0; k < OBJECTS; k++) {
		list_add_tail(&objects[k].head, &config->privobjs);
		*next++ = &objects[k].lock;
	}
	for (int k = 0; k < LOCKS; k++)
		drm_modeset_lock_init(locks[k]);
	for (int k = 0; k < BUFFERS; k++) {
		buffers[k].base.resv = &buffers[k].base._resv;
		dma_resv_init(buffers[k].base.resv);
	}
}

static void end(void)
{
	for (int k = 0; k < LOCKS; k++) {
		drm_modeset_lock_fini(locks[k]);
		counted -= lock_counts[k];
	}
	for (int k = 0; k < BUFFERS; k++) {
		WARN_ON(!dma_resv_test_signaled(buffers[k].base.resv, DMA_RESV_USAGE_BOOKKEEP));
		dma_resv_fini(buffers[k].base.resv);
		counted -= buffer_counts[k];
	}
	while (shim_freed) {
		struct rcu_head *it = shim_freed;

		shim_freed = it->next;
		free(it);
	}
}

int main(void)
{
	pthread_t threads[THREADS];

#ifdef WW_DEBUG
	ww_report_long_waits(0);
#endif
	begin();
	for (size_t k = 0; k < THREADS; k++)
		if (pthread_create(&threads[k], NULL, work, (void *)(k + 1)))
			return 1;
	for (int k = 0; k < THREADS; k++)
		pthread_join(threads[k], NULL);
	end();
#ifdef WW_DEBUG
	shim_faults += (int)(ww_debug_faults() + ww_debug_warnings());
#endif
	printf("drivers: %ld counts and %ld fences are lost, %d faults reported\n", counted, shim_fences, shim_faults);
	return counted || shim_fences || shim_faults;
}
