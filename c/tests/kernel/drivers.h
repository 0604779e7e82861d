/*
 * drivers.h - what dma-resv.c, ttm_execbuf_util.c and drm_modeset_lock.c of the kernel need beside shim.h and their own
 * headers: written anew, as shim.h is.  What kfree_rcu frees stays in memory until the threads have ended.
 */
#ifndef DRIVERS_H
#define DRIVERS_H
#include "shim.h"
#include <malloc.h>
#include <string.h>

#define CONFIG_DEBUG_MUTEXES /* dma-resv.c then reports fences that nobody reserved */
#define IS_ENABLED(option) 0
#define EXPORT_SYMBOL_GPL(name) EXPORT_SYMBOL(name)
#define BUG_ON(fact) ((fact) ? abort() : (void)0)
#define __must_check
#define ERESTARTSYS 512
#define oops_in_progress false
typedef u32 depot_stack_handle_t;

#define max(a, b) ({ __typeof__((a) + (b)) a_ = (a), b_ = (b); a_ > b_ ? a_ : b_; })
#define roundup_pow_of_two(n) ((n) < 2 ? 1ul : 1ul << (64 - __builtin_clzl((n) - 1ul)))
#define struct_size(at, member, count) (sizeof(*(at)) + sizeof(*(at)->member) * (count))
#define smp_wmb() __atomic_thread_fence(__ATOMIC_RELEASE)
#define __GFP_NOFAIL 0
#define kzalloc(size, flags) calloc(1, size)
#define krealloc_array(at, count, size, flags) realloc(at, (count) * (size))
#define ksize(at) malloc_usable_size(at)

struct mutex {
	pthread_mutex_t it;
};
#define mutex_lock(lock) ((void)pthread_mutex_lock(&(lock)->it))
#define mutex_unlock(lock) ((void)pthread_mutex_unlock(&(lock)->it))
static inline bool mutex_is_locked(struct mutex *lock)
{
	bool is = pthread_mutex_trylock(&lock->it);

	if (!is)
		mutex_unlock(lock);
	return is;
}

/* A context is asserted to be held, too, of which there is nothing to ask. */
#define lockdep_is_held(base) ww_mutex_is_locked((struct ww_mutex *)(base))
#define lockdep_assert_held(it) \
	((void)WARN_ON(!_Generic((it), struct ww_acquire_ctx *: true, default: lockdep_is_held(it))))

/* ---- what is read without a lock ---- */

struct rcu_head {
	struct rcu_head *next;
};
extern struct rcu_head *shim_freed;
static inline void shim_free_at_end(struct rcu_head *it)
{
	it->next = __atomic_load_n(&shim_freed, __ATOMIC_RELAXED);
	while (!__atomic_compare_exchange_n(&shim_freed, &it->next, it, true, __ATOMIC_RELEASE, __ATOMIC_RELAXED))
		;
}
#define kfree_rcu(at, member) \
	({ _Static_assert(!offsetof(__typeof__(*(at)), member), "first"); shim_free_at_end(&(at)->member); })
#define __rcu
#define rcu_read_lock() ((void)0)
#define rcu_read_unlock() ((void)0)
#define rcu_dereference_check(at, fact) __atomic_load_n(&(at), __ATOMIC_ACQUIRE)
#define rcu_dereference_protected(at, fact) ({ WARN_ON(!(fact)); (at); })
#define rcu_assign_pointer(at, value) __atomic_store_n(&(at), value, __ATOMIC_RELEASE)
#define RCU_INIT_POINTER(at, value) rcu_assign_pointer(at, value)
#define rcu_replace_pointer(at, value, fact) \
	({ __typeof__(at) was_ = rcu_dereference_protected(at, fact); rcu_assign_pointer(at, value); was_; })

/* ---- fences: what a device has still to do with a buffer ---- */

struct dma_fence {
	struct rcu_head rcu;
	unsigned references;
	bool is_signaled;
	uint64_t context, seqno;
};
static inline struct dma_fence *dma_fence_get(struct dma_fence *fence)
{
	__atomic_add_fetch(&fence->references, 1, __ATOMIC_RELAXED);
	return fence;
}
/* NULL if the last reference was put already. */
static inline struct dma_fence *dma_fence_get_rcu(struct dma_fence *fence)
{
	unsigned references = __atomic_load_n(&fence->references, __ATOMIC_RELAXED);

	while (references && !__atomic_compare_exchange_n(&fence->references, &references, references + 1, true,
							  __ATOMIC_RELAXED, __ATOMIC_RELAXED))
		;
	return references ? fence : NULL;
}
extern long shim_fences; /* with a reference */
static inline void dma_fence_put(struct dma_fence *fence)
{
	if (!fence || __atomic_sub_fetch(&fence->references, 1, __ATOMIC_ACQ_REL))
		return;
	__atomic_sub_fetch(&shim_fences, 1, __ATOMIC_RELAXED);
	kfree_rcu(fence, rcu);
}
#define dma_fence_is_signaled(fence) __atomic_load_n(&(fence)->is_signaled, __ATOMIC_ACQUIRE)
#define dma_fence_is_container(fence) false
#define dma_fence_is_later_or_same(one, other) ((one)->seqno >= (other)->seqno)
#define dma_fence_context_alloc(count) 0
static inline long dma_fence_wait_timeout(struct dma_fence *fence, bool interruptible, long timeout)
{
	for (unsigned long end = jiffies + timeout; !dma_fence_is_signaled(fence); cond_resched())
		if (time_after(jiffies, end))
			return 0;
	return (void)interruptible, max(timeout, 1);
}
/* The program asks for no fence that stands for several. */
struct dma_fence_array {
	struct dma_fence base;
};
#define dma_fence_array_create(...) ((struct dma_fence_array *)NULL)
struct seq_file {
	FILE *file;
};
#define seq_printf(seq, ...) ((void)fprintf((seq)->file, __VA_ARGS__))
#define dma_fence_describe(fence, seq) seq_printf(seq, " %lu\n", (fence)->seqno)

/* ---- a device, and buffers ---- */

#include <drm/drm_modeset_lock.h>
#include <linux/dma-resv.h>

struct drm_crtc {
	struct list_head head;
	struct drm_modeset_lock mutex;
};
struct drm_plane {
	struct list_head head;
	struct drm_modeset_lock mutex;
};
struct drm_private_obj {
	struct list_head head;
	struct drm_modeset_lock lock;
};
struct drm_mode_config {
	struct mutex mutex;
	struct drm_modeset_lock connection_mutex;
	struct drm_modeset_acquire_ctx *acquire_ctx;
	struct list_head crtcs, planes, privobjs;
};
struct drm_device {
	struct drm_mode_config mode_config;
};
#define drm_for_each_crtc(it, device) list_for_each_entry(it, &(device)->mode_config.crtcs, head)
#define drm_for_each_plane(it, device) list_for_each_entry(it, &(device)->mode_config.planes, head)
#define drm_for_each_privobj(it, device) list_for_each_entry(it, &(device)->mode_config.privobjs, head)
#define drm_drv_uses_atomic_modeset(device) true

struct ttm_buffer_object {
	struct {
		struct dma_resv *resv, _resv;
	} base;
};
#define ttm_bo_move_to_lru_tail_unlocked(buffer) ((void)(buffer))
static inline int ttm_bo_reserve(struct ttm_buffer_object *it, bool interruptible, bool no_wait,
				 struct ww_acquire_ctx *ctx)
{
	int ret;

	if (no_wait)
		return !ctx && dma_resv_trylock(it->base.resv) ? 0 : -EBUSY;
	ret = interruptible ? dma_resv_lock_interruptible(it->base.resv, ctx) : dma_resv_lock(it->base.resv, ctx);
	return ret == -EINTR ? -ERESTARTSYS : ret;
}
static inline int ttm_bo_reserve_slowpath(struct ttm_buffer_object *it, bool interruptible, struct ww_acquire_ctx *ctx)
{
	int ret = 0;

	if (interruptible)
		ret = dma_resv_lock_slow_interruptible(it->base.resv, ctx);
	else
		dma_resv_lock_slow(it->base.resv, ctx);
	return ret == -EINTR ? -ERESTARTSYS : ret;
}
#endif
