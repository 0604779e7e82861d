/*
 * peer.c - the kernel's wound/wait mutexes as a peer of bench/c and bench/score, in one source with the stand-ins for the rest of
 * the kernel.  bench/kernel_peer takes the kernel's files from a package, and makes empty ones of all other headers.
 */
#include "standins.h"

#define ww_mutex_lock kernels_ww_mutex_lock
#define ww_mutex_lock_interruptible kernels_ww_mutex_lock_interruptible
#define ww_mutex_trylock kernels_ww_mutex_trylock
#define ww_mutex_unlock kernels_ww_mutex_unlock

#include "kernel/locking/mutex.c"
#ifdef CONFIG_MUTEX_SPIN_ON_OWNER
#include "kernel/locking/osq_lock.c"
#endif
#include "peer.h"

_Static_assert(sizeof(struct ww_class) <= sizeof(struct kernel_class), "it has room for a class");
_Static_assert(sizeof(struct ww_mutex) <= sizeof(struct kernel_mutex), "it has room for a mutex");
_Static_assert(sizeof(struct ww_acquire_ctx) <= sizeof(struct kernel_context), "it has room for a context");

#define OF_CLASS(c) ((struct ww_class *)(void *)(c))
#define OF_MUTEX(m) ((struct ww_mutex *)(void *)(m))
#define OF_CONTEXT(x) ((struct ww_acquire_ctx *)(void *)(x))

void kernel_begin_thread(void) { begin_task(); }
void kernel_class_init(struct kernel_class *c, unsigned is_wait_die)
{
	*OF_CLASS(c) = (struct ww_class){ .acquire_name = "acquire", .mutex_name = "mutex", .is_wait_die = is_wait_die };
}
void kernel_mutex_init(struct kernel_mutex *m, struct kernel_class *c) { ww_mutex_init(OF_MUTEX(m), OF_CLASS(c)); }
void kernel_begin(struct kernel_context *x, struct kernel_class *c) { ww_acquire_init(OF_CONTEXT(x), OF_CLASS(c)); }
void kernel_end(struct kernel_context *x) { ww_acquire_fini(OF_CONTEXT(x)); }
int kernel_lock(struct kernel_mutex *m, struct kernel_context *x) { return ww_mutex_lock(OF_MUTEX(m), OF_CONTEXT(x)); }
void kernel_lock_slow(struct kernel_mutex *m, struct kernel_context *x) { ww_mutex_lock_slow(OF_MUTEX(m), OF_CONTEXT(x)); }
void kernel_unlock(struct kernel_mutex *m) { ww_mutex_unlock(OF_MUTEX(m)); }
