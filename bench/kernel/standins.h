/*
 * standins.h - what kernel/locking/mutex.c and osq_lock.c of Linux need of the rest of the kernel, in user space: written anew
 * from what the kernel's documents say of each call.  A thread is a task, and stands for a processor of its own.
 *
 * Two things are worse here than in the kernel: a thread may be preempted while it holds a lock or a spinlock, and nobody knows
 * that of another one.  So a thread asks to be scheduled (need_resched) once it has spun for PATIENCE in one lock call.
 */
#ifndef STANDINS_H
#define STANDINS_H
#include <errno.h>
#include <limits.h>
#include <sched.h>
#include <stdbool.h>
#include <stddef.h>
#include <stdint.h>
#include <stdlib.h>
#include <sys/syscall.h>
#include <time.h>
#include <unistd.h>

/* ---- words of the kernel's C ---- */

#define __sched
#define __must_check
#define noinline __attribute__((noinline))
#undef __always_inline
#define __always_inline inline __attribute__((always_inline))
#define likely(fact) __builtin_expect(!!(fact), 1)
#define unlikely(fact) __builtin_expect(!!(fact), 0)
#define barrier() __asm__ volatile("" ::: "memory")
#define container_of(at, type, member) ((type *)(void *)((char *)(at)-offsetof(type, member)))
#define READ_ONCE(it) (*(const volatile __typeof__(it) *)&(it))
#define WRITE_ONCE(it, value) (*(volatile __typeof__(it) *)&(it) = (value))
#define data_race(it) (it)
#define typecheck(type, it) 1
#define IS_ENABLED(option) 0
#define EXPORT_SYMBOL(name)
#define EXPORT_SYMBOL_GPL(name)
#define DEFINE_GUARD(...)
#define DEFINE_FREE(...)
#define _RET_IP_ 0ul

struct device;
struct lockdep_map;
struct lock_class_key { char nothing; };
struct list_head { struct list_head *next, *prev; };
struct hlist_node { struct hlist_node *next, **pprev; };
struct hlist_head { struct hlist_node *first; };

#define DEBUG_LOCKS_WARN_ON(fact) ((void)(fact))
#define might_sleep() ((void)0)
#define lockdep_assert_held(lock) ((void)(lock))
#define lockdep_assert_preemption_disabled() ((void)0)
#define mutex_acquire(...) ((void)0)
#define mutex_acquire_nest(...) ((void)0)
#define mutex_release(...) ((void)0)
#define lock_acquired(...) ((void)0)
#define lock_contended(...) ((void)0)
#define trace_contention_begin(...) ((void)0)
#define trace_contention_end(...) ((void)0)
#define MAX_RT_PRIO 100
#define MAX_DL_PRIO 0
#define rt_prio(prio) ((void)(prio), 0)
#define dl_prio(prio) ((void)(prio), 0)

/* ---- atomics ---- */

typedef struct { int counter; } atomic_t;
typedef struct { long counter; } atomic_long_t;
#define ATOMIC_INIT(n) { n }
#define ATOMIC_LONG_INIT(n) { n }
#define smp_mb() __atomic_thread_fence(__ATOMIC_SEQ_CST)
#define smp_wmb() __atomic_thread_fence(__ATOMIC_RELEASE)
#define smp_load_acquire(at) __atomic_load_n(at, __ATOMIC_ACQUIRE)
#define smp_store_release(at, value) __atomic_store_n(at, value, __ATOMIC_RELEASE)
#define smp_store_mb(it, value) __atomic_store_n(&(it), value, __ATOMIC_SEQ_CST)
#define smp_cond_load_relaxed(at, fact) \
	({ __typeof__(*(at)) VAL; while (VAL = READ_ONCE(*(at)), !(fact)) cpu_relax(); VAL; })
#define xchg(at, value) __atomic_exchange_n(at, value, __ATOMIC_SEQ_CST)
#define exchange_if(at, was, value, order) \
	({ __typeof__(*(at)) was_ = (was); __atomic_compare_exchange_n(at, &was_, value, false, order, __ATOMIC_RELAXED); was_; })
#define cmpxchg(at, was, value) exchange_if(at, was, value, __ATOMIC_SEQ_CST)
#define atomic_read(it) READ_ONCE((it)->counter)
#define atomic_set(it, value) WRITE_ONCE((it)->counter, value)
#define atomic_xchg(it, value) xchg(&(it)->counter, value)
#define atomic_cmpxchg_acquire(it, was, value) exchange_if(&(it)->counter, was, value, __ATOMIC_ACQUIRE)
#define atomic_cmpxchg_release(it, was, value) exchange_if(&(it)->counter, was, value, __ATOMIC_RELEASE)
#define atomic_dec_and_test(it) (!__atomic_sub_fetch(&(it)->counter, 1, __ATOMIC_SEQ_CST))
static inline bool atomic_add_unless(atomic_t *it, int more, int unless)
{
	int was = atomic_read(it);

	while (was != unless)
		if (__atomic_compare_exchange_n(&it->counter, &was, was + more, false, __ATOMIC_SEQ_CST, __ATOMIC_RELAXED))
			return true;
	return false;
}
#define atomic_long_read(it) READ_ONCE((it)->counter)
#define atomic_long_set(it, value) WRITE_ONCE((it)->counter, value)
#define atomic_long_or(bits, it) ((void)__atomic_fetch_or(&(it)->counter, (long)(bits), __ATOMIC_RELAXED))
#define atomic_long_andnot(bits, it) ((void)__atomic_fetch_and(&(it)->counter, ~(long)(bits), __ATOMIC_RELAXED))
#define atomic_long_inc_return_relaxed(it) __atomic_add_fetch(&(it)->counter, 1, __ATOMIC_RELAXED)
#define atomic_long_try_cmpxchg_acquire(it, was, value) \
	__atomic_compare_exchange_n(&(it)->counter, (long *)(was), (long)(value), false, __ATOMIC_ACQUIRE, __ATOMIC_RELAXED)
#define atomic_long_try_cmpxchg_release(it, was, value) \
	__atomic_compare_exchange_n(&(it)->counter, (long *)(was), (long)(value), false, __ATOMIC_RELEASE, __ATOMIC_RELAXED)

static inline void cpu_relax(void)
{
#ifdef __x86_64__
	__builtin_ia32_pause();
#else
	__asm__ volatile("isb" ::: "memory");
#endif
}

typedef struct { uint32_t taken; } raw_spinlock_t;
#define raw_spin_lock_init(lock) ((lock)->taken = 0)
static inline void raw_spin_lock(raw_spinlock_t *lock)
{
	for (unsigned tries = 1; __atomic_exchange_n(&lock->taken, 1, __ATOMIC_ACQUIRE); tries++)
		while (READ_ONCE(lock->taken))
			if (tries++ % 64)
				cpu_relax();
			else
				sched_yield(); /* who holds it may have been preempted */
}
static inline void raw_spin_unlock(raw_spinlock_t *lock) { __atomic_store_n(&lock->taken, 0, __ATOMIC_RELEASE); }

/* ---- tasks ---- */

/* How long a thread spins in a call, in nanoseconds, with a look at the clock after so many at the lock; and pauses before it sleeps. */
enum { PATIENCE = 100000, LOOKS = 64, PAUSES = 512, MANY_TASKS = 4096 };
enum { WAITS = 0 | 128, WAKES = 1 | 128 }; /* of a futex of one process; the kernel's headers are hidden here */
enum { TASK_RUNNING = 0, TASK_INTERRUPTIBLE = 1, TASK_UNINTERRUPTIBLE = 2, TASK_KILLABLE = 3 };
struct task_struct {
	uint32_t __state; /* a futex word, too */
	int on_cpu;
	int prio;
	unsigned number;
	unsigned looks;
	uint64_t spins_since;
} __attribute__((aligned(128)));

static struct task_struct tasks[MANY_TASKS];
static unsigned begun;
static __thread struct task_struct *this_task;
#define current this_task

/* Each thread calls this before it uses a lock.  Its task is never used again. */
static void begin_task(void)
{
	unsigned number = __atomic_fetch_add(&begun, 1, __ATOMIC_RELAXED);

	if (number >= MANY_TASKS)
		abort();
	this_task = &tasks[number];
	*this_task = (struct task_struct){ .on_cpu = 1, .prio = 120, .number = number };
}

static inline uint64_t nanoseconds(void)
{
	struct timespec now;

	clock_gettime(CLOCK_MONOTONIC, &now);
	return (uint64_t)now.tv_sec * 1000000000 + (uint64_t)now.tv_nsec;
}

static inline void spins_anew(void)
{
	current->looks = 0;
	current->spins_since = 0;
}
static inline bool need_resched(void)
{
	if (++current->looks % LOOKS)
		return false;
	if (!current->spins_since)
		current->spins_since = nanoseconds();
	return nanoseconds() - current->spins_since > PATIENCE;
}
#define preempt_disable() spins_anew()
#define preempt_enable() ((void)0)
#define owner_on_cpu(task) READ_ONCE((task)->on_cpu)
#define vcpu_is_preempted(cpu) ((void)(cpu), false)
#define signal_pending_state(state, task) ((void)(state), (void)(task), 0)
#define set_current_state(state) smp_store_mb(current->__state, (uint32_t)(state))
#define __set_current_state(state) WRITE_ONCE(current->__state, (uint32_t)(state))

/* A processor with nothing to do looks for work for a while before it sleeps deeply: so here a waiter pauses, as ours does. */
static noinline void schedule(void)
{
	if (READ_ONCE(current->__state) == TASK_RUNNING)
		sched_yield();
	WRITE_ONCE(current->on_cpu, 0);
	for (unsigned k = 0; k < PAUSES && READ_ONCE(current->__state) != TASK_RUNNING; k++)
		cpu_relax();
	for (uint32_t state; (state = __atomic_load_n(&current->__state, __ATOMIC_SEQ_CST)) != TASK_RUNNING;)
		syscall(SYS_futex, &current->__state, WAITS, state, NULL, NULL, 0);
	WRITE_ONCE(current->on_cpu, 1);
	spins_anew();
}
#define schedule_preempt_disabled() schedule()
#define io_schedule_prepare() 0
#define io_schedule_finish(token) ((void)(token))

static inline void wake_up_process(struct task_struct *task)
{
	if (__atomic_exchange_n(&task->__state, TASK_RUNNING, __ATOMIC_SEQ_CST) != TASK_RUNNING)
		syscall(SYS_futex, &task->__state, WAKES, 1, NULL, NULL, 0);
}

/* One unlock wakes one task at most. */
struct wake_q_head { struct task_struct *first; };
#define DEFINE_WAKE_Q(name) struct wake_q_head name = { NULL }
#define wake_q_add(queue, task) ((queue)->first = (task))
static inline void wake_up_q(struct wake_q_head *queue)
{
	if (queue->first)
		wake_up_process(queue->first);
}

/* ---- processors ---- */

#define smp_processor_id() ((int)current->number)
#define DEFINE_PER_CPU_SHARED_ALIGNED(type, name) struct { type it; } __attribute__((aligned(64))) name[MANY_TASKS]
#define per_cpu_ptr(all, cpu) (&(*(all))[cpu].it)
#define this_cpu_ptr(all) per_cpu_ptr(all, smp_processor_id())
#endif
