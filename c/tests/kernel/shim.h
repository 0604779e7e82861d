/*
 * shim.h - what code of the kernel needs beside ww_mutex.h, over threads of this
 * process: written anew from what the kernel's documents say of each call.  A work
 * has a thread of its own.  What the code reports as wrong is counted.
 */
#ifndef SHIM_H
#define SHIM_H
#include <errno.h>
#include <pthread.h>
#include <sched.h>
#include <stdbool.h>
#include <stddef.h>
#include <stdint.h>
#include <stdio.h>
#include <stdlib.h>
#include <time.h>
#include <unistd.h>
#include <linux/ww_mutex.h>

/* The same source is run with classes of the other kind. */
#ifdef WOUND_WAIT
#undef DEFINE_WD_CLASS
#define DEFINE_WD_CLASS(classname) DEFINE_WW_CLASS(classname)
#else
#undef DEFINE_WW_CLASS
#define DEFINE_WW_CLASS(classname) DEFINE_WD_CLASS(classname)
#endif

typedef uint32_t u32;

extern int shim_faults;

#define shim_report(...) (__atomic_fetch_add(&shim_faults, 1, __ATOMIC_SEQ_CST), (void)fprintf(stderr, __VA_ARGS__))
#define pr_err(...) shim_report(__VA_ARGS__)
#define pr_err_once(...) shim_report(__VA_ARGS__)
#define WARN_ON(fact) \
	({ bool is_ = !!(fact); if (is_) shim_report("%s:%d: %s\n", __FILE__, __LINE__, #fact); is_; })
#define printk(...) ((void)printf(__VA_ARGS__))
#define KERN_INFO ""

#define container_of(at, type, member) ((type *)(void *)((char *)(at)-offsetof(type, member)))
#define READ_ONCE(it) (*(const volatile __typeof__(it) *)&(it))
#define WRITE_ONCE(it, value) (*(volatile __typeof__(it) *)&(it) = (value))
#define BIT(n) (1ul << (n))
#define hweight32(word) ((unsigned)__builtin_popcount(word))
#define unlikely(fact) __builtin_expect(!!(fact), 0)
#define likely(fact) __builtin_expect(!!(fact), 1)

/* ---- memory, and numbers drawn ---- */

#define GFP_KERNEL 0
static inline void *kmalloc(size_t size, int flags) { return (void)flags, malloc(size); }
static inline void *kmalloc_array(size_t count, size_t size, int flags) { return (void)flags, calloc(count, size); }
static inline void kfree(void *at) { free(at); }

static inline u32 prandom_u32_max(u32 below)
{
	static __thread u32 x;

	x = (x ? x : (u32)(uintptr_t)&x | 1) * 1664525u + 1013904223u;
	return (u32)((uint64_t)x * below >> 32);
}

/* ---- time ---- */

#define HZ 1000ul
static inline unsigned long shim_jiffies(void)
{
	struct timespec now;

	clock_gettime(CLOCK_MONOTONIC, &now);
	return (unsigned long)now.tv_sec * HZ + (unsigned long)now.tv_nsec / 1000000;
}
#define jiffies shim_jiffies()
#define time_after(a, b) ((long)((b) - (a)) < 0)
#define time_before(a, b) time_after(b, a)
static inline void cond_resched(void) { sched_yield(); }
static inline void usleep_range(unsigned long least, unsigned long most)
{
	struct timespec length = { 0, (long)(least + prandom_u32_max((u32)(most - least + 1))) * 1000 };

	nanosleep(&length, NULL);
}
/* A class has 16 contexts, and the kernel's rings have one more than processors. */
static inline unsigned num_online_cpus(void)
{
	long count = sysconf(_SC_NPROCESSORS_ONLN);

	return count < 1 ? 1 : count > 15 ? 15 : (unsigned)count;
}

/* ---- completions ---- */

struct completion {
	pthread_mutex_t lock;
	pthread_cond_t changed;
	unsigned done;
};
static inline void init_completion(struct completion *c)
{
	pthread_condattr_t monotonic;

	pthread_condattr_init(&monotonic);
	pthread_condattr_setclock(&monotonic, CLOCK_MONOTONIC);
	pthread_mutex_init(&c->lock, NULL);
	pthread_cond_init(&c->changed, &monotonic);
	c->done = 0;
}
static inline void complete(struct completion *c)
{
	pthread_mutex_lock(&c->lock);
	c->done++;
	pthread_cond_signal(&c->changed);
	pthread_mutex_unlock(&c->lock);
}
/* 0 if the time ran out. */
static inline unsigned long wait_for_completion_timeout(struct completion *c, unsigned long timeout)
{
	unsigned long by = jiffies + timeout, now;
	struct timespec until = { (time_t)(by / HZ), (long)(by % HZ) * 1000000 };

	pthread_mutex_lock(&c->lock);
	while (!c->done && !pthread_cond_timedwait(&c->changed, &c->lock, &until))
		;
	now = jiffies;
	timeout = !c->done ? 0 : time_before(now, by) ? by - now : 1;
	c->done -= !!timeout;
	pthread_mutex_unlock(&c->lock);
	return timeout;
}
static inline void wait_for_completion(struct completion *c)
{
	while (!wait_for_completion_timeout(c, HZ))
		;
}
static inline bool completion_done(struct completion *c)
{
	bool is;

	pthread_mutex_lock(&c->lock);
	is = c->done;
	pthread_mutex_unlock(&c->lock);
	return is;
}

/* ---- works, each a thread ---- */

struct work_struct {
	void (*func)(struct work_struct *work);
	pthread_t thread;
	struct work_struct *next;
};
struct workqueue_struct {
	struct work_struct *queued;
};
#define WQ_UNBOUND 0
#define INIT_WORK(work, fn) ((void)((work)->func = (fn)))
#define INIT_WORK_ONSTACK(work, fn) INIT_WORK(work, fn)
#define destroy_work_on_stack(work) ((void)(work))
static inline void *shim_work(void *work)
{
	((struct work_struct *)work)->func(work);
	return NULL;
}
static inline bool schedule_work(struct work_struct *work)
{
	if (pthread_create(&work->thread, NULL, shim_work, work))
		abort();
	return true;
}
static inline bool flush_work(struct work_struct *work) { return !pthread_join(work->thread, NULL); }
static inline struct workqueue_struct *alloc_workqueue(const char *name, unsigned flags, int most)
{
	return (void)name, (void)flags, (void)most, calloc(1, sizeof(struct workqueue_struct));
}
static inline bool queue_work(struct workqueue_struct *queue, struct work_struct *work)
{
	work->next = queue->queued;
	queue->queued = work;
	return schedule_work(work);
}
static inline void flush_workqueue(struct workqueue_struct *queue)
{
	for (; queue->queued; queue->queued = queue->queued->next)
		flush_work(queue->queued);
}
static inline void destroy_workqueue(struct workqueue_struct *queue) { free(queue); }

/* ---- lists: rings through a head ---- */

struct list_head {
	struct list_head *next, *prev;
};
#define LIST_HEAD(name) struct list_head name = { &(name), &(name) }
static inline void INIT_LIST_HEAD(struct list_head *head) { head->next = head->prev = head; }
static inline bool list_empty(const struct list_head *head) { return head->next == head; }
static inline void list_add(struct list_head *it, struct list_head *after)
{
	it->next = after->next;
	it->prev = after;
	it->next->prev = it;
	after->next = it;
}
static inline void list_add_tail(struct list_head *it, struct list_head *head) { list_add(it, head->prev); }
static inline void list_del(struct list_head *it)
{
	it->prev->next = it->next;
	it->next->prev = it->prev;
}
static inline void list_del_init(struct list_head *it)
{
	list_del(it);
	INIT_LIST_HEAD(it);
}
static inline void list_move(struct list_head *it, struct list_head *after)
{
	list_del(it);
	list_add(it, after);
}
#define list_entry(at, type, member) container_of(at, type, member)
#define list_first_entry(head, type, member) list_entry((head)->next, type, member)
#define list_prev_entry(it, member) shim_entry((it)->member.prev, it, member)
#define shim_entry(at, like, member) list_entry(at, __typeof__(*(like)), member)
#define list_for_each_entry(it, head, member)                                                          \
	for ((it) = shim_entry((head)->next, it, member); &(it)->member != (head);                     \
	     (it) = shim_entry((it)->member.next, it, member))
#define list_for_each_entry_continue_reverse(it, head, member)                                         \
	for ((it) = shim_entry((it)->member.prev, it, member); &(it)->member != (head);                \
	     (it) = shim_entry((it)->member.prev, it, member))
#define list_for_each_entry_safe(it, then, head, member)                                               \
	for ((it) = shim_entry((head)->next, it, member), (then) = shim_entry((it)->member.next, it, member); \
	     &(it)->member != (head); (it) = (then), (then) = shim_entry((it)->member.next, it, member))

/* ---- a module: its beginning is what main calls ---- */

#define __init
#define __exit __attribute__((unused))
#define module_init(fn) int shim_begin(void) { return fn(); }
#define module_exit(fn) void shim_end(void) { fn(); }
#define MODULE_LICENSE(text) extern int shim_faults
#define MODULE_AUTHOR(text) extern int shim_faults
#define EXPORT_SYMBOL(name) extern int shim_faults
int shim_begin(void);
void shim_end(void);
#endif
