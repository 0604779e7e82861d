/* peer.h - the kernel's wound/wait mutexes, as engines.hpp asks for a peer. */
#ifndef PEER_H
#define PEER_H
#ifdef __cplusplus
extern "C" {
#endif
struct kernel_class { long words[8]; };
struct kernel_mutex { long words[5]; }; /* beside what it guards it lies in one cache line, as in the kernel */
struct kernel_context { long words[4]; };
void kernel_begin_thread(void);
void kernel_class_init(struct kernel_class *c, unsigned is_wait_die);
void kernel_mutex_init(struct kernel_mutex *m, struct kernel_class *c);
void kernel_begin(struct kernel_context *x, struct kernel_class *c);
void kernel_end(struct kernel_context *x);
int kernel_lock(struct kernel_mutex *m, struct kernel_context *x);
void kernel_lock_slow(struct kernel_mutex *m, struct kernel_context *x);
void kernel_unlock(struct kernel_mutex *m);
#ifdef __cplusplus
}

namespace bench {

struct peer {
	using class_ = kernel_class;
	using mutex = kernel_mutex;
	using context = kernel_context;
#ifdef CONFIG_MUTEX_SPIN_ON_OWNER
	static constexpr const char *name = "kernel's code, spinning";
#else
	static constexpr const char *name = "the same, without";
#endif

	static void begin_thread() { kernel_begin_thread(); }
	static void open(class_ &c, int is_wait_die, unsigned, unsigned) { kernel_class_init(&c, is_wait_die != 0); }
	static void close(class_ &) {}
	static void make(mutex &m, class_ &c) { kernel_mutex_init(&m, &c); }
	static void destroy(mutex &) {}
	static void begin(context &x, class_ &c) { kernel_begin(&x, &c); }
	static int lock(mutex &m, context &x) { return kernel_lock(&m, &x); }
	static void lock_slow(mutex &m, context &x) { kernel_lock_slow(&m, &x); }
	static void unlock(mutex &m) { kernel_unlock(&m); }
	static void end(context &x) { kernel_end(&x); }
};

}
#endif
#endif
