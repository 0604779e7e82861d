/* syscall.h - what ww_event_wake calls: Frama-C's C library has no such header. */
enum { SYS_write = 1 };
long syscall(long number, ...);
