/* Preloaded before a program, this does what these names in the environment say to whatever of its threads asks for memory:
 *
 *	REFUSE_FIRST, REFUSE_LAST	refuses the requests from the one number to the other, counted from 1 since the program began,
 *					those of all threads together
 *	HOLD_BYTES	of the threads beside the first one, whichever first asks for so much by malloc sleeps for a second before it gets it
 *	DELAYS_SEED	draws delays at random, for each thread others: also where memory is freed, where a thread gives its processor
 *			away, and before a thread begins to wait in the system or wakes another. So threads meet at points between which
 *			they mostly pass in no time. Some waits end at once, as the system may let them at any time.
 *
 * For each that it refuses or holds it writes one byte to the descriptor TELLS_TO, so that whoever started the program can tell how often. */
#define _GNU_SOURCE
#include <dlfcn.h>
#include <errno.h>
#include <linux/futex.h>
#include <sched.h>
#include <stdlib.h>
#include <sys/syscall.h>
#include <time.h>

/* <unistd.h> has these too, and a syscall of another type. */
pid_t getpid(void), gettid(void);
ssize_t write(int file, const void *from, size_t size);

/* What the C library does under the names below, where nothing stands before it. */
void *__libc_malloc(size_t size);
void *__libc_calloc(size_t count, size_t size);
void *__libc_realloc(void *block, size_t size);
void *__libc_memalign(size_t alignment, size_t size);
void __libc_free(void *block);
static int (*yield_behind)(void);
static long (*call_behind)(long, long, long, long, long, long, long);

/* 0 until this library is started, so that what the loader asks for is neither counted nor delayed. Without a seed nothing is. */
static unsigned long first, last, bytes, seed, to;

static unsigned long asked, threads;
static int held;
static __thread unsigned long drawn __attribute__((tls_model("initial-exec")));

static unsigned long number_in(const char *name) {
    const char *text = getenv(name);
    return text ? strtoul(text, 0, 10) : 0;
}

__attribute__((constructor)) static void start(void) {
    yield_behind = (int (*)(void))dlsym(RTLD_NEXT, "sched_yield");
    call_behind = (long (*)(long, long, long, long, long, long, long))dlsym(RTLD_NEXT, "syscall");
    to = number_in("TELLS_TO");
    first = number_in("REFUSE_FIRST");
    bytes = number_in("HOLD_BYTES");
    seed = getenv("DELAYS_SEED") ? number_in("DELAYS_SEED") + 1 : 0;
    last = number_in("REFUSE_LAST");
}

/* A byte that can't be written is missed by whoever counts them. */
static void tell(void) { (void)!write((int)to, ".", 1); }

static unsigned long draw(void) {
    if (drawn == 0) {
        unsigned long number = __atomic_add_fetch(&threads, 1, __ATOMIC_SEQ_CST);
        drawn = ((seed * 0x9E3779B97F4A7C15ul) ^ (number * 0xBF58476D1CE4E5B9ul)) | 1;
    }
    drawn ^= drawn << 13;
    drawn ^= drawn >> 7;
    drawn ^= drawn << 17;
    return drawn >> 20;
}

static void sleep_below(unsigned long nanoseconds) {
    struct timespec pause = {0, (long)(draw() % nanoseconds)};
    nanosleep(&pause, 0);
}

static void delay(void) {
    if (seed == 0)
        return;
    if (draw() % 60 == 0)
        sleep_below(30000);
    else if (draw() % 8 == 0)
        yield_behind();
}

static void hold(size_t size) {
    struct timespec second = {1, 0};
    if (bytes == 0 || size < bytes || gettid() == getpid() || __atomic_exchange_n(&held, 1, __ATOMIC_SEQ_CST))
        return;
    while (nanosleep(&second, &second) != 0) {
    }
    tell();
}

/* Threads ask at once. */
static int is_refused(void) {
    unsigned long number;
    delay();
    if (last == 0)
        return 0;
    number = __atomic_add_fetch(&asked, 1, __ATOMIC_SEQ_CST);
    if (number < first || number > last)
        return 0;
    tell();
    errno = ENOMEM;
    return 1;
}

void *malloc(size_t size) {
    hold(size);
    return is_refused() ? 0 : __libc_malloc(size);
}

void *calloc(size_t count, size_t size) {
    return is_refused() ? 0 : __libc_calloc(count, size);
}

void *realloc(void *block, size_t size) {
    return is_refused() ? 0 : __libc_realloc(block, size);
}

void *memalign(size_t alignment, size_t size) {
    return is_refused() ? 0 : __libc_memalign(alignment, size);
}

void *aligned_alloc(size_t alignment, size_t size) {
    return memalign(alignment, size);
}

int posix_memalign(void **block, size_t alignment, size_t size) {
    if (alignment < sizeof(void *) || (alignment & (alignment - 1)) != 0)
        return EINVAL;
    void *made = memalign(alignment, size);
    if (!made)
        return ENOMEM;
    *block = made;
    return 0;
}

void free(void *block) {
    __libc_free(block);
    delay();
}

int sched_yield(void) {
    if (seed != 0 && draw() % 40 == 0)
        sleep_below(50000);
    return yield_behind();
}

long syscall(long number, long first, long second, long third, long fourth, long fifth, long sixth) {
    if (number == SYS_futex && seed != 0) {
        int waits = (second & FUTEX_CMD_MASK) == FUTEX_WAIT;
        unsigned long what = draw();
        if (waits && what % 7 == 0)
            return 0;
        if (waits && what % 7 == 1) {
            errno = EINTR;
            return -1;
        }
        if (what % 3 == 2)
            sleep_below(80000);
    }
    return call_behind(number, first, second, third, fourth, fifth, sixth);
}
