/*
 * print.c - who holds mutexes and who waits for them, written while the program runs or hangs.
 *
 * A look may be made anywhere, in a signal handler too: it takes no lock, allocates nothing, and writes nothing that other threads
 * read. It copies what it reads through the system, which returns an error where a load would end the program, since a class may be
 * freed meanwhile, and a thread may end. Of threads that go on it may show what is over by then.
 */
#define _GNU_SOURCE
#define WW_NO_INLINE /* ww_mutex.h compiles none of its calls into this file */
#include "print.h"
#include <errno.h>
#include <signal.h>
#include <string.h>
#include <sys/uio.h>
#include <unistd.h>

/*
 * Where the system can't make such a copy, as in an emulator, or refuses it, the memory is written to a pipe, and read from that. The
 * write returns an error where a load would end the program.
 */
static bool look_by_pipe(void *copy, const void *at, size_t size)
{
	int ends[2];
	bool copied;

	if (pipe(ends))
		return false;
	copied = write(ends[1], at, size) == (ssize_t)size && read(ends[0], copy, size) == (ssize_t)size;
	close(ends[0]);
	close(ends[1]);
	return copied;
}

bool ww_look(void *copy, const void *at, size_t size)
{
	struct iovec to = { copy, size }, from = { (void *)(uintptr_t)at, size };
	ssize_t copied = process_vm_readv(getpid(), &to, 1, &from, 1, 0);

	return copied == (ssize_t)size || (copied < 0 && errno != EFAULT && look_by_pipe(copy, at, size));
}

/* ---- text ---- */

static void put_out(struct ww_out *to)
{
	if (to->file)
		fwrite(to->text, 1, to->size, to->file);
	for (ssize_t done = 0, more; !to->file && done < (ssize_t)to->size; done += more)
		if ((more = write(to->fd, to->text + done, to->size - (size_t)done)) <= 0)
			break;
	to->size = 0;
}

static void put_char(struct ww_out *to, char it)
{
	if (to->size == sizeof to->text)
		put_out(to);
	to->text[to->size++] = it;
}

static void put(struct ww_out *to, const char *text)
{
	while (*text)
		put_char(to, *text++);
}

static void put_digits(struct ww_out *to, const char *before, uint64_t number, unsigned base)
{
	char digits[21], *at = &digits[sizeof digits - 1];

	*at = 0;
	do
		*--at = "0123456789abcdef"[number % base];
	while (number /= base);
	put(to, before);
	put(to, at);
}
static void put_count(struct ww_out *to, const char *before, uint64_t number) { put_digits(to, before, number, 10); }

/* Writes a text of the program's, as far as it can be read, between two others; nothing if it is NULL or empty. */
static void put_name(struct ww_out *to, const char *before, const char *name, const char *behind)
{
	char it;

	if (!name || !SEES(it, *name) || !it)
		return;
	for (put(to, before); SEES(it, *name) && it; name++)
		put_char(to, it);
	put(to, behind);
}

/* Writes a line of the program, which the debug library alone knows; nothing in libww. */
static void put_place(struct ww_out *to, const char *before, const struct place *place)
{
	if (!IS_DEBUG)
		return;
	put(to, before);
	if (place->file) {
		put_name(to, "", place->file, ":");
		put_count(to, "", (uint64_t)place->line);
	} else {
		put(to, "a line of code without -DWW_DEBUG");
	}
}

/* ---- what is seen ---- */

/* What of an open class was copied. */
struct seen {
	const struct ww_pool *at;
	const ww_seat *seats;
	const struct ww_class *class_;
	uintptr_t words;
	struct ww_mutex **lies_at;
	uint32_t anybodys, own, locks, mutexes, taken;
};

/* In a forked child nothing is seen of a class that was in use. */
static bool see(struct seen *c, const struct ww_pool *p)
{
	bool gone;

	c->at = p;
	return SEES(gone, p->gone) && !gone && SEES(c->seats, p->seats) && SEES(c->class_, p->class_) && SEES(c->words, p->words) &&
	       SEES(c->lies_at, p->numbers.lies_at) &&
	       SEES(c->anybodys, p->threads.count) && SEES(c->own, p->own_seats) && SEES(c->locks, p->numbers.locks) &&
	       SEES(c->mutexes, p->numbers.mutexes) && SEES(c->taken, p->numbers.taken);
}

static uint32_t seats_in(const struct seen *c) { return c->anybodys + c->own; }

/* Of the thread that has this for itself its number in the system, or 0. */
static uint32_t thread_of(const struct ww_mine *mine)
{
	uint32_t lwp;

	return mine && SEES(lwp, mine->lwp) ? lwp : 0;
}

/* The thread with own seats at this place, or NULL; and the one that has this number. */
static const struct ww_mine *owner_at(uint32_t place)
{
	const struct ww_mine *mine;

	return SEES(mine, ww_owners[place]) ? mine : NULL;
}
static const struct ww_mine *thread_with(uint64_t number)
{
	for (uint32_t k = 0; k < MANY_OWN; k++) {
		const struct ww_mine *mine = owner_at(k);
		uint64_t thread;

		if (mine && SEES(thread, mine->thread) && thread == number)
			return mine;
	}
	return NULL;
}

/*
 * Who uses the seat with this number. A thread that sleeps left its waker in the seat. Otherwise the thread is known if the seat is a
 * thread's own, or if the thread locked without a context. A context by a seat for anybody may go on in any thread.
 */
static struct ww_use use_of(const struct seen *c, uint32_t k)
{
	struct ww_use use = { 0 };
	const ww_seat *at = &c->seats[k];
	ww_seat s;
	bool is_thread;

	if (!SEES(s, *at) || !(s.busy & BUSY))
		return use;
	use.is_used = true;
	use.is_suspended = s.ticket;
	use.wants = s.awaits;
	(void)ww_look(&use.context, (const char *)s.handle.at + STAMP_AT, sizeof use.context);
	is_thread = s.token < ARMED || s.waker.task == (const void *)&at->token;
	if (s.token >= ARMED && is_thread) {
		const struct ww_mine *mine = s.waker.loop;

		use.thread = thread_of(mine);
		(void)SEES(use.since, mine->since);
	} else if (is_thread && !use.is_suspended) {
		use.thread = thread_of(k >= c->anybodys ? owner_at(k - c->anybodys) : use.context ? NULL : thread_with(s.user));
	}
	ww_debug_use(c->at, k, &use);
	return use;
}

/*
 * Which of the few seats from this one on are in use, as bits. A class has many seats, so one look copies as many as have room on the
 * small stack of a signal handler.
 */
enum { FEW_SEATS = 8 };
static uint32_t used_from(const struct seen *c, uint32_t first)
{
	uint32_t count = seats_in(c) - first < FEW_SEATS ? seats_in(c) - first : FEW_SEATS, used = 0;
	ww_seat seats[FEW_SEATS];

	if (!ww_look(seats, &c->seats[first], count * sizeof *seats))
		return 0;
	for (uint32_t k = 0; k < count; k++)
		used |= (seats[k].busy & BUSY) << k;
	return used;
}

/* The place, plus 1, of the seat that has the lock with this number; 0: none. The spare seat is behind all others. */
static uint32_t owner_in_word(const struct seen *c, uint64_t word)
{
	uint32_t owner = owner_of_word(word);

	return owner <= seats_in(c) ? owner : 0;
}
static uint32_t owner_seen(const struct seen *c, uint32_t number)
{
	uint64_t word;

	return ww_look(&word, (const uint64_t *)c->words + 2 * (size_t)number, sizeof word) ? owner_in_word(c, word) : 0;
}

/* ---- lines ---- */

static void put_user(struct ww_out *to, const struct ww_use *use, uint32_t k)
{
	if (use->thread)
		put_count(to, "thread ", use->thread);
	else if (use->context)
		put_count(to, "the user of context ", use->context);
	else
		put_count(to, "unknown thread ", k);
}

static void put_class(struct ww_out *to, const struct seen *c, const char *before, const char *behind)
{
	struct ww_class class_;

	put(to, before);
	if (SEES(class_, *c->class_))
		put_name(to, "", class_.name, "");
	put(to, behind);
}

static void put_mutex(struct ww_out *to, const struct seen *c, uint32_t number)
{
	const struct ww_mutex *at;

	put_count(to, "mutex ", number);
	put_name(to, " \"", ww_debug_name(c->at, number), "\"");
	if (SEES(at, c->lies_at[number]) && at)
		put_digits(to, " at 0x", (uintptr_t)at, 16);
}

/* Writes for what the seat waits, and who holds that; and which class that is of, where several may be meant. */
static void put_wait(struct ww_out *to, const struct seen *c, const struct ww_use *use, bool of_class)
{
	uint32_t owner = owner_seen(c, use->wants - 1);
	uint64_t now = ww_now();

	put(to, "waits");
	if (use->since && use->since < now) {
		put_count(to, " ", (now - use->since) / 1000000000);
		put_count(to, ".", (now - use->since) / 100000000 % 10);
		put(to, " s");
	}
	put_place(to, " at ", &use->waits);
	put(to, " for ");
	put_mutex(to, c, use->wants - 1);
	if (of_class)
		put_class(to, c, " of class \"", "\"");
	if (owner) {
		struct ww_use holder = use_of(c, owner - 1);

		put(to, ", which ");
		put_user(to, &holder, owner - 1);
		put(to, " holds");
	}
}

/*
 * What the context reads whose reader slot has the mutex with this number. A mark may be from a read that has ended, as long as
 * another read of its context hasn't.
 */
static void put_reads(struct ww_out *to, const struct seen *c, uint32_t number)
{
	const struct ww_slot *at = NULL;
	struct ww_slot slot;
	const char *before = " reads ";
	struct ww_use use;

	for (unsigned k = 0; k < MANY_BITS && !at; k++)
		for (ww_look(&at, &c->at->slots[k], sizeof at); at && SEES(slot, *at) && slot.mutex.number != number;)
			at = slot.next;
	if (!at || !SEES(slot, *at) || !slot.mutex.ctx || !slot.reads)
		return;
	use = use_of(c, slot.seat);
	put(to, "\n");
	put_user(to, &use, slot.seat);
	for (uint32_t n = 0; n < c->locks; n += MARKS_IN_A_WORD) {
		uint64_t marks;

		if (!SEES(marks, at->marks[n / MARKS_IN_A_WORD]))
			continue;
		for (; marks; marks &= marks - 1) {
			put(to, before);
			put_mutex(to, c, n + (uint32_t)__builtin_ctzll(marks));
			before = ", ";
		}
	}
	put_count(to, "; for that it holds mutex ", number);
}

static void put_use(struct ww_out *to, const struct seen *c, uint32_t k)
{
	struct ww_use use = use_of(c, k);

	if (!use.is_used)
		return;
	put(to, "\n");
	put_user(to, &use, k);
	if (use.context)
		put_count(to, ": context ", use.context);
	else
		put(to, IS_DEBUG || use.wants ? ": a lock without a context" : ": a lock without a context, or a context before its first lock");
	put_place(to, " began at ", &use.began);
	if (use.is_suspended) {
		put(to, "; suspended");
		put_place(to, " at ", &use.suspended);
	} else if (use.wants) {
		put(to, "; ");
		put_wait(to, c, &use, false);
	}
}

static void put_holder(struct ww_out *to, const struct seen *c, uint32_t number, uint32_t owner)
{
	struct ww_use use = use_of(c, owner - 1);
	struct place since = { 0 };

	put(to, "\n");
	put_mutex(to, c, number);
	put(to, " is held by ");
	put_user(to, &use, owner - 1);
	ww_debug_acquired(c->at, number, &since);
	put_place(to, " since ", &since);
	put_reads(to, c, number);
}

static uint32_t waiters(const struct ww_seats *of)
{
	struct ww_line waits, called;

	return SEES(waits, of->lines[WAITS]) && SEES(called, of->lines[CALLED]) ? waits.seekers + called.seekers : 0;
}

static void put_counts(struct ww_out *to, const struct seen *c)
{
	uint32_t used = 0, width, waiting;
	bool is_crowd;

	for (uint32_t k = 0; k < seats_in(c); k += FEW_SEATS)
		used += (uint32_t)__builtin_popcount(used_from(c, k));
	put_class(to, c, "class \"", "\": ");
	put_count(to, "", c->taken);
	put_count(to, " of ", c->mutexes);
	put_count(to, " mutexes and ", used);
	put_count(to, " of ", seats_in(c));
	put_count(to, " contexts in use, waits for a context: ", waiters(&c->at->threads) + waiters(&c->at->tasks));
	if (SEES(is_crowd, c->at->is_crowded) && is_crowd && SEES(width, c->at->crowd.limiter.width) && width != NO_LIMIT &&
	    SEES(waiting, c->at->crowd.waiting)) {
		put_count(to, "; a crowd, permits: ", width);
		put_count(to, ", waits for one: ", waiting);
	}
}

void ww_print_pool(const struct ww_pool *p, struct ww_out *to)
{
	enum { SOME = 32 };
	uint64_t words[2 * SOME];
	struct seen c;

	if (!see(&c, p))
		return;
	put_counts(to, &c);
	for (uint32_t k = 0; k < seats_in(&c); k += FEW_SEATS)
		for (uint32_t used = used_from(&c, k); used; used &= used - 1)
			put_use(to, &c, k + (uint32_t)__builtin_ctz(used));
	for (uint32_t n = 0; n < c.locks; n += SOME) {
		uint32_t some = c.locks - n < SOME ? c.locks - n : SOME;

		if (!ww_look(words, (const uint64_t *)c.words + 2 * (size_t)n, 2 * some * sizeof *words))
			break;
		for (uint32_t k = 0; k < some; k++)
			if (owner_in_word(&c, words[2 * k]))
				put_holder(to, &c, n + k, owner_in_word(&c, words[2 * k]));
	}
	put_out(to);
}

void ww_print_wait(const ww_seat *s, struct ww_out *to)
{
	const struct ww_pool *p;
	struct ww_use use;
	struct seen c;
	uint32_t k;

	if (!SEES(p, s->pool) || !see(&c, p))
		return;
	k = (uint32_t)(s - c.seats);
	use = use_of(&c, k);
	put(to, "\n");
	put_user(to, &use, k);
	put(to, " ");
	if (use.wants)
		put_wait(to, &c, &use, true);
	if (use.wants)
		put_reads(to, &c, use.wants - 1);
	put_out(to);
}

/* ---- calls ---- */

static void print_open(const struct ww_pool *p, int fd)
{
	struct ww_out to = { .fd = fd };

	ww_print_pool(p, &to);
	put(&to, "\n");
	put_out(&to);
}

/*
 * Writes all open classes. If a class is freed meanwhile, its pool isn't that class's any more, and `next` may lead into the list of freed
 * pools: so the look ends there.
 */
static void print_all(int fd)
{
	enum { MOST = 10000 }; /* an end, should another thread change the list into a circle */
	const struct ww_open *at, *next;
	unsigned count = 0;

	if (!SEES(at, ww_all_open) || !at)
		(void)!write(fd, "no class of libww is open\n", 26);
	for (; at && count < MOST; at = next, count++) {
		const struct ww_pool *p = (const struct ww_pool *)at, *its;
		const struct ww_class *c;

		if (!SEES(next, at->next) || !SEES(c, p->class_) || !SEES(its, c->pool) || its != p)
			return;
		print_open(p, fd);
	}
}

void ww_class_print(struct ww_class *c, int fd)
{
	const struct ww_pool *p = c ? __atomic_load_n(&c->pool, __ATOMIC_ACQUIRE) : NULL;

	if (!c)
		print_all(fd);
	else if (p)
		print_open(p, fd);
}

/* ---- by a signal ---- */

static void at_signal(int number)
{
	int before = errno;

	(void)number;
	ww_class_print(NULL, STDERR_FILENO);
	errno = before;
}

/* The environment may name a signal. A program that is linked with the archive has this only if it calls ww_class_print. */
__attribute__((constructor)) static void at_load(void)
{
	const char *name = secure_getenv("WW_PRINT");
	int number = !name ? 0 : !strcmp(name, "SIGUSR1") ? SIGUSR1 : !strcmp(name, "SIGUSR2") ? SIGUSR2 : atoi(name);

	if (name && sigaction(number, &(struct sigaction){ .sa_handler = at_signal, .sa_flags = SA_RESTART | SA_ONSTACK }, NULL))
		fprintf(stderr, "WW_PRINT=%s: no such signal; it may be SIGUSR1, SIGUSR2 or a number\n", name);
}
