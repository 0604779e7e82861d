/*
 * classes MUTEXES TIMES: each way to lock by each way to release, and each call that asks or makes something, so many times in
 * a class of so many mutexes: for who counts the instructions of each, which must not depend on how many there are.  Each is in a
 * function of its own, whose name says what it is.
 */
#include <array>
#include <cstdlib>
#include <type_traits>
#include <ww_mutex.h>
#include <ww_number.h>
#include <ww_poll.h>
#include <ww_retry.h>
#include <ww_shared.h>
#include <ww_table.h>
#include <ww_why.h>

namespace {

constexpr unsigned few = 4;
ww_class objects;
std::array<ww_mutex, few> mutexes;
std::array<ww_mutex *, few> list;
std::array<ww_shared_mutex, few> shared;
std::array<uint32_t, few> numbers;
ww_table *keys;

void must(bool fact)
{
	if (!fact)
		std::abort();
}

// ---- how one is locked, and how it is unlocked ----

struct of_mutex {
	static void unlock(unsigned k, ww_acquire_ctx *) { ww_mutex_unlock(&mutexes[k]); }
};
struct of_number {
	static void unlock(unsigned k, ww_acquire_ctx *x) { must(!ww_number_unlock(numbers[k], x)); }
};
struct of_reader {
	static void unlock(unsigned k, ww_acquire_ctx *x) { must(!ww_shared_mutex_unlock_shared(&shared[k], x)); }
};
struct of_writer {
	static void unlock(unsigned k, ww_acquire_ctx *x) { must(!ww_shared_mutex_unlock(&shared[k], x)); }
};

const ww_waker waker{ [](void *, void *) {}, nullptr, nullptr };
struct locked : of_mutex {
	static int lock(unsigned k, ww_acquire_ctx *x) { return ww_mutex_lock(&mutexes[k], x); }
};
struct locked_until : of_mutex {
	static int lock(unsigned k, ww_acquire_ctx *x) { return ww_mutex_lock_until(&mutexes[k], x, nullptr); }
};
struct tried : of_mutex {
	static int lock(unsigned k, ww_acquire_ctx *x) { return !ww_mutex_trylock(&mutexes[k], x); }
};
struct polled : of_mutex {
	static int lock(unsigned k, ww_acquire_ctx *x) { return ww_mutex_lock_poll(&mutexes[k], x, &waker); }
};
struct numbered : of_number {
	static int lock(unsigned k, ww_acquire_ctx *x) { return ww_number_lock(numbers[k], x); }
};
struct numbered_tried : of_number {
	static int lock(unsigned k, ww_acquire_ctx *x) { return !ww_number_trylock(numbers[k], x); }
};
struct read : of_reader {
	static int lock(unsigned k, ww_acquire_ctx *x) { return ww_shared_mutex_lock_shared(&shared[k], x); }
};
struct read_tried : of_reader {
	static int lock(unsigned k, ww_acquire_ctx *x) { return !ww_shared_mutex_trylock_shared(&shared[k], x); }
};
struct read_polled : of_reader {
	static int lock(unsigned k, ww_acquire_ctx *x) { return ww_shared_mutex_lock_shared_poll(&shared[k], x, &waker); }
};
struct written : of_writer {
	static int lock(unsigned k, ww_acquire_ctx *x) { return ww_shared_mutex_lock(&shared[k], x); }
};
struct written_tried : of_writer {
	static int lock(unsigned k, ww_acquire_ctx *x) { return !ww_shared_mutex_trylock(&shared[k], x); }
};
struct written_polled : of_writer {
	static int lock(unsigned k, ww_acquire_ctx *x) { return ww_shared_mutex_lock_poll(&shared[k], x, &waker); }
};

// ---- how a context locks ----

template <class One> void each(ww_acquire_ctx *x)
{
	for (unsigned k = 0; k < few; k++)
		must(!One::lock(k, x));
}
template <class One> struct by_hand : One {
	static void acquire(ww_acquire_ctx *x) { each<One>(x); }
};
template <class One> struct in_loop : One {
	static void acquire(ww_acquire_ctx *x)
	{
		ww_until_all_locked(x)
			each<One>(x);
	}
};
struct in_list : of_mutex {
	static void acquire(ww_acquire_ctx *x) { must(!ww_mutex_lock_all(x, list.data(), few)); }
};
struct in_two_lists : of_mutex {
	static void acquire(ww_acquire_ctx *x) { must(!ww_mutex_lock_all(x, list.data(), 1) && !ww_mutex_lock_all(x, &list[1], few - 1)); }
};
struct by_function : of_mutex {
	static void acquire(ww_acquire_ctx *x)
	{
		must(!ww_mutex_lock_by(x, [](ww_acquire_ctx *y, void *) { each<locked>(y); return 0; }, nullptr));
	}
};

// ---- how it releases ----

struct newest_first {
	template <class Way> static void release(ww_acquire_ctx *x)
	{
		for (unsigned k = few; k--;)
			Way::unlock(k, x);
	}
};
struct oldest_first {
	template <class Way> static void release(ww_acquire_ctx *x)
	{
		for (unsigned k = 0; k < few; k++)
			Way::unlock(k, x);
	}
};
struct at_once {
	template <class Way> static void release(ww_acquire_ctx *x) { ww_acquire_unlock_all(x); }
};
struct half_and_rest {
	template <class Way> static void release(ww_acquire_ctx *x)
	{
		Way::unlock(0, x);
		ww_acquire_unlock_to(x, 1);
		ww_acquire_unlock_all(x);
	}
};
struct tried_anew {
	template <class Way> static void release(ww_acquire_ctx *x) { must(!ww_acquire_end_try(x)); }
};
struct end_of_reads {
	template <class Way> static void release(ww_acquire_ctx *x) { ww_acquire_end_reads(x); }
};

template <class Way, class Release> [[gnu::noinline]] void context()
{
	ww_acquire_ctx x;

	ww_acquire_init(&x, &objects);
	Way::acquire(&x);
	Release::template release<Way>(&x);
	ww_acquire_fini(&x);
}

// By itself a context knows what it has acquired since its last unlock, but for mutexes by number (c/tests/lock/unlock_all.c).
template <class Way> void by_itself()
{
	context<by_hand<Way>, newest_first>();
	context<by_hand<Way>, oldest_first>();
	if constexpr (!std::is_base_of_v<of_number, Way>)
		context<by_hand<Way>, at_once>();
}
template <class Way> void listed()
{
	context<Way, newest_first>();
	context<Way, oldest_first>();
	context<Way, at_once>();
	context<Way, half_and_rest>();
	context<Way, tried_anew>();
}
template <class... Ones> void all_ways()
{
	(by_itself<Ones>(), ...);
	(listed<in_loop<Ones>>(), ...);
}

// ---- other calls ----

[[gnu::noinline]] void call_init_and_destroy()
{
	ww_mutex m;

	ww_mutex_init(&m, &objects);
	must(!ww_mutex_destroy(&m));
}
[[gnu::noinline]] void call_shared_init_and_destroy()
{
	ww_shared_mutex m;

	ww_shared_mutex_init(&m, &objects);
	must(!ww_shared_mutex_destroy(&m));
}
[[gnu::noinline]] void call_take_and_put()
{
	uint32_t number;

	must(!ww_number_take(&number, &objects) && !ww_number_put(number, &objects));
}
[[gnu::noinline]] void call_take_and_leave()
{
	uint32_t number;

	must(!ww_number_take(&number, &objects));
	ww_number_leave(number, &objects);
}
[[gnu::noinline]] void call_looks()
{
	must(!ww_mutex_is_locked(&mutexes[0]) && !ww_mutex_is_held_by(&mutexes[0], nullptr) && !ww_shared_mutex_is_locked(&shared[0]));
}
[[gnu::noinline]] void call_without_a_context()
{
	ww_mutex_lock(&mutexes[0], nullptr);
	must(!ww_mutex_trylock(&mutexes[0], nullptr));
	ww_mutex_unlock(&mutexes[0]);
}
[[gnu::noinline]] void call_stats()
{
	ww_class_counts counts;

	ww_class_stats(&objects, &counts);
}
[[gnu::noinline]] void call_poll_and_end()
{
	ww_acquire_ctx x;

	must(!ww_acquire_init_poll(&x, &objects, nullptr, nullptr));
	each<written_polled>(&x);
	must(!ww_acquire_cancel(&x) && !ww_acquire_end_wait(&x) && !ww_acquire_end(&x));
}
[[gnu::noinline]] void call_suspend()
{
	ww_acquire_ctx x;
	ww_retry retry{};

	must(!ww_acquire_resume(&x, &objects, &retry, nullptr) && !ww_acquire_suspend(&x, &retry));
	must(!ww_acquire_resume_poll(&x, &objects, &retry, nullptr, nullptr) && !ww_acquire_suspend(&x, &retry) && !ww_retry_drop(&retry));
}
[[gnu::noinline]] void call_why()
{
	ww_acquire_ctx x;
	ww_why why;
	ww_user user;
	ww_place place;
	ww_acquire_counts counts;

	ww_acquire_init(&x, &objects);
	must(!ww_acquire_label(&x, 1) && !ww_mutex_lock(&mutexes[0], &x));
	must(!ww_acquire_why(&x, &why) && !ww_acquire_cycle(&x, &place, 1) && !ww_acquire_count(&x, &counts));
	must(ww_mutex_users(&mutexes[0], &user, 1) == 1);
	ww_mutex_unlock(&mutexes[0]);
	ww_acquire_fini(&x);
}
[[gnu::noinline]] void call_table()
{
	ww_acquire_ctx *x;
	unsigned k = 0;

	must(!ww_table_join(keys, 1, 1, nullptr, &x));
	for (; k < few; k++)
		must(!ww_table_lock(keys, x, &k, sizeof k, k % 2 ? WW_TABLE_SHARED : WW_TABLE_EXCLUSIVE, nullptr));
	k = 0;
	must(!ww_table_unlock(keys, x, &k, sizeof k) && !ww_table_see(keys, &k, sizeof k, nullptr, nullptr));
	ww_table_unlock_to(keys, x, 1);
	must(ww_table_mark(keys, x) == 1 && !ww_table_leave(keys, 1, false));
}
/* While many numbers are taken. */
[[gnu::noinline]] void call_beside_many()
{
	uint32_t number;
	ww_mutex m;

	ww_mutex_init(&m, &objects);
	must(!ww_mutex_destroy(&m));
	must(!ww_number_take(&number, &objects) && !ww_number_put(number, &objects));
}
/* So many keys stay locked, a quarter of what the class has mutexes for. */
void fill_table(unsigned many)
{
	ww_acquire_ctx *x;

	must(!ww_table_join(keys, 2, 2, nullptr, &x));
	for (unsigned k = few; k < few + many; k++)
		must(!ww_table_lock(keys, x, &k, sizeof k, WW_TABLE_EXCLUSIVE, nullptr));
}

} // namespace

int main(int count, char **words)
{
	must(count == 3);
	ww_class_init(&objects, WW_WOUND_WAIT, "objects");
	must(!ww_class_limit(&objects, unsigned(std::atoi(words[1])), 0));
	for (unsigned k = 0; k < few; k++) {
		ww_mutex_init(&mutexes[k], &objects);
		list[k] = &mutexes[k];
		ww_shared_mutex_init(&shared[k], &objects);
		must(!ww_number_take(&numbers[k], &objects));
	}
	for (int times = std::atoi(words[2]); times--;) {
		all_ways<locked, locked_until, tried, polled, numbered, numbered_tried, read, read_tried, read_polled, written, written_tried,
			 written_polled>();
		listed<in_list>();
		listed<in_two_lists>();
		listed<by_function>();
		context<by_hand<read>, end_of_reads>();
		context<in_loop<read>, end_of_reads>();
		call_init_and_destroy();
		call_shared_init_and_destroy();
		call_take_and_put();
		call_take_and_leave();
		call_looks();
		call_without_a_context();
		call_stats();
		call_poll_and_end();
		call_suspend();
		call_why();
	}
	must(!ww_table_open(&keys, &objects, 0));
	fill_table(unsigned(std::atoi(words[1])) / 4);
	for (int times = std::atoi(words[2]); times--;) {
		call_table();
		call_beside_many();
	}
}
