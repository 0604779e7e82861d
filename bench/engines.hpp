/*
 * What engines.cpp and loads.cpp share: engines that acquire the locks of a list, and
 * threads that do so for a time.
 *
 * An engine's `transact` calls fn(k) once it has the lock of number k in the list, if fn
 * takes a number; and fn() once it has all. It returns how often it began anew, or
 * `given_up`, with nothing held and no fn() called, if fn(k) returned false; only engines
 * that may begin anew ask for that. A peer is another implementation of wound/wait mutexes,
 * which peer.h has as `struct here` below.
 */
#pragma once
#include <algorithm>
#include <array>
#include <atomic>
#include <cerrno>
#include <chrono>
#include <cstddef>
#include <cstdlib>
#include <mutex>
#include <pthread.h>
#include <shared_mutex>
#include <string_view>
#include <thread>
#include <type_traits>
#include <utility>
#include <vector>
#include <ww_mutex.h>
#include <ww_shared.h>
#include <ww_steps.h>
#if __has_include(<peer.h>)
#include <peer.h>
#define HAS_PEER
#endif

namespace bench {

using steady = std::chrono::steady_clock;
constexpr unsigned most_taken = 1024, none = ~0u, given_up = ~0u;
constexpr auto relaxed = std::memory_order_relaxed;
constexpr ww_kind wound_wait = WW_WOUND_WAIT, wait_die = WW_WAIT_DIE;

// Each of so many threads takes so many locks, for so long; of a hundred it only reads so many.
inline struct {
	unsigned threads, takes;
	double seconds;
	unsigned reads;
} now;

// What a transaction takes. What of it is only read is drawn by the seed, so it stays the same in another order.
struct list {
	unsigned count, seed = 0;
	std::array<unsigned, most_taken> of;

	unsigned &operator[](unsigned k) { return of[k]; }
	const unsigned &operator[](unsigned k) const { return of[k]; }
	auto begin() { return of.begin(); }
	auto end() { return of.begin() + count; }
	bool reads(unsigned lock) const { return now.reads && ((lock ^ seed) * 2654435761u >> 16) % 100 < now.reads; }
};

enum status { cant_open = 1, wrong_sum, wrong_words, wrong_answer };

inline void must(int answer)
{
	if (answer)
		std::exit(wrong_answer);
}

// A lock lies beside what it guards, on a cache line of both.
template <class Lock> struct alignas(64) node {
	long value = 0;
	Lock lock;
};
template <class Lock> using nodes = std::vector<node<Lock>>;
struct no_lock {};

// A transaction has the lock of number k. Whether it goes on.
template <class Fn> bool has(Fn &fn, unsigned k)
{
	if constexpr (std::is_invocable_v<Fn &, unsigned>)
		return fn(k);
	return true;
}

template <class Fn> void has_each(Fn &fn, const list &it)
{
	for (unsigned k = 0; k < it.count; k++)
		has(fn, k);
}

// A mutex of the standard's, or a shared one.
inline void acquire(std::mutex &m, bool) { m.lock(); }
inline bool tries(std::mutex &m, bool) { return m.try_lock(); }
inline void release(std::mutex &m, bool) { m.unlock(); }
inline void acquire(std::shared_mutex &m, bool reads) { reads ? m.lock_shared() : m.lock(); }
inline bool tries(std::shared_mutex &m, bool reads) { return reads ? m.try_lock_shared() : m.try_lock(); }
inline void release(std::shared_mutex &m, bool reads) { reads ? m.unlock_shared() : m.unlock(); }

template <class Lock> void release_all(nodes<Lock> &all, const list &it, unsigned count)
{
	while (count-- > 0)
		release(all[it[count]].lock, it.reads(it[count]));
}

struct nothing {
	using lock = no_lock;
	explicit nothing(nodes<lock> &) {}
	struct thread {
		thread(nothing &, unsigned) {}
	};
	template <class Fn> unsigned transact(thread &, nodes<lock> &, list &it, Fn &&fn)
	{
		has_each(fn, it);
		fn();
		return 0;
	}
};

class one_mutex {
	alignas(64) std::mutex mutex;

public:
	using lock = no_lock;
	explicit one_mutex(nodes<lock> &) {}
	struct thread {
		thread(one_mutex &, unsigned) {}
	};
	template <class Fn> unsigned transact(thread &, nodes<lock> &, list &it, Fn &&fn)
	{
		std::lock_guard held(mutex);

		has_each(fn, it);
		fn();
		return 0;
	}
};

template <class Lock = std::mutex> struct sorted_mutexes {
	using lock = Lock;
	explicit sorted_mutexes(nodes<lock> &) {}
	struct thread {
		thread(sorted_mutexes &, unsigned) {}
	};
	template <class Fn> unsigned transact(thread &, nodes<lock> &all, list &it, Fn &&fn)
	{
		std::sort(it.begin(), it.end());
		for (unsigned k = 0; k < it.count; k++) {
			acquire(all[it[k]].lock, it.reads(it[k]));
			has(fn, k);
		}
		fn();
		release_all(all, it, it.count);
		return 0;
	}
};

class scoped_lock {
	template <class Fn, std::size_t... Index>
	static unsigned by(nodes<std::mutex> &all, const list &it, Fn &fn, std::index_sequence<Index...>)
	{
		std::scoped_lock held(all[it[Index]].lock...);

		has_each(fn, it);
		fn();
		return 0;
	}

public:
	using lock = std::mutex;
	explicit scoped_lock(nodes<lock> &) {}
	struct thread {
		thread(scoped_lock &, unsigned) {}
	};
	// How many mutexes it takes is fixed as it is compiled.
	template <class Fn> unsigned transact(thread &, nodes<lock> &all, list &it, Fn &&fn)
	{
		switch (it.count) {
		case 1: return by(all, it, fn, std::make_index_sequence<1>());
		case 2: return by(all, it, fn, std::make_index_sequence<2>());
		case 4: return by(all, it, fn, std::make_index_sequence<4>());
		case 8: return by(all, it, fn, std::make_index_sequence<8>());
		case 16: return by(all, it, fn, std::make_index_sequence<16>());
		default: std::exit(wrong_words);
		}
	}
};

// ww_mutex.h, as what follows asks for it; a peer has the same.
struct here {
	using class_ = ww_class;
	using mutex = ww_mutex;
	using context = ww_acquire_ctx;

	static void begin_thread() {}
	// As a program that doesn't say how many contexts there are.
	static void open(class_ &c, int is_wait_die, unsigned mutexes, unsigned)
	{
		ww_class_init(&c, is_wait_die, "bench");
		if (ww_class_limit(&c, mutexes, 0) || ww_class_open(&c))
			std::exit(cant_open);
	}
	static void close(class_ &c) { must(ww_class_free(&c)); }
	static void make(mutex &m, class_ &c) { ww_mutex_init(&m, &c); }
	static void destroy(mutex &m) { must(ww_mutex_destroy(&m)); }
	static void begin(context &x, class_ &c) { ww_acquire_init(&x, &c); }
	static int lock(mutex &m, context &x) { return ww_mutex_lock(&m, &x); }
	static void lock_slow(mutex &m, context &x) { ww_mutex_lock_slow(&m, &x); }
	static void unlock(mutex &m) { ww_mutex_unlock(&m); }
	static void end(context &x) { ww_acquire_fini(&x); }
};

// The kernel's calls as its document has them.
struct plainly {
	template <class Of, class Fn>
	static unsigned transact(typename Of::class_ &c, nodes<typename Of::mutex> &all, list &it, Fn &&fn)
	{
		typename Of::context x;
		unsigned slow = none, again = 0;

		Of::begin(x, c);
		for (;; again++) {
			int answer = 0;
			unsigned k = 0;

			if (slow != none)
				Of::lock_slow(all[slow].lock, x);
			for (; k < it.count; k++) {
				if (it[k] != slow)
					answer = Of::lock(all[it[k]].lock, x);
				if (answer || !has(fn, k))
					break;
			}
			if (k == it.count)
				break;
			const unsigned contended = it[k];

			for (unsigned held = k + !answer; held-- > 0;)
				if (it[held] != slow)
					Of::unlock(all[it[held]].lock);
			if (slow != none)
				Of::unlock(all[slow].lock);
			if (!answer) {
				Of::end(x);
				return given_up;
			}
			if (answer != -EDEADLK)
				std::exit(wrong_answer);
			slow = contended;
		}
		fn();
		for (unsigned k = it.count; k-- > 0;)
			Of::unlock(all[it[k]].lock);
		Of::end(x);
		return again;
	}
};

// The loop that backs off by itself.
struct by_loop {
	static int lock(ww_mutex &m, ww_acquire_ctx &x, bool) { return ww_mutex_lock(&m, &x); }
	static int lock(ww_shared_mutex &m, ww_acquire_ctx &x, bool reads)
	{
		return reads ? ww_shared_mutex_lock_shared(&m, &x) : ww_shared_mutex_lock(&m, &x);
	}

	// How often it began anew, or that it gave up.
	template <class Lock, class Fn>
	static unsigned acquire(ww_acquire_ctx &x, nodes<Lock> &all, const list &it, Fn &fn)
	{
		unsigned tries = 0;

		ww_until_all_locked(&x) {
			tries++;
			for (unsigned k = 0; k < it.count; k++) {
				const int answer = lock(all[it[k]].lock, x, it.reads(it[k]));

				ww_retry_on_contention(&x);
				if (answer)
					std::exit(wrong_answer);
				if (!has(fn, k))
					return given_up;
			}
		}
		return tries - 1;
	}

	template <class Of, class Fn>
	static unsigned transact(ww_class &c, nodes<typename Of::mutex> &all, const list &it, Fn &&fn)
	{
		ww_acquire_ctx x;

		ww_acquire_init(&x, &c);
		const unsigned again = acquire(x, all, it, fn);
		if (again != given_up)
			fn();
		ww_acquire_unlock_all(&x);
		ww_acquire_fini(&x);
		return again;
	}
};

// Of one class, or each thread of its own.
template <ww_kind kind, class Way, class Of = here, bool has_own = false> class mutexes {
	nodes<typename Of::mutex> &all;
	std::vector<typename Of::class_> classes;

public:
	using lock = typename Of::mutex;
	explicit mutexes(nodes<lock> &all) : all(all), classes(has_own ? now.threads : 1)
	{
		const std::size_t each = all.size() / classes.size();

		Of::begin_thread();
		for (auto &it : classes)
			Of::open(it, kind, unsigned(each), has_own ? 1 : now.threads);
		for (std::size_t k = 0; k < all.size(); k++)
			Of::make(all[k].lock, classes[k / each]);
	}
	mutexes(const mutexes &) = delete;
	~mutexes()
	{
		for (auto &it : all)
			Of::destroy(it.lock);
		for (auto &it : classes)
			Of::close(it);
	}

	struct thread {
		typename Of::class_ &its;

		thread(mutexes &of, unsigned me) : its(of.classes[has_own ? me : 0]) { Of::begin_thread(); }
	};

	template <class Fn> auto transact(thread &me, nodes<lock> &nodes, list &it, Fn &&fn)
	{
		return Way::template transact<Of>(me.its, nodes, it, fn);
	}
};

inline void pause_for(unsigned times)
{
	for (unsigned k = 0; k < times; k++)
#if defined(__x86_64__) || defined(__i386__)
		__builtin_ia32_pause();
#else
		__asm__ volatile("" ::: "memory");
#endif
}

inline std::atomic<bool> stops;

// The one that keeps the time waits for a processor if threads at its own real-time priority have them all.
inline void goes_first()
{
	sched_param its;
	int policy;

	must(pthread_getschedparam(pthread_self(), &policy, &its));
	if (policy != SCHED_FIFO && policy != SCHED_RR)
		return;
	its.sched_priority++;
	must(pthread_setschedparam(pthread_self(), policy, &its));
}

inline void wait_for_time(steady::time_point from)
{
	std::this_thread::sleep_until(from + std::chrono::duration<double>(now.seconds));
}

// All threads, each with its number, until the one that keeps the time returns; and how long that was.
template <class Fn, class Watch = void (*)(steady::time_point)>
std::chrono::nanoseconds run_threads(Fn &&work, Watch &&watch = wait_for_time)
{
	std::vector<std::thread> threads;
	pthread_barrier_t start;

	pthread_barrier_init(&start, nullptr, now.threads + 1);
	for (unsigned me = 0; me < now.threads; me++)
		threads.emplace_back([&, me] {
			pthread_barrier_wait(&start);
			work(me);
		});
	goes_first();
	pthread_barrier_wait(&start);
	const auto from = steady::now();
	watch(from);
	stops = true;
	const std::chrono::nanoseconds took = steady::now() - from;
	for (auto &it : threads)
		it.join();
	pthread_barrier_destroy(&start);
	return took;
}

inline unsigned number(const char *word) { return static_cast<unsigned>(std::strtoul(word, nullptr, 10)); }

// That of a table, by its name.
template <class Named, std::size_t count> const Named &engine_of(const Named (&engines)[count], std::string_view name)
{
	for (const Named &it : engines)
		if (name == it.name)
			return it;
	std::exit(wrong_words);
}

inline const char *peer_name()
{
#ifdef HAS_PEER
	return peer::name;
#else
	return "";
#endif
}

} // namespace bench
