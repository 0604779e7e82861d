/*
 * contexts WAY LOCKS TIMES: so many contexts of one thread in Wound-Wait, for who
 * counts instructions. Each is begun, acquires LOCKS locks, releases them, and ends;
 * WAY says by which calls (`ways` at the end). It needs peer.h for the way `peer`.
 */
#include <algorithm>
#include <array>
#include <cstdint>
#include <cstdlib>
#include <mutex>
#include <string_view>
#include <vector>
#include <ww_mutex.h>
#include <ww_number.h>
#include <ww_shared.h>
#include <ww_steps.h>
#if __has_include(<peer.h>)
#include <peer.h> // the kernel's code, as bench/kernel_peer compiles it for user space
#define HAS_PEER
using bench::peer;
#endif

namespace {

constexpr unsigned most = 64;

void must(bool fact)
{
	if (!fact)
		std::abort();
}

// ---- ww_mutex.h ----

ww_class objects;
// Mutexes in what they guard, as they stand in programs.
struct object {
	ww_mutex lock;
	std::uint64_t guarded;
};
std::array<object, most> all;

void open_class(unsigned contexts = 0)
{
	ww_class_init(&objects, WW_WOUND_WAIT, "objects");
	must(!ww_class_limit(&objects, most, contexts));
	for (object &it : all)
		ww_mutex_init(&it.lock, &objects);
}

// As if it stood where it is called.
[[gnu::always_inline]] inline void unlock_newest_first(unsigned k)
{
	while (k--)
		ww_mutex_unlock(&all[k].lock);
}

template <class Acquire, class Release> void by_mutex(unsigned times, Acquire acquire, Release release)
{
	while (times--) {
		ww_acquire_ctx x;

		ww_acquire_init(&x, &objects);
		acquire(&x);
		release(&x);
		ww_acquire_fini(&x);
	}
}

auto locking(unsigned k)
{
	return [k](ww_acquire_ctx *x) {
		for (unsigned n = 0; n < k; n++)
			must(!ww_mutex_lock(&all[n].lock, x));
	};
}

void plain(unsigned k, unsigned times)
{
	open_class();
	by_mutex(times, locking(k), [k](ww_acquire_ctx *) { unlock_newest_first(k); });
}

void plain_oldest_first(unsigned k, unsigned times)
{
	open_class();
	by_mutex(times, locking(k), [k](ww_acquire_ctx *) {
		for (unsigned n = 0; n < k; n++)
			ww_mutex_unlock(&all[n].lock);
	});
}

void plain_done(unsigned k, unsigned times)
{
	open_class();
	by_mutex(times, locking(k), [k](ww_acquire_ctx *x) {
		ww_acquire_done(x);
		unlock_newest_first(k);
	});
}

// It says how many contexts it has.
void plain_limited(unsigned k, unsigned times)
{
	open_class(1);
	by_mutex(times, locking(k), [k](ww_acquire_ctx *) { unlock_newest_first(k); });
}

void plain_tried(unsigned k, unsigned times)
{
	open_class();
	by_mutex(
		times,
		[k](ww_acquire_ctx *x) {
			for (unsigned n = 0; n < k; n++)
				must(ww_mutex_trylock(&all[n].lock, x));
		},
		[k](ww_acquire_ctx *) { unlock_newest_first(k); });
}

// ---- ww_number.h ----

// So many mutexes of a class, of which these are used, far apart.
std::array<std::uint32_t, most> open_numbers(unsigned locks = most)
{
	std::array<std::uint32_t, most> used{};

	ww_class_init(&objects, WW_WOUND_WAIT, "objects");
	must(!ww_class_limit(&objects, locks, 0));
	for (unsigned n = 0; n < locks; n++)
		must(!ww_number_take(&used[n / (locks / most)], &objects));
	return used;
}

template <class Release> void by_number(unsigned k, unsigned times, unsigned locks, Release release)
{
	const auto numbers = open_numbers(locks);

	by_mutex(
		times,
		[k, &numbers](ww_acquire_ctx *x) {
			for (unsigned n = 0; n < k; n++)
				must(!ww_number_lock(numbers[n], x));
		},
		[k, &numbers, release](ww_acquire_ctx *x) { release(k, numbers, x); });
}

// As if they stood where they are called.
struct newest_first {
	[[gnu::always_inline]] void operator()(unsigned k, const std::array<std::uint32_t, most> &numbers, ww_acquire_ctx *x) const
	{
		while (k--)
			ww_number_unlock(numbers[k], x);
	}
};

void numbered(unsigned k, unsigned times) { by_number(k, times, most, newest_first()); }
void numbered_of_many(unsigned k, unsigned times) { by_number(k, times, 65536, newest_first()); }

void numbered_oldest_first(unsigned k, unsigned times)
{
	by_number(k, times, most, [](unsigned count, const auto &numbers, ww_acquire_ctx *x) {
		for (unsigned n = 0; n < count; n++)
			ww_number_unlock(numbers[n], x);
	});
}

void numbered_tried(unsigned k, unsigned times)
{
	const auto numbers = open_numbers();

	by_mutex(
		times,
		[k, &numbers](ww_acquire_ctx *x) {
			for (unsigned n = 0; n < k; n++)
				must(ww_number_trylock(numbers[n], x));
		},
		[k, &numbers](ww_acquire_ctx *x) { newest_first()(k, numbers, x); });
}

void numbered_loop(unsigned k, unsigned times)
{
	const auto numbers = open_numbers();

	by_mutex(
		times,
		[k, &numbers](ww_acquire_ctx *x) {
			ww_until_all_locked(x) {
				for (unsigned n = 0; n < k; n++) {
					const int answer = ww_number_lock(numbers[n], x);

					ww_retry_on_contention(x);
					must(!answer);
				}
			}
		},
		[](ww_acquire_ctx *x) { ww_acquire_unlock_all(x); });
}

// ---- ww_mutex.h, in loops ----

auto looping(unsigned k)
{
	return [k](ww_acquire_ctx *x) {
		ww_until_all_locked(x) {
			for (unsigned n = 0; n < k; n++) {
				const int answer = ww_mutex_lock(&all[n].lock, x);

				ww_retry_on_contention(x);
				must(!answer);
			}
		}
	};
}

void loop(unsigned k, unsigned times)
{
	open_class();
	by_mutex(times, looping(k), [](ww_acquire_ctx *x) { ww_acquire_unlock_all(x); });
}

void loop_one_by_one(unsigned k, unsigned times)
{
	open_class();
	by_mutex(times, looping(k), [k](ww_acquire_ctx *) { unlock_newest_first(k); });
}

void loop_of_reads(unsigned k, unsigned times)
{
	static std::array<ww_shared_mutex, most> shared;

	ww_class_init(&objects, WW_WOUND_WAIT, "objects");
	for (ww_shared_mutex &it : shared)
		ww_shared_mutex_init(&it, &objects);
	by_mutex(
		times,
		[k](ww_acquire_ctx *x) {
			ww_until_all_locked(x) {
				for (unsigned n = 0; n < k; n++) {
					const int answer = ww_shared_mutex_lock_shared(&shared[n], x);

					ww_retry_on_contention(x);
					must(!answer);
				}
			}
		},
		[](ww_acquire_ctx *x) { ww_acquire_unlock_all(x); });
}

void lock_all(unsigned k, unsigned times)
{
	std::array<ww_mutex *, most> list;

	open_class();
	for (unsigned n = 0; n < most; n++)
		list[n] = &all[n].lock;
	by_mutex(
		times, [k, &list](ww_acquire_ctx *x) { must(!ww_mutex_lock_all(x, list.data(), k)); },
		[k](ww_acquire_ctx *) { unlock_newest_first(k); });
}

void lock_all_at_once(unsigned k, unsigned times)
{
	std::array<ww_mutex *, most> list;

	open_class();
	for (unsigned n = 0; n < most; n++)
		list[n] = &all[n].lock;
	by_mutex(
		times, [k, &list](ww_acquire_ctx *x) { must(!ww_mutex_lock_all(x, list.data(), k)); },
		[](ww_acquire_ctx *x) { ww_acquire_unlock_all(x); });
}

// One after another.
void without_context(unsigned k, unsigned times)
{
	open_class();
	while (times--)
		for (unsigned n = 0; n < k; n++) {
			must(!ww_mutex_lock(&all[n].lock, nullptr));
			ww_mutex_unlock(&all[n].lock);
		}
}

// ---- others ----

#ifdef HAS_PEER
void by_peer(unsigned k, unsigned times)
{
	static peer::class_ its;
	static std::array<peer::mutex, most> locks;

	peer::begin_thread();
	peer::open(its, WW_WOUND_WAIT, most, 1);
	for (auto &it : locks)
		peer::make(it, its);
	while (times--) {
		peer::context x;

		peer::begin(x, its);
		for (unsigned n = 0; n < k; n++)
			must(!peer::lock(locks[n], x));
		for (unsigned n = k; n--;)
			peer::unlock(locks[n]);
		peer::end(x);
	}
}
#endif

std::array<std::mutex, most> plain_mutexes;

// The list is in order as it is: what is counted is the least that sorting takes.
void sorted(unsigned k, unsigned times)
{
	std::vector<unsigned> list(k);

	for (unsigned n = 0; n < k; n++)
		list[n] = n;
	while (times--) {
		std::sort(list.begin(), list.end());
		for (unsigned n = 0; n < k; n++)
			plain_mutexes[list[n]].lock();
		for (unsigned n = k; n--;)
			plain_mutexes[list[n]].unlock();
	}
}

template <std::size_t... Index> void by_scope(unsigned times, std::index_sequence<Index...>)
{
	while (times--)
		std::scoped_lock held(plain_mutexes[Index]...);
}

void scoped(unsigned k, unsigned times)
{
	switch (k) {
	case 1: return by_scope(times, std::make_index_sequence<1>());
	case 2: return by_scope(times, std::make_index_sequence<2>());
	case 8: return by_scope(times, std::make_index_sequence<8>());
	case 32: return by_scope(times, std::make_index_sequence<32>());
	default: std::abort();
	}
}

struct way {
	std::string_view name;
	void (*contexts)(unsigned k, unsigned times);
};
constexpr way ways[]{
	{ "plain", plain },
	{ "plain_oldest", plain_oldest_first },
	{ "plain_done", plain_done },
	{ "plain_limited", plain_limited },
	{ "plain_try", plain_tried },
	{ "numbered", numbered },
	{ "numbered_oldest", numbered_oldest_first },
	{ "numbered_try", numbered_tried },
	{ "numbered_many", numbered_of_many },
	{ "numbered_loop", numbered_loop },
	{ "loop", loop },
	{ "loop_each", loop_one_by_one },
	{ "loop_reads", loop_of_reads },
	{ "lock_all", lock_all },
	{ "lock_all_at_once", lock_all_at_once },
	{ "without", without_context },
#ifdef HAS_PEER
	{ "peer", by_peer },
#endif
	{ "sorted", sorted },
	{ "scoped", scoped },
};

} // namespace

int main(int count, char **words)
{
	must(count == 4);
	for (const way &it : ways)
		if (it.name == words[1]) {
			it.contexts(unsigned(std::atoi(words[2])), unsigned(std::atoi(words[3])));
			return 0;
		}
	return 2;
}
