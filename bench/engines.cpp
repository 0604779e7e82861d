/*
 * Transactions by one engine, the same for all of them: the proved locks by each
 * of their interfaces in both kinds, one mutex for all, one mutex a lock in sorted
 * order, std::scoped_lock over these, and no lock at all, for one thread.
 *
 * engines go ENGINE THREADS TAKES LOCKS SECONDS INSIDE OUTSIDE HOW: each thread
 * draws TAKES of LOCKS locks, acquires them, works for INSIDE pauses of the
 * processor, adds 1 to what each lock guards, releases all, and works for OUTSIDE
 * pauses; once they take both of two locks, threads do so in opposite orders. HOW
 * has `t` where each transaction is timed by itself, and `a` where each thread has
 * LOCKS of its own. It prints how many were done, in how many nanoseconds, how many
 * the thread did that did fewest; and where they were timed, how many nanoseconds
 * the longest wait for all locks of one took, and how many of others were begun and
 * ended meanwhile.
 *
 * engines contexts ENGINE TAKES LOCKS TIMES makes so many by one thread, and prints
 * nothing: for who counts what they do. engines open CONTEXTS LOCKS prints the bytes
 * of the heap that an open class has, those that are resident, and the milliseconds
 * of opening it. engines use CLASSES prints the bytes that are resident of each of so many
 * classes that say nothing, and that one thread uses, and its milliseconds. engines peer
 * prints the name of the peer, if there is one.
 */
#include <algorithm>
#include <array>
#include <atomic>
#include <cerrno>
#include <chrono>
#include <cstdint>
#include <cstdio>
#include <cstdlib>
#include <malloc.h>
#include <string_view>
#include <unistd.h>
#include <vector>
#include <ww_number.h>
#include "engines.hpp"

namespace {

using namespace bench;

struct {
	unsigned locks, inside, outside;
	bool times_each, is_apart;
} load;

// How many locks there are, and those of a thread, from this one on.
unsigned all_locks() { return load.is_apart ? now.threads * load.locks : load.locks; }
unsigned first_of(unsigned thread) { return load.is_apart ? thread * load.locks : 0; }

// ww_number.h
template <ww_kind kind> class numbered {
	ww_class its;
	std::vector<std::uint32_t> numbers;

public:
	using lock = no_lock;
	explicit numbered(nodes<lock> &) : numbers(all_locks())
	{
		ww_class_init(&its, kind, "bench");
		if (ww_class_limit(&its, all_locks(), 0) || ww_class_open(&its))
			std::exit(cant_open);
		for (auto &it : numbers)
			must(ww_number_take(&it, &its));
	}
	numbered(const numbered &) = delete;
	~numbered()
	{
		for (auto it : numbers)
			must(ww_number_put(it, &its));
		must(ww_class_free(&its));
	}

	struct thread {
		thread(numbered &, unsigned) {}
	};

	template <class Fn> void transact(thread &, nodes<lock> &, list &it, Fn &&fn)
	{
		ww_acquire_ctx x;
		unsigned slow = none;

		ww_acquire_init(&x, &its);
		for (;;) {
			int answer = slow == none ? 0 : ww_number_lock(numbers[slow], &x);
			unsigned k = 0;

			for (; k < now.takes && !answer; k++)
				if (it[k] != slow)
					answer = ww_number_lock(numbers[it[k]], &x);
			if (!answer)
				break;
			if (answer != -EDEADLK)
				std::exit(wrong_answer);
			const unsigned contended = it[--k];

			while (k-- > 0)
				if (it[k] != slow)
					ww_number_unlock(numbers[it[k]], &x);
			if (slow != none)
				ww_number_unlock(numbers[slow], &x);
			slow = contended;
		}
		fn();
		for (unsigned k = now.takes; k-- > 0;)
			ww_number_unlock(numbers[it[k]], &x);
		ww_acquire_fini(&x);
	}
};

struct by_list {
	template <class, class Fn> static void transact(ww_class &c, nodes<ww_mutex> &all, list &it, Fn &&fn)
	{
		ww_acquire_ctx x;
		std::array<ww_mutex *, most_taken> wanted;

		for (unsigned k = 0; k < now.takes; k++)
			wanted[k] = &all[it[k]].lock;
		ww_acquire_init(&x, &c);
		must(ww_mutex_lock_all(&x, wanted.data(), now.takes));
		fn();
		for (unsigned k = now.takes; k-- > 0;)
			ww_mutex_unlock(wanted[k]);
		ww_acquire_fini(&x);
	}
};

void draw(unsigned me, unsigned &x, list &it)
{
	const unsigned first = first_of(me);

	it.count = now.takes;
	if (now.takes == load.locks) {
		for (unsigned k = 0; k < now.takes; k++)
			it[k] = first + (me & 1 ? load.locks - 1 - k : k);
		return;
	}
	for (unsigned k = 0; k < now.takes;) {
		x = x * 1664525u + 1013904223u;
		it[k] = first + unsigned(std::uint64_t{ x } * load.locks >> 32);
		k += std::find(it.begin(), it.begin() + k, it[k]) == it.begin() + k;
	}
}

// What a thread did, and what it waited for, where transactions are timed one by one.
struct alignas(128) tally {
	unsigned long done = 0, longest = 0, passed_by = 0;
};
struct alignas(128) counter {
	std::atomic<unsigned long> locked;
} all_threads;

class timed {
	tally &of;
	const unsigned long others = all_threads.locked.load(relaxed);
	const steady::time_point from = steady::now();

public:
	explicit timed(tally &of) : of(of) {}
	void has_all() const
	{
		const std::chrono::nanoseconds took = steady::now() - from;

		of.longest = std::max(of.longest, static_cast<unsigned long>(took.count()));
		of.passed_by = std::max(of.passed_by, all_threads.locked.fetch_add(1, relaxed) - others);
	}
};

template <class Engine> void add_to(nodes<typename Engine::lock> &all, const list &it)
{
	pause_for(load.inside);
	for (unsigned k = 0; k < now.takes; k++)
		all[it[k]].value++;
}

// Transactions of a thread, as long as this says so.
template <class Engine, class Fn>
tally work(Engine &engine, nodes<typename Engine::lock> &all, unsigned me, Fn &&goes_on)
{
	typename Engine::thread mine(engine, me);
	unsigned x = 77 * me + 1;
	list it;
	tally told;

	for (; goes_on(told.done); told.done++) {
		draw(me, x, it);
		if (load.times_each) {
			const timed wait(told);

			engine.transact(mine, all, it, [&] {
				wait.has_all();
				add_to<Engine>(all, it);
			});
		} else {
			engine.transact(mine, all, it, [&] { add_to<Engine>(all, it); });
		}
		pause_for(load.outside);
	}
	return told;
}

// The sum of all values has to be that of what was done.
template <class Engine> void go()
{
	nodes<typename Engine::lock> all(all_locks());
	std::vector<tally> tallies(now.threads);
	tally most;
	unsigned long done = 0, fewest = ~0ul;
	long sum = 0;
	Engine engine(all);

	const auto took = run_threads([&](unsigned me) {
		tallies[me] = work(engine, all, me, [](unsigned long) { return !stops.load(relaxed); });
	});
	for (const tally &it : tallies) {
		done += it.done;
		fewest = std::min(fewest, it.done);
		most.longest = std::max(most.longest, it.longest);
		most.passed_by = std::max(most.passed_by, it.passed_by);
	}
	for (const auto &it : all)
		sum += it.value;
	if (sum != static_cast<long>(done * now.takes))
		std::exit(wrong_sum);
	std::printf("%lu %lld %lu", done, static_cast<long long>(took.count()), fewest);
	if (load.times_each)
		std::printf(" %lu %lu", most.longest, most.passed_by);
	std::puts("");
}

template <class Engine> void contexts(unsigned long times)
{
	nodes<typename Engine::lock> all(all_locks());
	Engine engine(all);

	work(engine, all, 0, [times](unsigned long done) { return done < times; });
}

struct named {
	const char *name;
	void (*go)();
	void (*contexts)(unsigned long);
};
template <class Engine> constexpr named as(const char *name) { return { name, go<Engine>, contexts<Engine> }; }

constexpr named engines[]{
	as<nothing>("nothing"),
	as<one_mutex>("one mutex"),
	as<sorted_mutexes<>>("sorted"),
	as<scoped_lock>("scoped_lock"),
	as<numbered<wound_wait>>("numbered wound-wait"),
	as<numbered<wait_die>>("numbered wait-die"),
	as<mutexes<wound_wait, plainly>>("plain wound-wait"),
	as<mutexes<wait_die, plainly>>("plain wait-die"),
	as<mutexes<wound_wait, by_loop>>("loop wound-wait"),
	as<mutexes<wait_die, by_loop>>("loop wait-die"),
	as<mutexes<wound_wait, by_list>>("list wound-wait"),
	as<mutexes<wait_die, by_list>>("list wait-die"),
	as<mutexes<wound_wait, plainly, here, true>>("own class wound-wait"),
	as<mutexes<wait_die, plainly, here, true>>("own class wait-die"),
#ifdef HAS_PEER
	as<mutexes<wound_wait, plainly, peer>>("peer wound-wait"),
	as<mutexes<wait_die, plainly, peer>>("peer wait-die"),
#endif
};

// An open class: bytes of the heap, bytes that are resident, and milliseconds.
std::size_t heap()
{
	const auto told = mallinfo2();

	return told.uordblks + told.hblkhd;
}

std::size_t resident()
{
	unsigned long pages = 0;
	std::FILE *told = std::fopen("/proc/self/statm", "r");

	if (!told || std::fscanf(told, "%*u %lu", &pages) != 1)
		std::exit(wrong_words);
	std::fclose(told);
	return pages * static_cast<std::size_t>(sysconf(_SC_PAGESIZE));
}

void open(unsigned contexts, unsigned locks)
{
	ww_class its;
	const std::size_t heap_before = heap(), resident_before = resident();
	const auto from = steady::now();

	ww_class_init(&its, WW_WOUND_WAIT, "bench");
	if (ww_class_limit(&its, locks, contexts) || ww_class_open(&its))
		std::exit(cant_open);
	const std::chrono::duration<double, std::milli> took = steady::now() - from;
	std::printf("%zu %zu %.4f\n", heap() - heap_before, resident() - resident_before, took.count());
	here::close(its);
}

// Of so many classes that say nothing, and that one thread uses: bytes that are resident, and milliseconds, of each.
void use(unsigned many)
{
	std::vector<ww_class> classes(many);
	std::vector<ww_mutex> locks(many);
	const std::size_t before = resident();
	const auto from = steady::now();

	for (unsigned k = 0; k < many; k++) {
		ww_acquire_ctx x;

		ww_class_init(&classes[k], WW_WOUND_WAIT, "bench");
		ww_mutex_init(&locks[k], &classes[k]);
		ww_acquire_init(&x, &classes[k]);
		if (ww_mutex_lock(&locks[k], &x))
			std::exit(cant_open);
		ww_mutex_unlock(&locks[k]);
		ww_acquire_fini(&x);
	}
	const std::chrono::duration<double, std::milli> took = steady::now() - from;
	std::printf("%zu %.4f\n", (resident() - before) / many, took.count() / many);
}

} // namespace

int main(int count, char **words)
{
	const std::string_view what = count > 1 ? words[1] : "";

	if (what == "go" && count == 10) {
		const std::string_view how = words[9];

		now = { number(words[3]), number(words[4]), std::atof(words[6]), 0 };
		load = { number(words[5]), number(words[7]), number(words[8]), how.find('t') != how.npos,
			 how.find('a') != how.npos };
		engine_of(engines, words[2]).go();
	} else if (what == "contexts" && count == 6) {
		now = { 1, number(words[3]), 0, 0 };
		load = { number(words[4]), 0, 0, false, false };
		engine_of(engines, words[2]).contexts(number(words[5]));
	} else if (what == "open" && count == 4) {
		open(number(words[2]), number(words[3]));
	} else if (what == "use" && count == 3) {
		use(number(words[2]));
	} else if (what == "peer" && count == 2) {
		std::puts(peer_name());
	} else {
		return wrong_words;
	}
	return 0;
}
