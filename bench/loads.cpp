/*
 * Loads of transactions by one engine: the proved locks by the loop of ww_mutex.h, with
 * permits and without, in both kinds; shared ones; one mutex for all; and one mutex a lock,
 * in sorted order, or each tried and all released where one isn't free. Or by tasks of one
 * event loop (polls.hpp).
 *
 * loads ENGINE WORD=NUMBER..: each thread locks the records of a list, one after another,
 * adds 1 to each, and releases all; until the time is over.
 *
 * threads, tasks    how many there are; with tasks there is one thread
 * takes, locks      how many records a list has, and of how many
 * skew              they are drawn by a zipf law of this exponent; 0: each as likely
 * hot               the first one is one of so many, and the others are among the rest
 * ring              1: a thread takes those from its own number on
 * long, often       one transaction in so many takes so many, one after another; 0: all of the
 *                   first thread
 * reads             of a hundred records it only reads so many
 * work, sleep       so many nanoseconds of work with each lock; and of sleep with all of them
 * rest              it sleeps for so many nanoseconds between two transactions
 * contexts          the class says that it has so many contexts more than threads; 0: it says no number
 * seconds           how long that goes on
 * marks             1: it tells how many were locked after 100 ms, and after each second
 *
 * It prints how many records were locked by transactions that ended in the time, in how many
 * nanoseconds; how many of these the thread locked that locked fewest; how many transactions
 * there were, and how often all of them began anew; and nanoseconds of the transaction that is
 * longer than 999 of 1,000, to a sixteenth, and of the longest. loads peer prints the name of
 * the peer, if there is one.
 */
#include <algorithm>
#include <array>
#include <atomic>
#include <chrono>
#include <climits>
#include <cmath>
#include <cstdint>
#include <cstdio>
#include <cstdlib>
#include <cstring>
#include <deque>
#include <mutex>
#include <numeric>
#include <optional>
#include <shared_mutex>
#include <string_view>
#include <thread>
#include <vector>
#include "engines.hpp"

namespace {

using namespace bench;

struct {
	unsigned tasks, locks, hot, is_ring, longer, often, work, sleep, rest, marks, contexts;
	double skew;
	unsigned pauses;
} load;

class drawing {
	std::uint64_t x;

public:
	explicit drawing(unsigned me) : x(0x9e3779b97f4a7c15u * (me + 7u)) {}
	// Below 1, and below this number.
	double part()
	{
		x ^= x << 13;
		x ^= x >> 7;
		x ^= x << 17;
		return static_cast<double>(x >> 11) * 0x1p-53;
	}
	unsigned below(unsigned count) { return static_cast<unsigned>(part() * count); }
};

// As YCSB draws it, by Gray et al., "Quickly generating billion-record synthetic databases" (1994).
class zipf {
	double count, skew, sum = 0, factor;

public:
	zipf(unsigned count, double skew) : count(count), skew(skew)
	{
		for (unsigned k = 1; k <= count; k++)
			sum += std::pow(k, -skew);
		factor = (1 - std::pow(2. / count, 1 - skew)) / (1 - (1 + std::pow(.5, skew)) / sum);
	}
	double rank(double part) const
	{
		if (part * sum < 1)
			return 0;
		if (part * sum < 1 + std::pow(.5, skew))
			return 1;
		return count * std::pow(factor * part - factor + 1, 1 / (1 - skew));
	}
};

std::optional<zipf> law;

// Its ranks are scattered over the records, for a prime has no divisor in common with their number.
unsigned of_law(drawing &by)
{
	return static_cast<unsigned>(static_cast<std::uint64_t>(law->rank(by.part())) * 2654435761u % load.locks);
}

unsigned draw_one(unsigned k, drawing &by)
{
	if (law)
		return of_law(by);
	if (load.hot && k == 0)
		return by.below(load.hot);
	return load.hot + by.below(load.locks - load.hot);
}

// The lists of a thread. Short ones are drawn beforehand, since drawing takes longer than many a transaction.
class alignas(128) lists {
	static constexpr unsigned all_threads = 65536, most = 1024, least = 16;
	unsigned me, next = 0;
	drawing by;
	std::vector<unsigned> drawn;

	bool is_long() { return load.longer && (load.often ? by.below(load.often) == 0 : me == 0); }
	void draw(unsigned *it)
	{
		for (unsigned k = 0; k < now.takes;) {
			it[k] = load.is_ring ? (me + k) % load.locks : draw_one(k, by);
			k += std::find(it, it + k, it[k]) == it + k;
		}
	}

public:
	explicit lists(unsigned me) : me(me), by(me)
	{
		drawn.resize(std::clamp(all_threads / (now.threads + load.tasks), least, most) * now.takes);
		for (unsigned k = 0; k < drawn.size(); k += now.takes)
			draw(&drawn[k]);
	}
	void give(list &it)
	{
		if (now.reads)
			it.seed = by.below(UINT_MAX);
		it.count = is_long() ? load.longer : now.takes;
		if (it.count == now.takes) {
			std::copy_n(&drawn[next], it.count, it.begin());
			next = (next + now.takes) % unsigned(drawn.size());
			return;
		}
		std::iota(it.begin(), it.end(), by.below(load.locks));
		for (unsigned &lock : it)
			lock %= load.locks;
	}
};

void sleep_for(std::uint64_t nanoseconds) { std::this_thread::sleep_for(std::chrono::nanoseconds(nanoseconds)); }

double nanoseconds_of(unsigned pauses)
{
	const auto from = steady::now();

	pause_for(pauses);
	return std::chrono::duration<double, std::nano>(steady::now() - from).count();
}

// The quickest of some goes, since others may use the processor.
double pauses_of_microsecond()
{
	constexpr unsigned pauses = 500;
	double took = nanoseconds_of(pauses);

	for (unsigned k = 0; k < 100; k++)
		took = std::min(took, nanoseconds_of(pauses));
	return 1000 * pauses / took;
}

// Asked for once, since either takes long.
const double pauses_a_microsecond = pauses_of_microsecond();
const unsigned processors = std::thread::hardware_concurrency();

// Tries each; where one isn't free releases all, and stays away at random, for up to twice as long each time.
template <class Lock = std::mutex> struct tried {
	using lock = Lock;
	explicit tried(nodes<lock> &) {}

	class thread {
		drawing by;
		unsigned longest = 1;

	public:
		thread(tried &, unsigned me) : by(me + now.threads) {}
		void begins() { longest = 1; }
		// Microseconds: it sleeps if they are many, or if others want its processor.
		void stays_away()
		{
			const double rest = by.part() * longest;

			if (longest > 16 || now.threads > processors)
				sleep_for(static_cast<std::uint64_t>(rest * 1000));
			else
				pause_for(static_cast<unsigned>(rest * pauses_a_microsecond));
			longest = std::min(longest * 2, 1024u);
		}
	};

	template <class Fn> static bool acquires(nodes<lock> &all, const list &it, Fn &fn)
	{
		for (unsigned k = 0; k < it.count; k++) {
			if (!tries(all[it[k]].lock, it.reads(it[k]))) {
				release_all(all, it, k);
				return false;
			}
			has(fn, k);
		}
		return true;
	}

	template <class Fn> unsigned transact(thread &me, nodes<lock> &all, const list &it, Fn &&fn)
	{
		unsigned again = 0;

		me.begins();
		for (; !acquires(all, it, fn); again++) {
			if (stops.load(relaxed))
				return given_up;
			me.stays_away();
		}
		fn();
		release_all(all, it, it.count);
		return again;
	}
};

// ww_mutex.h, by a class that says how many contexts it has, if the load does.
struct as_said : here {
	static void open(class_ &c, int is_wait_die, unsigned mutexes, unsigned threads)
	{
		ww_class_init(&c, is_wait_die, "bench");
		if (ww_class_limit(&c, mutexes, load.contexts ? threads + load.contexts : 0) || ww_class_open(&c))
			std::exit(cant_open);
	}
};

// ww_mutex.h without permits.
struct without_permits : here {
	static void open(class_ &c, int is_wait_die, unsigned mutexes, unsigned)
	{
		ww_class_init(&c, is_wait_die, "bench");
		if (ww_class_limit(&c, mutexes, 0) || ww_class_crowd(&c, WW_NO_CROWD) || ww_class_open(&c))
			std::exit(cant_open);
	}
};

// ww_shared.h. Each thread that reads takes a number of the class.
template <class Of> struct shared : Of {
	using mutex = ww_shared_mutex;

	static void open(ww_class &c, int is_wait_die, unsigned mutexes, unsigned threads)
	{
		Of::open(c, is_wait_die, mutexes + threads, threads);
	}
	static void make(mutex &m, ww_class &c) { ww_shared_mutex_init(&m, &c); }
	static void destroy(mutex &m) { must(ww_shared_mutex_destroy(&m)); }
};

// How many took how long, each power of two in sixteen steps.
class times {
	static constexpr unsigned steps = 16;
	std::array<unsigned, 64 * steps> of{};
	std::uint64_t most = 0;

public:
	void add(std::uint64_t nanoseconds)
	{
		const std::uint64_t it = nanoseconds + steps;
		const unsigned power = 59 - static_cast<unsigned>(__builtin_clzll(it));

		of[power * steps + (it >> power) - steps]++;
		most = std::max(most, nanoseconds);
	}
	void add(const times &others)
	{
		for (unsigned k = 0; k < of.size(); k++)
			of[k] += others.of[k];
		most = std::max(most, others.most);
	}
	std::uint64_t count() const
	{
		std::uint64_t sum = 0;

		for (unsigned it : of)
			sum += it;
		return sum;
	}
	std::uint64_t longest() const { return most; }
	// That of the one which so many of a thousand don't exceed.
	std::uint64_t of_thousand(unsigned part) const
	{
		std::uint64_t left = count() * part / 1000;
		unsigned k = 0;

		while (k + 1 < of.size() && left >= of[k])
			left -= of[k++];
		return std::min(most, (std::uint64_t{ k % steps + steps } << k / steps) - steps);
	}
};

// What a thread did. Its last transaction, which ended after the time, counts in `added` alone.
struct alignas(128) tally {
	std::atomic<unsigned long> locked{ 0 };
	unsigned long again = 0, added = 0;
	times took;

	// When it ended.
	steady::time_point ends(const list &it, unsigned times_again, steady::time_point from)
	{
		const auto end = steady::now();

		again += times_again;
		took.add(static_cast<std::uint64_t>((end - from).count()));
		if (!stops.load(relaxed))
			locked.store(locked.load(relaxed) + it.count, relaxed);
		return end;
	}
};

unsigned long locked_by(const std::vector<tally> &all)
{
	unsigned long sum = 0;

	for (const tally &it : all)
		sum += it.locked.load(relaxed);
	return sum;
}

// What a transaction does with each lock, and with all.
template <class Lock> struct task {
	nodes<Lock> &all;
	const list &it;
	tally &of;

	bool operator()(unsigned) const
	{
		pause_for(load.pauses);
		return !stops.load(relaxed);
	}
	void operator()() const
	{
		if (load.sleep)
			sleep_for(load.sleep);
		adds();
	}
	void adds() const
	{
		for (unsigned k = 0; k < it.count; k++)
			if (!it.reads(it[k])) {
				all[it[k]].value++;
				of.added++;
			}
	}
};

template <class Engine>
void work(Engine &engine, nodes<typename Engine::lock> &all, unsigned me, lists &its, tally &of)
{
	typename Engine::thread mine(engine, me);
	auto from = steady::now();
	list it;

	while (!stops.load(relaxed)) {
		its.give(it);
		const unsigned again = engine.transact(mine, all, it, task<typename Engine::lock>{ all, it, of });

		if (again != given_up)
			from = of.ends(it, again, from);
		if (load.rest) {
			sleep_for(load.rest);
			from = steady::now();
		}
	}
}

// When the time is over; and until then how many were locked at each mark, if that is asked for.
void watch(steady::time_point from, const std::vector<tally> &all, std::vector<unsigned long> &marks)
{
	for (double at = .1; load.marks && at < now.seconds; at = at < 1 ? 1 : at + 1) {
		std::this_thread::sleep_until(from + std::chrono::duration<double>(at));
		marks.push_back(locked_by(all));
	}
	wait_for_time(from);
}

// The sum of all values has to be that of what was added.
template <class Lock>
void tell(const nodes<Lock> &all, const std::vector<tally> &tallies, std::chrono::nanoseconds time,
	  const std::vector<unsigned long> &marks)
{
	unsigned long again = 0, added = 0, fewest = ULONG_MAX, sum = 0;
	times took;

	for (const tally &it : tallies) {
		again += it.again;
		added += it.added;
		fewest = std::min(fewest, it.locked.load(relaxed));
		took.add(it.took);
	}
	for (const auto &it : all)
		sum += static_cast<unsigned long>(it.value);
	if (sum != added)
		std::exit(wrong_sum);
	std::printf("%lu %lld %lu %lu %lu %lu %lu", locked_by(tallies), static_cast<long long>(time.count()), fewest,
		    took.count(), again, took.of_thousand(999), took.longest());
	for (unsigned long it : marks)
		std::printf(" %lu", it);
	std::puts("");
}

template <class Engine> void go()
{
	nodes<typename Engine::lock> all(load.locks);
	std::vector<tally> tallies(now.threads);
	std::vector<lists> its;
	std::vector<unsigned long> marks;
	Engine engine(all);

	for (unsigned me = 0; me < now.threads; me++)
		its.emplace_back(me);
	const auto time = run_threads([&](unsigned me) { work(engine, all, me, its[me], tallies[me]); },
				      [&](steady::time_point from) { watch(from, tallies, marks); });
	tell(all, tallies, time, marks);
}

#include "polls.hpp"

struct named {
	const char *name;
	void (*go)();	 /* by threads that only write */
	void (*reads)(); /* by threads that read and write */
	void (*polls)(); /* by tasks */
};
template <ww_kind kind, class Of>
constexpr named ours(const char *name, void (*polls)())
{
	return { name, go<mutexes<kind, by_loop, Of>>, go<mutexes<kind, by_loop, shared<Of>>>, polls };
}
constexpr named engines[]{
	{ "one mutex", go<one_mutex>, go<one_mutex>, poll<queues<one_for_all>> },
	{ "sorted", go<sorted_mutexes<>>, go<sorted_mutexes<std::shared_mutex>>, poll<queues<in_order>> },
	{ "tried", go<tried<>>, go<tried<std::shared_mutex>>, nullptr },
	ours<wound_wait, as_said>("ours wound-wait", poll<polled<wound_wait>>),
	ours<wait_die, as_said>("ours wait-die", poll<polled<wait_die>>),
	ours<wound_wait, without_permits>("no limit wound-wait", poll<polled<wound_wait, true>>),
	ours<wait_die, without_permits>("no limit wait-die", poll<polled<wait_die, true>>),
#ifdef HAS_PEER
	{ "peer wound-wait", go<mutexes<wound_wait, plainly, peer>>, go<mutexes<wound_wait, plainly, peer>>, nullptr },
	{ "peer wait-die", go<mutexes<wait_die, plainly, peer>>, go<mutexes<wait_die, plainly, peer>>, nullptr },
#endif
};

// The words of the command line, each of which is asked for once.
class asked {
	char **first, **last;
	int found = 0;

public:
	asked(char **first, char **last) : first(first), last(last) {}
	double real(std::string_view name, double otherwise = 0)
	{
		for (char **it = first; it < last; it++)
			if (!std::strncmp(*it, name.data(), name.size()) && (*it)[name.size()] == '=') {
				found++;
				return std::atof(*it + name.size() + 1);
			}
		return otherwise;
	}
	unsigned whole(std::string_view name, unsigned otherwise = 0)
	{
		return static_cast<unsigned>(real(name, otherwise));
	}
	bool were_all() const { return found == last - first; }
};

} // namespace

int main(int count, char **words)
{
	if (count == 2 && words[1] == std::string_view("peer")) {
		std::puts(peer_name());
		return 0;
	}
	if (count < 2)
		return wrong_words;
	asked by(words + 2, words + count);

	now = { by.whole("threads", 1), by.whole("takes", 1), by.real("seconds", 1), by.whole("reads") };
	load = { by.whole("tasks"), by.whole("locks", 1), by.whole("hot"),   by.whole("ring"), by.whole("long"),
		 by.whole("often"), by.whole("work"),     by.whole("sleep"), by.whole("rest"), by.whole("marks"),
		 by.whole("contexts"),
		 by.real("skew"),   0 };
	const unsigned longest = std::max(now.takes, load.longer);

	if (!by.were_all() || longest > std::min(most_taken, load.locks) || load.hot >= load.locks)
		return wrong_words;
	if (load.skew > 0)
		law.emplace(load.locks, load.skew);
	load.pauses = static_cast<unsigned>(load.work / 1000. * pauses_a_microsecond);
	const named &it = engine_of(engines, words[1]);
	void (*const go)() = load.tasks ? it.polls : now.reads ? it.reads : it.go;

	if (!go)
		return wrong_words;
	go();
	return 0;
}
