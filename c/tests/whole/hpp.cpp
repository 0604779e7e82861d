// Mutexes and contexts of C++ (ww_mutex.hpp): each releases itself, also where a callable throws.
// Results are passed on. With -DUNGUARDED clang has to warn.
#include "ww_mutex.hpp"
#include <algorithm>
#include <array>
#include <atomic>
#include <csignal>
#include <cstring>
#include <ctime>
#include <memory>
#include <mutex>
#include <string>
#include <thread>
#include <vector>
#include <sys/wait.h>
#include <unistd.h>

#define MUST(fact)                                                                                     \
	do {                                                                                           \
		if (!(fact)) {                                                                         \
			std::fprintf(stderr, "%s:%d: not so: %s\n", __FILE__, __LINE__, #fact);        \
			std::exit(1);                                                                  \
		}                                                                                      \
	} while (0)

using ww::context;
using ww::guard;
using ww::mutex;
using ww::mutex_class;

static DEFINE_WD_CLASS(ww_class);

struct account {
	mutex lock;
	long sum WW_GUARDED_BY(lock) = 0;
	explicit account(struct ww_class &c) : lock(c) {}
	void add(long change) WW_REQUIRES(lock) { sum += change; }
};

static long one_by_one(account &a)
{
	guard held(a.lock);
	a.add(1);
	return a.sum;
}

static void tries(account &a)
{
	if (a.lock.try_lock()) {
		a.add(-1);
		a.lock.unlock();
	}
#ifdef UNGUARDED
	a.sum = 0;
#endif
}

// The analysis takes a lock call for a success, and warns of no way in which the context releases: at its end, too.
static int by_context(struct ww_class &c, account &a)
{
	context x(c);

	if (int r = x.lock(a.lock))
		return r;
	a.add(2);
	x.unlock(a.lock);
	if (!x.try_lock(a.lock))
		return -EBUSY;
	a.add(-1);
	x.unlock_all();
	const int r = x.lock_by([&] { return x.lock(a.lock); });
	if (!r)
		a.add(1);
	return r;
}

// It sees through no loop: assert_held says what is held behind one.
static long by_a_loop(struct ww_class &c, account &a, account &b)
{
	context x(c);

	for (;;) {
		int r = x.lock(a.lock);

		if (!r)
			r = x.lock(b.lock);
		if (!r)
			break;
		MUST(r == -EDEADLK);
		x.back_off();
	}
	a.lock.assert_held();
	b.lock.assert_held();
	b.add(1);
	x.unlock(a.lock);
	return b.sum;
}

// The loop of ww_mutex.h in a template, of which no compiler warns.
template <class List> static int in_a_loop(ww_acquire_ctx *x, const List &list)
{
	int r = 0;

	ww_until_all_locked(x) {
		for (mutex *m : list) {
			r = ww_mutex_lock(m->get(), x);
			ww_retry_on_contention(x);
			if (r)
				break;
		}
	}
	return r;
}

static void lists(struct ww_class &c)
{
	account a(c), b(c), d(c);
	std::vector<mutex *> list{ &a.lock, &b.lock, &d.lock };
	std::array<mutex *, 2> twice{ &a.lock, &a.lock };
	context older(c), x(c);

	auto text = x.with_all(list, [&] {
		MUST(x.held() == 3 && !b.lock.try_lock());
		return std::make_unique<std::string>("all");
	});
	MUST(text && **text == "all" && text->get()->size() == 3 && !x.held());
	MUST(*ww::lock_all(c, list, [] { return std::make_unique<int>(3); }).operator*() == 3); // of a temporary
	const auto is_false = ww::lock_all(c, list, [] { return false; }), refused = ww::lock_all(c, twice, [] { return true; });
	MUST(is_false.has_value() && !*is_false && !is_false.value_or(true) && !refused.has_value() && !refused.value_or(false));
	MUST(ww::lock_all(c, twice, [] { return std::make_unique<int>(1); }).value_or(nullptr) == nullptr);
	MUST(ww::lock_all(c, list, [] {}).has_value() && !ww::lock_all(c, twice, [] {}).has_value());
	MUST(x.lock_all(twice) == -EALREADY && !x.held());
	MUST(ww::lock_all(c, twice, [] { return 1; }).error() == -EALREADY);
	MUST(*ww::lock_all(c, twice, [] { return 5; }, WW_IGNORE_DUPLICATES | WW_INTERRUPTIBLE) == 5);
	MUST(ww::lock_all(c, list, [] {}));
	MUST(in_a_loop(x.get(), twice) == -EALREADY && x.held() == 1);
	x.unlock_all();
	MUST(!x.lock_all(list) && x.lock_all(list) == -EINVAL && x.held() == 3);
	x.unlock_all();
#ifdef __cpp_exceptions
	try {
		(void)x.with_all(list, []() -> int { throw 7; });
		MUST(false);
	} catch (int it) {
		MUST(it == 7 && !x.held());
	}
#endif
	{
		context left(c);
		MUST(!left.lock_all(list));
	}
	MUST(!a.lock.is_locked() && !b.lock.is_locked());
	if (!c.is_wait_die)
		return;
	std::thread waits;
	{
		MUST(!older.lock_all(std::array<mutex *, 1>{ &d.lock }));
		if (x.lock(a.lock) == 0) {
			MUST(x.lock(d.lock) == -EDEADLK && x.held() == 1);
			x.back_off();
			MUST(!x.held());
		}
		waits = std::thread([&] { older.unlock_all(); });
		MUST(!x.lock(b.lock) && x.held() == 2 && !x.lock(d.lock) && x.lock(d.lock) == -EALREADY);
	}
	waits.join();
	timespec past{ 0, 0 };
	MUST(older.lock_until(d.lock, past) == -ETIMEDOUT && !older.cancel() && older.lock_interruptible(d.lock) == -EINTR);
	MUST(!x.try_lock(d.lock));
	x.unlock_all();
	x.done();
}

// After a back-off, in Wait-Die: whatever is acquired first is instead of the wait, and that has its time.
static void backs_off(struct ww_class &c) WW_NO_SAFETY_ANALYSIS
{
	mutex a(c), b(c), d(c);
	context older(c), x(c);
	timespec now;

	MUST(!older.lock(a) && !x.lock(b) && x.lock(a) == -EDEADLK);
	x.back_off();
	MUST(!clock_gettime(CLOCK_MONOTONIC, &now) && x.lock_until(b, now) == -ETIMEDOUT && !x.held());
	MUST(x.try_lock(d) && !x.try_lock(a) && !x.lock(b) && x.held() == 2);
}

// What is found on the way may be told twice. After a back-off a walk starts again; where it fails it holds nothing.
static void walks(struct ww_class &c)
{
	mutex_class other(mutex_class::wait_die, "other");
	mutex a(c), b(c), d(c), strange(other);
	mutex *way[] = { &a, &b, &a, &d, nullptr };
	context older(c), x(c);
	unsigned at = 0, begun = 0;
	auto next = [&](bool starts) {
		if (starts) {
			at = 0;
			begun++;
			older.unlock_all();
		}
		return way[at++];
	};

	MUST(*x.with_walk(next, [&] { return x.held(); }) == 3 && !x.held() && begun == 1);
	MUST(ww::lock_walk(c, next, [&] { MUST(a.is_locked() && b.is_locked() && d.is_locked()); }) && !d.is_locked());
	MUST(!x.lock_walk(next) && x.held() == 3 && x.lock_walk(next) == -EINVAL && x.held() == 3 && begun == 3);
	x.unlock_all();
	way[3] = &strange;
	MUST(x.lock_walk(next) == -EINVAL && !x.held() && x.with_walk(next, [] { return 1; }).error() == -EINVAL);
#ifdef __cpp_exceptions
	try {
		(void)x.lock_walk([&](bool starts) { return starts ? &b : throw 7; });
		MUST(false);
	} catch (int it) {
		MUST(it == 7 && !x.held() && !b.is_locked());
	}
#endif
	way[3] = &d;
	way[0] = nullptr;
	MUST(!x.lock_walk(next) && !x.held());
	way[0] = &a;
	if (!c.is_wait_die)
		return;
	begun = 0;
	auto takes_before = [&](bool starts) WW_NO_SAFETY_ANALYSIS {
		mutex *told = next(starts);

		MUST(!starts || begun > 1 || !older.lock(d));
		return told;
	};
	MUST(*x.with_walk(takes_before, [&] { return x.held(); }) == 3 && begun == 2);
}

// Each scope releases what it acquired, though a mutex amid these was released before, and an exception passes.
static void scopes(struct ww_class &c) WW_NO_SAFETY_ANALYSIS
{
	constexpr unsigned count = 20;
	std::vector<std::unique_ptr<mutex>> all;
	std::vector<mutex *> list;
	auto are_locked = [&] { return std::count_if(all.begin(), all.end(), [](auto &it) { return it->is_locked(); }); };
	auto holds_all_but_one = [&]() WW_NO_SAFETY_ANALYSIS {
		context x(c);

		for (mutex *m : list)
			MUST(!x.lock(*m));
		x.unlock(*all[count / 2]);
		MUST(are_locked() == count - 1);
#ifdef __cpp_exceptions
		throw 7;
#endif
	};

	for (unsigned k = 0; k < count; k++)
		list.push_back(all.emplace_back(std::make_unique<mutex>(c)).get());
#ifdef __cpp_exceptions
	try {
		holds_all_but_one();
	} catch (int it) {
		MUST(it == 7);
	}
#else
	holds_all_but_one();
#endif
	MUST(!are_locked());
	{
		std::scoped_lock two(*all[0], *all[1]);
		std::unique_lock<mutex> third(*all[2], std::try_to_lock), in_vain(*all[1], std::try_to_lock);
		MUST(third && !in_vain && are_locked() == 3);
	}
	MUST(!are_locked() && *ww::lock_all(c, std::vector<mutex *>(), [&] { return are_locked(); }) == 0);
	list.push_back(list[0]);
	MUST(*ww::lock_all(c, list, [&] { return are_locked(); }, WW_IGNORE_DUPLICATES) == count && !are_locked());
}

static mutex_class lasting(mutex_class::wait_die, "lasting");
static mutex held_at_a_fork(lasting);

template <class Runs> static int status_of_child(Runs &&runs)
{
	int status = 1;
	const pid_t child = fork();

	if (!child) {
		runs();
		std::exit(0);
	}
	MUST(child > 0 && waitpid(child, &status, 0) == child);
	return status;
}

static void leaves_a_held_one() WW_NO_SAFETY_ANALYSIS
{
	mutex_class c(mutex_class::wait_die, "of a child");
	mutex left(c);

	left.lock();
}

// As many as are said at run time, each of which gets its number at its first lock, or at once.
static void arrays()
{
	mutex_class c(mutex_class::wound_wait, "arrays");

	MUST(!c.limit(65, 4));
	for (unsigned k = 0; k < 2; k++) {
		ww::mutex_array many(c, 1000), none(c, 0), one(c, 1, ww::numbered);
		ww::shared_mutex_array shared(c, 10);
		std::vector<mutex *> list;
		context x(c);

		for (mutex &m : many)
			if (list.size() < 40)
				list.push_back(&m);
		MUST(many.size() == 1000 && none.begin() == none.end() && &many[999] + 1 == many.end() && !x.lock_all(list));
		MUST(many[39].is_locked() && !many[40].is_locked() && !x.lock_shared(shared[9]) && !x.lock_shared(shared[0]));
		x.unlock_all();
		const ww::mutex_array few(c, 9);
		MUST(*x.with_all(few, [&] { return x.held(); }) == 9 && *x.with_all(shared, [&] { return x.held(); }) == 10 && !x.held());
	}
	MUST(!ww_class_free(&static_cast<struct ww_class &>(c)));
}

// Whoever has the loop is told whether to come again, with the same context.
static void tries() WW_NO_SAFETY_ANALYSIS
{
	mutex_class c(mutex_class::wait_die, "tries");
	mutex a(c), b(c);
	context x(c), y(c);

	MUST(!x.lock(a) && !y.lock(b) && y.lock(a) == -EDEADLK && y.contended() && y.end_try() && !y.contended() && !y.held());
	x.unlock_all();
	MUST(!y.lock(b) && y.held() == 2 && a.is_locked() && !y.end_try() && !y.held() && !a.is_locked());
}

// A message that ends the program comes to a function of its own.
static void reports()
{
	const auto runs_one_twice = [] {
		const char *const expected = "ww_acquire_fini: the context has ended, or was never begun (ww_acquire_init)";
		auto exits = [expected](const char *message) { std::_Exit(std::strcmp(message, expected) != 0); };
		ww_acquire_ctx ended = {};

		ww::report_to(exits);
		ww_acquire_fini(&ended);
	};
	MUST(!status_of_child(runs_one_twice));
}

// A result without a value ends the program where the value is read.
static void reads_no_value()
{
	const auto reads_it = [] {
		mutex_class c(mutex_class::wound_wait, "of a child");
		mutex a(c);

		fclose(stderr);
		std::_Exit(*ww::lock_all(c, { &a, &a }, [] { return 0; }));
	};
	const int status = status_of_child(reads_it);

	MUST(WIFSIGNALED(status) && WTERMSIG(status) == SIGABRT);
}

// A child ends as others do, whatever threads held that aren't there, and also where memory goes that is held.
static void forks()
{
	held_at_a_fork.lock();
	MUST(!status_of_child([] {}));
	held_at_a_fork.unlock();
	MUST(!status_of_child(leaves_a_held_one));
}

// Files may be initialized in any order, and end in any: the first constructor and the last destructor use what others have.
namespace {
extern mutex_class later;
extern mutex of_later;

struct first_and_last {
	const pid_t program = getpid(); // a forked child may lock none of them that were in use
	const bool tried;
	first_and_last() : tried(of_later.try_lock())
	{
		if (tried)
			of_later.unlock();
	}
	~first_and_last()
	{
		if (getpid() == program)
			guard held(of_later);
	}
} first_and_last;

mutex of_later(later);
mutex_class later(mutex_class::wait_die, "later");
} // namespace

static void in_any_order()
{
	context x(later);

	MUST(first_and_last.tried && !x.lock_all(std::array<mutex *, 1>{ &of_later }) && x.held() == 1);
}

// As the program ends, another thread holds this one, and goes on.
static mutex held_at_the_end(later);

static void goes_on()
{
	std::atomic<bool> holds{ false };

	std::thread([&] {
		held_at_the_end.lock();
		holds = true;
		for (;;)
			pause();
	}).detach();
	while (!holds)
		std::this_thread::yield();
}

static void storm(struct ww_class &c)
{
	constexpr int threads = 6, times = 3000, count = 8;
	std::vector<std::unique_ptr<account>> accounts;
	std::vector<std::thread> workers;

	for (int k = 0; k < count; k++)
		accounts.push_back(std::make_unique<account>(c));
	for (int k = 0; k < threads; k++)
		workers.emplace_back([&, k] {
			unsigned x = 77u * unsigned(k) + 5;

			for (int i = 0; i < times; i++) {
				x = x * 1664525u + 1013904223u;
				account &from = *accounts[x >> 8 & 7], &to = *accounts[x >> 16 & 7], &third = *accounts[x >> 24 & 7];
				mutex *list[] = { &from.lock, &to.lock, &third.lock };
				auto moves = [&]() WW_REQUIRES(from.lock, to.lock, third.lock) {
					from.sum -= 3;
					to.sum += 2;
					return ++third.sum;
				};

				MUST(ww::lock_all(c, list, moves, WW_IGNORE_DUPLICATES));
			}
		});
	for (auto &it : workers)
		it.join();
	long all = 0;
	for (auto &it : accounts) {
		guard held(it->lock);
		all += it->sum;
	}
	MUST(!all);
}

// Each lock call of a context that didn't begin in time returns that, and acquires nothing; what releases does nothing.
static void never_began(context &x, mutex &m, ww::shared_mutex &s) WW_NO_SAFETY_ANALYSIS
{
	const timespec past{};
	const auto adds = [&] { return x.lock(m); };

	MUST(x.error() == -ETIMEDOUT && x.lock(m) == -ETIMEDOUT && !x.try_lock(m));
	MUST(x.lock_until(m, past) == -ETIMEDOUT && x.lock_interruptible(m) == -ETIMEDOUT && x.lock_by(adds) == -ETIMEDOUT);
	MUST(x.lock(s) == -ETIMEDOUT && x.lock_shared(s) == -ETIMEDOUT && !x.try_lock(s) && !x.try_lock_shared(s));
	x.back_off();
	x.unlock_all();
	x.done();
	MUST(!x.held() && x.cancel() == -EINVAL);
}

// What ends a wait: a time in each way, a cancel of the class, also of waits for a context; and nothing is held then.
static void ends() WW_NO_SAFETY_ANALYSIS
{
	using namespace std::chrono_literals;
	mutex_class c(mutex_class::wound_wait, "c");
	MUST(!c.limit(8, 2) && c.stats().lock_waits == 0);
	mutex a(c), b(c, ww::numbered);
	ww::shared_mutex s(c);
	std::vector<mutex *> list{ &b, &a };
	auto next = [&](bool starts) { return starts ? &b : b.is_locked() && !c.stats().permit_waits ? &a : nullptr; };
	const auto soon = [] { return std::chrono::steady_clock::now() + 1ms; };
	using hour = std::chrono::time_point<std::chrono::steady_clock, std::chrono::hours>;

	a.name("a");
	MUST(ww::limits(hour::max()).until()->tv_sec > 3'000'000'000 && !ww::limits(hour::min()).until()->tv_sec);
	MUST(*ww::lock_all(c, { &a, &b }, [&] { return a.is_locked() && b.is_locked(); }) && !a.is_locked());
	a.lock();
	MUST(ww::lock_all(c, list, [] {}, 1ms).error() == -ETIMEDOUT && ww::lock_all(c, { &b, &a }, [] {}, soon()).error() == -ETIMEDOUT);
	MUST(ww::lock_walk(c, next, [] {}, 1ms).error() == -ETIMEDOUT && !b.is_locked());
	MUST(ww::lock_walk(c, next, [] {}, ww::limits(-1h)).error() == -ETIMEDOUT && !b.try_lock_for(-1s) == false);
	b.unlock();
	MUST(!a.try_lock_for(1ms) && !a.try_lock_until(soon()) && !std::unique_lock<mutex>(a, 1ms));
	{
		context x(c, 1ms), too_late(c, 1ms);
		MUST(!x.error() && !x.lock(b) && x.lock(a) == -ETIMEDOUT && x.held() == 1);
		MUST(too_late.error() == -ETIMEDOUT && too_late.lock(b) == -ETIMEDOUT && too_late.lock_all({ &b }) == -ETIMEDOUT);
		MUST(too_late.with_all({ &b }, [] {}).error() == -ETIMEDOUT && too_late.lock_walk(next) == -ETIMEDOUT);
		never_began(too_late, a, s);
	}
	{
		context x(c, ww::limits(std::chrono::hours::max(), WW_IGNORE_DUPLICATES));
		const auto before = c.stats().lock_waits;
		std::thread waits([&] { MUST(x.lock_all({ &b, &b, &a }) == -EINTR && !x.held()); });

		while (c.stats().lock_waits == before)
			std::this_thread::yield();
		c.cancel();
		waits.join();
		MUST(context(c, WW_INTERRUPTIBLE).error() == -EINTR && x.lock(b) == 0);
	}
	a.unlock();
	MUST(!context(c, WW_INTERRUPTIBLE).lock(a));
}

// Readers beside each other, an upgrade, and a writer that only reads in the end; by a callable that runs again after a back-off.
// The locks are what the callable acquires, with the context's limits; one that gives up holds nothing, and nothing is called.
static void by_callables(mutex_class &c)
{
	account a(c), b(c);
	const auto both = [&](context &x) {
		if (const int r = x.lock(a.lock))
			return r;
		return a.sum ? 1 : x.lock(b.lock);
	};
	const auto twice = [&](context &x) {
		const int r = x.lock(b.lock);

		return r ? r : x.lock(b.lock);
	};
	const auto adds = [&] {
		a.lock.assert_held();
		b.lock.assert_held();
		return a.sum += ++b.sum;
	};

	MUST(*ww::lock_by(c, both, adds) == 1 && !a.lock.is_locked() && !b.lock.is_locked());
	MUST(ww::lock_by(c, both, adds).error() == 1 && !a.lock.is_locked());
	MUST(ww::lock_by(c, twice, [] {}).error() == -EALREADY && ww::lock_by(c, twice, [] {}, WW_IGNORE_DUPLICATES));
	guard held(b.lock);
	MUST(ww::lock_by(c, twice, [] {}, std::chrono::milliseconds(1)).error() == -ETIMEDOUT);
}

// Each error of these calls has words of its own, none of which are those of a disk.
static void messages()
{
	std::vector<std::string> all{ ww::message(0), ww::message(-EPERM) };

	for (int error : { EDEADLK, EALREADY, EINTR, ETIMEDOUT, ENOSPC, ENOMEM, EBUSY, EINVAL }) {
		MUST(std::find(all.begin(), all.end(), ww::message(-error)) == all.end() && std::strerror(error) != std::string(ww::message(-error)));
		all.emplace_back(ww::message(-error));
	}
	mutex_class few(mutex_class::wait_die, "few");
	MUST(!few.limit(1, 0));
	mutex one(few), other(few);
	MUST(ww::lock_all(few, { &one }, [] {}));
	MUST(std::string(ww::message(ww::lock_all(few, { &other }, [] {}).error())).find("mutexes of the class are in use") != std::string::npos);
}

static void readers(mutex_class &c)
{
	ww::shared_mutex a(c), b(c, ww::numbered);
	std::atomic<long> runs{ 0 };
	struct {
		long of WW_GUARDED_BY(a);
	} sum = { 0 };

	{
		context x(c), y(c, std::chrono::milliseconds(0));

		MUST(!x.lock_shared(a) && !y.lock_shared(a) && y.lock(a) == -ETIMEDOUT && !y.try_lock(a) && y.try_lock_shared(b));
		MUST(a.is_locked() && b.is_locked());
		y.unlock_all();
		MUST(a.is_locked() && !b.is_locked());
		MUST(!x.lock(a) && !y.try_lock_shared(a) && y.lock_shared(a) == -ETIMEDOUT);
		x.downgrade(a);
		MUST(y.try_lock_shared(a) && x.held() == 1);
	}
	const auto adds = [&] {
		for (int k = 0; k < 500; k++) {
			context x(c);
			const auto both = [&] {
				runs += !k;
				if (const int r = x.lock_shared(a))
					return r;
				return k % 2 ? x.lock(b) : x.lock(a);
			};

			MUST(k % 2 ? !x.lock_by(both) : bool(x.with(both, [&] { x.assert_writes(a), sum.of++; })));
		}
	};
	std::thread other(adds);

	adds();
	other.join();
	context x(c);
	MUST(!x.lock_shared(a));
	x.assert_reads(a);
	MUST(sum.of == 500 && runs >= 2);
}

// One that goes while a context that has read it reads something: its number comes again once the context is through, and so the
// class is freed.
static void goes_while_it_is_read()
{
	mutex_class few(mutex_class::wound_wait, "few");

	MUST(!few.limit(8, 4));
	for (int round = 0; round < 20; round++) {
		context x(few);

		for (int k = 0; k < 9; k++) {
			ww::shared_mutex goes(few);

			MUST(x.lock_shared(goes) == (k < 8 ? 0 : -ENOSPC)); // it reads all that there are
		}
	}
	MUST(!ww_class_free(&static_cast<struct ww_class &>(few)));
}

int main()
{
	for (auto kind : { mutex_class::wound_wait, mutex_class::wait_die }) {
		mutex_class own(kind, "own");

		MUST(!own.limit(32, 8) && !own.open() && own.limit(1, 1) == -EBUSY);
		{
			account a(own);
			MUST(one_by_one(a) == 1 && !by_context(own, a) && one_by_one(a) == 4);
			account b(own);
			MUST(by_a_loop(own, a, b) == 1 && !a.lock.is_locked() && !b.lock.is_locked());
			tries(a);
			MUST(one_by_one(a) == 4);
			std::lock_guard<mutex> held(a.lock);
			MUST(a.lock.is_locked() && !a.lock.try_lock());
		}
		lists(own);
		walks(own);
		scopes(own);
		readers(own);
		by_callables(own);
		storm(own);
	}
	ends();
	goes_while_it_is_read();
	messages();
	lists(ww_class);
	backs_off(ww_class);
	forks();
	reads_no_value();
	reports();
	tries();
	arrays();
	in_any_order();
	goes_on();
	MUST(!ww_class_free(&ww_class));
	std::puts("hpp: each released itself");
}
