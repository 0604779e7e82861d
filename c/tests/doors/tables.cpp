// Lock tables, suspended contexts and who is in the way, of C++ (ww_table.hpp, ww_mutex.hpp): what each call returns, and a storm.
#include "ww_table.hpp"
#include <array>
#include <atomic>
#include <cstdio>
#include <cstdlib>
#include <cstring>
#include <deque>
#include <memory>
#include <mutex>
#include <optional>
#include <string>
#include <thread>
#include <vector>

#define MUST(fact)                                                                                     \
	do {                                                                                           \
		if (!(fact)) {                                                                         \
			std::fprintf(stderr, "%s:%d: not so: %s\n", __FILE__, __LINE__, #fact);        \
			std::exit(1);                                                                  \
		}                                                                                      \
	} while (0)

using namespace std::chrono_literals;
using ww::context;
using ww::lock_table;
using ww::suspended;
using ww::table_mode;
using ww::table_owner;
using ww::table_result;
using ww::table_user;
using ww::transaction;

static constexpr auto shared = table_mode::shared, exclusive = table_mode::exclusive;
static constexpr auto done = table_result::done;

static ww::mutex_class rows(ww::mutex_class::wait_die, "rows");

// Of any bytes; each call's result.
static void keys()
{
	lock_table t(rows);
	transaction a(t, 1), b(t, 2);
	const std::string text = "7";
	const std::vector<std::uint16_t> numbers{ 7, 7 };

	MUST(!t.error() && !a.error() && a.owner() == 1);
	MUST(a.try_lock("7", exclusive) == done && a.try_lock(text, shared) == table_result::had && is_locked(table_result::had));
	MUST(b.try_lock(std::string_view("7"), shared) == table_result::taken && !is_locked(table_result::taken));
	MUST(b.lock({ "7x", 1 }, shared, 1ms) == table_result::timed_out);
	MUST(b.try_lock(numbers, shared) == done && a.try_lock({ numbers.data(), 4 }, shared) == done);
	MUST(a.lock(std::array<char, 0>{}, exclusive) == done && b.try_lock("", shared) == table_result::taken);
	MUST(a.unlock("7") == done && a.unlock("7") == table_result::not_held && b.try_lock("7", shared) == done);
	for (int k = 0; k <= static_cast<int>(table_result::misused); k++)
		MUST(std::strlen(ww::message(static_cast<table_result>(k))));
}

static void marks()
{
	lock_table t(rows, 3);
	transaction a(t, 1), b(t, 2);
	const auto start = a.mark();

	MUST(a.lock("1", exclusive) == done);
	const auto mark = a.mark();
	MUST(!(mark == start) && a.lock("2", shared) == done && a.lock("3", shared) == done && a.lock("2", exclusive) == done);
	MUST(b.lock("4", shared) == table_result::full);
	a.unlock_to(mark);
	MUST(a.mark() == mark && b.try_lock("2", exclusive) == done && b.try_lock("1", shared) == table_result::taken);
	a.unlock_all();
	MUST(a.mark() == start && b.try_lock("1", shared) == done);
}

// In Wait-Die a younger one would wait for an older one; it goes on with its age, in another thread.
static void ages()
{
	lock_table t(rows);
	std::optional<transaction> a(std::in_place, t, 1), b(std::in_place, t, 2);
	suspended age, other;

	MUST(age.empty() && a->lock("1", exclusive) == done && b->lock("2", exclusive) == done);
	MUST(b->lock("1", shared) == table_result::deadlock && b->try_lock("3", shared) == table_result::deadlock);
	MUST(b->counts().back_offs == 1 && !a->counts().back_offs);
	other = b->suspend();
	age = std::move(other);
	MUST(!age.empty() && other.empty() && b->error() == -EINVAL && b->lock("2", shared) == table_result::misused);
	MUST(b->unlock("2") == table_result::misused && b->mark() == ww::table_mark() && b->suspend().empty());
	b.reset();
	std::thread([&] {
		MUST(transaction(t, 3, age, 1ms).error() == -ETIMEDOUT && !age.empty());
		age.at_once();
		transaction again(t, 3, age), fresh(t, 4);
		MUST(age.empty() && !again.error() && again.lock("2", exclusive) == done && fresh.lock("4", exclusive) == done);
		MUST(fresh.lock("2", exclusive) == table_result::deadlock);
		MUST(again.lock("4", exclusive, 1ms) == table_result::timed_out);
		MUST(again.counts().back_offs == 1 && again.counts().waited_ns > 1000000 && fresh.counts().back_offs == 1);
		again.unlock_all();
		age = again.suspend();
	}).join();
	MUST(!age.empty() && rows.stats().contexts == 2);
	age = suspended();
	MUST(age.empty() && rows.stats().contexts == 1);
}

// A context of ww_mutex.hpp, which backs off by itself, keeps its age over a suspension; it says what was in the way.
static void contexts()
{
	ww::mutex a(rows), b(rows);
	context older(rows);
	suspended age, none;

	older.label(5);
	MUST(!older.lock(a));
	{
		context x(rows, none);
		MUST(!x.error() && none.empty() && !x.lock(b) && x.lock(a) == -EDEADLK);
		const auto why = x.why();
		MUST(why.at.mutex == a.get() && why.at.by.label == 5 && why.at.by.part == WW_HOLDS && x.counts().back_offs == 1);
		age = x.suspend();
		MUST(!age.empty() && x.error() == -EINVAL && x.lock(b) == -EINVAL && x.suspend().empty() && !b.is_locked());
	}
	MUST(context(rows, age, 1ms).error() == -ETIMEDOUT && !age.empty());
	// An event loop goes on by polls. A poll without a waker leaves it suspended.
	int woken = 0;
	const ww_waker waker = { [](void *, void *task) { ++*static_cast<int *>(task); }, nullptr, &woken };
	ww_seek seek = {};
	ww_acquire_ctx of_loop;
	MUST(age.resume_poll(of_loop, rows, &seek, &waker) == -EINPROGRESS && age.empty());
	MUST(age.resume_poll(of_loop, rows, &seek, nullptr) == -ETIMEDOUT && !age.empty() && !woken);
	MUST(age.resume_poll(of_loop, rows, &seek, &waker) == -EINPROGRESS);
	older.unlock_all();
	MUST(woken == 1 && !age.resume_poll(of_loop, rows, &seek, &waker) && !ww_acquire_suspend(&of_loop, age.get()) && !age.empty());
	{
		context x(rows, age), fresh(rows);
		MUST(age.empty() && !x.lock_all({ &a, &b }) && x.held() == 2);
		x.unlock_all();
		MUST(!fresh.lock(a) && !x.lock(b) && x.lock_until(a, { 0, 0 }) == -ETIMEDOUT && fresh.lock(b) == -EDEADLK);
	}
	MUST(!a.is_locked() && rows.stats().contexts == 1);
}

static void users()
{
	lock_table t(rows);
	transaction a(t, 1), b(t, 2), c(t, 3);
	std::uint64_t seen = 0;
	const auto see = [&](const table_user &it) {
		MUST(it.key == "k" && it.mode == shared && !it.waits);
		seen = 10 * seen + it.owner;
	};

	MUST(a.lock("k", shared) == done && b.lock("k", shared) == done && t.users("k", see) == 2 && seen == 21 && t.all_users(see) == 2);
	MUST(!t.users("none", see) && seen == 2121);
	/* If one hasn't expired nobody is disowned. */
	MUST(c.lock_from_expired("k", exclusive, 1ms, [](const table_user &it) { return it.owner == 1; }) == table_result::timed_out);
	MUST(c.lock_from_expired("k", exclusive, 1ms, [](const table_user &) { return true; }) == done);
	MUST(t.users("k", [](const table_user &it) { MUST(it.owner == 3 && it.mode == exclusive); }) == 1);
	MUST(a.unlock("k") == done && a.unlock("k") == table_result::not_held);
}

// The table has the contexts, by numbers.
static void owners()
{
	lock_table t(rows);

	{
		table_owner one(t, 1), two(t, 2);
		MUST(!one.error() && one.lock("1", exclusive) == done && two.lock("2", exclusive) == done);
	}
	table_owner one(t, 1), two(t, 2);
	MUST(one.lock("1", shared) == table_result::had && two.lock("1", shared) == table_result::deadlock);
	two.leave(table_owner::then::is_retried);
	MUST(two.error() == -EINVAL && two.lock("1", shared) == table_result::misused);
	MUST(table_owner(t, 3, 2, 1ms).lock("2", shared) == done);
	one.leave(table_owner::then::ends);
	one.leave(table_owner::then::ends);
	MUST(table_owner(t, 3).lock("1", shared) == done);
	table_owner(t, 3).leave(table_owner::then::ends);
	MUST(!rows.stats().contexts);
}

static void cancels()
{
	lock_table t(rows);
	transaction a(t, 1);

	MUST(a.lock("1", exclusive) == done);
	std::atomic<transaction *> waits{ nullptr };
	std::thread thread([&] {
		transaction b(t, 2);
		waits = &b;
		MUST(b.lock("1", shared) == table_result::cancelled);
		waits = nullptr;
	});
	while (!waits)
		std::this_thread::yield();
	MUST(!waits.load()->cancel());
	while (waits)
		std::this_thread::yield();
	thread.join();
}

// Jobs that any thread retries.
static void storm(struct ww_class &c)
{
	constexpr unsigned threads = 4, jobs = 3000, count = 8;
	std::array<long, count> values{};
	std::deque<std::pair<unsigned, suspended>> queue;
	std::mutex lock;
	std::vector<std::thread> workers;
	lock_table t(c);
	const auto work = [&](transaction &x, unsigned job) {
		const unsigned from = job % count, to = (job / 3 + 1) % count, read = (job / 7 + 2) % count;

		for (const auto &[key, mode] : { std::pair(read, shared), std::pair(from, exclusive), std::pair(to, exclusive) }) {
			const auto r = x.lock(std::array<unsigned, 1>{ key }, mode);
			if (!is_locked(r))
				return r;
			std::this_thread::yield();
		}
		values[from]--;
		values[to]++;
		return done;
	};

	for (unsigned k = 0; k < jobs; k++)
		queue.emplace_back(k, suspended());
	for (unsigned k = 0; k < threads; k++)
		workers.emplace_back([&] {
			for (;;) {
				std::unique_lock guard(lock);
				if (queue.empty())
					break;
				auto [job, age] = std::move(queue.front());
				queue.pop_front();
				guard.unlock();

				transaction x(t, job, age);
				const auto r = work(x, job);
				if (r == done)
					continue;
				MUST(r == table_result::deadlock);
				age = x.suspend();
				guard.lock();
				queue.emplace_back(job, std::move(age));
			}
		});
	for (auto &it : workers)
		it.join();
	long sum = 0;
	for (long value : values)
		sum += value;
	MUST(!sum && !t.all_users([](const table_user &) {}));
}

int main()
{
	static DEFINE_WW_CLASS(wound_wait);

	keys();
	marks();
	ages();
	contexts();
	users();
	owners();
	cancels();
	storm(rows);
	storm(wound_wait);
	MUST(!rows.stats().contexts && !ww_class_free(&wound_wait));
	std::puts("tables: each call returned what it should, and each sum is exact");
}
