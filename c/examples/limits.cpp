// A service that moves money between accounts: no request waits for longer than it may, and all waits end when it stops.
#include <ww_mutex.hpp>
#include <atomic>
#include <cerrno>
#include <chrono>
#include <cstdio>
#include <cstdlib>
#include <memory>
#include <thread>
#include <vector>

using namespace std::chrono_literals;

static ww::mutex_class accounts(ww::mutex_class::wound_wait, "accounts");

static std::atomic<unsigned> served{ 0 };

struct account {
	ww::mutex lock{ accounts, ww::numbered };
	long money WW_GUARDED_BY(lock) = 100;
};

// 0, or -ETIMEDOUT, or -EINTR once the service stops.
static int transfer(account &from, account &to, long amount)
{
	auto done = ww::lock_all(accounts, { &from.lock, &to.lock }, [&] {
		from.lock.assert_held();
		to.lock.assert_held();
		from.money -= amount;
		to.money += amount;
	}, 1h);
	return done.error();
}

// Serves requests, the last of which waits for an account that somebody keeps, until the service stops.
static void serves(std::vector<account> &all, account &kept, unsigned me)
{
	for (unsigned k = 0; k < 1000; k++)
		if (transfer(all[k % 8], all[(k + 1 + me) % 8], 1))
			std::abort();
	served++;
	if (transfer(kept, all[me], 1) != -EINTR)
		std::abort();
}

int main()
{
	std::vector<account> all(8);
	account kept;
	std::vector<std::thread> threads;
	{
		ww::guard held(kept.lock);

		for (unsigned me = 0; me < 4; me++)
			threads.emplace_back([&, me] { serves(all, kept, me); });
		while (served < 4)
			std::this_thread::yield();
		accounts.cancel();
		for (auto &it : threads)
			it.join();
	}
	if (!accounts.stats().lock_waits)
		std::abort();
	long sum = 0;
	for (auto &it : all) {
		ww::guard held(it.lock);
		sum += it.money;
	}
	std::printf("limits: the sum is %ld, as it was\n", sum);
	return sum == 800 ? 0 : 1;
}
