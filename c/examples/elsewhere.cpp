// elsewhere.cpp - one transfer with std::scoped_lock, and with a context: ../PORTING.md has the lines side by side.
#include <ww_mutex.hpp>
#include <cstdio>
#include <deque>
#include <mutex>
#include <thread>
#include <vector>

namespace {

struct plain {
	std::mutex lock;
	long money = 100;
};

ww::mutex_class accounts(ww::mutex_class::wound_wait, "accounts");

struct account {
	ww::mutex lock{ accounts, ww::numbered };
	long money = 100;
};

void transfer(plain &from, plain &to, long amount)
{
	std::scoped_lock held(from.lock, to.lock);

	from.money -= amount;
	to.money += amount;
}

bool transfer(account &from, account &to, long amount)
{
	auto done = ww::lock_all(accounts, { &from.lock, &to.lock }, [&] {
		from.money -= amount;
		to.money += amount;
	});

	return bool(done);
}

} // namespace

int main()
{
	std::deque<plain> before(8);
	std::deque<account> after(8);
	std::vector<std::thread> threads;
	bool right[4];
	long sum = 0;

	for (unsigned me = 0; me < 4; me++)
		threads.emplace_back([&, me] {
			right[me] = true;
			for (unsigned k = 0, x = me; k < 20000; k++) {
				const unsigned from = (x = x * 1664525u + 1013904223u) >> 29, to = (from + 1 + (x >> 20) % 7) % 8;

				transfer(before[from], before[to], 1);
				right[me] &= transfer(after[from], after[to], 1);
			}
		});
	for (auto &it : threads)
		it.join();
	for (bool it : right)
		if (!it)
			return 1;
	for (auto &it : before)
		sum += it.money;
	for (auto &it : after)
		sum += it.money;
	std::printf("elsewhere in C++: the sum is %ld\n", sum);
	return sum != 1600;
}
