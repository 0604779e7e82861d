#include <ww_mutex.hpp>
#include <cstdio>
#include <cstdlib>
#include <thread>

static ww::mutex_class accounts(ww::mutex_class::wound_wait, "accounts");

struct account {
	ww::mutex lock{ accounts };
	long money = 100; // under the lock
};

static void transfer(account &from, account &to)
{
	auto done = ww::lock_all(accounts, { &from.lock, &to.lock }, [&] {
		from.money--;
		to.money++;
	});
	if (!done)
		std::abort(); // done.error() says why
}

int main()
{
	account a, b;
	std::thread one([&] { for (int k = 0; k < 100000; k++) transfer(a, b); });
	std::thread other([&] { for (int k = 0; k < 50000; k++) transfer(b, a); });

	one.join();
	other.join();
	std::printf("%ld and %ld, where -49900 and 50100 are right\n", a.money, b.money);
	return a.money != -49900 || b.money != 50100;
}
