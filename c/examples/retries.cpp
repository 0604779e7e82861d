// Jobs that move money between rows, which are locked by keys: a job that has to back off goes to the end of a queue with its age, and
// any thread retries it.
#include <ww_table.hpp>
#include <array>
#include <cstdio>
#include <cstdlib>
#include <deque>
#include <mutex>
#include <string>
#include <thread>
#include <vector>

static ww::mutex_class rows(ww::mutex_class::wound_wait, "rows");
static ww::lock_table table(rows);
static std::array<long, 16> money;

struct job {
	unsigned from, to;
	ww::suspended age;
};

// One try: whether the job is done. Otherwise it has its age.
static bool transfer(job &it)
{
	ww::transaction t(table, it.from, it.age); // others see this number with its keys

	for (unsigned row : { it.from, it.to }) {
		const ww::table_result r = t.lock("row/" + std::to_string(row), ww::table_mode::exclusive);

		if (r == ww::table_result::deadlock) {
			it.age = t.suspend();
			return false;
		}
		if (!is_locked(r))
			std::abort();
	}
	money[it.from]--;
	money[it.to]++;
	return true;
}

int main()
{
	std::deque<job> queue;
	std::mutex lock;
	std::vector<std::thread> threads;
	unsigned done = 0;

	for (unsigned k = 0; k < 5000; k++)
		queue.push_back({ k % 16, (k / 3 + 1) % 16, {} });
	for (unsigned k = 0; k < 4; k++)
		threads.emplace_back([&] {
			for (std::unique_lock guard(lock); !queue.empty();) {
				job it = std::move(queue.front());

				queue.pop_front();
				guard.unlock();
				const bool is_done = transfer(it);
				guard.lock();
				if (is_done)
					done++;
				else
					queue.push_back(std::move(it));
			}
		});
	for (auto &it : threads)
		it.join();
	long sum = 0;
	for (long it : money)
		sum += it;
	std::printf("retries: %u jobs are done, and the sum is %ld\n", done, sum);
	return done == 5000 && !sum ? 0 : 1;
}
