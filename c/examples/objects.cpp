// Objects with a mutex of their own, found on the way, in C++: each buffer names the one that it was copied from, and a
// thread acquires a buffer and its origins, which others acquire from other ends.
#include <ww_mutex.hpp>
#include <cstdio>
#include <deque>
#include <thread>
#include <vector>

namespace {

using ww::mutex;

struct buffer {
	mutex lock;
	buffer *origin WW_GUARDED_BY(lock) = nullptr;
	unsigned long count WW_GUARDED_BY(lock) = 0;
	explicit buffer(ww::mutex_class &c) : lock(c) {}
};

// Tells the mutexes of a buffer and its origins, at most five, and keeps these. A ring ends where it comes back to the first.
class chain {
	buffer *first_;
	std::vector<buffer *> found_;

	mutex *keep(buffer *it)
	{
		found_.push_back(it);
		return &it->lock;
	}

public:
	explicit chain(buffer *first) : first_(first) {}
	mutex *operator()(bool starts)
	{
		if (starts) {
			found_.clear();
			return keep(first_);
		}
		found_.back()->lock.assert_held();
		buffer *next = found_.back()->origin;
		return next && next != first_ && found_.size() < 5 ? keep(next) : nullptr;
	}
	const std::vector<buffer *> &found() const { return found_; }
};

bool works(ww::mutex_class &c, std::deque<buffer> &all, unsigned x)
{
	for (int k = 0; k < 5000; k++) {
		x = x * 1664525u + 1013904223u;
		chain from(&all[(x >> 8) % all.size()]);

		auto done = ww::lock_walk(c, from, [&] {
			for (buffer *it : from.found()) {
				it->lock.assert_held();
				it->count++;
			}
			from.found().back()->lock.assert_held();
			from.found().back()->origin = &all[(x >> 20) % all.size()];
		});
		if (!done)
			return false;
	}
	return true;
}

} // namespace

int main()
{
	ww::mutex_class c(ww::mutex_class::wound_wait, "buffers");
	std::deque<buffer> all;
	std::vector<std::thread> threads;
	bool right[4];
	unsigned long sum = 0;

	for (int k = 0; k < 50; k++)
		all.emplace_back(c);
	for (unsigned me = 0; me < 4; me++)
		threads.emplace_back([&, me] { right[me] = works(c, all, 13 * me + 7); });
	for (auto &it : threads)
		it.join();
	for (auto &it : all) {
		ww::guard held(it.lock);
		sum += it.count;
	}
	for (bool it : right)
		if (!it)
			return 1;
	std::printf("objects in C++: %s\n", sum >= 20000 ? "each transaction got its buffers" : "some are missing");
	return sum < 20000;
}
