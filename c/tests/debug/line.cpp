// The debug library tells where a wrong call came through ww_mutex.hpp or ww_table.hpp: `wrong` stands in each such line.
#ifndef WW_DEBUG
#define WW_DEBUG
#endif
#include "ww_table.hpp"
#include <cerrno>
#include <cstdio>
#include <cstdlib>
#include <vector>

using ww::context;
using ww::mutex;
using ww::mutex_class;

static void must(bool fact)
{
	if (!fact)
		std::abort();
}

int main()
{
	mutex_class c(mutex_class::wait_die, "c"), d(mutex_class::wait_die, "d");
	mutex m(d);
	std::vector<mutex *> list{ &m };
	const timespec at{};
	auto next = [&](bool starts) { return starts ? &m : nullptr; };
	{
		ww::lock_table table(c);
		ww::transaction t(table, 1);

		must(t.unlock("none") == ww::table_result::not_held);	// wrong
	}
	context x(c);

	must(x.lock(m) == -EINVAL);	// wrong
	must(x.lock_interruptible(m) == -EINVAL);	// wrong
	must(x.lock_until(m, at) == -EINVAL);	// wrong
	must(x.lock_all(list) == -EINVAL);	// wrong
	must(!x.with_all(list, [] {}));	// wrong
	must(!ww::lock_all(c, list, [] {}));	// wrong
	must(x.lock_walk(next) == -EINVAL);	// wrong
	must(!x.with_walk(next, [] {}));	// wrong
	must(!ww::lock_walk(c, next, [] {}));	// wrong
	must(!ww::lock_by(c, [&](context &y) { return y.lock(m); }, [] {}));	// wrong
	must(ww_debug_faults() == 11);
	return 0;
}
