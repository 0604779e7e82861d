/*
 * Tasks of one event loop, which wait without its thread: by the polls of ww_poll.h in both
 * kinds, with its limit of contexts and without; or by mutexes whose waiters stand in a line,
 * one a lock in sorted order, or one for all.
 *
 * It is a part of loads.cpp. An engine's `acquires` returns whether the task has all its locks;
 * if not, it is to be run again once it was woken.
 */
#pragma once
#include <ww_poll.h>

struct event_loop;

// A task, and what it does now: it waits, or runs; or sleeps with all its locks; or has ended.
struct polling {
	enum { runs, sleeps, ended } does = runs;
	bool is_ready = false, has_begun = false;
	event_loop &its;
	lists next;
	list it;
	unsigned has = 0, again = 0;
	steady::time_point from, until;
	ww_acquire_ctx context;
	ww_seek seek{};

	polling(event_loop &its, unsigned me) : its(its), next(me) {}
};

struct event_loop {
	std::deque<polling *> ready, asleep;

	void wake(polling &it)
	{
		if (it.is_ready)
			return;
		it.is_ready = true;
		ready.push_back(&it);
	}
	// The next one that is to be run, for which it may have to sleep.
	polling &next()
	{
		const auto is_over = [](const polling *it) { return steady::now() >= it->until; };

		if (ready.empty() && !asleep.empty())
			std::this_thread::sleep_until(asleep.front()->until);
		for (; !asleep.empty() && is_over(asleep.front()); asleep.pop_front())
			wake(*asleep.front());
		if (ready.empty())
			std::exit(wrong_answer);
		polling &it = *ready.front();

		ready.pop_front();
		it.is_ready = false;
		return it;
	}
};

template <ww_kind kind, bool is_unlimited = false> class polled {
	ww_class its;
	nodes<ww_mutex> &all;

	static void wake(void *loop, void *task)
	{
		static_cast<event_loop *>(loop)->wake(*static_cast<polling *>(task));
	}
	bool has_begun(polling &task, const ww_waker &waker)
	{
		if (task.has_begun)
			return true;
		const int answer = ww_acquire_init_poll(&task.context, &its, &task.seek, &waker);

		if (answer == -EINPROGRESS)
			return false;
		must(answer);
		return task.has_begun = true;
	}
	void release(polling &task)
	{
		while (task.has)
			ww_mutex_unlock(&all[task.it[--task.has]].lock);
	}

public:
	using lock = ww_mutex;
	explicit polled(nodes<lock> &all) : all(all)
	{
		ww_class_init(&its, kind, "bench");
		if (ww_class_limit(&its, load.locks, is_unlimited ? load.tasks : 0) || ww_class_open(&its))
			std::exit(cant_open);
		for (auto &it : all)
			ww_mutex_init(&it.lock, &its);
	}
	polled(const polled &) = delete;
	~polled()
	{
		for (auto &it : all)
			must(ww_mutex_destroy(&it.lock));
		must(ww_class_free(&its));
	}

	// The one at which it has to back off comes first then.
	bool acquires(polling &task)
	{
		const ww_waker waker{ wake, &task.its, &task };

		if (!has_begun(task, waker))
			return false;
		while (task.has < task.it.count) {
			const int answer = ww_mutex_lock_poll(&all[task.it[task.has]].lock, &task.context, &waker);

			if (answer == -EINPROGRESS)
				return false;
			if (answer == -EDEADLK) {
				const unsigned contended = task.has;

				release(task);
				std::swap(task.it[0], task.it[contended]);
				task.again++;
				continue;
			}
			must(answer);
			task.has++;
		}
		return true;
	}
	void ends(polling &task)
	{
		release(task);
		ww_acquire_fini(&task.context);
		task.has_begun = false;
	}
};

// A mutex of tasks, which passes it on in the order in which they came.
class queue {
	polling *owner = nullptr;
	std::deque<polling *> line;

public:
	bool acquires(polling &task)
	{
		if (owner && owner != &task)
			line.push_back(&task);
		else
			owner = &task;
		return owner == &task;
	}
	void release(polling &task)
	{
		owner = line.empty() ? nullptr : line.front();
		if (!owner)
			return;
		line.pop_front();
		task.its.wake(*owner);
	}
};

enum mutexes_of_tasks { in_order, one_for_all };

template <mutexes_of_tasks how> struct queues {
	using lock = queue;
	nodes<lock> &all;

	explicit queues(nodes<lock> &all) : all(all) {}
	static unsigned count(const polling &task) { return how == one_for_all ? 1 : task.it.count; }
	lock &of(const polling &task, unsigned k) { return all[how == one_for_all ? 0 : task.it[k]].lock; }

	bool acquires(polling &task)
	{
		if (!task.has_begun && how == in_order)
			std::sort(task.it.begin(), task.it.end());
		task.has_begun = true;
		for (; task.has < count(task); task.has++)
			if (!of(task, task.has).acquires(task))
				return false;
		return true;
	}
	void ends(polling &task)
	{
		while (task.has)
			of(task, --task.has).release(task);
		task.has_begun = false;
	}
};

// Runs the tasks until the time is over, and each has ended its transaction.
template <class Engine> class tasks_of {
	Engine &engine;
	nodes<typename Engine::lock> &all;
	tally &of;
	event_loop loop;
	std::deque<polling> tasks;
	unsigned running = 0;

	void begins(polling &it)
	{
		it.next.give(it.it);
		it.from = steady::now();
		it.again = 0;
		it.does = it.runs;
		loop.wake(it);
	}
	void ends(polling &it)
	{
		task<typename Engine::lock>{ all, it.it, of }.adds();
		engine.ends(it);
		of.ends(it.it, it.again, it.from);
		if (!stops.load(relaxed))
			return begins(it);
		it.does = it.ended;
		running--;
	}
	void has_all(polling &it)
	{
		if (!load.sleep)
			return ends(it);
		it.does = it.sleeps;
		it.until = steady::now() + std::chrono::nanoseconds(load.sleep);
		loop.asleep.push_back(&it);
	}

public:
	tasks_of(Engine &engine, nodes<typename Engine::lock> &all, tally &of) : engine(engine), all(all), of(of)
	{
		for (; running < load.tasks; running++)
			begins(tasks.emplace_back(loop, running));
	}
	// A task that sleeps may also be woken late for what it waited for before.
	void run()
	{
		while (running) {
			polling &it = loop.next();

			if (it.does == it.sleeps && steady::now() >= it.until)
				ends(it);
			else if (it.does == it.runs && engine.acquires(it))
				has_all(it);
		}
	}
};

template <class Engine> void poll()
{
	nodes<typename Engine::lock> all(load.locks);
	std::vector<tally> tallies(1);
	std::vector<unsigned long> marks;
	Engine engine(all);

	const auto time = run_threads([&](unsigned) { tasks_of<Engine>(engine, all, tallies[0]).run(); },
				      [&](steady::time_point from) { watch(from, tallies, marks); });
	tell(all, tallies, time, marks);
}
