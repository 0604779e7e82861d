// ww_mutex.hpp - the mutexes and contexts of ww_mutex.h and ww_shared.h for C++17, which release themselves. Nothing here throws,
// but an array without memory, or needs exceptions. clang's -Wthread-safety knows what each call acquires.
#ifndef WW_MUTEX_HPP
#define WW_MUTEX_HPP
#if __cplusplus < 201703L
#error "ww_mutex.hpp needs C++17: compile with -std=c++17 or a later one"
#endif
#include "ww_retry.h"
#include "ww_shared.h"
#include "ww_why.h"
#include <cassert>
#include <cerrno>
#include <chrono>
#include <cstdint>
#include <initializer_list>
#include <memory>
#include <optional>
#include <type_traits>
#include <utility>

#if defined(__clang__)
#define WW_SAFETY_(...) __attribute__((__VA_ARGS__))
#else
#define WW_SAFETY_(...)
#endif
// On a variable: it is accessed only under this mutex. On a function: it is called under these.
#define WW_GUARDED_BY(mutex) WW_SAFETY_(guarded_by(mutex))
#define WW_REQUIRES(...) WW_SAFETY_(requires_capability(__VA_ARGS__))
// On a function, or behind the parameters of a lambda: clang's analysis, which can't follow how it uses data, leaves it out.
#define WW_NO_SAFETY_ANALYSIS WW_SAFETY_(no_thread_safety_analysis)

// Where the program made a call, which the debug library reports: each call here gets it from its caller.
#ifdef WW_DEBUG
#define WW_FROM_ const char *file_ = __builtin_FILE(), int line_ = __builtin_LINE()
#define WW_AND_FROM_ , WW_FROM_
#define WW_THERE_ file_, line_
#define WW_AND_THERE_ , WW_THERE_
#define WW_NOWHERE_ [[maybe_unused]] const char *file_ = nullptr; [[maybe_unused]] int line_ = 0
#undef WW_HERE_
#define WW_HERE_ ww_debug_at_(file_, line_)
#else
#define WW_FROM_
#define WW_AND_FROM_
#define WW_THERE_
#define WW_AND_THERE_
#define WW_NOWHERE_
#endif

// Combines flags of ww_acquire_flags. No number converts to a flag, so 500 for 500ms doesn't compile.
constexpr ww_flags operator|(ww_flags a, ww_flags b) noexcept
{
	return static_cast<ww_flags>(static_cast<unsigned>(a) | static_cast<unsigned>(b));
}

namespace ww {

// A class that is freed at the end of its scope, if it has no mutex and no context then; otherwise it stays open, which the
// debug library reports. A static one exists before anything runs. If threads use it that go on during the end of the
// program, use DEFINE_WW_CLASS instead, which nothing frees.
class mutex_class {
	struct ww_class it_;
	friend class mutex;
	friend class shared_mutex;

public:
	enum kind { wound_wait, wait_die };
	constexpr explicit mutex_class(kind k, const char *name = "") noexcept : it_{ nullptr, 0, 0, k == wait_die, 0, name } {}
	~mutex_class()
	{
		WW_NOWHERE_;
		ww_class_free(&it_);
	}
	mutex_class(const mutex_class &) = delete;
	mutex_class &operator=(const mutex_class &) = delete;
	// Limits how many there are at a time, as ww_class_limit does. -EINVAL: too many; -EBUSY: it is open.
	[[nodiscard]] int limit(std::uint32_t mutexes, std::uint32_t contexts WW_AND_FROM_) noexcept
	{
		return ww_class_limit(&it_, mutexes, contexts);
	}
	// How many threads begin contexts in a crowd, as by ww_class_crowd; it returns what limit does.
	[[nodiscard]] int crowd(std::uint32_t permits WW_AND_FROM_) noexcept { return ww_class_crowd(&it_, permits); }
	// Opens it now, as ww_class_open does. -ENOMEM.
	[[nodiscard]] int open() noexcept { return ww_class_open(&it_); }
	// What ww_class_stats tells.
	struct ww_class_counts stats() noexcept
	{
		struct ww_class_counts counts;

		ww_class_stats(&it_, &counts);
		return counts;
	}
	// As ww_class_cancel: from now on each wait with limits ends with -EINTR, and the class stays so until ww_class_free. Nothing else
	// is stopped: what needn't wait goes on, as do waits without limits. By a std::stop_token:
	//	std::stop_callback ends(token, [&] { c.cancel(); });
	int cancel() noexcept { return ww_class_cancel(&it_); }
	operator struct ww_class &() noexcept { return it_; }
};

// What may end a context's wait for each mutex, and for its begin: a time from its begin on (20ms), or of the steady clock; or,
// with WW_INTERRUPTIBLE, cancel() of the context or of its class, which ends a wait with a time limit, too. It also has the flags
// of ww_acquire_flags. Each of these converts to it.
class limits {
	ww_flags flags_;
	std::optional<timespec> until_;

	// As the clock counts it: none where it is less, and a century where it is more or no number.
	template <class Rep, class Period> static std::chrono::nanoseconds bounded(std::chrono::duration<Rep, Period> time)
	{
		using namespace std::chrono;
		constexpr duration<double, hours::period> century(876600);

		return time < time.zero() ? nanoseconds::zero() :
			time < century ? duration_cast<nanoseconds>(time) : duration_cast<nanoseconds>(century);
	}
	static timespec at(std::chrono::nanoseconds since) noexcept
	{
		const auto whole = std::chrono::duration_cast<std::chrono::seconds>(since);

		return { static_cast<time_t>(whole.count()), static_cast<long>((since - whole).count()) };
	}

public:
	limits(ww_flags flags = {}) noexcept : flags_(flags) {}
	// Neither a number nor a time of another clock.
	template <class T, class = std::enable_if_t<!std::is_convertible_v<T, ww_flags>>> limits(T) = delete; // a time has a unit (60s), or the steady clock
	template <class Rep, class Period> limits(std::chrono::duration<Rep, Period> timeout, ww_flags flags = {}) : flags_(flags)
	{
		until_ = at(std::chrono::steady_clock::now().time_since_epoch() + bounded(timeout));
	}
	template <class Duration> limits(std::chrono::time_point<std::chrono::steady_clock, Duration> deadline, ww_flags flags = {})
		: flags_(flags), until_(at(bounded(deadline.time_since_epoch())))
	{
	}
	ww_flags flags() const noexcept { return flags_; }
	const timespec *until() const noexcept { return until_ ? &*until_ : nullptr; }
};

struct numbered_t {
};
inline constexpr numbered_t numbered{};

// A member of the object that it protects. It doesn't move, and nobody holds it or waits for it when it is destroyed, which
// the debug library checks. Its own calls are those without a context, so std::lock_guard and std::unique_lock work with it,
// also with a time; ww::guard, unlike these, has the caller's line in reports. It gets its number at its first lock, so a static
// one exists before anything runs; and threads that go on during the end of the program may lock it after its destructor, though
// not during that. Its class outlives it: the end of a class doesn't report a mutex that was never locked.
class WW_SAFETY_(capability("mutex")) mutex {
	struct ww_mutex it_;

public:
	constexpr explicit mutex(struct ww_class &c) noexcept : it_ WW_MUTEX_INIT(&c) {}
	constexpr explicit mutex(mutex_class &c) noexcept : mutex(c.it_) {} // a row of them is a ww::mutex_array
	// It takes its number now. So where the class has too few, the program ends here with a message, and no lock of it returns
	// -ENOSPC later: for objects that are made at run time.
	mutex(mutex_class &c, numbered_t WW_AND_FROM_) noexcept { ww_mutex_init(&it_, &c.it_); }
	void name(const char *text WW_AND_FROM_) noexcept { ww_mutex_name(&it_, text); } // see ww_mutex_debug.h
	~mutex()
	{
		WW_NOWHERE_;
		ww_mutex_end_(&it_);
	}
	mutex(const mutex &) = delete; // it stays where it is: keep it by a pointer, as std::unique_ptr
	mutex &operator=(const mutex &) = delete;
	void lock(WW_FROM_) noexcept WW_SAFETY_(acquire_capability()) { ww_mutex_lock(&it_, nullptr); }
	[[nodiscard]] bool try_lock(WW_FROM_) noexcept WW_SAFETY_(try_acquire_capability(true))
	{
		return ww_mutex_trylock(&it_, nullptr);
	}
	template <class Rep, class Period>
	[[nodiscard]] bool try_lock_for(std::chrono::duration<Rep, Period> timeout WW_AND_FROM_) noexcept
		WW_SAFETY_(try_acquire_capability(true))
	{
		return !ww_mutex_lock_until(&it_, nullptr, limits(timeout).until());
	}
	template <class Duration>
	[[nodiscard]] bool try_lock_until(std::chrono::time_point<std::chrono::steady_clock, Duration> deadline WW_AND_FROM_) noexcept
		WW_SAFETY_(try_acquire_capability(true))
	{
		return !ww_mutex_lock_until(&it_, nullptr, limits(deadline).until());
	}
	void unlock(WW_FROM_) noexcept WW_SAFETY_(release_capability()) { ww_mutex_unlock(&it_); }
	bool is_locked() noexcept { return ww_mutex_is_locked(&it_); }
	// Tells clang's analysis that it is held here.
	void assert_held() noexcept WW_SAFETY_(assert_capability()) { assert(is_locked()); }
	struct ww_mutex *get() noexcept { return &it_; }
};

// As a mutex, but contexts may read what it protects concurrently (context::lock_shared), or one of them writes it. Only
// contexts lock it. One that a context reads still when it is destroyed, which the debug library reports, leaves the class when that
// context ends its reads, and nobody may lock it any more.
class WW_SAFETY_(capability("mutex")) shared_mutex {
	struct ww_shared_mutex it_;

public:
	constexpr explicit shared_mutex(struct ww_class &c) noexcept : it_ WW_SHARED_MUTEX_INIT(&c) {}
	constexpr explicit shared_mutex(mutex_class &c) noexcept : shared_mutex(c.it_) {}
	shared_mutex(mutex_class &c, numbered_t WW_AND_FROM_) noexcept { ww_shared_mutex_init(&it_, &c.it_); }
	~shared_mutex()
	{
		WW_NOWHERE_;
		ww_shared_mutex_end_(&it_);
	}
	shared_mutex(const shared_mutex &) = delete;
	shared_mutex &operator=(const shared_mutex &) = delete;
	// Whether anybody reads or writes it, or waits for it.
	bool is_locked() const noexcept { return ww_shared_mutex_is_locked(&it_); }
	struct ww_shared_mutex *get() noexcept { return &it_; }
};

// So many mutexes of a class in a row, which stay where they are: std::vector has none, since they don't move. Like a static one
// each takes its number at its first lock, or at once by `mutex_array m(c, size, ww::numbered)`. It throws std::bad_alloc, as a
// vector does.
template <class Mutex> class array_of {
	std::size_t size_;
	Mutex *first_;

public:
	template <class... Numbered>
	array_of(mutex_class &c, std::size_t size, Numbered... how) : size_(size), first_(std::allocator<Mutex>().allocate(size))
	{
		for (std::size_t k = 0; k < size; k++)
			::new (static_cast<void *>(first_ + k)) Mutex(c, how...);
	}
	~array_of()
	{
		std::destroy_n(first_, size_);
		std::allocator<Mutex>().deallocate(first_, size_);
	}
	array_of(const array_of &) = delete;
	array_of &operator=(const array_of &) = delete;
	std::size_t size() const noexcept { return size_; }
	Mutex &operator[](std::size_t k) noexcept { return first_[k]; }
	Mutex *begin() const noexcept { return first_; }
	Mutex *end() const noexcept { return first_ + size_; }
};
using mutex_array = array_of<mutex>;
using shared_mutex_array = array_of<shared_mutex>;

// Holds a mutex without a context until the end of its scope. std::lock_guard does the same, but clang doesn't see what that
// acquires.
class WW_SAFETY_(scoped_lockable) guard {
	mutex &m_;

public:
	[[nodiscard]] explicit guard(mutex &m WW_AND_FROM_) noexcept WW_SAFETY_(acquire_capability(m)) : m_(m) { m_.lock(WW_THERE_); }
	~guard() WW_SAFETY_(release_capability()) { m_.unlock(); }
	guard(const guard &) = delete;
	guard &operator=(const guard &) = delete;
};

// From now on this callable, which stays where it is, gets each message that ends the program, and each of the debug library's,
// as a const char *, instead of standard error: see ww_report_to.
template <class To> void report_to(To &to) noexcept
{
	ww_report_to([](void *data, const char *message) { (*static_cast<To *>(data))(message); }, &to);
}

// What an error of these calls means; strerror of ENOSPC would speak of a disk.
inline const char *message(int error) noexcept
{
	switch (error) {
	case -EDEADLK: return "an older context goes first: release all mutexes, and begin again";
	case -EALREADY: return "the context holds this mutex already, or the list has it twice; or a cancel is pending";
	case -EINTR: return "the wait was cancelled";
	case -ETIMEDOUT: return "the time limit came first";
	case -ENOSPC: return "all mutexes of the class are in use: 65,536, or as many as mutex_class::limit said";
	case -ENOMEM: return "there is no memory to open the class";
	case -EBUSY: return "it is in use: a class has its limits before its first use";
	case -EINVAL: return "a call was misused, which libww_debug reports, or the class was in use at a fork";
	default: return error ? "no error of these calls" : "no error";
	}
}

// What a callable returned under its locks, or the error because of which it wasn't called. The result is true if the callable was
// called. The result of a bool isn't a condition, since that could be taken for the bool: use has_value() or value_or().
template <class T> class [[nodiscard]] result {
	static_assert(!std::is_reference_v<T>, "what is returned is used without the locks: return a value, or a pointer");
	std::optional<T> value_;
	int error_ = 0;

public:
	explicit result(int error) noexcept : error_(error) {}
	result(std::in_place_t, T &&value) : value_(std::move(value)) {}
	bool has_value() const noexcept { return value_.has_value(); }
	explicit operator bool() const noexcept
	{
		static_assert(!std::is_same_v<T, bool>, "has_value(): whether it was called; value_or(false): what it returned, too");
		return has_value();
	}
	int error() const noexcept { return error_; }
	T &operator*() & noexcept { return asserted(), *value_; }
	const T &operator*() const & noexcept { return asserted(), *value_; }
	T &&operator*() && noexcept { return asserted(), std::move(*value_); }
	T *operator->() noexcept { return asserted(), &*value_; }
	template <class U> T value_or(U &&otherwise) const & { return value_.value_or(std::forward<U>(otherwise)); }
	template <class U> T value_or(U &&otherwise) && { return std::move(value_).value_or(std::forward<U>(otherwise)); }

private:
	void asserted() const noexcept { assert(has_value() && "the callable wasn't called: error() says why"); }
};
template <> class [[nodiscard]] result<void> {
	int error_;

public:
	explicit result(int error = 0) noexcept : error_(error) {}
	bool has_value() const noexcept { return !error_; }
	explicit operator bool() const noexcept { return has_value(); }
	int error() const noexcept { return error_; }
};

// The age of a context that another try goes on with, in whichever thread (context::suspend): a new context would be the youngest. It
// moves, and isn't copied; its destructor ends what is suspended. One without an age begins a new context.
class suspended {
	struct ww_retry it_ = {};

public:
	suspended() noexcept = default;
	~suspended()
	{
		WW_NOWHERE_;
		ww_retry_drop(&it_);
	}
	suspended(suspended &&from) noexcept : it_(std::exchange(from.it_, {})) {}
	suspended &operator=(suspended &&from) noexcept
	{
		const suspended before(std::move(*this));

		it_ = std::exchange(from.it_, {});
		return *this;
	}
	// Whether it has no age: none was suspended, or it went on, or half of the class's contexts were suspended.
	bool empty() const noexcept { return !it_.ticket_; }
	// It doesn't wait first for the mutex at which it got -EDEADLK: for who waited in vain, and locks others first.
	void at_once() noexcept { ww_retry_at_once(&it_); }
	struct ww_retry *get() noexcept { return &it_; }
	// For event loops: as ww_acquire_resume_poll, of a context that the loop has, and ends by ww_acquire_end.
	[[nodiscard]] int resume_poll(struct ww_acquire_ctx &x, struct ww_class &c, struct ww_seek *seek, const struct ww_waker *waker) noexcept
	{
		WW_NOWHERE_;
		return ww_acquire_resume_poll(&x, &c, &it_, seek, waker);
	}
};

// A context. Its destructor releases everything that it still holds, and ends it. If it doesn't begin in time, or is cancelled
// before, all its lock calls return that: see error().
class context {
	ww_acquire_ctx it_;
	const limits limits_;
	int error_ = 0;

	void begin_loop() noexcept
	{
		if (error_)
			return;
		ww_acquire_flags(&it_, limits_.flags());
		ww_tries_begin_(&it_);
	}

	struct releases {
		context *x;
		~releases()
		{
			if (x)
				x->unlock_all();
		}
	};

	// Acquires with `locks`, which returns the first error of a lock call, and again after each -EDEADLK. After another
	// error, and if a callable throws, it holds nothing.
	template <class Locks> int acquire(Locks &&locks)
	{
		static_assert(std::is_same_v<std::invoke_result_t<Locks>, int>,
			      "the callable returns 0 or the first error of a lock call, and not whether it succeeded");
		int r = 0;

		if (const int refused = told([&] { return it_.acquired ? -EINVAL : 0; }))
			return refused;
		releases unless_all{ this };

		ww_tries_begin_(&it_);
		do {
			ww_back_off_(&it_);
			r = locks();
		} while (ww_is_contended(&it_));
		if (!r)
			unless_all.x = nullptr;
		return r;
	}

	// What a lock call returns; of a context that didn't begin, why.
	template <class Call> int told(Call &&call) const noexcept { return error_ ? error_ : call(); }

	// An element of a list: a mutex, or a pointer to one.
	template <class Mutex> static Mutex &in(Mutex &m) noexcept { return m; }
	template <class Mutex> static Mutex &in(Mutex *m) noexcept { return *m; }

	// Calls fn under what was acquired, if that returned 0, and releases everything.
	template <class Fn> WW_NO_SAFETY_ANALYSIS auto under(int answer, Fn &&fn) -> result<std::invoke_result_t<Fn>>
	{
		using value = std::invoke_result_t<Fn>;

		if (answer)
			return result<value>(answer);
		releases at_end{ this };
		if constexpr (std::is_void_v<value>) {
			std::forward<Fn>(fn)();
			return result<void>();
		} else {
			return result<value>(std::in_place, std::forward<Fn>(fn)());
		}
	}

public:
	// If all contexts of the class are in use it waits for one, as ww_acquire_init does, or ww_acquire_init_until with limits.
	[[nodiscard]] explicit context(struct ww_class &c, limits how = {} WW_AND_FROM_) noexcept : limits_(how)
	{
		if (how.until() || how.flags() & WW_INTERRUPTIBLE)
			error_ = ww_acquire_init_until(&it_, &c, how.until());
		else
			ww_acquire_init(&it_, &c);
		begin_loop();
	}
	// With the age of what is suspended, if anything is; then it first waits for the mutex at which that got -EDEADLK. After an
	// error it is still suspended.
	[[nodiscard]] context(struct ww_class &c, suspended &age, limits how = {} WW_AND_FROM_) noexcept : limits_(how)
	{
		error_ = ww_acquire_resume(&it_, &c, age.get(), how.until());
		begin_loop();
	}
	context(struct ww_class &c, suspended &&age, limits how = {}) = delete; // give the age a name: it is still there after an error
	// Releases everything, and ends the context, whose age goes on in the result: for a retry that is another's, as end_try is for
	// one by this context. If half of the class's contexts are suspended, the age is lost. Its lock calls return -EINVAL from then on.
	[[nodiscard]] suspended suspend(WW_FROM_) noexcept
	{
		suspended age;

		if (error_)
			return age;
		ww_acquire_unlock_all(&it_);
		if (ww_acquire_suspend(&it_, age.get()))
			ww_acquire_end(&it_);
		error_ = -EINVAL;
		return age;
	}
	~context()
	{
		WW_NOWHERE_;
		if (!error_)
			ww_acquire_end(&it_);
	}
	// 0, or why it didn't begin, as it may only with limits: -ETIMEDOUT, -EINTR, -ENOMEM, or -EINVAL in a forked child.
	[[nodiscard]] int error() const noexcept { return error_; }
	context(const context &) = delete; // it stays where it began: pass it on by reference
	context &operator=(const context &) = delete;

	// 0, or -EDEADLK, -EALREADY, -EINVAL, -ENOSPC, -ENOMEM, as ww_mutex_lock; after -EDEADLK call back_off(). With limits also
	// -ETIMEDOUT and -EINTR. clang's analysis takes each lock call for a success, and only unlock for a release, since it sees
	// neither a loop nor what the context's end releases.
	[[nodiscard]] int lock(mutex &m WW_AND_FROM_) noexcept WW_SAFETY_(assert_capability(m))
	{
		return told([&] {
			return limits_.until() ? ww_mutex_lock_until(m.get(), &it_, limits_.until()) : ww_mutex_lock(m.get(), &it_);
		});
	}
	// Also -EINTR, if another thread called cancel().
	[[nodiscard]] int lock_interruptible(mutex &m WW_AND_FROM_) noexcept WW_SAFETY_(assert_capability(m))
	{
		return told([&] { return ww_mutex_lock_interruptible(m.get(), &it_); });
	}
	// Also -ETIMEDOUT.
	[[nodiscard]] int lock_until(mutex &m, const timespec &monotonic WW_AND_FROM_) noexcept WW_SAFETY_(assert_capability(m))
	{
		return told([&] { return ww_mutex_lock_until(m.get(), &it_, &monotonic); });
	}
	[[nodiscard]] bool try_lock(mutex &m WW_AND_FROM_) noexcept WW_SAFETY_(assert_capability(m))
	{
		return !told([&] { return ww_mutex_trylock(m.get(), &it_) ? 0 : -EBUSY; });
	}
	void unlock(mutex &m WW_AND_FROM_) noexcept WW_SAFETY_(assert_capability(m)) WW_SAFETY_(release_capability(m)) WW_NO_SAFETY_ANALYSIS
	{
		ww_mutex_unlock(m.get());
	}
	// The same of shared mutexes, as by ww_shared_mutex_lock_shared. All reads end with the context, or by unlock_all(). clang's
	// analysis knows of no upgrade: it is given by assert_reads and assert_writes what is held.
	[[nodiscard]] int lock_shared(shared_mutex &m WW_AND_FROM_) noexcept
	{
		return told([&] {
			return limits_.until() ? ww_shared_mutex_lock_shared_until(m.get(), &it_, limits_.until()) :
				ww_shared_mutex_lock_shared(m.get(), &it_);
		});
	}
	[[nodiscard]] bool try_lock_shared(shared_mutex &m WW_AND_FROM_) noexcept
	{
		return !told([&] { return ww_shared_mutex_trylock_shared(m.get(), &it_) ? 0 : -EBUSY; });
	}
	// Also of one that it reads: then nobody writes it in between.
	[[nodiscard]] int lock(shared_mutex &m WW_AND_FROM_) noexcept
	{
		return told([&] {
			return limits_.until() ? ww_shared_mutex_lock_until(m.get(), &it_, limits_.until()) :
				ww_shared_mutex_lock(m.get(), &it_);
		});
	}
	[[nodiscard]] bool try_lock(shared_mutex &m WW_AND_FROM_) noexcept
	{
		return !told([&] { return ww_shared_mutex_trylock(m.get(), &it_) ? 0 : -EBUSY; });
	}
	// What it writes it reads from now on, beside others.
	void downgrade(shared_mutex &m WW_AND_FROM_) noexcept { ww_shared_mutex_downgrade(m.get(), &it_); }
	void assert_reads(shared_mutex &m) const noexcept WW_SAFETY_(assert_shared_capability(m))
	{
		assert(ww_shared_mutex_is_read_by(m.get(), &it_));
		(void)m;
	}
	void assert_writes(shared_mutex &m) const noexcept WW_SAFETY_(assert_capability(m))
	{
		assert(ww_shared_mutex_is_written_by(m.get(), &it_));
		(void)m;
	}
	void unlock_all(WW_FROM_) noexcept { ww_acquire_unlock_all(&it_); }
	// After -EDEADLK: releases everything. The next lock call first waits for the contended mutex.
	void back_off() noexcept { ww_back_off_(&it_); }
	// For a retry loop that is another's, as ww_acquire_end_try: contended() is true if the last lock call returned -EDEADLK;
	// end_try() releases everything, in either case, and returns true if the try has to be made again with this context, which
	// then waits first.
	[[nodiscard]] bool contended() const noexcept { return !error_ && ww_is_contended(&it_); }
	bool end_try(WW_FROM_) noexcept { return !error_ && ww_acquire_end_try(&it_); }
	void done(WW_FROM_) noexcept
	{
		if (!error_)
			ww_acquire_done(&it_);
	}
	int cancel() noexcept { return ww_acquire_cancel(&it_); }
	// Others find it by this number; 0: none.
	void label(std::uint64_t number) noexcept { ww_acquire_label(&it_, number); }
	// Where its last call ended that returned -EDEADLK, -ETIMEDOUT or -EINTR, and who has that mutex; and which of its own another one
	// wants. To be asked before anything is released: in a callable, where a lock call fails.
	struct ww_why why() const noexcept
	{
		struct ww_why told;

		ww_acquire_why(&it_, &told);
		return told;
	}
	struct ww_acquire_counts counts() const noexcept
	{
		struct ww_acquire_counts told;

		ww_acquire_count(&it_, &told);
		return told;
	}
	unsigned held() const noexcept { return it_.acquired; }
	ww_acquire_ctx *get() noexcept { return &it_; }

	// Acquires the mutexes of a list, in any order, and backs off by itself; the context holds nothing before. The list has pointers,
	// or is an array of mutexes; shared mutexes are locked for writing. 0, or an error, after which the context holds nothing:
	// -EALREADY for a mutex that the list has twice, -EINTR, -EINVAL.
	template <class List> [[nodiscard]] int lock_all(const List &list WW_AND_FROM_)
	{
		return acquire([&] {
			for (auto &&m : list)
				if (int r = lock(in(m) WW_AND_THERE_))
					return r;
			return 0;
		});
	}

	[[nodiscard]] int lock_all(std::initializer_list<mutex *> list WW_AND_FROM_)
	{
		return lock_all<std::initializer_list<mutex *>>(list WW_AND_THERE_);
	}

	// The same by a callable, which acquires what it likes by calls of this context, and returns the first error of these, or 0; or a
	// number above 0 to give up. It runs again after each -EDEADLK, with nothing held; the contended mutex must still exist then.
	template <class Locks> [[nodiscard]] int lock_by(Locks &&locks) { return acquire(std::forward<Locks>(locks)); }

	// The same for mutexes that are found while others are held: next(restart) returns the next mutex, or nullptr at the end.
	// It may read what is protected by mutexes that it returned since restart was last true, and return one of these again.
	// After a back-off restart is true. The next lock first waits for the contended mutex, so that must still exist.
	template <class Next> [[nodiscard]] int lock_walk(Next &&next WW_AND_FROM_)
	{
		return acquire([&] {
			for (mutex *m = next(true); m; m = next(false)) {
				const int r = lock(*m WW_AND_THERE_);

				if (r && r != -EALREADY)
					return r;
			}
			return 0;
		});
	}

	// Both, and then they call fn and release everything, also if a callable throws. They return what fn returns. clang's
	// analysis doesn't see what is held there: fn says it with WW_REQUIRES, or for each mutex with assert_held, as next does.
	template <class List, class Fn> auto with_all(const List &list, Fn &&fn WW_AND_FROM_)
	{
		return under(lock_all(list WW_AND_THERE_), std::forward<Fn>(fn));
	}
	template <class Fn> auto with_all(std::initializer_list<mutex *> list, Fn &&fn WW_AND_FROM_)
	{
		return under(lock_all(list WW_AND_THERE_), std::forward<Fn>(fn));
	}
	template <class Next, class Fn> auto with_walk(Next &&next, Fn &&fn WW_AND_FROM_)
	{
		return under(lock_walk(std::forward<Next>(next) WW_AND_THERE_), std::forward<Fn>(fn));
	}
	template <class Locks, class Fn> auto with(Locks &&locks, Fn &&fn)
	{
		return under(lock_by(std::forward<Locks>(locks)), std::forward<Fn>(fn));
	}
};

// With a context of its own: ww::lock_all(c, {&a, &b}, fn), with limits ww::lock_all(c, list, fn, 20ms).
template <class List, class Fn> auto lock_all(struct ww_class &c, const List &list, Fn &&fn, limits how = {} WW_AND_FROM_)
{
	return context(c, how WW_AND_THERE_).with_all(list, std::forward<Fn>(fn) WW_AND_THERE_);
}
template <class Fn> auto lock_all(struct ww_class &c, std::initializer_list<mutex *> list, Fn &&fn, limits how = {} WW_AND_FROM_)
{
	return context(c, how WW_AND_THERE_).with_all(list, std::forward<Fn>(fn) WW_AND_THERE_);
}
template <class Next, class Fn> auto lock_walk(struct ww_class &c, Next &&next, Fn &&fn, limits how = {} WW_AND_FROM_)
{
	return context(c, how WW_AND_THERE_).with_walk(std::forward<Next>(next), std::forward<Fn>(fn) WW_AND_THERE_);
}

// Calls fn under what locks(context) acquires by calls of that context: see context::lock_by.
template <class Locks, class Fn> auto lock_by(struct ww_class &c, Locks &&locks, Fn &&fn, limits how = {} WW_AND_FROM_)
{
	context x(c, how WW_AND_THERE_);

	return x.with([&] { return locks(x); }, std::forward<Fn>(fn));
}

} // namespace ww

#undef WW_FROM_
#undef WW_AND_FROM_
#undef WW_THERE_
#undef WW_AND_THERE_
#undef WW_NOWHERE_
#ifdef WW_DEBUG
#undef WW_HERE_
#define WW_HERE_ ww_debug_at_(__FILE__, __LINE__)
#endif
#endif
