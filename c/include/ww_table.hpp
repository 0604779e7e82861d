// ww_table.hpp - the lock tables of ww_table.h for C++17: keys of any bytes, by transactions that release themselves. Nothing here
// throws. A key protects what the program says, so clang's analysis of locks knows none.
#ifndef WW_TABLE_HPP
#define WW_TABLE_HPP
#include "ww_mutex.hpp"
#include "ww_table.h"
#include <string_view>

// Where the program made a call, as in ww_mutex.hpp.
#ifdef WW_DEBUG
#define WW_FROM_ const char *file_ = __builtin_FILE(), int line_ = __builtin_LINE()
#define WW_AND_FROM_ , WW_FROM_
#define WW_AND_THERE_ , file_, line_
#define WW_NOWHERE_ [[maybe_unused]] const char *file_ = nullptr; [[maybe_unused]] int line_ = 0
#undef WW_HERE_
#define WW_HERE_ ww_debug_at_(file_, line_)
#else
#define WW_FROM_
#define WW_AND_FROM_
#define WW_AND_THERE_
#define WW_NOWHERE_
#endif

namespace ww {

enum class table_mode { shared = WW_TABLE_SHARED, exclusive = WW_TABLE_EXCLUSIVE };

// What the calls of a table return. It is no condition: is_locked asks whether the key may be used.
enum class [[nodiscard]] table_result {
	done,		// it is locked, or released, by this call
	had,		// it was locked before, in this mode or exclusive
	deadlock,	// release all keys, and lock again; until then each lock returns this
	timed_out,	// the time came first; any key may come next
	cancelled,
	taken,		// a try: others have it, or wait for it
	full,		// as many keys as the table may have, or no mutex of the class is left: lock a coarser key
	no_memory,
	not_held,	// an unlock: it isn't locked by this transaction
	misused,	// the transaction hasn't begun, or has ended; or the class was in use at a fork
};
constexpr bool is_locked(table_result r) noexcept { return r == table_result::done || r == table_result::had; }
inline const char *message(table_result r) noexcept
{
	switch (r) {
	case table_result::done: return "done";
	case table_result::had: return "the transaction has the key already";
	case table_result::deadlock: return "an older transaction goes first: release all keys, and lock again";
	case table_result::timed_out: return "the time limit came first";
	case table_result::cancelled: return "the wait was cancelled";
	case table_result::taken: return "another transaction has the key";
	case table_result::full: return "the table has as many keys as it may have: lock a coarser key";
	case table_result::no_memory: return "there is no memory";
	case table_result::not_held: return "the transaction doesn't have the key";
	default: return "the transaction hasn't begun, or has ended, or the class was in use at a fork";
	}
}

// The bytes of a key: a text, or what has data() and size(), such as a vector or a std::span, of elements without padding.
class key_bytes {
	const void *at_;
	std::size_t length_;

public:
	key_bytes(std::string_view text) noexcept : at_(text.data()), length_(text.size()) {}
	key_bytes(const char *text) noexcept : key_bytes(std::string_view(text)) {}
	key_bytes(std::nullptr_t) = delete; // nor a 0, which is no text
	key_bytes(const void *at, std::size_t length) noexcept : at_(at), length_(length) {}
	template <class Bytes, class Element = std::remove_reference_t<decltype(*std::declval<const Bytes &>().data())>>
	key_bytes(const Bytes &bytes) noexcept : at_(bytes.data()), length_(bytes.size() * sizeof(Element))
	{
		static_assert(std::has_unique_object_representations_v<Element>, "equal keys have equal bytes: no padding, and no floats");
	}
	// Not null, which the library takes for all keys.
	const void *data() const noexcept { return at_ ? at_ : ""; }
	std::size_t size() const noexcept { return length_; }
};

// Who has a key, or waits for it; the key's memory is the table's, as long as the callable runs to which it is shown.
struct table_user {
	std::string_view key;
	std::uint64_t owner;
	table_mode mode;
	bool waits;
};

// A table, over a class. If it can't be opened, all locks return table_result::misused: see error(). Its transactions end before
// its destructor; if a key is still locked then, its memory stays.
class lock_table {
	struct ww_class &class_;
	struct ww_table *it_ = nullptr;
	int error_;
	friend class table_keys;
	friend class transaction;
	friend class table_owner;

	template <class See> std::size_t see_by(const void *key, std::size_t length, See &see)
	{
		const auto shows = [](void *data, const struct ww_table_user *user) noexcept { (*static_cast<See *>(data))(shown(*user)); };

		return error_ ? 0 : ww_table_see(it_, key, length, shows, const_cast<void *>(static_cast<const void *>(&see)));
	}

public:
	// At most so many keys are locked or waited for at a time, and kept; 0: as many as the class has mutexes.
	explicit lock_table(struct ww_class &c, std::uint32_t keys = 0) noexcept : class_(c), error_(ww_table_open(&it_, &c, keys)) {}
	~lock_table()
	{
		if (!error_)
			ww_table_close(it_);
	}
	lock_table(const lock_table &) = delete;
	lock_table &operator=(const lock_table &) = delete;
	// 0; -ENOMEM; -EINVAL: the class was in use at a fork.
	[[nodiscard]] int error() const noexcept { return error_; }
	// Calls see(const table_user &) with each that has the key or waits for it, the newest first, while part of the table is locked: it
	// uses no table, and throws nothing. How many there are.
	template <class See> std::size_t users(key_bytes key, See &&see) noexcept { return see_by(key.data(), key.size(), see); }
	// The same of all keys.
	template <class See> std::size_t all_users(See &&see) noexcept { return see_by(nullptr, 0, see); }
	struct ww_table *get() noexcept { return it_; }

	static table_user shown(const struct ww_table_user &user) noexcept
	{
		return { { static_cast<const char *>(user.key), user.length }, user.owner, static_cast<table_mode>(user.mode), user.waits };
	}
};

// How many keys a transaction had, for unlock_to: for a savepoint.
class table_mark {
	std::size_t count_ = 0;
	friend class table_keys;

public:
	table_mark() noexcept = default;
	bool operator==(const table_mark &other) const noexcept { return count_ == other.count_; }
};

// What a transaction, and an owner, has: its keys.
class table_keys {
protected:
	lock_table &table_;
	struct ww_acquire_ctx *x_ = nullptr;
	std::uint64_t owner_;
	limits limits_;
	int error_ = 0;

	table_keys(lock_table &t, std::uint64_t owner, limits how) noexcept : table_(t), owner_(owner), limits_(how), error_(t.error_) {}
	~table_keys() = default;

	table_result lock_by(key_bytes key, table_mode m, struct ww_table_how how WW_AND_FROM_) noexcept
	{
		if (error_)
			return table_result::misused;
		how.owner = owner_;
		switch (ww_table_lock(table_.it_, x_, key.data(), key.size(), static_cast<enum ww_table_mode>(m), &how)) {
		case 0: return table_result::done;
		case -EALREADY: return table_result::had;
		case -EDEADLK: return table_result::deadlock;
		case -ETIMEDOUT: return table_result::timed_out;
		case -EINTR: return table_result::cancelled;
		case -EBUSY: return table_result::taken;
		case -ENOSPC: return table_result::full;
		case -ENOMEM: return table_result::no_memory;
		default: return table_result::misused;
		}
	}
	static struct ww_table_how waits(const limits &how) noexcept
	{
		struct ww_table_how waits = {};

		waits.until = how.until();
		return waits;
	}

public:
	table_keys(const table_keys &) = delete; // it stays where it began: keep it by a pointer, as std::unique_ptr
	table_keys &operator=(const table_keys &) = delete;
	// 0, or why it didn't begin: -ETIMEDOUT, -EINTR, -ENOMEM, -EINVAL. Then its locks return table_result::misused.
	[[nodiscard]] int error() const noexcept { return error_; }
	std::uint64_t owner() const noexcept { return owner_; }

	// Locks the key, or raises a shared lock of it to an exclusive one. After an error the transaction has what it had before.
	table_result lock(key_bytes key, table_mode m WW_AND_FROM_) noexcept { return lock_by(key, m, waits(limits_) WW_AND_THERE_); }
	// The same with a limit of its own: lock(key, mode, 20ms).
	table_result lock(key_bytes key, table_mode m, limits how WW_AND_FROM_) noexcept
	{
		return lock_by(key, m, waits(how) WW_AND_THERE_);
	}
	table_result try_lock(key_bytes key, table_mode m WW_AND_FROM_) noexcept
	{
		struct ww_table_how how = {};

		how.by = WW_TABLE_TRIES;
		return lock_by(key, m, how WW_AND_THERE_);
	}
	// As lock, for locks that expire. If the key is taken, has_expired(const table_user &) is called with each other one that has it,
	// while part of the table is locked: it uses no table, and throws nothing. If all have expired, they keep their locks, but who
	// asks from then on doesn't wait for these.
	template <class HasExpired>
	table_result lock_from_expired(key_bytes key, table_mode m, limits how, HasExpired &&has_expired WW_AND_FROM_) noexcept
	{
		using called = std::remove_reference_t<HasExpired>;
		struct ww_table_how asks = waits(how);

		static_assert(std::is_same_v<std::invoke_result_t<called &, const table_user &>, bool>,
			      "it returns whether that lock has expired");
		asks.meets = [](void *data, const struct ww_table_user *user) noexcept -> bool {
			return (*static_cast<called *>(data))(lock_table::shown(*user));
		};
		asks.data = const_cast<void *>(static_cast<const void *>(&has_expired));
		return lock_by(key, m, asks WW_AND_THERE_);
	}
	table_result unlock(key_bytes key WW_AND_FROM_) noexcept
	{
		if (error_)
			return table_result::misused;
		return ww_table_unlock(table_.it_, x_, key.data(), key.size()) ? table_result::not_held : table_result::done;
	}
	table_mark mark() const noexcept
	{
		table_mark m;

		m.count_ = error_ ? 0 : ww_table_mark(table_.it_, x_);
		return m;
	}
	// Releases all keys but the oldest, so that it has as many as at the mark.
	void unlock_to(table_mark m WW_AND_FROM_) noexcept
	{
		if (!error_)
			ww_table_unlock_to(table_.it_, x_, m.count_);
	}
	// After table_result::deadlock, to lock again: what is locked next first waits for what was contended.
	void unlock_all(WW_FROM_) noexcept
	{
		if (!error_)
			ww_table_unlock_to(table_.it_, x_, 0);
	}
	int cancel() noexcept { return error_ ? error_ : ww_acquire_cancel(x_); }
	// How often it has waited for keys and got deadlock, and for how long it has waited, since it began.
	struct ww_acquire_counts counts() const noexcept
	{
		struct ww_acquire_counts told = {};

		if (!error_)
			ww_acquire_count(x_, &told);
		return told;
	}
};

// A transaction of a table, whose keys are shown as this owner's. Its destructor releases them, and ends it. Any thread may go on with
// it, one at a time; it doesn't move in memory. The limits are those of all its waits.
class transaction : public table_keys {
	struct ww_acquire_ctx it_;

	void begin(struct ww_retry *retry WW_AND_FROM_) noexcept
	{
		if (!error_)
			error_ = ww_acquire_resume(&it_, &table_.class_, retry, limits_.until());
		x_ = &it_;
	}

public:
	[[nodiscard]] transaction(lock_table &t, std::uint64_t owner, limits how = {} WW_AND_FROM_) noexcept : table_keys(t, owner, how)
	{
		struct ww_retry none = {};

		begin(&none WW_AND_THERE_);
	}
	// With the age of what is suspended, if anything is: it first waits for the key at which that got deadlock. After an error it is
	// still suspended.
	[[nodiscard]] transaction(lock_table &t, std::uint64_t owner, suspended &age, limits how = {} WW_AND_FROM_) noexcept
		: table_keys(t, owner, how)
	{
		begin(age.get() WW_AND_THERE_);
	}
	transaction(lock_table &t, std::uint64_t owner, suspended &&age, limits how = {}) = delete; // as of a context: give it a name
	~transaction()
	{
		WW_NOWHERE_;
		if (error_)
			return;
		ww_table_unlock_to(table_.it_, x_, 0);
		ww_acquire_end(x_);
	}
	// Releases all keys, and ends the transaction, whose age goes on in the result; unless half of the class's contexts are suspended.
	[[nodiscard]] suspended suspend(WW_FROM_) noexcept
	{
		suspended age;

		if (error_)
			return age;
		ww_table_unlock_to(table_.it_, x_, 0);
		if (ww_acquire_suspend(x_, age.get()))
			ww_acquire_end(x_);
		error_ = -EINVAL;
		return age;
	}
};

// The keys of an owner, for frameworks that know transactions by numbers: the table has its context, and each table_owner of this
// number is the same one, until it leaves. One thread at a time names an owner. If `former` has left for a retry, that goes on with its
// age: the owner itself, or the transaction that this one retries.
class table_owner : public table_keys {
public:
	table_owner(lock_table &t, std::uint64_t owner, std::uint64_t former, limits how = {} WW_AND_FROM_) noexcept
		: table_keys(t, owner, how)
	{
		if (!error_)
			error_ = ww_table_join(t.it_, owner, former, how.until(), &x_);
	}
	explicit table_owner(lock_table &t, std::uint64_t owner, limits how = {} WW_AND_FROM_) noexcept
		: table_owner(t, owner, owner, how WW_AND_THERE_)
	{
	}
	enum class then { ends, is_retried };
	// Releases all its keys, and ends it, or keeps its age.
	void leave(then what WW_AND_FROM_) noexcept
	{
		if (!error_ && !ww_table_leave(table_.it_, owner_, what == then::is_retried))
			error_ = -EINVAL;
	}
};

} // namespace ww

#undef WW_FROM_
#undef WW_AND_FROM_
#undef WW_AND_THERE_
#undef WW_NOWHERE_
#ifdef WW_DEBUG
#undef WW_HERE_
#define WW_HERE_ ww_debug_at_(__FILE__, __LINE__)
#endif
#endif
