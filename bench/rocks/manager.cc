// An owner is a transaction's number. What others see of it is the transaction itself, which is there as long as it has a key.
#include "manager.h"

#include <algorithm>
#include <cstring>
#include <map>
#include <shared_mutex>
#include <unordered_set>

#include "monitoring/perf_context_imp.h"
#include "test_util/sync_point.h"
#include "utilities/transactions/pessimistic_transaction_db.h"
#include "ww_table.h"

namespace ROCKSDB_NAMESPACE {
namespace {

// The transaction that this thread rolled back last, since it had to: the next one is probably its retry.
thread_local TransactionID refused;

timespec After(int64_t microseconds)
{
  timespec at;
  clock_gettime(CLOCK_MONOTONIC, &at);
  microseconds += at.tv_nsec / 1000;
  return { at.tv_sec + microseconds / 1000000, microseconds % 1000000 * 1000 };
}

// The column family, and the key: until this thread's next call.
const std::string& KeyOf(ColumnFamilyId cf, const std::string& key)
{
  thread_local std::string both;
  both.resize(sizeof cf + key.size());
  memcpy(&both[0], &cf, sizeof cf);
  memcpy(&both[sizeof cf], key.data(), key.size());
  return both;
}

std::pair<ColumnFamilyId, std::string> KeyOf(const ww_table_user* user)
{
  ColumnFamilyId cf;
  memcpy(&cf, user->key, sizeof cf);
  return { cf, std::string(static_cast<const char*>(user->key) + sizeof cf, user->length - sizeof cf) };
}
PessimisticTransaction* Of(const ww_table_user* user) { return reinterpret_cast<PessimisticTransaction*>(user->owner); }

struct Wait { // of one TryLock; times are of `env`
  PessimisticTransactionDB* db;
  PessimisticTransaction* txn;
  ColumnFamilyId cf;
  const std::string* key;
  Env* env;
  uint64_t end = 0, expires = 0;
  bool waited = false;
  autovector<TransactionID> ids;
  timespec until;

  // Whether this holder has expired, and knows that it has lost the key.
  static bool Meets(void* data, const ww_table_user* user)
  {
    auto it = static_cast<Wait*>(data);
    const uint64_t expires = Of(user)->GetExpirationTime();
    it->ids.push_back(Of(user)->GetID());
    if (!expires) {
      return false;
    }
    it->expires = it->expires ? std::min(it->expires, expires) : expires;
    return expires <= it->env->NowMicros() && it->db->TryStealingExpiredTransactionLocks(Of(user)->GetID());
  }

  // Until its own time is over, or that of a holder.
  static int Waits(void* data, ww_table_how* how)
  {
    auto it = static_cast<Wait*>(data);
    const int64_t limit = it->txn->GetLockTimeout();
    const uint64_t now = limit > 0 || it->expires ? it->env->NowMicros() : 0;
    if (limit > 0 && !it->end) {
      it->end = now + limit;
      PERF_COUNTER_ADD(key_lock_wait_count, 1);
    }
    if (limit == 0 || (it->end && now >= it->end)) {
      return -ETIMEDOUT;
    }
    const uint64_t wakes = it->expires && (!it->end || it->expires < it->end) ? it->expires : it->end;
    it->until = After(wakes > now ? static_cast<int64_t>(wakes - now) : 1);
    how->until = wakes ? &it->until : nullptr;
    if (!it->ids.empty()) {
      it->txn->SetWaitingTxn(it->ids, it->cf, it->key);
    }
    TEST_SYNC_POINT("PointLockManager::AcquireWithTimeout:WaitingTxn");
    it->waited = true;
    it->expires = 0;
    it->ids.clear();
    return 0;
  }
};

Status StatusOf(int r)
{
  switch (r) {
    case 0:
    case -EALREADY: return Status::OK();
    case -ETIMEDOUT: return Status::TimedOut(Status::SubCode::kLockTimeout);
    case -EDEADLK: return Status::Busy(Status::SubCode::kDeadlock);
    case -ENOSPC: return Status::Busy(Status::SubCode::kLockLimit);
    default: return Status::Aborted("ww_table_lock", std::to_string(r));
  }
}

struct Uses { // of all keys
  std::map<std::pair<ColumnFamilyId, std::string>, KeyLockInfo> held;
  std::map<TransactionID, DeadlockInfo> waits;

  static void See(void* data, const ww_table_user* user)
  {
    auto it = static_cast<Uses*>(data);
    const auto key = KeyOf(user);
    const TransactionID id = Of(user)->GetID();
    if (user->waits) {
      it->waits[id] = { id, key.first, user->mode == WW_TABLE_EXCLUSIVE, key.second };
    } else {
      KeyLockInfo& info = it->held[key];
      info.key = key.second;
      info.exclusive = user->mode == WW_TABLE_EXCLUSIVE;
      info.ids.insert(info.ids.begin(), id); // the newest one comes first
    }
  }

  // Whether each that holds what it waits for leads to `end`, in the end: then the path goes from `from` to it.
  bool Leads(TransactionID from, TransactionID end, std::vector<DeadlockInfo>* path)
  {
    auto it = waits.find(from);
    if (it == waits.end()) {
      return false;
    }
    path->push_back(it->second);
    const auto holders = held[{ it->second.m_cf_id, it->second.m_waiting_key }].ids;
    waits.erase(it);
    for (TransactionID id : holders) {
      if (id == end || Leads(id, end, path)) {
        return true;
      }
    }
    path->pop_back();
    return false;
  }
};

class WwLockManager : public LockManager {
 public:
  PessimisticTransactionDB* db_;

  WwLockManager(PessimisticTransactionDB* db, const TransactionDBOptions& options, bool is_wait_die) : db_(db), deadlocks_(options.max_num_deadlocks)
  {
    const char* mutexes = getenv("WW_MUTEXES");
    ww_class_init(&class_, is_wait_die, "RocksDB's keys");
    int r = ww_class_open_for(&class_, 0, mutexes ? static_cast<uint32_t>(strtoul(mutexes, nullptr, 0)) : 1 << 20, nullptr);
    if (r || (r = ww_table_open(&table_, &class_, options.max_num_locks > 0 ? static_cast<uint32_t>(options.max_num_locks) : 0))) {
      fprintf(stderr, "WwLockManager: %s\n", strerror(-r));
      abort();
    }
  }

  ~WwLockManager() override
  {
    int r = ww_table_close(table_);
    if (r || (r = ww_class_free(&class_))) {
      fprintf(stderr, "WwLockManager: a key is still locked (%s)\n", strerror(-r));
    }
  }

  bool IsPointLockSupported() const override { return true; }
  bool IsRangeLockSupported() const override { return false; }
  const LockTrackerFactory& GetLockTrackerFactory() const override { return PointLockTrackerFactory::Get(); }
  RangeLockStatus GetRangeLockStatus() override { return {}; }
  std::vector<DeadlockPath> GetDeadlockInfoBuffer() override { return deadlocks_.PrepareBuffer(); }
  void Resize(uint32_t count) override { deadlocks_.Resize(count); }

  void AddColumnFamily(const ColumnFamilyHandle* cf) override
  {
    std::lock_guard<std::shared_mutex> guard(mutex_);
    cfs_.insert(cf->GetID());
  }

  void RemoveColumnFamily(const ColumnFamilyHandle* cf) override
  {
    std::lock_guard<std::shared_mutex> guard(mutex_);
    cfs_.erase(cf->GetID());
  }

  Status TryLock(PessimisticTransaction* txn, ColumnFamilyId cf, const std::string& key, Env* env, bool exclusive) override
  {
    if (cf) { // the default one is always there
      std::shared_lock<std::shared_mutex> guard(mutex_);
      if (!cfs_.count(cf)) {
        return Status::InvalidArgument("Column family id not found: " + std::to_string(cf));
      }
    }
    const TransactionID id = txn->GetID(), former = refused ? refused : id;
    const timespec until = After(std::max<int64_t>(txn->GetLockTimeout(), 0)), *const at_most = txn->GetLockTimeout() < 0 ? nullptr : &until;
    ww_acquire_ctx* x;
    refused = 0;
    int r = ww_table_join(table_, id, former, at_most, &x);
    if (r) {
      return StatusOf(r);
    }
    const std::string& k = KeyOf(cf, key);
    Wait wait{ db_, txn, cf, &key, env };
    const ww_table_how how = { reinterpret_cast<uint64_t>(txn), WW_TABLE_WAITS, at_most, nullptr, Wait::Meets, Wait::Waits, &wait };
    {
      PERF_TIMER_GUARD(key_lock_wait_time);
      r = ww_table_lock(table_, x, k.data(), k.size(), exclusive ? WW_TABLE_EXCLUSIVE : WW_TABLE_SHARED, &how);
    }
    if (wait.waited) {
      txn->ClearWaitingTxn();
    }
    if (r == -EDEADLK) {
      refused = id;
      Report(txn, cf, key, exclusive, env);
    }
    if (r && r != -EALREADY && !ww_table_mark(table_, x)) {
      ww_table_leave(table_, id, false);
    }
    return StatusOf(r);
  }

  Status TryLock(PessimisticTransaction*, ColumnFamilyId, const Endpoint&, const Endpoint&, Env*, bool) override
  {
    return Status::NotSupported("WwLockManager has no ranges");
  }
  void UnLock(PessimisticTransaction*, ColumnFamilyId, const Endpoint&, const Endpoint&, Env*) override {}

  void UnLock(PessimisticTransaction* txn, ColumnFamilyId cf, const std::string& key, Env*) override
  {
    ww_acquire_ctx* x;
    const std::string& k = KeyOf(cf, key);
    if (!ww_table_join(table_, txn->GetID(), txn->GetID(), nullptr, &x)) {
      ww_table_unlock(table_, x, k.data(), k.size());
      if (!ww_table_mark(table_, x)) {
        ww_table_leave(table_, txn->GetID(), refused == txn->GetID());
      }
    }
  }

  void UnLock(PessimisticTransaction* txn, const LockTracker& tracker, Env* env) override
  {
    ww_acquire_ctx* x;
    const TransactionID id = txn->GetID();
    std::unique_ptr<LockTracker::ColumnFamilyIterator> cfs(tracker.GetColumnFamilyIterator());
    if (!cfs->HasNext() || ww_table_join(table_, id, id, nullptr, &x)) {
      return;
    }
    if (tracker.GetNumPointLocks() >= ww_table_mark(table_, x)) {
      ww_table_leave(table_, id, refused == id);
      return;
    }
    while (cfs->HasNext()) {
      const ColumnFamilyId cf = cfs->Next();
      std::unique_ptr<LockTracker::KeyIterator> keys(tracker.GetKeyIterator(cf));
      while (keys->HasNext()) {
        UnLock(txn, cf, keys->Next(), env);
      }
    }
  }

  PointLockStatus GetPointLockStatus() override
  {
    Uses uses;
    PointLockStatus status;
    ww_table_see(table_, nullptr, 0, Uses::See, &uses);
    for (const auto& it : uses.held) {
      status.insert({ it.first.first, it.second });
    }
    return status;
  }

 private:
  // Who waits for whom, of all keys: so after the first hundred it takes a hundredth of the time.
  void Report(PessimisticTransaction* txn, ColumnFamilyId cf, const std::string& key, bool exclusive, Env* env)
  {
    const uint64_t now = env->NowMicros();
    std::vector<DeadlockInfo> path;
    int64_t time = 0;
    if (!txn->IsDeadlockDetect()) {
      return;
    }
    if (reports_++ < 100 || now >= reports_from_) {
      Uses uses;
      ww_table_see(table_, nullptr, 0, Uses::See, &uses);
      for (TransactionID id : uses.held[{ cf, key }].ids) {
        if (uses.Leads(id, txn->GetID(), &path)) {
          break;
        }
      }
      reports_from_ = now + 100 * (env->NowMicros() - now);
    }
    path.push_back({ txn->GetID(), cf, exclusive, key });
    env->GetCurrentTime(&time).PermitUncheckedError();
    const bool is_deep = static_cast<int64_t>(path.size()) > txn->GetDeadlockDetectDepth();
    deadlocks_.AddNewPath(is_deep ? DeadlockPath(time, true) : DeadlockPath(path, time));
  }

  ww_class class_;
  ww_table* table_ = nullptr;
  std::shared_mutex mutex_;
  std::unordered_set<ColumnFamilyId> cfs_; // guarded by mutex_
  DeadlockInfoBuffer deadlocks_;
  std::atomic<uint64_t> reports_{0}, reports_from_{0};
};

}  // namespace

WwLockManagerHandle::WwLockManagerHandle(const TransactionDBOptions& options) : manager(new WwLockManager(nullptr, options, false)) {}
void WwLockManagerHandle::SetDb(PessimisticTransactionDB* db) { static_cast<WwLockManager*>(manager.get())->db_ = db; }

// In place of RocksDB's own: with LM=ww or LM=ww-die.
std::shared_ptr<LockManager> NewLockManager(PessimisticTransactionDB* db, const TransactionDBOptions& options)
{
  const char* which = getenv("LM");
  if (options.lock_mgr_handle) {
    return std::shared_ptr<LockManager>(options.lock_mgr_handle, options.lock_mgr_handle->getLockManager());
  }
  if (which && !strncmp(which, "ww", 2)) {
    return std::make_shared<WwLockManager>(db, options, !strcmp(which, "ww-die"));
  }
  return std::make_shared<PointLockManager>(db, options);
}

}  // namespace ROCKSDB_NAMESPACE
