// RocksDB's pessimistic transactions over ww_table.h: a lock manager for TransactionDBOptions::lock_mgr_handle.
#pragma once
#include "utilities/transactions/lock/point/point_lock_manager.h"

namespace ROCKSDB_NAMESPACE {

struct WwLockManagerHandle : LockManagerHandle {
  explicit WwLockManagerHandle(const TransactionDBOptions& options);
  LockManager* getLockManager() override { return manager.get(); }
  void SetDb(PessimisticTransactionDB* db);

  std::unique_ptr<LockManager> manager;
};

}  // namespace ROCKSDB_NAMESPACE
