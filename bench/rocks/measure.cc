// What transactions of RocksDB cost over its own lock manager and over WwLockManager, in turn, in one process:
// measure KEYS EACH THREADS DETECTS READS_PERCENT SECONDS ROUNDS [locks]. `locks`: only what the lock manager does.
// Keys are drawn by Zipf's law, .9; who fails tries again, until it commits; `polite` naps before, up to a time that doubles from 50 us to 10 ms.
#include <sys/resource.h>

#include <algorithm>
#include <atomic>
#include <cmath>
#include <cstdio>
#include <cstring>
#include <thread>

#include "manager.h"
#include "utilities/transactions/pessimistic_transaction_db.h"
using namespace rocksdb;

namespace {

double Cpu()
{
  rusage used;
  getrusage(RUSAGE_SELF, &used);
  return used.ru_utime.tv_sec + used.ru_stime.tv_sec + (used.ru_utime.tv_usec + used.ru_stime.tv_usec) * 1e-6;
}
double Now()
{
  timespec at;
  clock_gettime(CLOCK_MONOTONIC, &at);
  return at.tv_sec + at.tv_nsec * 1e-9;
}
uint64_t Draw(uint64_t* from)
{
  *from ^= *from << 13, *from ^= *from >> 7, *from ^= *from << 17;
  return *from;
}

struct Zipf { // by its sums
  explicit Zipf(size_t count) : sums(count)
  {
    double sum = 0;
    for (size_t k = 0; k < count; k++) {
      sums[k] = sum += 1 / std::pow(k + 1, .9);
    }
  }
  uint64_t At(uint64_t drawn) const
  {
    const double at = static_cast<double>(drawn >> 11) / static_cast<double>(1ull << 53) * sums.back();
    return std::min<size_t>(sums.size() - 1, static_cast<size_t>(std::lower_bound(sums.begin(), sums.end(), at) - sums.begin()));
  }
  std::vector<double> sums;
};

struct Engine {
  const char* name;
  std::shared_ptr<WwLockManagerHandle> handle;
  TransactionDB* db = nullptr;
  std::unique_ptr<PointLockManager> own; // for `locks`
  LockManager* manager = nullptr;
  double commits = 0, aborts = 0, cpu = 0, seconds = 0;
  std::vector<float> times;
};

struct Load {
  size_t keys, each, threads;
  bool detects;
  unsigned reads;
  double seconds;
  bool locks_only;
};

Status LockEach(Engine* e, PessimisticTransaction* txn, const std::vector<std::string>& keys, const std::vector<bool>& reads, LockTracker* tracker)
{
  for (size_t k = 0; k < keys.size(); k++) {
    Status s = e->manager->TryLock(txn, 0, keys[k], Env::Default(), !reads[k]);
    if (!s.ok()) {
      return s;
    }
    PointLockRequest request;
    request.key = keys[k];
    request.seq = 1;
    request.exclusive = !reads[k];
    tracker->Track(request);
  }
  return Status::OK();
}

Status ChangeEach(Transaction* txn, const std::vector<std::string>& keys, const std::vector<bool>& reads)
{
  std::string value;
  Status s;
  for (size_t k = 0; k < keys.size() && s.ok(); k++) {
    s = reads[k] ? txn->GetForUpdate(ReadOptions(), keys[k], &value, false) : txn->Put(keys[k], "a value of thirty-two bytes, so.");
    s = s.IsNotFound() ? Status::OK() : s;
  }
  return s.ok() ? txn->Commit() : s;
}

struct Client {
  uint64_t commits = 0, aborts = 0;
  std::vector<float> times;

  void Run(Engine* e, const Load& load, const Zipf& zipf, uint64_t drawn, const std::atomic<bool>* ends)
  {
    WriteOptions writes;
    writes.disableWAL = true;
    TransactionOptions options;
    options.lock_timeout = 1000;
    options.deadlock_detect = load.detects;
    Transaction* txn = e->db->BeginTransaction(writes, options);
    std::unique_ptr<LockTracker> tracker(PointLockTrackerFactory::Get().Create());
    while (!*ends) {
      std::vector<std::string> keys;
      std::vector<bool> reads;
      while (keys.size() < load.each) {
        std::string key = "user" + std::to_string(zipf.At(Draw(&drawn)) * 0x9E3779B97F4A7C15u);
        if (std::find(keys.begin(), keys.end(), key) == keys.end()) {
          keys.push_back(key);
          reads.push_back(Draw(&drawn) % 100 < load.reads);
        }
      }
      const double begun = Now();
      for (uint64_t nap = 50; !*ends; nap = std::min<uint64_t>(2 * nap, 10000)) {
        Status s;
        if (load.locks_only) {
          auto locks_of = static_cast<PessimisticTransaction*>(txn);
          s = LockEach(e, locks_of, keys, reads, tracker.get());
          e->manager->UnLock(locks_of, *tracker, Env::Default());
          tracker->Clear();
        } else {
          s = ChangeEach(txn, keys, reads);
        }
        if (s.ok()) {
          commits++;
          times.push_back(static_cast<float>((Now() - begun) * 1e6));
          txn = e->db->BeginTransaction(writes, options, txn);
          break;
        }
        aborts++;
        txn->Rollback().PermitUncheckedError();
        if (!strcmp(e->name, "polite")) {
          std::this_thread::sleep_for(std::chrono::microseconds(Draw(&drawn) % nap));
        }
      }
    }
    delete txn;
  }
};

void Open(Engine* e, const char* name, bool locks_only)
{
  TransactionDBOptions options;
  Options of_db;
  of_db.create_if_missing = true;
  of_db.compression = kNoCompression;
  of_db.write_buffer_size = 256 << 20;
  e->name = name;
  if (!strcmp(name, "ww")) {
    options.lock_mgr_handle = e->handle = std::make_shared<WwLockManagerHandle>(options);
  }
  const std::string path = std::string("/dev/shm/ww_rocksdb_") + name;
  DestroyDB(path, of_db).PermitUncheckedError();
  Status s = TransactionDB::Open(of_db, options, path, &e->db);
  if (!s.ok()) {
    fprintf(stderr, "measure: %s\n", s.ToString().c_str());
    exit(1);
  }
  auto db = static_cast<PessimisticTransactionDB*>(static_cast<StackableDB*>(e->db));
  if (e->handle) {
    e->handle->SetDb(db);
    e->manager = e->handle->getLockManager();
  } else if (locks_only) {
    e->own = std::make_unique<PointLockManager>(db, options);
    e->own->AddColumnFamily(e->db->DefaultColumnFamily());
    e->manager = e->own.get();
  }
}

void Measure(Engine* e, const Load& load, const Zipf& zipf, uint64_t seed)
{
  std::vector<Client> clients(load.threads);
  std::vector<std::thread> threads;
  std::atomic<bool> ends{false};
  const double cpu = Cpu(), begun = Now();
  for (size_t k = 0; k < load.threads; k++) {
    threads.emplace_back([&, k] { clients[k].Run(e, load, zipf, (seed * 1000 + k + 1) * 0x9E3779B97F4A7C15u, &ends); });
  }
  std::this_thread::sleep_for(std::chrono::duration<double>(load.seconds));
  ends = true;
  for (auto& it : threads) {
    it.join();
  }
  e->cpu += Cpu() - cpu;
  e->seconds += Now() - begun;
  for (auto& it : clients) {
    e->commits += it.commits;
    e->aborts += it.aborts;
    e->times.insert(e->times.end(), it.times.begin(), it.times.end());
  }
}

}  // namespace

int main(int count, char** words)
{
  if (count < 8) {
    fprintf(stderr, "usage: measure KEYS EACH THREADS DETECTS READS_PERCENT SECONDS ROUNDS [locks]\n");
    return 2;
  }
  const Load load = { strtoul(words[1], nullptr, 0), strtoul(words[2], nullptr, 0), strtoul(words[3], nullptr, 0), atoi(words[4]) != 0,
                      static_cast<unsigned>(atoi(words[5])), atof(words[6]), count > 8 };
  const Zipf zipf(load.keys);
  Engine engines[3];
  Open(&engines[0], "own", load.locks_only);
  Open(&engines[1], "polite", load.locks_only);
  Open(&engines[2], "ww", load.locks_only);
  for (int round = 0; round < atoi(words[7]); round++) {
    for (size_t k = 0; k < 3; k++) {
      Measure(&engines[(k + round) % 3], load, zipf, round + 1);
    }
  }
  printf("%s: %zu keys, %zu each, %zu threads, %s, %u %% reads\n", load.locks_only ? "locks" : "transactions", load.keys, load.each, load.threads,
         load.detects ? "deadlocks detected" : "not detected", load.reads);
  for (Engine& e : engines) {
    std::sort(e.times.begin(), e.times.end());
    const auto at = [&](double part) { return e.times.empty() ? 0 : e.times[static_cast<size_t>(part * static_cast<double>(e.times.size() - 1))] / 1e3; };
    printf("  %-7s %8.0f commits/s, %8.3f aborts a commit, %7.1f us of a processor a commit, p50 %.2f, p99 %.2f, longest %.2f ms\n", e.name,
           e.commits / e.seconds, e.aborts / e.commits, e.cpu / e.commits * 1e6, at(.5), at(.99), at(1));
    e.own.reset();
    delete e.db;
  }
  return 0;
}
