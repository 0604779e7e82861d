//! A small transactional store over a table of locks. Its clients retry by themselves, each time as a new transaction; another thread
//! commits; what a transaction did since a savepoint is taken back; and one that changes too many rows locks all of them by one key.

use std::num::NonZeroU32;
use std::sync::atomic::{AtomicI64, AtomicU64, Ordering::Relaxed};
use std::sync::mpsc::{sync_channel, SyncSender};
use std::thread;
use ww_mutex::table::{Mark, Mode, Table, Transaction};
use ww_mutex::{class, Class, Error, Suspended};

class!(struct Rows: WoundWait);

const CLIENTS: u32 = 4;
const ROWS: usize = 64;
const KEYS: u32 = 24;
const TIMES: usize = 2000;
const ALL_ROWS: &str = "accounts";

// ---- the store ----

struct Store {
    table: Table<Rows>,
    /// A row is read and changed by the transaction that has its key.
    money: [AtomicI64; ROWS],
    numbers: AtomicU64,
}

struct Txn<'s> {
    store: &'s Store,
    locks: Transaction<Rows>,
    has_all: bool,
    undo: Vec<(usize, i64)>,
}

struct Savepoint {
    mark: Mark,
    changes: usize,
}

#[derive(Clone, Copy)]
enum Wait {
    Waits,
    Tries,
}

impl Store {
    /// With the age of the transaction that it retries, if it does.
    fn begin(&self, mut retries: Suspended<Rows>) -> Result<Txn<'_>, Error> {
        let number = self.numbers.fetch_add(1, Relaxed) + 1;
        let locks = self.table.begin(number, Rows::options(), &mut retries)?;
        Ok(Txn { store: self, locks, has_all: false, undo: Vec::new() })
    }
}

impl Txn<'_> {
    /// Whoever changes a row shares the key of all, so nobody changes one while another has that key to itself.
    fn lock_row(&mut self, row: usize, wait: Wait) -> Result<(), Error> {
        if self.has_all {
            return Ok(());
        }
        let key = format!("{ALL_ROWS}/{row}");
        match self.lock(ALL_ROWS, Mode::Shared, wait).and_then(|()| self.lock(&key, Mode::Exclusive, wait)) {
            Err(Error::Exhausted) => {
                self.lock(ALL_ROWS, Mode::Exclusive, wait)?;
                self.has_all = true;
                Ok(())
            }
            told => told,
        }
    }

    fn lock(&mut self, key: &str, mode: Mode, wait: Wait) -> Result<(), Error> {
        match wait {
            Wait::Waits => self.locks.lock(key, mode),
            Wait::Tries => self.locks.try_lock(key, mode),
        }
        .map(|_| ())
    }

    fn add(&mut self, row: usize, amount: i64, wait: Wait) -> Result<(), Error> {
        self.lock_row(row, wait)?;
        let money = &self.store.money[row];
        self.undo.push((row, money.load(Relaxed)));
        money.store(money.load(Relaxed) + amount, Relaxed);
        Ok(())
    }

    fn save(&self) -> Savepoint {
        Savepoint { mark: self.locks.mark(), changes: self.undo.len() }
    }

    /// The locks since then go, once what they protect is as it was; but who has all rows keeps that key.
    fn go_back_to(&mut self, to: &Savepoint) {
        for (row, was) in self.undo.drain(to.changes..).rev() {
            self.store.money[row].store(was, Relaxed);
        }
        if !self.has_all {
            self.locks.unlock_to(to.mark);
        }
    }

    /// What it changed is as it was; its age is kept for a retry.
    fn roll_back(mut self) -> Suspended<Rows> {
        self.go_back_to(&Savepoint { mark: Mark::default(), changes: 0 });
        self.locks.suspend()
    }
}

// ---- clients ----

/// Moves money; and, if its row is free, gives a part to a third one.
fn transfer(txn: &mut Txn<'_>, [from, to, third]: [usize; 3]) -> Result<(), Error> {
    txn.add(from, -10, Wait::Waits)?;
    txn.add(to, 10, Wait::Waits)?;
    let before = txn.save();
    match txn.add(to, -1, Wait::Waits).and_then(|()| txn.add(third, 1, Wait::Tries)) {
        Err(Error::Taken | Error::Exhausted) => {
            txn.go_back_to(&before);
            Ok(())
        }
        told => told,
    }
}

fn take_from_each(txn: &mut Txn<'_>) -> Result<(), Error> {
    let mut taken = 0;
    for row in 1..ROWS {
        txn.add(row, -1, Wait::Waits)?;
        taken += 1;
    }
    txn.add(0, taken, Wait::Waits)
}

fn client<'s>(store: &'s Store, seed: u32, commits: &SyncSender<Txn<'s>>) -> Result<(), Error> {
    let mut drawn = seed;
    let mut draw = || {
        drawn = drawn.wrapping_mul(1_664_525).wrapping_add(1_013_904_223);
        (drawn >> 8) as usize % ROWS
    };
    for k in 0..TIMES {
        let rows = [draw(), draw(), draw()];
        let mut retries = Suspended::new();
        loop {
            let mut txn = store.begin(retries)?;
            match if k % 100 == 0 { take_from_each(&mut txn) } else { transfer(&mut txn, rows) } {
                Ok(()) => {
                    commits.send(txn).expect("the committer goes on");
                    break;
                }
                Err(Error::Deadlock) => retries = txn.roll_back(),
                Err(error) => {
                    drop(txn.roll_back());
                    return Err(error);
                }
            }
        }
    }
    Ok(())
}

fn main() -> Result<(), Error> {
    let table = Table::open_limited(NonZeroU32::new(KEYS).expect("it isn't 0"))?;
    let store = Store { table, money: [const { AtomicI64::new(0) }; ROWS], numbers: AtomicU64::new(0) };
    let committed = thread::scope(|scope| {
        let (commits, takes) = sync_channel(1);
        for seed in 1..=CLIENTS {
            let (store, commits) = (&store, commits.clone());
            scope.spawn(move || client(store, seed, &commits).expect("only Deadlock is expected"));
        }
        drop(commits);
        // A commit releases its locks: here in this thread.
        takes.into_iter().map(drop).count()
    });
    let sum: i64 = store.money.iter().map(|row| row.load(Relaxed)).sum();
    assert!(sum == 0 && committed == CLIENTS as usize * TIMES && store.table.all_users().is_empty());
    println!("store: {committed} committed, and the sum is {sum}");
    Ok(())
}
