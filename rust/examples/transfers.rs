//! Threads that move amounts between accounts, in whatever order they come, with an error of their own.

use std::fmt;
use std::thread;
use ww_mutex::{class, Class, Error, Mutex};

class!(struct Accounts: WaitDie, mutexes = 64, contexts = 4);

#[derive(Debug, PartialEq)]
enum Refusal {
    Short,
    Lock(Error),
}

impl From<Error> for Refusal {
    fn from(error: Error) -> Self {
        Refusal::Lock(error)
    }
}

impl fmt::Display for Refusal {
    fn fmt(&self, f: &mut fmt::Formatter<'_>) -> fmt::Result {
        match self {
            Refusal::Short => f.write_str("the account hasn't as much"),
            Refusal::Lock(error) => error.fmt(f),
        }
    }
}

impl std::error::Error for Refusal {}

type Account = Mutex<Accounts, u64>;

fn transfer(from: &Account, to: &Account, amount: u64) -> Result<(), Refusal> {
    Accounts::try_run(|tx| {
        let [mut from, mut to] = tx.lock_all([from, to])?;
        *from = from.checked_sub(amount).ok_or(Refusal::Short)?;
        *to += amount;
        Ok(())
    })
}

const THREADS: u64 = 4;
const TIMES: u64 = 20_000;

/// How many transfers were made, were too large, and were from an account to itself.
fn work(accounts: &[Account], me: u64) -> [u64; 3] {
    let (mut drawn, mut told) = (me + 1, [0; 3]);
    let mut draw = |below: usize| {
        drawn = drawn.wrapping_mul(6_364_136_223_846_793_005).wrapping_add(1_442_695_040_888_963_407);
        usize::try_from(drawn >> 33).unwrap() % below
    };
    for _ in 0..TIMES {
        let (from, to, amount) = (draw(accounts.len()), draw(accounts.len()), draw(40));
        match transfer(&accounts[from], &accounts[to], amount as u64) {
            Ok(()) => told[0] += 1,
            Err(Refusal::Short) => told[1] += 1,
            Err(Refusal::Lock(Error::Duplicate)) if from == to => told[2] += 1,
            Err(refusal) => panic!("{refusal}"),
        }
    }
    told
}

fn main() {
    let accounts: Vec<Account> = (0..10).map(|_| Mutex::new(100)).collect();
    let mut all = [0; 3];
    thread::scope(|scope| {
        let threads: Vec<_> = (0..THREADS)
            .map(|me| {
                let accounts = &accounts;
                scope.spawn(move || work(accounts, me))
            })
            .collect();
        for thread in threads {
            for (sum, more) in all.iter_mut().zip(thread.join().unwrap()) {
                *sum += more;
            }
        }
    });
    let sum: u64 = accounts.into_iter().map(Mutex::into_inner).sum();
    assert_eq!((sum, all.iter().sum()), (1000, THREADS * TIMES));
    println!("transfers: {} by {THREADS} threads, and the accounts have {sum} as before", THREADS * TIMES);
}
