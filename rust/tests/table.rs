//! Locks by keys: what each call returns, what others see, and threads beside a model of who has which key.

use std::panic::{catch_unwind, AssertUnwindSafe};
use std::sync::atomic::{AtomicBool, AtomicI64, AtomicUsize, Ordering::Relaxed};
use std::thread;
use std::time::{Duration, Instant};
use ww_mutex::table::{Granted, Mode, Table, Transaction};
use ww_mutex::{class, Canceller, Class, Error, Mutex, Options, Suspended};

use Mode::{Exclusive, Shared};

fn begin<C: Class>(table: &Table<C>, owner: u64) -> Transaction<C> {
    table.begin(owner, C::options(), &mut Suspended::new()).unwrap()
}

fn soon() -> Instant {
    Instant::now() + Duration::from_millis(5)
}

#[test]
fn modes() {
    class!(struct Rows: WaitDie);
    let table = Table::<Rows>::open().unwrap();
    for (has, asks, gets, raises) in [
        (Shared, Shared, Ok(Granted::Now), Err(Error::Taken)),
        (Shared, Exclusive, Err(Error::Taken), Ok(Granted::Now)),
        (Exclusive, Shared, Err(Error::Taken), Ok(Granted::Before)),
        (Exclusive, Exclusive, Err(Error::Taken), Ok(Granted::Before)),
    ] {
        let (mut a, mut b) = (begin(&table, 1), begin(&table, 2));
        assert_eq!((a.try_lock("k", has), a.try_lock("k", has)), (Ok(Granted::Now), Ok(Granted::Before)));
        assert_eq!(b.try_lock("k", asks), gets);
        assert!(gets.is_ok() || b.lock_until("k", asks, soon()) == Err(Error::TimedOut));
        assert_eq!(a.try_lock("k", Exclusive), raises);
        // Of any bytes, and of none.
        for key in [&b""[..], &[0], &[0, 0], &[255; 100]] {
            assert_eq!(b.try_lock(key, Exclusive), Ok(Granted::Now));
        }
        assert_eq!(
            (b.unlock([0]), b.unlock([0]), b.unlock("none")),
            (Ok(()), Err(Error::NotHeld), Err(Error::NotHeld))
        );
    }
    assert!(table.all_users().is_empty());
    assert_eq!(Rows::counts().contexts, 0);
}

#[test]
fn marks() {
    class!(struct Rows: WoundWait);
    let table = Table::<Rows>::open().unwrap();
    let (mut a, mut b) = (begin(&table, 1), begin(&table, 2));
    let start = a.mark();
    a.try_lock("1", Exclusive).unwrap();
    let mark = a.mark();
    assert!(start < mark && mark == a.mark());
    a.try_lock("2", Shared).unwrap();
    a.try_lock("3", Exclusive).unwrap();
    a.try_lock("2", Exclusive).unwrap();
    a.unlock_to(mark);
    assert_eq!(a.mark(), mark);
    assert_eq!(["1", "2", "3"].map(|key| b.try_lock(key, Exclusive).is_ok()), [false, true, true]);
    a.unlock_to(start);
    assert_eq!((a.mark(), b.try_lock("1", Shared)), (start, Ok(Granted::Now)));
    drop(b);
    assert!(table.users("1").is_empty());
}

/// A younger one would wait for an older one; once it has released all it may go on, in another thread, too. The debug library makes up
/// some `Deadlock`s.
#[test]
#[cfg_attr(feature = "debug-library", ignore)]
fn a_deadlock() {
    class!(struct Rows: WaitDie);
    let table = Table::<Rows>::open().unwrap();
    let (mut a, mut b) = (begin(&table, 1), begin(&table, 2));
    a.lock("1", Exclusive).unwrap();
    b.lock("2", Exclusive).unwrap();
    assert_eq!(b.lock("1", Shared), Err(Error::Deadlock));
    assert_eq!((b.lock("3", Shared), b.try_lock("3", Shared)), (Err(Error::Deadlock), Err(Error::Deadlock)));
    b.unlock_all();
    // What it collided with comes first; in vain: then any other may come.
    assert_eq!(b.lock_until("1", Shared, soon()), Err(Error::TimedOut));
    assert_eq!(b.lock("3", Exclusive), Ok(Granted::Now));
    assert_eq!(b.lock("1", Shared), Err(Error::Deadlock));
    let mut age = b.suspend();
    assert!(!age.is_none() && table.users("3").is_empty());
    let in_time = Rows::options().timeout(Duration::from_millis(5));
    let table = &table;
    thread::scope(|scope| {
        let resumes = scope.spawn(|| {
            assert!(table.begin(3, in_time, &mut age).is_err_and(|it| it == Error::TimedOut) && !age.is_none());
            age.at_once();
            let mut b = table.begin(3, Rows::options(), &mut age).unwrap();
            assert!(age.is_none() && b.owner() == 3);
            b.lock("2", Exclusive).unwrap();
            b
        });
        let mut b = resumes.join().unwrap();
        // It has its age: a new one would be told so.
        let mut fresh = begin(table, 4);
        fresh.lock("4", Exclusive).unwrap();
        assert_eq!(fresh.lock("2", Exclusive), Err(Error::Deadlock));
        assert_eq!(b.lock_until("4", Exclusive, soon()), Err(Error::TimedOut));
        assert!(
            b.counts().back_offs == 2 && b.counts().waited > Duration::from_millis(1) && fresh.counts().back_offs == 1
        );
        drop(fresh);
        assert_eq!(b.lock("4", Exclusive), Ok(Granted::Now));
    });
    drop(a);
    assert_eq!(Rows::counts().contexts, 0);
}

/// By the options of the transaction, and by a canceller; what it has it still has.
#[test]
fn waits_that_end() {
    class!(struct Rows: WoundWait);
    let table = Table::<Rows>::open().unwrap();
    let mut a = begin(&table, 1);
    a.try_lock("1", Exclusive).unwrap();
    let canceller = Canceller::new();
    let options = Rows::options().timeout(Duration::from_millis(5));
    let mut late = table.begin(2, options, &mut Suspended::new()).unwrap();
    late.try_lock("2", Exclusive).unwrap();
    let much_later = Instant::now() + Duration::from_secs(3600);
    let told = |it: &mut Transaction<Rows>| loop {
        let told = it.lock_until("1", Shared, much_later);
        if told != Err(Error::Deadlock) {
            break told; // the debug library makes some up
        }
        it.unlock_all();
    };
    assert_eq!(told(&mut late), Err(Error::TimedOut));
    drop(late);
    let mut waits = table.begin(3, Rows::options().cancelled_by(&canceller), &mut Suspended::new()).unwrap();
    thread::scope(|scope| {
        scope.spawn(|| {
            while !table.users("1").iter().any(|user| user.waits) {
                thread::yield_now();
            }
            canceller.cancel();
        });
        assert_eq!(told(&mut waits), Err(Error::Cancelled));
    });
    drop(waits);
    assert_eq!(table.users("1").len(), 1);
}

#[test]
fn users_and_limits() {
    class!(struct Rows: WoundWait);
    let table = Table::<Rows>::open_limited(2.try_into().unwrap()).unwrap();
    let (mut a, mut b) = (begin(&table, 1), begin(&table, 2));
    a.try_lock("1", Shared).unwrap();
    b.try_lock("1", Shared).unwrap();
    b.try_lock("2", Exclusive).unwrap();
    assert_eq!(a.try_lock("3", Shared), Err(Error::Exhausted));
    let users = table.users("1");
    assert_eq!(
        users.iter().map(|it| (it.owner, it.mode, it.waits)).collect::<Vec<_>>(),
        [(2, Shared, false), (1, Shared, false)]
    );
    assert!(users.iter().all(|it| *it.key == *b"1") && table.users("3").is_empty());
    let mut all = table.all_users();
    all.sort_by_key(|it| (it.key.clone(), it.owner));
    assert_eq!(all.iter().map(|it| it.owner).collect::<Vec<_>>(), [1, 2, 2]);
    drop(table);
    drop((a, b)); // each shares it
}

/// Those that have expired keep their locks, and nobody waits for them; if one hasn't, the caller waits.
#[test]
fn locks_that_expire() {
    class!(struct Rows: WoundWait);
    let table = Table::<Rows>::open().unwrap();
    let (mut a, mut b, mut c) = (begin(&table, 1), begin(&table, 2), begin(&table, 3));
    a.try_lock("k", Shared).unwrap();
    b.try_lock("k", Shared).unwrap();
    let mut seen = Vec::new();
    let told = c.lock_from_expired("k", Exclusive, Instant::now(), |owner, mode| {
        seen.push((owner, mode));
        owner == 1
    });
    assert!([Err(Error::TimedOut), Err(Error::Deadlock)].contains(&told));
    assert_eq!(seen[..2], [(2, Shared), (1, Shared)]);
    assert_eq!(c.lock_from_expired("k", Exclusive, Instant::now(), |_, _| true), Ok(Granted::Now));
    assert!(table.users("k").iter().all(|user| user.owner == 3));
    assert_eq!((a.unlock("k"), b.unlock("k"), b.unlock("k")), (Ok(()), Ok(()), Err(Error::NotHeld)));
}

/// A function that is shown who has a key, with part of the table locked, neither uses it nor unwinds through C.
#[test]
fn a_function_that_panics() {
    class!(struct Rows: WoundWait);
    let table = Table::<Rows>::open().unwrap();
    let (mut a, mut b) = (begin(&table, 1), begin(&table, 2));
    a.try_lock("k", Exclusive).unwrap();
    let mut told = |asks: &dyn Fn() -> bool| {
        catch_unwind(AssertUnwindSafe(|| b.lock_from_expired("k", Shared, Instant::now(), |_, _| asks())))
    };
    let panic = told(&|| panic!("mine")).unwrap_err();
    assert_eq!(panic.downcast_ref::<&str>(), Some(&"mine"));
    assert!(told(&|| table.users("other").is_empty()).is_err());
    assert!(told(&|| table.begin(5, Rows::options(), &mut Suspended::new()).is_ok()).is_err());
    a.unlock("k").unwrap();
    assert_eq!(b.try_lock("k", Shared), Ok(Granted::Now));
}

/// Nor does it end a transaction, which would wait for that part of the table.
#[test]
fn a_function_that_drops_a_transaction() {
    class!(struct Rows: WoundWait);
    let table = Table::<Rows>::open().unwrap();
    let (mut a, mut b) = (begin(&table, 1), begin(&table, 2));
    a.try_lock("k", Shared).unwrap();
    let mut a = Some(a);
    let told = catch_unwind(AssertUnwindSafe(|| {
        b.lock_from_expired("k", Exclusive, Instant::now(), |_, _| {
            drop(a.take());
            true
        })
    }));
    assert!(told.is_err() && table.users("k").len() == 1);
}

/// Handles are the table, whatever goes first.
#[test]
fn a_table_is_closed_with_the_last_of_it() {
    class!(struct Rows: WoundWait, mutexes = 64, contexts = 4);
    for _ in 0..200 {
        let table = Table::<Rows>::open().unwrap();
        let mut transaction = begin(&table.clone(), 1);
        drop(table);
        for key in 0..60_u32 {
            transaction.try_lock(key.to_le_bytes(), Exclusive).unwrap(); // else the table before kept its mutexes
        }
        transaction.unlock(7_u32.to_le_bytes()).unwrap();
        let age = thread::spawn(|| transaction.suspend()).join().unwrap();
        assert!(!age.is_none());
    }
    assert_eq!(Rows::counts().contexts, 0);
}

const KEYS: usize = 12;

struct Model {
    values: [AtomicI64; KEYS],
    writers: [AtomicUsize; KEYS],
    readers: [AtomicUsize; KEYS],
}

// Of the queues, since std's own locks say nothing to the thread sanitizer.
class!(struct Queue: WoundWait);

/// Jobs that any thread retries: each moves something, under exclusive keys, as seen under a shared one.
fn storm<C: Class>(options: fn() -> Options<'static, C>) {
    const JOBS: usize = if cfg!(feature = "debug-library") { 300 } else { 1500 };
    let zeros = || std::array::from_fn(|_| AtomicUsize::new(0));
    let model = Model { values: std::array::from_fn(|_| AtomicI64::new(0)), writers: zeros(), readers: zeros() };
    let table = Table::<C>::open().unwrap();
    let jobs: Mutex<Queue, Vec<(usize, Suspended<C>)>> =
        Mutex::new((0..JOBS).map(|it| (it, Suspended::new())).collect());
    let name = |key: usize| format!("a key that may be long: {}", "x".repeat(key * key));
    let work = |job: usize, it: &mut Transaction<C>| {
        let [read, from, to] = [job % KEYS, (job / 3 + 1) % KEYS, (job / 7 + 5) % KEYS];
        it.lock(name(read), Shared)?;
        thread::yield_now();
        it.lock(name(from), Exclusive)?;
        it.lock(name(to), Exclusive)?;
        let begins = |key: usize| {
            assert!(model.writers[key].fetch_add(1, Relaxed) == 0 && model.readers[key].load(Relaxed) == 0);
        };
        if from != read && to != read {
            model.readers[read].fetch_add(1, Relaxed);
            assert_eq!(model.writers[read].load(Relaxed), 0);
        }
        begins(from);
        if to != from {
            begins(to);
        }
        // Not atomic as a whole: the keys exclude others.
        model.values[from].store(model.values[from].load(Relaxed) - 1, Relaxed);
        model.values[to].store(model.values[to].load(Relaxed) + 1, Relaxed);
        model.writers[from].store(0, Relaxed);
        model.writers[to].store(0, Relaxed);
        if from != read && to != read {
            model.readers[read].fetch_sub(1, Relaxed);
        }
        Ok::<(), Error>(())
    };
    let failed = AtomicBool::new(false);
    thread::scope(|scope| {
        for _ in 0..4 {
            scope.spawn(|| loop {
                let Some((job, mut age)) = jobs.lock().pop() else { break };
                let mut transaction = match table.begin(job as u64, options(), &mut age) {
                    Ok(transaction) => transaction,
                    Err(Error::TimedOut) => {
                        age.at_once();
                        jobs.lock().push((job, age));
                        continue;
                    }
                    Err(_) => return failed.store(true, Relaxed),
                };
                match work(job, &mut transaction) {
                    Ok(()) => {}
                    Err(Error::Deadlock | Error::TimedOut) => {
                        let age = transaction.suspend();
                        jobs.lock().insert(0, (job, age));
                    }
                    Err(_) => failed.store(true, Relaxed),
                }
            });
        }
    });
    assert!(!failed.load(Relaxed) && table.all_users().is_empty());
    assert_eq!(model.values.iter().map(|it| it.load(Relaxed)).sum::<i64>(), 0);
    assert_eq!(C::counts().contexts, 0);
}

#[test]
fn jobs_that_any_thread_retries() {
    class! {
        struct Wound: WoundWait;
        struct Die: WaitDie;
        struct Few: WoundWait, mutexes = 2000, contexts = 16;
    }
    storm::<Wound>(Wound::options);
    storm::<Die>(|| Die::options().timeout(Duration::from_millis(2)));
    storm::<Few>(Few::options);
}
