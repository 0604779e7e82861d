//! What ends a wait: times and cancels, also where all contexts of the class are in use.

use std::sync::atomic::{AtomicBool, Ordering::Relaxed};
use std::sync::mpsc::channel;
use std::sync::Barrier;
use std::thread;
use std::time::{Duration, Instant};
use ww_mutex::typed::{Context, Refused};
use ww_mutex::{class, Canceller, Class, Error, Mutex, Tx};

const SOON: Duration = Duration::from_millis(20);
const HOUR: Duration = Duration::from_secs(3600);

#[test]
fn a_deadline_ends_each_wait() {
    class!(struct Boxes: WoundWait, mutexes = 4, contexts = 3);
    let m: Mutex<Boxes, u64> = Mutex::new(0);
    let held = m.lock();
    let begun = Instant::now();
    let mut attempts = 0;
    let told = Boxes::options().timeout(SOON).run(|tx| {
        attempts += 1;
        tx.lock(&m).map(|_| ())
    });
    assert_eq!((told, attempts), (Err(Error::TimedOut), 1));
    assert!(begun.elapsed() >= SOON);
    assert!(m.try_lock_for(SOON).is_none());
    // A free one is locked, however late.
    drop(held);
    assert_eq!(Boxes::options().deadline(begun).run(|tx| tx.lock(&m).map(|v| *v)), Ok(0));
    assert!(m.try_lock_until(begun).is_some());
    // And the wait for a context.
    let _all: Vec<_> = (0..3).map(|_| Context::<Boxes>::begin().unwrap()).collect();
    let begun = Instant::now();
    assert_eq!(Boxes::options().timeout(SOON).run(|_| Ok(())), Err(Error::TimedOut));
    assert!(begun.elapsed() >= SOON);
    assert!(m.try_lock_for(SOON).is_none());
}

/// Threads that lock a new mutex at once take one number for it, so a class of one mutex is enough.
#[test]
fn a_first_lock_takes_one_number() {
    class!(struct Boxes: WoundWait, mutexes = 1);
    let meet = Barrier::new(4);
    for _ in 0..500 {
        let m: Mutex<Boxes, u64> = Mutex::new(0);
        thread::scope(|scope| {
            for _ in 0..4 {
                scope.spawn(|| {
                    meet.wait();
                    *m.lock() += 1;
                });
            }
        });
        assert_eq!(m.into_inner(), 4);
    }
}

/// How often this thread went to sleep.
fn sleeps() -> u64 {
    let status = std::fs::read_to_string("/proc/thread-self/status").unwrap();
    let line = status.lines().find_map(|line| line.strip_prefix("voluntary_ctxt_switches:"));
    line.unwrap().trim().parse().unwrap()
}

/// Where all contexts of the class are in use one with a deadline waits as others do: it doesn't look again and again.
#[test]
fn the_wait_for_a_context_is_one_sleep() {
    class!(struct Boxes: WoundWait, contexts = 1);
    let context = Context::<Boxes>::begin().unwrap();
    let before = sleeps();
    assert_eq!(Boxes::options().timeout(10 * SOON).run(|_| Ok(())), Err(Error::TimedOut));
    assert!(sleeps() < before + 10);
    drop(context);
}

/// Times beyond the clock's are forever.
#[test]
fn a_timeout_may_be_endless() {
    class!(struct Boxes: WoundWait);
    let m: Mutex<Boxes, u64> = Mutex::new(3);
    for timeout in [Duration::MAX, Duration::from_secs(u64::MAX / 4), Duration::from_secs(1 << 40)] {
        assert_eq!(m.try_lock_for(timeout).map(|value| *value), Some(3));
        assert_eq!(Boxes::options().timeout(timeout).run(|tx| Ok(*tx.lock(&m)?)), Ok(3));
    }
}

/// With all contexts of the class in use, too: each of them waits.
#[test]
fn limits_hold_with_all_contexts_in_use() {
    class!(struct Boxes: WoundWait, mutexes = 4, contexts = 4);
    let m: Mutex<Boxes, u64> = Mutex::new(0);
    let canceller = Canceller::new();
    let held = m.lock();
    thread::scope(|scope| {
        let late = scope.spawn(|| Boxes::options().timeout(SOON).run(|tx| tx.lock(&m).map(|_| ())));
        let waiting: Vec<_> = (0..2)
            .map(|_| scope.spawn(|| Boxes::options().cancelled_by(&canceller).run(|tx| tx.lock(&m).map(|_| ()))))
            .collect();
        assert_eq!(late.join().unwrap(), Err(Error::TimedOut));
        assert!(waiting.iter().all(|thread| !thread.is_finished()));
        canceller.cancel();
        for thread in waiting {
            assert_eq!(thread.join().unwrap(), Err(Error::Cancelled));
        }
    });
    drop(held);
}

#[test]
fn a_canceller_calls_waits_off() {
    class!(struct Boxes: WoundWait);
    let m: Mutex<Boxes, u64> = Mutex::new(0);
    let canceller = Canceller::new();
    let held = m.lock();
    thread::scope(|scope| {
        let threads: Vec<_> = (0..3)
            .map(|_| scope.spawn(|| Boxes::options().cancelled_by(&canceller).run(|tx| tx.lock(&m).map(|_| ()))))
            .collect();
        while Boxes::counts().lock_waits < 3 {
            thread::yield_now();
        }
        assert!(threads.iter().all(|t| !t.is_finished()));
        canceller.cancel();
        for waiting in threads {
            assert_eq!(waiting.join().unwrap(), Err(Error::Cancelled));
        }
    });
    drop(held);
    // For good: also where the mutex is free.
    assert!(canceller.is_cancelled());
    assert_eq!(Boxes::options().cancelled_by(&canceller).run(|tx| tx.lock(&m).map(|_| ())), Err(Error::Cancelled));
    assert_eq!(Boxes::run(|tx| tx.lock(&m).map(|_| ())), Ok(()));
}

/// The wait for a context, too.
#[test]
fn a_canceller_calls_off_the_wait_for_a_context() {
    class!(struct Boxes: WoundWait, contexts = 1);
    let canceller = Canceller::new();
    let context = Context::<Boxes>::begin().unwrap();
    thread::scope(|scope| {
        let waiting = scope.spawn(|| Boxes::options().cancelled_by(&canceller).run(|_| Ok(())));
        while Boxes::counts().context_waits < 1 {
            thread::yield_now();
        }
        assert!(!waiting.is_finished());
        canceller.cancel();
        assert_eq!(waiting.join().unwrap(), Err(Error::Cancelled));
    });
    drop(context);
}

/// Others that come and go leave it its turn.
#[test]
fn who_can_be_cancelled_gets_a_context_too() {
    class!(struct Boxes: WoundWait, contexts = 1);
    let (canceller, is_over) = (Canceller::new(), AtomicBool::new(false));
    thread::scope(|scope| {
        for _ in 0..4 {
            scope.spawn(|| {
                while !is_over.load(Relaxed) {
                    Boxes::run(|_| {
                        thread::sleep(Duration::from_millis(5));
                        Ok(())
                    })
                    .unwrap();
                }
            });
        }
        while Boxes::counts().context_waits < 4 {
            thread::yield_now();
        }
        let told = Boxes::options().cancelled_by(&canceller).timeout(HOUR).run(|_| Ok(()));
        is_over.store(true, Relaxed);
        assert_eq!(told, Ok(()));
    });
}

/// All waits of a class end, of contexts and for them, with and without limits, also those that begin later.
#[test]
fn a_class_ends_its_waits() {
    class!(struct Boxes: WoundWait, mutexes = 2, contexts = 4);
    let m: Mutex<Boxes, u64> = Mutex::new(0);
    let canceller = Canceller::new();
    let held = m.lock();
    let lock = |tx: &Tx<Boxes>| tx.lock(&m).map(|_| ());
    thread::scope(|scope| {
        let mut waiting = vec![
            scope.spawn(|| Boxes::run(lock)),
            scope.spawn(|| Boxes::options().timeout(HOUR).run(lock)),
            scope.spawn(|| Boxes::options().cancelled_by(&canceller).run(lock)),
        ];
        while Boxes::counts().lock_waits < 3 {
            thread::yield_now();
        }
        waiting.push(scope.spawn(|| Boxes::run(lock)));
        while Boxes::counts().context_waits < 1 {
            thread::yield_now();
        }
        Boxes::cancel().unwrap();
        for it in waiting {
            assert_eq!(it.join().unwrap(), Err(Error::Cancelled));
        }
        assert_eq!(Boxes::run(lock), Err(Error::Cancelled));
        assert!(m.try_lock_for(HOUR).is_none());
    });
    drop(held);
    // What needn't wait goes on.
    assert_eq!(Boxes::run(|tx| tx.lock(&m).map(|_| ())), Ok(()));
}

/// The wait of a back-off, too.
#[test]
fn a_back_off_is_called_off() {
    class!(struct Boxes: WaitDie);
    let (a, b): (Mutex<Boxes, u64>, Mutex<Boxes, u64>) = (Mutex::new(0), Mutex::new(0));
    let canceller = Canceller::new();
    let mut older = Context::begin().unwrap();
    let tx = older.start();
    let (begun, begins) = channel();
    let (goes, go) = channel::<()>();
    thread::scope(|scope| {
        let waiting = scope.spawn({
            let (a, b, canceller) = (&a, &b, &canceller);
            move || {
                let mut attempts = 0;
                let told = Boxes::options().cancelled_by(canceller).run(|tx| {
                    attempts += 1;
                    let _b = tx.lock(b)?;
                    begun.send(()).unwrap();
                    go.recv().unwrap();
                    tx.lock(a).map(|_| ())
                });
                (told, attempts)
            }
        });
        begins.recv().unwrap();
        let Ok((_, held)) = tx.lock(&a) else { panic!() };
        goes.send(()).unwrap();
        while Boxes::counts().lock_waits < 1 {
            thread::yield_now();
        }
        canceller.cancel();
        assert_eq!(waiting.join().unwrap(), (Err(Error::Cancelled), 1));
        drop(held);
    });
    assert!(!a.is_locked() && !b.is_locked());
    // By the class, too.
    let Ok((_, held)) = older.start().lock(&a) else { panic!() };
    let is_called_off = || {
        let mut younger = Context::begin().unwrap();
        let Ok((tx, other)) = younger.start().lock(&b) else { panic!() };
        let Err(Refused::Deadlock(lost)) = tx.lock(&a) else { panic!() };
        drop(other);
        Boxes::cancel().unwrap();
        let told = younger.back_off(lost).map(|_| ());
        // And the context goes on.
        told == Err(Error::Cancelled) && younger.start().lock(&b).is_ok()
    };
    assert!(thread::scope(|scope| scope.spawn(is_called_off).join().unwrap()));
    drop(held);
}
