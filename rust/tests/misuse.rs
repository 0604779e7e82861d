//! What each misuse meets that compiles. Those that don't are shown by the documents of `Tx`, `Mutex`, `MutexGuard`,
//! `class!` and `typed`, which are tests, too.

use std::mem;
use std::panic::{catch_unwind, AssertUnwindSafe};
use std::sync::atomic::{AtomicBool, Ordering};
use std::sync::mpsc::channel;
use std::sync::{Arc, Barrier};
use std::thread;
use std::time::{Duration, Instant};
use ww_mutex::typed::{Context, Refused};
use ww_mutex::{class, ByClass_, Class, Error, Mutex, MutexGuard, RawClass, SharedMutex};

const SOON: Duration = Duration::from_millis(20);

/// A panic names the line of the call, and not one of the crate.
#[test]
fn a_panic_is_of_the_callers_line() {
    class!(struct Boxes: WoundWait, mutexes = 1);
    static LINES: std::sync::Mutex<Vec<(String, u32)>> = std::sync::Mutex::new(Vec::new());
    let (one, other): (Mutex<Boxes, u64>, Mutex<Boxes, u64>) = (Mutex::new(1), Mutex::new(2));
    let held = one.lock();
    let before = std::panic::take_hook();
    std::panic::set_hook(Box::new(|info| {
        let place = info.location().unwrap();
        LINES.lock().unwrap().push((place.file().into(), place.line()));
    }));
    assert!(panics(|| drop(other.lock())));
    let line = line!() - 1;
    std::panic::set_hook(before);
    drop(held);
    assert!(LINES.lock().unwrap().contains(&(file!().into(), line)));
}

fn panics<R>(what: impl FnOnce() -> R) -> bool {
    catch_unwind(AssertUnwindSafe(|| drop(what()))).is_err()
}

/// At once, by each guard: where no context ends, or before that ends.
#[test]
fn a_panic_releases_what_its_guards_hold() {
    class!(struct Boxes: WoundWait);
    let [alone, inside]: [Mutex<Boxes, u64>; 2] = [Mutex::new(1), Mutex::new(2)];
    let (shared, at) = (Arc::new(SharedMutex::<Boxes, u64>::new(3)), Arc::new(Mutex::<Boxes, u64>::new(4)));
    let are_free = || !(alone.is_locked() || inside.is_locked() || shared.is_locked() || at.is_locked());
    assert!(panics(|| {
        let _held = alone.lock();
        panic!()
    }));
    assert!(are_free());
    let told = Boxes::run(|tx| {
        assert!(panics(|| {
            let _held = (tx.lock(&inside).unwrap(), tx.write(&shared).unwrap(), tx.lock_arc(&at).unwrap());
            panic!()
        }));
        assert!(are_free());
        assert!(panics(|| {
            let _held = (tx.write_arc(&shared).unwrap(), tx.guards().lock(&inside).map(|_| ()));
            panic!()
        }));
        assert!(are_free());
        Ok(())
    });
    assert_eq!(told, Ok(()));
}

/// Until the body has returned, and runs again, whatever it returned.
#[test]
fn a_lock_after_deadlock_is_told_so_again() {
    class!(struct Boxes: WaitDie);
    let [a, b, other]: [Mutex<Boxes, u64>; 3] = [Mutex::new(1), Mutex::new(2), Mutex::new(3)];
    let mut older = Context::begin().unwrap();
    let mut tx = Some(older.start());
    let told = Boxes::run(|younger| {
        let held = younger.lock(&b)?;
        let Some(tx) = tx.take() else { return Ok(*younger.lock(&a)? + *held) };
        let Ok((_, held_by_older)) = tx.lock(&a) else { panic!() };
        assert_eq!(younger.lock(&a).map(|_| ()), Err(Error::Deadlock));
        drop(held_by_older);
        assert_eq!(younger.lock(&other).map(|_| ()), Err(Error::Deadlock));
        assert_eq!(younger.lock(MutexGuard::mutex(&held)).map(|_| ()), Err(Error::Deadlock));
        assert!(younger.try_lock(&other).is_none());
        // Though it holds nothing.
        drop(held);
        assert_eq!(younger.lock(&other).map(|_| ()), Err(Error::Deadlock));
        assert!(younger.try_lock(&other).is_none());
        Ok(5)
    });
    assert_eq!((told, a.is_locked(), b.is_locked()), (Ok(3), false, false));
}

#[test]
fn the_deadlock_of_another_context_does_no_harm() {
    class!(struct Boxes: WaitDie);
    let (a, b): (Mutex<Boxes, u64>, Mutex<Boxes, u64>) = (Mutex::new(1), Mutex::new(2));
    let mut older = Context::begin().unwrap();
    let mut younger = Context::begin().unwrap();
    let Ok((_, held_by_older)) = older.start().lock(&a) else { panic!() };
    let Ok((tx, held)) = younger.start().lock(&b) else { panic!() };
    let Err(Refused::Deadlock(lost)) = tx.lock(&a) else { panic!() };
    drop((held, held_by_older));
    // Nor does one of which nobody makes use.
    drop(younger.start().lock(&b));
    let Ok((_, first)) = older.back_off(lost).unwrap().lock(&a) else { panic!() };
    assert_eq!(*first, 1);
}

#[test]
fn a_duplicate_is_told() {
    class!(struct Boxes: WoundWait);
    let m: Mutex<Boxes, u64> = Mutex::new(0);
    let told = Boxes::run(|tx| {
        let _held = tx.lock(&m)?;
        assert!(tx.try_lock(&m).is_none());
        tx.lock(&m).map(|_| ())
    });
    assert_eq!(told, Err(Error::Duplicate));
    let other: Mutex<Boxes, u64> = Mutex::new(0);
    let told = Boxes::run(|tx| {
        let told = tx.lock_all([&m, &other, &m]).map(|_| ());
        assert!(told == Err(Error::Deadlock) || !tx.holds(&m) && !tx.holds(&other) && !other.is_locked());
        // And the context goes on.
        let _both = tx.lock_all([&m, &other])?;
        assert!(tx.holds(&m) && tx.holds(&other));
        told
    });
    assert_eq!(told, Err(Error::Duplicate));
    assert!(!m.is_locked());
}

/// A body that swallows `Deadlock`, and returns a value or an error of its own, made neither with all its locks: it runs again.
#[test]
fn a_body_that_swallows_deadlock_runs_again() {
    class!(struct Boxes: WaitDie);
    let (a, b): (Mutex<Boxes, u64>, Mutex<Boxes, u64>) = (Mutex::new(1), Mutex::new(2));
    for fails in [false, true] {
        let mut older = Context::begin().unwrap();
        let Ok((_, held)) = older.start().lock(&a) else { panic!() };
        let (mut held, mut runs) = (Some(held), 0);
        let told = Boxes::run(|tx| {
            runs += 1;
            let _first = tx.lock(&b)?;
            let has_both = tx.lock(&a).is_ok();
            drop(held.take());
            if fails && !has_both {
                return Err(Error::TimedOut);
            }
            Ok(has_both)
        });
        assert!(told == Ok(true) && runs > 1 && !a.is_locked() && !b.is_locked());
    }
}

#[test]
fn a_forgotten_guard_is_released_by_its_context() {
    class!(struct Boxes: WaitDie, mutexes = 2, contexts = 2);
    let m: Mutex<Boxes, u64> = Mutex::new(0);
    for _ in 0..10 {
        Boxes::run(|tx| {
            mem::forget(tx.lock(&m)?);
            // A mutex that goes while it is locked.
            let gone: Mutex<Boxes, u64> = Mutex::new(1);
            mem::forget(tx.lock(&gone)?);
            Ok(())
        })
        .unwrap();
        assert!(!m.is_locked());
    }
    let mut context = Context::begin().unwrap();
    let Ok((tx, guard)) = context.start().lock(&m) else { panic!() };
    mem::forget((tx, guard));
    let mut moved = context;
    let Ok((_, guard)) = moved.start().lock(&m) else { panic!() };
    mem::forget(guard);
    drop(moved);
    assert!(!m.is_locked());
}

/// Its place in the class is free once after that, whichever of the two comes first.
#[test]
fn a_mutex_may_go_while_its_context_releases_it() {
    class!(struct Boxes: WoundWait, mutexes = 1, contexts = 1);
    let (gives, gone) = channel::<Mutex<Boxes, u64>>();
    let (tells, told) = channel();
    let drops = thread::spawn(move || {
        for mutex in gone {
            drop(mutex);
            tells.send(()).unwrap();
        }
    });
    for _ in 0..2_000 {
        let mut context = Context::begin().unwrap();
        let mutex = Mutex::try_new(0).expect("its place is free");
        assert!(Mutex::<Boxes, u64>::try_new(1).is_err());
        let Ok((_, guard)) = context.start().lock(&mutex) else { panic!() };
        mem::forget(guard);
        gives.send(mutex).unwrap();
        drop(context);
        told.recv().unwrap();
    }
    drop(gives);
    drops.join().unwrap();
}

#[test]
fn a_forgotten_context_keeps_what_was_forgotten_with_it() {
    class!(struct Boxes: WoundWait, mutexes = 3, contexts = 2);
    let m: Mutex<Boxes, u64> = Mutex::new(0);
    let mut context = Context::begin().unwrap();
    let Ok((tx, guard)) = context.start().lock(&m) else { panic!() };
    mem::forget((tx, guard));
    mem::forget(context);
    // All others go on.
    for _ in 0..10 {
        let other: Mutex<Boxes, u64> = Mutex::try_new(0).unwrap();
        Boxes::run(|tx| tx.lock(&other).map(|mut value| *value += 1)).unwrap();
    }
    drop(Context::<Boxes>::begin());
    assert!(m.is_locked() && m.try_lock().is_none() && m.try_lock_for(SOON).is_none());
}

#[test]
fn a_forgotten_lone_guard_keeps_its_mutex_locked() {
    class!(struct Boxes: WoundWait, mutexes = 3, contexts = 2);
    let other: Mutex<Boxes, u64> = Mutex::new(0);
    mem::forget(other.lock());
    let moved = other;
    assert!(moved.is_locked() && moved.try_lock().is_none() && moved.try_lock_for(SOON).is_none());
    assert_eq!(moved.into_inner(), 0);
    // Its place and its context are lost, and no others.
    let kept: Vec<_> = (0..2).map(|value| Mutex::<Boxes, u64>::try_new(value).unwrap()).collect();
    assert!(Mutex::<Boxes, u64>::try_new(2).is_err());
    let context = Context::<Boxes>::begin().unwrap();
    assert!(kept[0].try_lock().is_none());
    drop(context);
    assert!(kept[0].try_lock().is_some());
}

#[cfg(debug_assertions)]
#[test]
fn waiting_for_oneself_panics() {
    class!(struct Boxes: WoundWait);
    let m: Mutex<Boxes, u64> = Mutex::new(0);
    assert!(panics(|| Boxes::run(|tx| {
        let _held = tx.lock(&m)?;
        drop(m.lock());
        Ok(())
    })));
    assert!(panics(|| Boxes::run(|tx| {
        let _held = tx.lock(&m)?;
        Boxes::run(|inner| inner.lock(&m).map(|_| ()))
    })));
    assert!(!m.is_locked());
    let shared: ww_mutex::SharedMutex<Boxes, u64> = ww_mutex::SharedMutex::new(7);
    assert!(panics(|| Boxes::run(|tx| {
        let _written = tx.write(&shared)?;
        Boxes::run(|inner| inner.read(&shared).copied())
    })));
    assert!(panics(|| Boxes::run(|tx| {
        tx.read(&shared)?;
        Boxes::run(|inner| inner.write(&shared).map(|_| ()))
    })));
    assert_eq!(Boxes::run(|tx| Ok(*tx.read(&shared)? + Boxes::run(|inner| inner.read(&shared).copied())?)), Ok(14));
}

#[test]
fn more_mutexes_than_there_may_be_are_told() {
    class!(struct Few: WoundWait, mutexes = 2, contexts = 1);
    let a: Mutex<Few, u64> = Mutex::try_new(1).unwrap();
    for k in 0..100 {
        let b: Mutex<Few, u64> = Mutex::try_new(k).unwrap();
        assert_eq!(*b.lock(), k);
        let (value, error) = Mutex::<Few, u64>::try_new(7).unwrap_err();
        assert_eq!((value, error), (7, Error::Exhausted));
        let c: Mutex<Few, u64> = Mutex::new(8);
        assert_eq!(Few::run(|tx| tx.lock(&c).map(|_| ())), Err(Error::Exhausted));
        assert!(Few::run(|tx| Ok(tx.try_lock(&c).is_none())).unwrap());
        assert!(c.try_lock().is_none() && c.try_lock_until(Instant::now()).is_none());
        assert!(c.try_lock_for(SOON).is_none() && c.try_lock_for(Duration::MAX).is_none());
        // It has no answer.
        assert!(panics(|| drop(c.lock())));
        let (value, error) = SharedMutex::<Few, u64>::try_new(9).unwrap_err();
        assert_eq!((value, error), (9, Error::Exhausted));
        let shared: SharedMutex<Few, u64> = SharedMutex::new(9);
        assert_eq!(Few::run(|tx| tx.write(&shared).map(drop)), Err(Error::Exhausted));
        assert!(Few::run(|tx| Ok(tx.try_read(&shared).is_none() && tx.try_write(&shared).is_none())).unwrap());
        // Its place is free again once it is gone.
        assert_eq!(b.into_inner(), k);
    }
    assert_eq!(*a.lock(), 1);
}

/// Also where two threads lock it first at once, of which one made what isn't needed.
#[test]
fn a_mutex_takes_one_place() {
    class!(struct Two: WoundWait, mutexes = 2, contexts = 4);
    for _ in 0..300 {
        let m: Mutex<Two, u64> = Mutex::new(0);
        let met = Barrier::new(2);
        let add = || {
            met.wait();
            *m.lock() += 1;
        };
        thread::scope(|scope| {
            scope.spawn(add);
            add();
        });
        assert_eq!(m.into_inner(), 2);
    }
}

#[test]
fn a_class_has_65536_mutexes() {
    class!(struct Boxes: WoundWait);
    let all: Vec<Mutex<Boxes, ()>> = (0..65_536).map(|_| Mutex::try_new(()).unwrap()).collect();
    assert!(matches!(Mutex::<Boxes, _>::try_new(()), Err(((), Error::Exhausted))));
    drop(all);
    assert!(Mutex::<Boxes, _>::try_new(()).is_ok());
}

#[test]
fn a_class_that_says_so_has_more_mutexes() {
    const MANY: u32 = 70_000;
    class!(struct Boxes: WoundWait, mutexes = MANY, contexts = 4);
    let all: Vec<Mutex<Boxes, u32>> = (0..MANY).map(|number| Mutex::try_new(number).unwrap()).collect();
    assert!(matches!(Mutex::<Boxes, _>::try_new(0), Err((0, Error::Exhausted))));
    let sum = Boxes::run(|tx| Ok(*tx.lock(&all[0])? + *tx.lock(&all[65_536])? + *tx.lock(&all[69_999])?));
    assert_eq!(sum, Ok(65_536 + 69_999));
}

/// Only `class!` implements this, but nothing hinders a program that does: a wrong one may do no harm.
#[test]
fn a_class_that_is_another_one_at_each_call_panics() {
    class!(struct One: WoundWait; struct Other: WoundWait);
    enum Both {}
    static IS_OTHER: AtomicBool = AtomicBool::new(false);
    impl ByClass_ for Both {
        fn raw_() -> &'static RawClass {
            if IS_OTHER.fetch_xor(true, Ordering::Relaxed) {
                One::raw()
            } else {
                Other::raw()
            }
        }
    }
    let m: Mutex<Both, u64> = Mutex::new(0);
    assert!(panics(|| Both::run(|tx| tx.lock(&m).map(|_| ()))));
    let _turned = Both::raw();
    let m: Mutex<Both, u64> = Mutex::new(0);
    assert!(panics(|| Both::run(|tx| Ok(tx.try_lock(&m).is_some()))));
}

/// Nor at the end of a mutex: its number isn't that of another class, which has the same one in use.
#[test]
fn a_number_goes_back_to_its_class_alone() {
    class!(struct One: WoundWait, mutexes = 1; struct Other: WoundWait, mutexes = 1);
    enum Either {}
    static IS_OTHER: AtomicBool = AtomicBool::new(false);
    impl ByClass_ for Either {
        fn raw_() -> &'static RawClass {
            if IS_OTHER.load(Ordering::Relaxed) {
                Other::raw()
            } else {
                One::raw()
            }
        }
    }
    let other: Mutex<Other, u64> = Mutex::try_new(1).unwrap();
    let m: Mutex<Either, u64> = Mutex::try_new(2).unwrap();
    IS_OTHER.store(true, Ordering::Relaxed);
    let held = other.lock();
    assert!(!m.is_locked() && panics(|| m.try_lock().is_some()));
    drop(held);
    drop(m);
    assert!(Mutex::<Other, u64>::try_new(3).is_err());
}
