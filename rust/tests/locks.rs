//! What the calls answer, by one thread or two that say when they go on.

use std::mem;
use std::panic::{catch_unwind, AssertUnwindSafe};
use std::ptr;
use std::sync::{Arc, Barrier};
use std::thread;
use ww_mutex::typed::{Context, Refused};
use ww_mutex::{class, ArcMutexGuard, Canceller, Class, Error, Kind, Mutex, MutexGuard, Options};

#[test]
fn a_context_locks_in_any_order() {
    class!(struct Boxes: WoundWait);
    static LIST: [Mutex<Boxes, u64>; 3] = [Mutex::new(1), Mutex::new(2), Mutex::new(3)];
    let sum = Boxes::run(|tx| {
        let c = tx.lock(&LIST[2])?;
        let a = tx.lock(&LIST[0])?;
        assert!(tx.holds(&LIST[2]) && !tx.holds(&LIST[1]));
        drop(c);
        assert!(!tx.holds(&LIST[2]));
        let mut c = tx.lock(&LIST[2])?;
        *c += *a;
        Ok(*c)
    });
    assert_eq!(sum, Ok(4));
    assert!(LIST.iter().all(|m| !m.is_locked()));
}

/// Any error type that is made from `Error`; it is handed on after one attempt, unless the context got `Deadlock`.
#[test]
fn other_errors_are_handed_on() {
    class!(struct Boxes: WaitDie);
    let m: Mutex<Boxes, u64> = Mutex::new(0);
    let mut attempts = 0;
    let told: Result<(), Box<dyn std::error::Error>> = Boxes::try_run(|tx| {
        attempts += 1;
        *tx.lock(&m)? += 1;
        let wrong: u64 = "seven".parse()?;
        *tx.lock(&m)? += wrong;
        Ok(())
    });
    assert!(told.unwrap_err().is::<std::num::ParseIntError>());
    assert_eq!((attempts, m.into_inner()), (1, 1));
}

/// In Wait-Die a younger context gets it immediately, so one thread can play both.
#[test]
fn the_younger_one_backs_off() {
    class!(struct Boxes: WaitDie);
    let (a, b): (Mutex<Boxes, u64>, Mutex<Boxes, u64>) = (Mutex::new(1), Mutex::new(2));
    let mut older = Context::begin().unwrap();
    let mut younger = Context::begin().unwrap();
    let Ok((_, held_by_older)) = older.start().lock(&a) else { panic!() };
    let Ok((tx, held)) = younger.start().lock(&b) else { panic!() };
    let Err(Refused::Deadlock(lost)) = tx.lock(&a) else { panic!() };
    drop(held);
    drop(held_by_older);
    let tx = younger.back_off(lost).unwrap();
    assert!(a.is_locked());
    let Ok((tx, a_guard)) = tx.lock(&a) else { panic!() };
    let Err(Refused::Other(Error::Duplicate, tx)) = tx.lock(&a) else { panic!() };
    let Ok((_, b_guard)) = tx.lock(&b) else { panic!() };
    assert_eq!((*a_guard, *b_guard), (1, 2));
}

/// By `try_lock`, too.
#[test]
fn what_came_first_is_handed_out_once() {
    class!(struct Boxes: WaitDie);
    let (a, b): (Mutex<Boxes, u64>, Mutex<Boxes, u64>) = (Mutex::new(1), Mutex::new(2));
    let mut older = Context::begin().unwrap();
    let mut younger = Context::begin().unwrap();
    for _ in 0..2 {
        let Ok((_, held_by_older)) = older.start().lock(&a) else { panic!() };
        let Ok((tx, held)) = younger.start().lock(&b) else { panic!() };
        let Err(Refused::Deadlock(lost)) = tx.lock(&a) else { panic!() };
        drop((held, held_by_older));
        let mut tx = younger.back_off(lost).unwrap();
        let first = tx.try_lock(&a);
        assert!(first.is_some() && tx.try_lock(&a).is_none() && tx.try_lock(&b).is_some());
        drop(first);
        assert!(!a.is_locked() && tx.try_lock(&a).is_some());
    }
}

/// The contended mutex is taken first, and released at the end though the body doesn't ask for it any more.
#[test]
fn what_came_first_is_released() {
    class!(struct Boxes: WaitDie);
    let (a, b): (Mutex<Boxes, u64>, Mutex<Boxes, u64>) = (Mutex::new(1), Mutex::new(2));
    let mut older = Context::begin().unwrap();
    let mut tx = Some(older.start());
    Boxes::run(|younger| {
        let _b = younger.lock(&b)?;
        if let Some(tx) = tx.take() {
            let Ok((_, guard)) = tx.lock(&a) else { panic!() };
            let told = younger.lock(&a).map(|_| ());
            assert_eq!(told, Err(Error::Deadlock));
            drop(guard);
            return told;
        }
        assert!(a.is_locked() && !younger.holds(&a));
        Ok(())
    })
    .unwrap();
    assert!(!a.is_locked() && !b.is_locked());
}

/// The mutex at which `Deadlock` came is gone before the context has waited for it.
#[test]
fn a_contended_mutex_may_go() {
    class!(struct Boxes: WaitDie, mutexes = 3, contexts = 4);
    let b: Mutex<Boxes, u64> = Mutex::new(2);
    let mut older = Context::begin().unwrap();
    let mut tx = Some(older.start());
    let attempts = Boxes::run(|younger| {
        let _b = younger.lock(&b)?;
        if let Some(tx) = tx.take() {
            let a: Mutex<Boxes, u64> = Mutex::new(1);
            let Ok((_, guard)) = tx.lock(&a) else { panic!() };
            let told = younger.lock(&a).map(|_| 0);
            drop(guard);
            return told;
        }
        // Its place is free at once, and the context has waited for nobody.
        let (one, other) = (Mutex::try_new(1).unwrap(), Mutex::try_new(3).unwrap());
        assert!(Mutex::<Boxes, u64>::try_new(2).is_err());
        assert!(!one.is_locked() && !other.is_locked() && !younger.holds(&one) && !younger.holds(&other));
        let both = younger.lock_all([&one, &other])?;
        assert!(younger.holds(&one) && younger.holds(&other) && one.is_locked() && other.is_locked());
        assert_eq!(both.map(|value| *value), [1, 3]);
        assert!(!one.is_locked() && !other.is_locked());
        Ok(younger.attempts())
    });
    assert_eq!(attempts, Ok(2));
    // And now all are free again.
    let _all: Vec<Mutex<Boxes, u64>> = (0..2).map(|v| Mutex::try_new(v).unwrap()).collect();
}

#[test]
fn a_mutex_may_move() {
    class!(struct Boxes: WoundWait);
    let m: Mutex<Boxes, String> = Mutex::new("a".into());
    m.lock().push('b');
    let mut moved = Box::new(m);
    Boxes::run(|tx| tx.lock(&moved).map(|mut text| text.push('c'))).unwrap();
    moved.get_mut().push('d');
    assert_eq!(moved.into_inner(), "abcd");
    let any: Box<Mutex<Boxes, [u64]>> = Box::new(Mutex::new([1, 2, 3]));
    assert_eq!(any.lock().len(), 3);
    assert_eq!(Boxes::run(|tx| Ok(tx.lock(&any)?.len())), Ok(3));
}

/// Mutexes may name each other, as std's may: nothing here has a `Drop` that looks at the value.
#[test]
fn mutexes_may_borrow_each_other_in_a_cycle() {
    class!(struct Nodes: WoundWait);
    struct Node<'a>(Mutex<Nodes, Option<&'a Node<'a>>>);
    let (one, other) = (Node(Mutex::new(None)), Node(Mutex::new(None)));
    *one.0.lock() = Some(&other);
    *other.0.lock() = Some(&one);
    let is_cycle = Nodes::run(|tx| {
        let next = tx.lock(&one.0)?.unwrap();
        let back = tx.lock(&next.0)?.unwrap();
        Ok(ptr::eq(back, &raw const one))
    });
    assert_eq!(is_cycle, Ok(true));
}

#[test]
fn a_panic_releases_all() {
    class!(struct Boxes: WoundWait, mutexes = 4, contexts = 1);
    let (a, b): (Mutex<Boxes, u64>, Mutex<Boxes, u64>) = (Mutex::new(0), Mutex::new(0));
    for _ in 0..3 {
        let caught = catch_unwind(AssertUnwindSafe(|| {
            Boxes::run(|tx| -> Result<(), Error> {
                *tx.lock(&a)? += 1;
                let _a = tx.lock(&a)?;
                let _b = tx.lock(&b)?;
                panic!("in the body")
            })
        }));
        assert!(caught.is_err() && !a.is_locked() && !b.is_locked());
    }
    // There is no poison, and the one context is free again.
    assert_eq!(Boxes::run(|tx| Ok(*tx.lock(&a)?)), Ok(3));
}

/// Two threads in opposite orders, each with one lock before either asks for the other: one of them backs off, and
/// once.
#[test]
fn one_of_two_in_opposite_orders_backs_off() {
    class!(struct Wound: WoundWait; struct Die: WaitDie);
    fn both<C: Class>() {
        let (a, b): (Mutex<C, u64>, Mutex<C, u64>) = (Mutex::new(0), Mutex::new(0));
        for _ in 0..200 {
            let met = Barrier::new(2);
            let go = |first: &Mutex<C, u64>, second: &Mutex<C, u64>| {
                C::run(|tx| {
                    let mut first = tx.lock(first)?;
                    if tx.attempts() == 1 {
                        met.wait();
                    }
                    let mut second = tx.lock(second)?;
                    *first += 1;
                    *second += 1;
                    Ok(tx.attempts())
                })
                .unwrap()
            };
            let attempts = thread::scope(|scope| {
                let other = scope.spawn(|| go(&b, &a));
                go(&a, &b) + other.join().unwrap()
            });
            // The debug library tells `Deadlock` without need, too.
            assert!(attempts == 3 || cfg!(feature = "debug-library") && attempts > 3);
        }
        assert_eq!((a.into_inner(), b.into_inner()), (400, 400));
    }
    both::<Wound>();
    both::<Die>();
}

#[test]
fn a_typed_context_locks_a_list() {
    class!(struct Boxes: WoundWait);
    let (a, b): (Mutex<Boxes, u64>, Mutex<Boxes, u64>) = (Mutex::new(1), Mutex::new(2));
    let mut context = Context::begin().unwrap();
    {
        let (tx, [mut one, mut other]) = context.lock_all([&b, &a]).unwrap();
        mem::swap(&mut *one, &mut *other);
        assert!(matches!(tx.lock(&a), Err(Refused::Other(Error::Duplicate, _))));
    }
    assert!(matches!(context.lock_all([&a, &b, &a]), Err(Error::Duplicate)));
    assert!(!a.is_locked() && !b.is_locked());
    assert_eq!((*a.lock(), *b.lock()), (2, 1));
}

#[test]
fn one_context_more_than_there_may_be_waits() {
    class!(struct Boxes: WoundWait, mutexes = 1, contexts = 1);
    let m: Arc<Mutex<Boxes, u64>> = Arc::default();
    let context = Context::<Boxes>::begin().unwrap();
    assert!(m.try_lock().is_none());
    let other = {
        let m = Arc::clone(&m);
        thread::spawn(move || Boxes::run(|tx| tx.lock_arc(&m).map(|mut value| *value += 1)))
    };
    while Boxes::counts().context_waits < 1 {
        thread::yield_now();
    }
    assert!(!other.is_finished());
    drop(context);
    assert_eq!(other.join().unwrap(), Ok(()));
    assert_eq!(*m.lock(), 1);
}

#[test]
fn a_class_may_have_many_contexts() {
    class!(struct Boxes: WoundWait, contexts = 300);
    let list: Vec<Mutex<Boxes, usize>> = (0..300).map(Mutex::new).collect();
    let mut contexts: Vec<_> = list.iter().map(|_| Context::<Boxes>::begin().unwrap()).collect();
    let held: Vec<_> = contexts
        .iter_mut()
        .zip(&list)
        .map(|(context, m)| match context.start().lock(m) {
            Ok((_, guard)) => guard,
            Err(refused) => panic!("{refused:?}"),
        })
        .collect();
    assert_eq!(held.iter().map(|value| **value).sum::<usize>(), 300 * 299 / 2);
    assert!(list.iter().all(Mutex::is_locked));
}

#[test]
fn what_is_shown() {
    class!(struct Boxes: WaitDie, mutexes = 64, contexts = 4);
    let m: Mutex<Boxes, u64> = Mutex::default();
    let held = m.lock();
    assert_eq!(format!("{held:?} {held} {m:?}"), "0 0 Mutex { data: <locked> }");
    assert!(ptr::eq(MutexGuard::mutex(&held), &raw const m));
    drop(held);
    assert_eq!(format!("{m:?}"), "Mutex { data: 0 }");
    let arc: Arc<Mutex<Boxes, u64>> = Arc::new(7.into());
    let told = Boxes::run(|tx| {
        let held = tx.lock_arc(&arc)?;
        assert!(Arc::ptr_eq(ArcMutexGuard::mutex(&held), &arc));
        Ok(format!("{held:?} {held}"))
    });
    assert_eq!(told.as_deref(), Ok("7 7"));
    assert_eq!(Boxes::open(), Ok(()));
    assert_eq!(format!("{:?}", Boxes::raw()), "RawClass { name: \"Boxes\", kind: WaitDie, .. }");
    assert_eq!(Boxes::raw().kind(), Kind::WaitDie);
    assert_eq!(Error::TimedOut.to_string(), "the deadline passed");
    assert!(Error::Deadlock.is_deadlock() && !Error::Duplicate.is_deadlock());
    assert_eq!(format!("{:?}", Canceller::new()), "Canceller { is_cancelled: false }");
    assert!(ww_mutex::library_version() >= 30_000);
}

#[test]
fn what_threads_may_share_and_send() {
    class!(struct Boxes: WoundWait);
    fn sends<T: Send>() {}
    fn shares<T: Sync>() {}
    sends::<Mutex<Boxes, std::cell::Cell<u64>>>();
    shares::<Mutex<Boxes, std::cell::Cell<u64>>>();
    shares::<MutexGuard<'_, Boxes, u64>>();
    shares::<ArcMutexGuard<'_, Boxes, u64>>();
    sends::<Canceller>();
    shares::<Canceller>();
    sends::<Options<'_, Boxes>>();
    sends::<Error>();
    shares::<Error>();
}
