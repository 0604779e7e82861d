//! Ages of transactions that others retry: each is kept over threads, waits first for what was contended, and leaves nothing.

use std::panic::{catch_unwind, AssertUnwindSafe};
use std::thread;
use std::time::Duration;
use ww_mutex::typed::Context;
use ww_mutex::{class, Canceller, Class, Error, Mutex, Options, Suspended};

fn soon<C: Class>() -> Options<'static, C> {
    C::options().timeout(Duration::from_millis(5))
}

/// The debug library makes up some `Deadlock`s.
const TRIES: usize = if cfg!(feature = "debug-library") { 50 } else { 1 };

/// In Wait-Die the older one waits where a younger one gets `Deadlock`.
#[test]
fn it_keeps_its_age_in_any_thread() {
    class!(struct Boxes: WaitDie);
    static BOXES: [Mutex<Boxes, u64>; 2] = [Mutex::new(0), Mutex::new(0)];
    let mut age = Suspended::new();
    assert_eq!(age.run(Boxes::options(), |_| Err::<(), _>(Error::TimedOut)), Err(Error::TimedOut));
    assert!(!age.is_none() && Boxes::counts().contexts == 1);
    let mut between = Context::begin().unwrap();
    let Ok((_, held)) = between.start().lock(&BOXES[0]) else { panic!() };
    // What its body got; on a busy machine a short time may be over before that is called.
    let told = |age: &mut Suspended<Boxes>, options: Options<'static, Boxes>| loop {
        let mut told = None;
        age.at_once();
        let by_run = age.run(options, |tx| {
            let _other = tx.lock(&BOXES[1])?;
            told = Some(tx.lock(&BOXES[0]).map(|_| ()));
            told.unwrap()
        });
        assert!(by_run.is_err() && !BOXES[1].is_locked());
        if let Some(told) = told {
            assert!(!age.is_none());
            break told;
        }
    };
    for _ in 0..3 {
        thread::scope(|scope| {
            let waits = scope.spawn(|| (0..TRIES).any(|_| told(&mut age, soon()) == Err(Error::TimedOut)));
            assert!(waits.join().unwrap());
        });
        // One that is younger.
        let mut fresh = Suspended::new();
        assert_eq!(told(&mut fresh, Boxes::options()), Err(Error::Deadlock));
        let mut is_called = false;
        let waits = fresh.run(soon(), |_| {
            is_called = true;
            Ok(())
        });
        // The debug library may have made it up at a mutex that is free.
        assert!(cfg!(feature = "debug-library") || waits == Err(Error::TimedOut) && !is_called && !fresh.is_none());
        fresh.at_once();
        assert_eq!(fresh.run(Boxes::options(), |_| Ok(7)), Ok(7));
        assert!(fresh.is_none());
    }
    drop(held);
    drop(between);
    assert_eq!(Boxes::counts().contexts, 1);
    assert_eq!(age.run(Boxes::options(), |_| Ok(())), Ok(()));
    assert!(age.is_none() && Boxes::counts().contexts == 0);
}

/// What was suspended still is after a wait that its options ended; a panic of the body ends it.
#[test]
fn limits_and_panics() {
    class!(struct Boxes: WaitDie, mutexes = 4, contexts = 4);
    static BOXES: [Mutex<Boxes, u64>; 2] = [Mutex::new(0), Mutex::new(0)];
    let mut between = Context::begin().unwrap();
    let Ok((_, held)) = between.start().lock(&BOXES[0]) else { panic!() };
    let mut age = Suspended::new();
    let both = |age: &mut Suspended<Boxes>, options| {
        age.run(options, |tx| {
            let _other = tx.lock(&BOXES[1])?;
            tx.lock(&BOXES[0]).map(|_| ())
        })
    };
    assert_eq!(both(&mut age, Boxes::options()), Err(Error::Deadlock));
    let canceller = Canceller::new();
    thread::scope(|scope| {
        let waits = scope.spawn(|| age.run(Boxes::options().cancelled_by(&canceller), |_| Ok(())));
        while Boxes::counts().lock_waits == 0 {
            thread::yield_now();
        }
        canceller.cancel();
        assert!(cfg!(feature = "debug-library") || waits.join().unwrap() == Err(Error::Cancelled));
    });
    assert!(cfg!(feature = "debug-library") || !age.is_none());
    // A body that swallows what it got has no result.
    let mut other = Suspended::new();
    let told = other.run(Boxes::options(), |tx| {
        let _other = tx.lock(&BOXES[1]);
        let _ = tx.lock(&BOXES[0]);
        Ok(1)
    });
    assert!(told == Err(Error::Deadlock) && !other.is_none());
    // With an error type of the caller's.
    other.at_once();
    let told = other.try_run(Boxes::options(), |_| Err::<(), _>(Box::<dyn std::error::Error>::from("mine")));
    assert!(told.is_err_and(|it| it.to_string() == "mine") && !other.is_none());
    assert!(catch_unwind(AssertUnwindSafe(|| other.run(Boxes::options(), |_| -> Result<(), _> { panic!() }))).is_err());
    assert!(other.is_none());
    drop((held, age));
    drop(between);
    assert_eq!(Boxes::counts().contexts, 0);
}

/// Half of the contexts may be suspended; what is dropped ends.
#[test]
fn half_may_be_suspended() {
    class!(struct Boxes: WoundWait, mutexes = 4, contexts = 4);
    let suspend = || {
        let mut age = Suspended::<Boxes>::new();
        assert_eq!(age.run(Boxes::options(), |_| Err::<(), _>(Error::TimedOut)), Err(Error::TimedOut));
        age
    };
    let mut ages = vec![suspend(), suspend()];
    assert!(suspend().is_none() && ages.iter().all(|age| !age.is_none()) && Boxes::counts().contexts == 2);
    ages.pop();
    ages.push(thread::spawn(suspend).join().unwrap());
    assert!(ages.iter().all(|age| !age.is_none()) && Boxes::counts().contexts == 2);
    // What one is put in place of is dropped.
    ages[0] = Suspended::default();
    assert_eq!(Boxes::counts().contexts, 1);
    drop(ages);
    assert_eq!(Boxes::counts().contexts, 0);
}

// Of the queues, since std's own locks say nothing to the thread sanitizer.
class!(struct Queue: WoundWait);

/// Jobs that any thread retries.
fn storm<C: Class>() {
    const JOBS: usize = if cfg!(feature = "debug-library") { 200 } else { 2000 };
    let boxes: Vec<Mutex<C, i64>> = (0..5).map(|_| Mutex::new(100)).collect();
    let jobs: Mutex<Queue, Vec<(usize, Suspended<C>)>> =
        Mutex::new((0..JOBS).map(|job| (job, Suspended::new())).collect());
    thread::scope(|scope| {
        for _ in 0..4 {
            scope.spawn(|| loop {
                let Some((job, mut age)) = jobs.lock().pop() else { break };
                let told = age.run(C::options(), |tx| {
                    let mut held = tx.guards();
                    let list = [job % 5, (job / 5 + 1) % 5, (job / 25 + 2) % 5].map(|at| &boxes[at]);
                    for mutex in list {
                        held.lock(mutex)?;
                        thread::yield_now();
                    }
                    held[list[0]] -= 1;
                    held[list[1]] += 1;
                    Ok(())
                });
                match told {
                    Ok(()) => assert!(age.is_none()),
                    Err(error) => {
                        assert_eq!(error, Error::Deadlock);
                        let mut jobs = jobs.lock();
                        jobs.insert(0, (job, age));
                    }
                }
            });
        }
    });
    assert_eq!(boxes.iter().map(|it| *it.lock()).sum::<i64>(), 500);
    assert_eq!(C::counts().contexts, 0);
}

#[test]
fn jobs_that_any_thread_retries() {
    class! {
        struct Wound: WoundWait;
        struct Die: WaitDie;
    }
    storm::<Wound>();
    storm::<Die>();
}
