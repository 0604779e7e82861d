//! Transactions that failed, as by a timeout, and run again with their age: they hold nothing in between, and each sum is exact.

#[cfg(feature = "async")]
mod executor;

use std::panic::{catch_unwind, AssertUnwindSafe};
use std::thread;
use std::time::Duration;
use ww_mutex::typed::Context;
use ww_mutex::{class, Age, Canceller, Class, Error, Mutex, Options};

fn soon<C: Class>() -> Options<'static, C> {
    C::options().timeout(Duration::from_millis(1))
}

/// In Wait-Die the older one waits where a younger one gets `Deadlock`.
#[test]
fn a_run_that_timed_out_keeps_its_age() {
    class!(struct Boxes: WaitDie);
    static BOXES: [Mutex<Boxes, u64>; 2] = [Mutex::new(0), Mutex::new(0)];
    let mut age = Age::new();
    let held = BOXES[0].lock();
    assert_eq!(age.run(soon(), |tx| tx.lock(&BOXES[0]).map(|_| ())), Err(Error::TimedOut));
    drop(held);
    assert_eq!(Boxes::counts().contexts, 1);
    let mut between = Context::begin().unwrap();
    let Ok((_, held)) = between.start().lock(&BOXES[0]) else { panic!() };
    let told = |age: &mut Age<Boxes>| {
        let mut told = Ok(()); // as it is where the body isn't called
        let by_run = age.run(soon(), |tx| {
            let _other = tx.lock(&BOXES[1])?;
            told = tx.lock(&BOXES[0]).map(|_| ());
            told
        });
        assert!(by_run == Err(Error::TimedOut) && !BOXES[1].is_locked());
        told
    };
    for _ in 0..3 {
        assert_eq!(told(&mut age), Err(Error::TimedOut));
        // On a busy machine its time may be over before.
        let mut fresh = Age::new();
        while told(&mut fresh) != Err(Error::Deadlock) {
            fresh = Age::new();
        }
        // It waits for that mutex before its body is called again.
        assert_eq!(told(&mut fresh), Ok(()));
        assert_eq!(Boxes::counts().contexts, 3);
    }
    drop(held);
    // With an end that is good it ends.
    let attempts = age.run(Boxes::options(), |tx| {
        let _held = tx.lock(&BOXES[0])?;
        Ok(tx.attempts())
    });
    assert_eq!(attempts, Ok(5)); // as often as its body was called
    assert_eq!(Boxes::counts().contexts, 1);
    drop(between);
    assert_eq!(Boxes::counts().contexts, 0);
}

/// Limits are each run's own; one that was cancelled, or panics, keeps nothing.
#[test]
fn limits_are_each_runs_own() {
    class!(struct Boxes: WoundWait, mutexes = 2, contexts = 2);
    static BOX: Mutex<Boxes, u64> = Mutex::new(0);
    let (mut age, canceller) = (Age::new(), Canceller::new());
    let held = BOX.lock();
    let lock = |tx: &ww_mutex::Tx<Boxes>| tx.lock(&BOX).map(|_| ());
    assert_eq!(age.run(soon(), lock), Err(Error::TimedOut));
    assert_eq!(age.run(soon().cancelled_by(&canceller), lock), Err(Error::TimedOut));
    canceller.cancel();
    assert_eq!(Boxes::counts().contexts, 2);
    assert_eq!(age.run(soon(), lock), Err(Error::TimedOut));
    assert_eq!(age.run(Boxes::options().cancelled_by(&canceller), lock), Err(Error::Cancelled));
    assert_eq!(Boxes::counts().contexts, 1);
    assert_eq!(age.run(soon(), lock), Err(Error::TimedOut));
    assert!(catch_unwind(AssertUnwindSafe(|| age.run(soon(), |_| -> Result<(), _> { panic!() }))).is_err());
    assert_eq!(Boxes::counts().contexts, 1);
    // One has no context to begin with: a lock without one has the other.
    let other = Context::<Boxes>::begin().unwrap();
    assert_eq!(age.run(soon(), lock), Err(Error::TimedOut));
    drop((other, held));
    let told = age.try_run(Boxes::options(), |tx| {
        *tx.lock(&BOX)? += 1;
        Err::<(), _>(Box::<dyn std::error::Error>::from("late"))
    });
    assert!(told.is_err() && Boxes::counts().contexts == 1);
    assert_eq!(age.run(Boxes::options(), |tx| tx.lock(&BOX).map(|seen| *seen)), Ok(1));
    assert_eq!(Boxes::counts().contexts, 0);
}

fn storm<C: Class>() {
    let boxes: Vec<Mutex<C, i64>> = (0..4).map(|_| Mutex::new(100)).collect();
    thread::scope(|scope| {
        for me in 0..4_usize {
            let boxes = &boxes;
            scope.spawn(move || {
                for k in 0..50_usize {
                    let list = [(me + k) % 4, (me * 3 + k * k + 1) % 4];
                    let mut age = Age::new();
                    let run = |tx: &ww_mutex::Tx<C>| {
                        let mut held = tx.guards();
                        held.lock_each(list.map(|at| &boxes[at]))?;
                        thread::sleep(Duration::from_micros(20));
                        held[&boxes[list[0]]] -= 1;
                        held[&boxes[list[1]]] += 1;
                        Ok(())
                    };
                    while age.run(C::options().timeout(Duration::from_micros(100)), run) == Err(Error::TimedOut) {}
                }
            });
        }
    });
    assert_eq!(boxes.iter().map(|it| *it.lock()).sum::<i64>(), 400);
    assert_eq!(C::counts().contexts, 0);
}

#[test]
fn runs_that_time_out() {
    class! {
        struct Wound: WoundWait;
        struct Die: WaitDie;
    }
    storm::<Wound>();
    storm::<Die>();
}

#[cfg(feature = "async")]
mod of_tasks {
    use super::executor::{at_most, block_on, poll, times, yield_now, Draws, Flag, Pool};
    use std::future::pending;
    use std::pin::pin;
    use std::sync::Arc;
    use ww_mutex::task::Context;
    use ww_mutex::{class, transaction, Class, Error, Mutex};

    /// In Wait-Die the older one waits, and keeps what it holds, where a younger one backs off.
    #[test]
    fn a_dropped_future_leaves_its_age() {
        class!(struct Boxes: WaitDie);
        static BOXES: [Mutex<Boxes, u64>; 2] = [Mutex::new(0), Mutex::new(0)];
        let flag = Arc::<Flag>::default();
        let (mut context, mut between) = (Context::<Boxes>::new(), Context::<Boxes>::new());
        let held = BOXES[0].lock();
        assert!(poll(pin!(async { transaction!(in &mut context, |tx| tx.lock(&BOXES[0]).await.map(|_| ())) }), &flag)
            .is_pending());
        drop(held);
        assert_eq!(Boxes::counts().contexts, 1);
        let both = async |context: &mut Context<Boxes>| {
            transaction!(in context, |tx| {
                let _other = tx.lock(&BOXES[1]).await?;
                *tx.lock(&BOXES[0]).await? += 1;
                Ok(tx.attempts())
            })
        };
        {
            let tx = block_on(between.attempt()).unwrap();
            let held = block_on(tx.lock(&BOXES[0])).unwrap();
            for _ in 0..3 {
                let mut again = Box::pin(both(&mut context));
                assert!(poll(again.as_mut(), &flag).is_pending() && BOXES[1].is_locked());
                drop(again);
                assert!(!BOXES[1].is_locked());
            }
            drop(held);
        }
        // With an end that is good its age ends, too: the other one is older now.
        assert!(block_on(both(&mut context)).is_ok());
        assert_eq!(Boxes::counts().contexts, 1);
        let tx = block_on(between.attempt()).unwrap();
        let held = block_on(tx.lock(&BOXES[0])).unwrap();
        assert!(poll(pin!(both(&mut context)), &flag).is_pending() && !BOXES[1].is_locked());
        drop(held);
        drop((context, between));
        assert_eq!(Boxes::counts().contexts, 0);
    }

    /// What it waited for after a back-off, and the body hasn't asked for yet, goes with the future.
    #[test]
    fn what_came_first_goes() {
        class!(struct Boxes: WaitDie);
        static BOXES: [Mutex<Boxes, u64>; 2] = [Mutex::new(0), Mutex::new(0)];
        let flag = Arc::<Flag>::default();
        let (mut older, mut context) = (Context::<Boxes>::new(), Context::<Boxes>::new());
        let tx = block_on(older.attempt()).unwrap();
        let held = block_on(tx.lock(&BOXES[0])).unwrap();
        {
            let mut late = pin!(context.run(async |tx| {
                if tx.attempts() > 1 {
                    pending::<()>().await;
                }
                let _other = tx.lock(&BOXES[1]).await?;
                *tx.lock(&BOXES[0]).await? += 1;
                Ok::<_, Error>(())
            }));
            assert!(poll(late.as_mut(), &flag).is_pending());
            drop(held);
            assert!(poll(late.as_mut(), &flag).is_pending() && BOXES[0].is_locked());
        }
        assert!(BOXES.iter().all(|it| !it.is_locked()));
        assert_eq!(block_on(context.run(async |tx| tx.lock(&BOXES[0]).await.map(|it| *it))), Ok(0));
        drop(older);
        assert_eq!(Boxes::counts().contexts, 0);
    }

    fn storm<C: Class>(contexts: u64) {
        let boxes: Arc<[Mutex<C, i64>]> = (0..5).map(|_| Mutex::new(100)).collect();
        let pool = Arc::new(Pool::default());
        for me in 0..times(300) {
            let boxes = Arc::clone(&boxes);
            pool.spawn(async move {
                let mut draws = Draws(31 * me as u64 + 1);
                for _ in 0..10 {
                    let list = draws.places(3, 5);
                    let mut context = Context::<C>::new();
                    loop {
                        let run = async {
                            transaction!(in &mut context, |tx| {
                                let mut from = tx.lock(&boxes[list[0]]).await?;
                                yield_now().await;
                                let _between = tx.lock(&boxes[list[1]]).await?;
                                let mut to = tx.lock(&boxes[list[2]]).await?;
                                *from -= 1;
                                *to += 1;
                                Ok(())
                            })
                        };
                        match at_most(draws.below(12), run).await {
                            Some(told) => break told.unwrap(),
                            None => yield_now().await,
                        }
                    }
                }
            });
        }
        pool.run_by(3);
        assert_eq!(boxes.iter().map(|it| *it.try_lock().expect("nobody holds it")).sum::<i64>(), 500);
        assert_eq!((C::counts().contexts, C::counts().context_waiters), (0, 0));
        assert!(contexts == 0 || C::counts().task_contexts == contexts);
    }

    #[test]
    fn futures_that_are_dropped() {
        class! {
            struct Wound: WoundWait;
            struct Die: WaitDie;
            struct Few: WoundWait, mutexes = 16, contexts = 2;
        }
        storm::<Wound>(0);
        storm::<Die>(0);
        storm::<Few>(2);
    }
}
