//! Guards by their mutexes: each mutex is locked once, however often it is named; no two sets share one; each sum is exact.

#[cfg(feature = "async")]
mod executor;

use std::panic::{catch_unwind, AssertUnwindSafe};
use std::sync::Arc;
use std::thread;
use ww_mutex::{class, Class, Error, Mutex};

#[test]
fn a_duplicate_has_its_value() {
    class!(struct Boxes: WoundWait);
    let boxes: [Mutex<Boxes, u64>; 3] = [Mutex::new(1), Mutex::new(2), Mutex::new(3)];
    let told = Boxes::run(|tx| {
        let mut held = tx.guards();
        assert!(held.is_empty() && held.get(&boxes[0]).is_none());
        held.lock_each([&boxes[2], &boxes[0], &boxes[2]])?;
        *held.lock(&boxes[0])? += 10;
        held[&boxes[2]] += 20;
        *held.get_mut(&boxes[2]).unwrap() += 100;
        assert_eq!((held.len(), held[&boxes[0]], held.get(&boxes[2])), (2, 11, Some(&123)));
        assert!(held.get(&boxes[1]).is_none() && !boxes[1].is_locked());
        assert!(tx.holds(&boxes[0]) && catch_unwind(AssertUnwindSafe(|| held[&boxes[1]])).is_err());
        Ok(held.values().sum::<u64>())
    });
    assert_eq!(told, Ok(134));
    assert!(boxes.iter().all(|it| !it.is_locked()));
}

/// A guard or another set is another way to the value, so the set has none.
#[test]
fn two_sets_share_nothing() {
    class!(struct Boxes: WoundWait);
    let boxes: [Mutex<Boxes, u64>; 2] = [Mutex::new(1), Mutex::new(2)];
    let told = Boxes::run(|tx| {
        let one = tx.lock(&boxes[0])?;
        let (mut some, mut others) = (tx.guards(), tx.guards());
        assert_eq!(some.lock(&boxes[0]), Err(Error::Duplicate));
        some.lock(&boxes[1])?;
        assert_eq!(others.lock(&boxes[1]), Err(Error::Duplicate));
        assert!(others.is_empty() && some.get(&boxes[0]).is_none());
        assert_eq!(tx.lock(&boxes[1]).map(|_| ()), Err(Error::Duplicate));
        drop(one);
        *some.lock(&boxes[0])? = 2;
        drop(some);
        others.lock_each(&boxes)?;
        Ok(others.len())
    });
    assert_eq!(told, Ok(2));
    assert_eq!(*boxes[0].lock(), 2);
}

/// The set keeps what it has locked alive, and its numbers, whoever else drops it.
#[test]
fn a_set_shares_what_it_finds() {
    class!(struct Boxes: WoundWait, mutexes = 2);
    let told = Boxes::run(|tx| {
        let mut held = tx.guards::<Vec<u64>>();
        let one = Arc::new(Mutex::<Boxes, _>::new(vec![1]));
        held.lock_arc(&one)?.push(2);
        held.lock_arc(&one.clone())?.push(3);
        assert_eq!((held.len(), Arc::strong_count(&one)), (1, 2));
        let kept = Arc::downgrade(&one);
        drop(one);
        assert_eq!(held.values().next(), Some(&vec![1, 2, 3]));
        assert!(kept.upgrade().is_some_and(|one| one.is_locked()));
        drop(held);
        assert!(kept.upgrade().is_none());
        Ok(())
    });
    told.unwrap();
}

/// Also values of several types, behind one trait.
#[test]
fn values_of_any_size() {
    class!(struct Boxes: WaitDie);
    let (number, text) = (Mutex::<Boxes, _>::new(7), Mutex::<Boxes, _>::new("seven"));
    let list: [&Mutex<Boxes, dyn std::fmt::Display + Send>; 3] = [&number, &text, &number];
    let told = Boxes::run(|tx| {
        let mut held = tx.guards();
        held.lock_each(list)?;
        Ok(format!("{} {} {}", &held[list[0]], &held[list[1]], held.len()))
    });
    assert_eq!(told.as_deref(), Ok("7 seven 2"));
}

/// Threads that draw lists with duplicates: what is moved round in each stays.
fn storm<C: Class>() {
    let boxes: Vec<Mutex<C, i64>> = (0..6).map(|_| Mutex::new(100)).collect();
    thread::scope(|scope| {
        for me in 0..4_usize {
            let boxes = &boxes;
            scope.spawn(move || {
                for k in 0..3000_usize {
                    let list: Vec<_> = (0..4).map(|j| &boxes[(me + k * (j + 1) * (me + 2)) % 6]).collect();
                    let told = C::run(|tx| {
                        let mut held = tx.guards();
                        held.lock_each(list.iter().copied())?;
                        for (at, by) in list.iter().zip([1, 2, -4, 1]) {
                            held[at] += by;
                        }
                        Ok(())
                    });
                    told.unwrap();
                }
            });
        }
    });
    assert_eq!(boxes.iter().map(|it| *it.lock()).sum::<i64>(), 600);
}

#[test]
fn lists_with_duplicates() {
    class! {
        struct Wound: WoundWait;
        struct Die: WaitDie;
    }
    storm::<Wound>();
    storm::<Die>();
}

#[cfg(feature = "async")]
mod of_tasks {
    use super::executor::{block_on, poll, times, yield_now, Draws, Flag, Pool};
    use std::pin::pin;
    use std::sync::Arc;
    use ww_mutex::task::{Context, Guards};
    use ww_mutex::{class, transaction, Class, Error, Mutex};

    #[test]
    fn a_duplicate_has_its_value() {
        class!(struct Boxes: WoundWait);
        let boxes: [Mutex<Boxes, u64>; 3] = [Mutex::new(1), Mutex::new(2), Mutex::new(3)];
        let told: Result<u64, Error> = block_on(async {
            transaction!(Boxes, |tx| {
                let mut held = tx.guards();
                let other = Arc::new(Mutex::new(100));
                held.lock_arc(&other).await?;
                drop(other);
                held.lock_each([&boxes[2], &boxes[0], &boxes[2]]).await?;
                *held.lock(&boxes[0]).await? += 10;
                yield_now().await;
                held[&boxes[2]] += 20;
                assert!(held.len() == 3 && held.get(&boxes[1]).is_none());
                assert_eq!(tx.lock(&boxes[0]).await.map(|_| ()), Err(Error::Duplicate));
                Ok(held.values().sum())
            })
        });
        assert_eq!(told, Ok(134));
        assert!(boxes.iter().all(|it| !it.is_locked()));
    }

    /// A lock of the set that is dropped amid its wait leaves the set as it was.
    #[test]
    fn a_dropped_lock_leaves_the_set() {
        class!(struct Boxes: WoundWait);
        static BOXES: [Mutex<Boxes, u64>; 2] = [Mutex::new(1), Mutex::new(2)];
        let flag = Arc::<Flag>::default();
        let mut context = Context::<Boxes>::new();
        let tx = block_on(context.attempt()).unwrap();
        let mut held = tx.guards();
        block_on(held.lock(&BOXES[0])).unwrap();
        let other = BOXES[1].lock();
        assert!(poll(pin!(held.lock(&BOXES[1])).as_mut(), &flag).is_pending());
        drop(other);
        assert!(held.len() == 1 && BOXES[0].is_locked() && !BOXES[1].is_locked());
        assert_eq!(block_on(held.lock(&BOXES[1])).map(|it| *it), Ok(2));
        drop(held);
        assert!(BOXES.iter().all(|it| !it.is_locked()));
    }

    fn storm<C: Class>() {
        let boxes: Arc<[Mutex<C, i64>]> = (0..6).map(|_| Mutex::new(100)).collect();
        let pool = Arc::new(Pool::default());
        for me in 0..times(600) {
            let boxes = Arc::clone(&boxes);
            pool.spawn(async move {
                let mut draws = Draws(17 * me as u64 + 1);
                for _ in 0..10 {
                    let list: Vec<usize> = (0..4).map(|_| draws.below(6)).collect();
                    let told = transaction!(C, |tx| {
                        let mut held = tx.guards();
                        for &at in &list {
                            held.lock(&boxes[at]).await?;
                            yield_now().await;
                        }
                        for (&at, by) in list.iter().zip([1, 2, -4, 1]) {
                            held[&boxes[at]] += by;
                        }
                        Ok(())
                    });
                    told.unwrap();
                }
            });
        }
        pool.run_by(3);
        assert_eq!(boxes.iter().map(|it| *it.try_lock().expect("nobody holds it")).sum::<i64>(), 600);
    }

    #[test]
    fn lists_with_duplicates() {
        class! {
            struct Wound: WoundWait;
            struct Die: WaitDie;
        }
        storm::<Wound>();
        storm::<Die>();
    }

    #[test]
    fn sets_are_sent() {
        class!(struct Boxes: WoundWait);
        fn sends<T: Send>() {}
        fn shares<T: Sync>() {}
        sends::<Guards<'_, Boxes, std::cell::Cell<u64>>>();
        shares::<Guards<'_, Boxes, u64>>();
    }
}
