//! Who is in the way: labels, the places where lock calls end, cycles, users of mutexes, and counts.

use std::num::NonZeroU64;
use std::sync::mpsc::channel;
use std::sync::Barrier;
use std::thread;
use std::time::Duration;
use ww_mutex::why::{Part, User};
use ww_mutex::{class, Class, Error, Mutex, SharedMutex};

const ONE: Option<NonZeroU64> = NonZeroU64::new(1);
const TWO: Option<NonZeroU64> = NonZeroU64::new(2);

fn parts(users: &[User]) -> Vec<(Option<NonZeroU64>, Part)> {
    users.iter().map(|user| (user.label, user.part)).collect()
}

/// The debug library makes up some `Deadlock`s, of which nothing is to be seen.
#[test]
#[cfg_attr(feature = "debug-library", ignore)]
fn a_deadlock_has_a_cycle() {
    class!(struct Boxes: WoundWait);
    static ONES: Mutex<Boxes, u64> = Mutex::new(0);
    static TWOS: Mutex<Boxes, u64> = Mutex::new(0);
    let (begun, has) = (Barrier::new(2), Barrier::new(2));
    assert!(ONES.users().is_empty());
    thread::scope(|scope| {
        scope.spawn(|| {
            Boxes::run(|tx| {
                tx.label(ONE);
                let _one = tx.lock(&ONES)?;
                begun.wait();
                has.wait();
                tx.lock(&TWOS).map(|_| ()) // it is older, so it waits
            })
        });
        begun.wait();
        let mut attempts = 0;
        Boxes::run(|tx| {
            attempts += 1;
            if attempts > 1 {
                return Ok(()); // the age is the same, and so are the counts
            }
            tx.label(TWO);
            let _two = tx.lock(&TWOS)?;
            has.wait();
            while parts(&TWOS.users()) != [(TWO, Part::Holds), (ONE, Part::Waits)] {
                thread::yield_now();
            }
            let told = tx.lock(&ONES).map(|_| ());
            assert_eq!(told, Err(Error::Deadlock));
            let why = tx.why();
            let (at, wanted) = (why.at.unwrap(), why.wanted.unwrap());
            assert!(at.is(&ONES) && !at.is(&TWOS) && parts(&[at.user.unwrap()]) == [(ONE, Part::Holds)]);
            assert!(wanted.is(&TWOS) && parts(&[wanted.user.unwrap()]) == [(ONE, Part::Waits)]);
            let cycle = tx.cycle();
            assert!(cycle.len() == 2 && cycle[0].is(&ONES) && cycle[1].is(&TWOS));
            assert_eq!(cycle.iter().map(|it| it.user.unwrap().label).collect::<Vec<_>>(), [ONE, TWO]);
            assert!(tx.counts().back_offs == 1);
            told
        })
        .unwrap();
        assert_eq!(attempts, 2);
    });
}

#[test]
fn a_wait_that_timed_out() {
    class!(struct Boxes: WoundWait);
    static BOX: Mutex<Boxes, u64> = Mutex::new(0);
    static SHARED: SharedMutex<Boxes, u64> = SharedMutex::new(0);
    let ((has, holds), (ends, ended)) = (channel(), channel::<()>());
    thread::scope(|scope| {
        let ends = ends; // it goes also where this panics
        scope.spawn(move || {
            Boxes::run(|tx| {
                tx.label(ONE);
                let _held = (tx.lock(&BOX)?, tx.read(&SHARED)?);
                let _ = (has.send(()), ended.recv());
                Ok(())
            })
        });
        holds.recv().unwrap();
        assert_eq!(parts(&SHARED.users()), [(ONE, Part::Reads)]);
        for reads in [false, true] {
            let mut waited = false; // on a busy machine its time may be over before it waits
            while !waited {
                let told = Boxes::options().timeout(Duration::from_millis(5)).run(|tx| {
                    let told = if reads { tx.write(&SHARED).map(|_| ()) } else { tx.lock(&BOX).map(|_| ()) };
                    waited = told == Err(Error::TimedOut) && tx.counts().waits > 0;
                    if waited {
                        let at = tx.why().at.unwrap();
                        assert!(at.is(&BOX) != reads && at.is_shared(&SHARED) == reads);
                        assert!(reads || parts(&[at.user.unwrap()]) == [(ONE, Part::Holds)]);
                        assert!(
                            tx.why().wanted.is_none() && tx.cycle().is_empty() && tx.counts().waited > Duration::ZERO
                        );
                    }
                    told
                });
                assert_eq!(told, Err(Error::TimedOut));
            }
        }
        drop(ends);
    });
    // What is locked without a transaction has no label, and neither has one that takes it away.
    let held = BOX.lock();
    assert_eq!(parts(&BOX.users()), [(None, Part::Holds)]);
    drop(held);
    Boxes::run(|tx| {
        tx.label(TWO);
        tx.label(None);
        let _held = tx.lock(&BOX)?;
        assert_eq!(parts(&BOX.users()), [(None, Part::Holds)]);
        Ok(())
    })
    .unwrap();
}
