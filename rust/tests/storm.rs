//! Threads that lock objects in any order and by all calls, while objects come and go; each sum is exact.
//!
//! `WW_TIMES` says how many transactions each thread makes.

use std::iter;
use std::mem;
use std::sync::atomic::{AtomicU64, Ordering::Relaxed};
use std::sync::Arc;
use std::thread;
use std::time::Duration;
use ww_mutex::typed::{Acquiring, Context, Refused};
use ww_mutex::{class, Canceller, Class, Error, Mutex, MutexGuard};

class! {
    struct Wound: WoundWait;
    struct Die: WaitDie;
    struct FewWound: WoundWait, mutexes = 600, contexts = 3;
    struct FewDie: WaitDie, mutexes = 600, contexts = 3;
    struct Cancellers: WoundWait;
}

const THREADS: u64 = 8;
const HOT: usize = 6;
const COLD: usize = 200;
const MOST: usize = 5;

/// Fewer in a build without optimization.
fn times() -> u64 {
    let usual = if cfg!(debug_assertions) { 1500 } else { 6000 };
    std::env::var("WW_TIMES").ok().and_then(|word| word.parse().ok()).unwrap_or(usual)
}

struct Draws(u64);

impl Draws {
    fn below(&mut self, count: usize) -> usize {
        self.0 = self.0.wrapping_mul(6_364_136_223_846_793_005).wrapping_add(1_442_695_040_888_963_407);
        usize::try_from(self.0 >> 33).unwrap() % count
    }
}

type Object<C> = Arc<Mutex<C, u64>>;

/// Adds one to each object, and tells how many these are.
fn add<C: Class>(held: &mut [MutexGuard<'_, C, u64>]) -> u64 {
    held.iter_mut().map(|value| **value += 1).count() as u64
}

fn by_types<C: Class>(list: &[Object<C>]) -> u64 {
    fn attempt<'x, C: Class>(mut tx: Acquiring<'x, C>, list: &[Object<C>]) -> Result<u64, Refused<'x, C>> {
        let mut held = Vec::new();
        for object in list {
            let (next, guard) = tx.lock(object)?;
            tx = next;
            held.push(guard);
            thread::yield_now();
        }
        Ok(add(&mut held))
    }
    let mut context = Context::<C>::begin().unwrap();
    let mut tx = context.start();
    loop {
        match attempt(tx, list) {
            Ok(count) => return count,
            Err(Refused::Deadlock(told)) => tx = context.back_off(told).unwrap(),
            Err(Refused::Other(error, _)) => panic!("{error}"),
        }
    }
}

struct Storm<C: Class> {
    hot: Vec<Object<C>>,
    cold: Vec<Object<C>>,
    canceller: Mutex<Cancellers, Canceller>,
    back_offs: AtomicU64,
    called_off: AtomicU64,
}

impl<C: Class> Storm<C> {
    fn by_a_body(&self, list: &[Object<C>]) -> u64 {
        C::run(|tx| {
            let mut held = Vec::new();
            for object in list {
                held.push(tx.lock_arc(object)?);
                thread::yield_now();
            }
            for value in &mut held {
                **value += 1;
            }
            self.back_offs.fetch_add(u64::from(tx.attempts() - 1), Relaxed);
            Ok(held.len() as u64)
        })
        .unwrap()
    }

    /// Now and then it is cancelled, or late, and then adds nothing.
    fn with_limits(&self, list: &[Object<C>]) -> u64 {
        let canceller = self.canceller.lock().clone();
        let told = C::options().timeout(Duration::from_micros(50)).cancelled_by(&canceller).run(|tx| {
            let mut held = tx.lock_each(list.iter().map(|object| &**object))?;
            thread::yield_now();
            Ok(add(&mut held))
        });
        match told {
            Ok(count) => count,
            Err(Error::TimedOut | Error::Cancelled) => {
                self.called_off.fetch_add(1, Relaxed);
                0
            }
            Err(error) => panic!("{error}"),
        }
    }

    fn without_a_context(&self, object: &Object<C>) -> u64 {
        mem::take(&mut *self.canceller.lock()).cancel();
        *object.lock() += 1;
        1
    }

    /// Different ones: places that step by something odd; and the thread's own one now and then.
    fn draw(&self, draws: &mut Draws, own: &Object<C>) -> Vec<Object<C>> {
        let (hot, cold) = (draws.below(HOT), draws.below(COLD));
        let object = |k| match k % 2 {
            0 => &self.hot[(hot + k) % HOT],
            _ => &self.cold[(cold + 7 * k) % COLD],
        };
        let mut list: Vec<_> = (0..=draws.below(MOST)).map(|k| object(k).clone()).collect();
        if draws.below(4) == 0 {
            list.insert(draws.below(list.len() + 1), own.clone());
        }
        list
    }

    /// How much a thread added, and how much of that it found in objects that went.
    fn run_thread(&self, me: u64) -> (u64, u64) {
        let mut draws = Draws(99 * me + 7);
        let (mut added, mut found) = (0, 0);
        let mut own: Object<C> = Arc::default();
        for _ in 0..times() {
            let list = self.draw(&mut draws, &own);
            added += match draws.below(8) {
                0 | 1 => by_types(&list),
                2 => self.with_limits(&list),
                3 => self.without_a_context(&list[0]),
                4 => list[0].try_lock_for(Duration::from_micros(20)).map_or(0, |held| add(&mut [held])),
                _ => self.by_a_body(&list),
            };
            drop(list);
            if draws.below(16) == 0 {
                found += *mem::take(&mut own).lock();
            }
        }
        found += *own.lock();
        (added, found)
    }
}

fn storm<C: Class>() {
    let objects = |count| iter::repeat_with(Arc::default).take(count).collect();
    let storm = Storm::<C> {
        hot: objects(HOT),
        cold: objects(COLD),
        canceller: Mutex::default(),
        back_offs: AtomicU64::new(0),
        called_off: AtomicU64::new(0),
    };
    let (added, found) = thread::scope(|scope| {
        let threads: Vec<_> = (0..THREADS)
            .map(|me| {
                scope.spawn({
                    let storm = &storm;
                    move || storm.run_thread(me)
                })
            })
            .collect();
        threads
            .into_iter()
            .map(|thread| thread.join().unwrap())
            .fold((0, 0), |(a, f), (more, seen)| (a + more, f + seen))
    });
    let left: u64 = storm.hot.iter().chain(&storm.cold).map(|object| *object.lock()).sum();
    assert_eq!(added, found + left);
    #[cfg(feature = "debug-library")]
    assert_eq!(faults(), 0);
    println!(
        "{}: {added} added, {} back-offs, {} called off",
        std::any::type_name::<C>(),
        storm.back_offs.into_inner(),
        storm.called_off.into_inner()
    );
}

/// How many calls the debug library told to be wrong.
#[cfg(feature = "debug-library")]
fn faults() -> u64 {
    extern "C" {
        fn ww_debug_faults() -> u64;
    }
    // SAFETY: it takes nothing, and tells a count.
    unsafe { ww_debug_faults() }
}

#[test]
fn wound_wait() {
    storm::<Wound>();
}

#[test]
fn wait_die() {
    storm::<Die>();
}

#[test]
fn with_three_contexts() {
    storm::<FewWound>();
    storm::<FewDie>();
}

/// All guards of all bodies are forgotten, and each context releases them: for the next attempt, and at its end.
#[test]
fn everything_is_forgotten() {
    class! {
        struct Wound: WoundWait, mutexes = 8, contexts = 4;
        struct Die: WaitDie, mutexes = 8, contexts = 4;
    }
    fn storm<C: Class>() {
        let list: Vec<Mutex<C, u64>> = (0..8).map(|_| Mutex::new(0)).collect();
        let run = |me| {
            let mut draws = Draws(me);
            for _ in 0..times() / 4 {
                let (first, step) = (draws.below(8), 1 + 2 * draws.below(4));
                let object = |k| &list[(first + k * step) % 8];
                let told = C::run(|tx| {
                    let mut held = tx.lock_each((0..4).map(object))?;
                    thread::yield_now();
                    add(&mut held);
                    mem::forget(held);
                    Ok(())
                });
                told.unwrap();
                let told = C::run(|tx| {
                    for k in 0..4 {
                        mem::forget(tx.lock(object(k))?);
                        thread::yield_now();
                    }
                    Ok(())
                });
                told.unwrap();
            }
        };
        thread::scope(|scope| {
            for me in 0..4 {
                let run = &run;
                scope.spawn(move || run(me));
            }
        });
        assert_eq!(list.into_iter().map(Mutex::into_inner).sum::<u64>(), 4 * 4 * (times() / 4));
    }
    storm::<Wound>();
    storm::<Die>();
}
