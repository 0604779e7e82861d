//! Tasks that lock objects in any order, are dropped at any point, and share classes with threads; each sum is exact, and
//! nothing stays locked or in use.
#![cfg(feature = "async")]
#![allow(clippy::incompatible_msrv, reason = "the feature asks for Rust 1.85")]

mod executor;

use executor::{at_most, block_on, each_order, poll, times, yield_now, Draws, Flag, Pool};
use std::future::Future;
use std::panic::{self, AssertUnwindSafe};
use std::path::{Path, PathBuf};
use std::pin::{pin, Pin};
use std::sync::atomic::{AtomicBool, AtomicU64, Ordering::Relaxed};
use std::sync::{Arc, OnceLock};
use std::task::{Context as Polling, Poll, RawWaker, RawWakerVTable, Wake, Waker};
use std::time::Duration;
use std::{fs, hint, mem, ptr, thread};
use ww_mutex::task::{Context, Guard, Tx};
use ww_mutex::{class, transaction, Class, Error, Mutex};

class! {
    struct Wound: WoundWait;
    struct Die: WaitDie;
    struct FewWound: WoundWait, mutexes = 64, contexts = 3;
    struct FewDie: WaitDie, mutexes = 64, contexts = 3;
    struct Many: WoundWait, mutexes = 256, contexts = 4094;
}

type Bank<C> = Arc<[Mutex<C, i64>]>;

fn bank<C: Class>(count: usize) -> Bank<C> {
    (0..count).map(|_| Mutex::new(100)).collect()
}

/// Moves one from the first to the last, and lets others run in the middle.
async fn transfer<C: Class>(bank: &[Mutex<C, i64>], list: &[usize], yields: usize) -> Result<u32, Error> {
    transaction!(C, |tx| {
        let mut held: Vec<Guard<'_, C, i64>> = Vec::new();
        for &k in list {
            held.push(tx.lock(&bank[k]).await?);
            for _ in 0..yields {
                yield_now().await;
            }
        }
        *held[0] -= 1;
        *held[list.len() - 1] += 1;
        Ok(tx.attempts())
    })
}

/// As many contexts as `count` at once, if there are.
fn contexts<C: Class>(count: usize) -> Vec<Context<C>> {
    let mut all = Vec::new();
    while all.len() < count {
        let mut context = Context::<C>::new();
        if pin!(context.attempt()).poll(&mut Polling::from_waker(Waker::noop())).is_pending() {
            break;
        }
        all.push(context);
    }
    all
}

/// A class that says no number has as many for tasks as it finds to be best.
const FOUND: usize = 0;

/// All contexts of the class can be had at once, and all mutexes be locked.
fn nothing_is_left<C: Class>(bank: &[Mutex<C, i64>], contexts: usize) {
    #[cfg(feature = "debug-library")]
    assert_eq!(faults(), 0);
    assert_eq!(
        bank.iter().map(|m| *m.try_lock().expect("nobody holds it")).sum::<i64>(),
        100 * i64::try_from(bank.len()).unwrap()
    );
    let counts = C::counts();
    assert_eq!((counts.contexts, counts.context_waiters), (0, 0));
    let most = usize::try_from(counts.task_contexts).unwrap();
    assert!(most == contexts || contexts == FOUND && (1..=896).contains(&most));
    let all = self::contexts::<C>(if contexts == FOUND { 897 } else { contexts + 1 });
    // Who finds none free looks how many there may be.
    let most = usize::try_from(C::counts().task_contexts).unwrap();
    assert!(all.len() == most || contexts == FOUND && (most..=896).contains(&all.len()), "{} of {most}", all.len());
}

/// How many calls the debug library told to be wrong.
#[cfg(feature = "debug-library")]
fn faults() -> u64 {
    extern "C" {
        fn ww_debug_faults() -> u64;
    }
    // SAFETY: it takes nothing, and tells a count.
    unsafe { ww_debug_faults() }
}

fn storm<C: Class>(objects: usize, tasks: usize, each: usize, threads: usize, contexts: usize) {
    let bank = bank::<C>(objects);
    let pool = Arc::new(Pool::default());
    let retries = Arc::new(AtomicU64::new(0));
    for me in 0..tasks {
        let (bank, retries) = (Arc::clone(&bank), Arc::clone(&retries));
        pool.spawn(async move {
            let mut draws = Draws(77 * me as u64 + 5);
            for _ in 0..each {
                let count = 2 + draws.below(4);
                let list = draws.places(count, objects);
                let yields = draws.below(3);
                let attempts = transfer(&bank, &list, yields).await.unwrap();
                retries.fetch_add(u64::from(attempts - 1), Relaxed);
            }
        });
    }
    pool.run_by(threads);
    nothing_is_left(&bank, contexts);
    println!("{}: {tasks} tasks, {} retries", std::any::type_name::<C>(), retries.load(Relaxed));
}

#[test]
fn wound_wait() {
    storm::<Wound>(32, times(3000), 10, 4, FOUND);
    storm::<Wound>(6, times(300), 30, 2, FOUND);
}

#[test]
fn wait_die() {
    storm::<Die>(32, times(3000), 10, 4, FOUND);
    storm::<Die>(6, times(300), 30, 2, FOUND);
}

#[test]
fn with_three_contexts() {
    storm::<FewWound>(8, times(2000), 5, 4, 3);
    storm::<FewDie>(8, times(2000), 5, 3, 3);
}

/// More tasks than there are contexts, all at once.
#[test]
fn with_4094_contexts() {
    storm::<Many>(200, times(20_000), 2, 4, 4094);
}

/// As a future that is sent, with what the closure captures.
#[test]
fn by_async_closures() {
    class!(struct Boxes: WoundWait);
    let bank = bank::<Boxes>(3);
    let pool = Arc::new(Pool::default());
    for me in 0..times(600) {
        let bank = Arc::clone(&bank);
        let list = Draws(me as u64).places(2, 3);
        pool.spawn(async move {
            let told = Boxes::run_async(async move |tx| {
                let mut from = tx.lock(&bank[list[0]]).await?;
                yield_now().await;
                let mut to = tx.lock(&bank[list[1]]).await?;
                *from -= 1;
                *to += 1;
                Ok(())
            });
            told.await.unwrap();
        });
    }
    pool.run_by(3);
    nothing_is_left(&bank, FOUND);
}

// ---- dropped futures ----

fn dropped<C: Class>(objects: usize, contexts: usize) {
    let bank = bank::<C>(objects);
    let pool = Arc::new(Pool::default());
    let counts: Arc<[AtomicU64; 2]> = Arc::default();
    for me in 0..times(1500) {
        let (bank, counts) = (Arc::clone(&bank), Arc::clone(&counts));
        pool.spawn(async move {
            let mut draws = Draws(13 * me as u64 + 5);
            for _ in 0..20 {
                let count = 2 + draws.below(3);
                let list = draws.places(count, objects);
                let (polls, yields) = (draws.below(12), draws.below(3));
                let told = at_most(polls, transfer(&bank, &list, yields)).await;
                counts[usize::from(told.is_none())].fetch_add(1, Relaxed);
            }
        });
    }
    pool.run_by(4);
    nothing_is_left(&bank, contexts);
    println!("{}: {counts:?} done and dropped", std::any::type_name::<C>());
}

#[test]
fn futures_are_dropped_at_any_poll() {
    class! {
        struct Wound: WoundWait, mutexes = 16, contexts = 64;
        struct Die: WaitDie, mutexes = 16, contexts = 64;
        struct Few: WoundWait, mutexes = 16, contexts = 2;
    }
    dropped::<Wound>(6, 64);
    dropped::<Die>(6, 64);
    dropped::<Few>(6, 2);
}

/// A lock's future alone is dropped, and the body goes on: with the same one, or without.
#[test]
fn locks_are_dropped_at_any_poll() {
    fn storm<C: Class>() {
        let bank = bank::<C>(5);
        let pool = Arc::new(Pool::default());
        for me in 0..times(800) {
            let bank = Arc::clone(&bank);
            pool.spawn(async move {
                let mut draws = Draws(17 * me as u64 + 1);
                for _ in 0..20 {
                    let list = draws.places(3, 5);
                    let polls = draws.below(4);
                    let told = transaction!(C, |tx| {
                        let mut one = tx.lock(&bank[list[0]]).await?;
                        yield_now().await;
                        let tried = at_most(polls, tx.lock(&bank[list[1]])).await;
                        let mut other = match tried {
                            Some(told) => told?,
                            None => tx.lock(&bank[list[2]]).await?,
                        };
                        *one -= 1;
                        *other += 1;
                        Ok(())
                    });
                    told.unwrap();
                }
            });
        }
        pool.run_by(4);
        nothing_is_left(&bank, FOUND);
    }
    class! {
        struct Wound: WoundWait;
        struct Die: WaitDie;
    }
    storm::<Wound>();
    storm::<Die>();
}

/// As timeouts are: by another thread, at any moment, even during a wake-up.
#[test]
fn tasks_are_aborted() {
    class! {
        struct Wound: WoundWait, mutexes = 16, contexts = 8;
        struct Die: WaitDie, mutexes = 16, contexts = 8;
    }
    fn storm<C: Class>() {
        let bank = bank::<C>(6);
        let pool = Arc::new(Pool::default());
        let mut tasks = Vec::new();
        for me in 0..times(3000) {
            let bank = Arc::clone(&bank);
            tasks.push(pool.spawn(async move {
                let mut draws = Draws(13 * me as u64 + 5);
                for _ in 0..50 {
                    let list = draws.places(3, 6);
                    transfer(&bank, &list, 2).await.unwrap();
                }
            }));
        }
        thread::scope(|scope| {
            let aborts = scope.spawn(|| {
                let mut draws = Draws(3);
                // Only some: the others have to end by themselves.
                for task in tasks.iter().filter(|_| draws.below(4) > 0) {
                    task.abort();
                    thread::sleep(Duration::from_micros(20));
                }
            });
            pool.run_by(3);
            aborts.join().unwrap();
        });
        nothing_is_left(&bank, 8);
    }
    storm::<Wound>();
    storm::<Die>();
}

// ---- threads and tasks ----

#[test]
fn threads_and_tasks_share_a_class() {
    class! {
        struct Wound: WoundWait;
        struct Die: WaitDie;
        struct Few: WoundWait, mutexes = 16, contexts = 2;
    }
    fn storm<C: Class>(contexts: usize) {
        let bank = bank::<C>(6);
        let pool = Arc::new(Pool::default());
        for me in 0..times(1000) {
            let bank = Arc::clone(&bank);
            pool.spawn(async move {
                let mut draws = Draws(13 * me as u64 + 5);
                for _ in 0..10 {
                    let count = 2 + draws.below(3);
                    let (list, polls) = (draws.places(count, 6), draws.below(40));
                    let _ = at_most(polls, transfer(&bank, &list, 1)).await;
                }
            });
        }
        let is_over = AtomicBool::new(false);
        thread::scope(|scope| {
            let run = |me| {
                let (bank, is_over) = (&bank, &is_over);
                scope.spawn(move || {
                    let mut draws = Draws(me);
                    while !is_over.load(Relaxed) {
                        let list = draws.places(3, 6);
                        let told = C::run(|tx| {
                            let mut first = tx.lock(&bank[list[0]])?;
                            let _between = tx.lock(&bank[list[1]])?;
                            let mut to = tx.lock(&bank[list[2]])?;
                            *first -= 1;
                            *to += 1;
                            Ok(())
                        });
                        told.unwrap();
                        *bank[list[0]].lock() += 0;
                        drop(bank[list[1]].try_lock_for(Duration::from_micros(50)));
                    }
                })
            };
            let threads = [run(0), run(1)];
            pool.run_by(2);
            is_over.store(true, Relaxed);
            for thread in threads {
                thread.join().unwrap();
            }
        });
        nothing_is_left(&bank, contexts);
    }
    storm::<Wound>(FOUND);
    storm::<Die>(FOUND);
    storm::<Few>(2);
}

/// How many wakers there were, how many of them were called or dropped, and what came after that.
struct Uses {
    made: AtomicU64,
    over: AtomicU64,
    wrong: AtomicU64,
}

static USES: Uses = Uses { made: AtomicU64::new(0), over: AtomicU64::new(0), wrong: AtomicU64::new(0) };

impl Uses {
    fn make(&self) -> RawWaker {
        static CALLS: RawWakerVTable =
            RawWakerVTable::new(|_| USES.make(), |is_over| USES.end(is_over), |_| (), |is_over| USES.end(is_over));
        self.made.fetch_add(1, Relaxed);
        // It leaks, so that what comes too late finds it.
        RawWaker::new(ptr::from_ref(Box::leak(Box::new(AtomicBool::new(false)))).cast(), &CALLS)
    }

    fn end(&self, is_over: *const ()) {
        // SAFETY: `make` leaked it.
        let was_over = unsafe { &*is_over.cast::<AtomicBool>() }.swap(true, Relaxed);
        self.wrong.fetch_add(u64::from(was_over), Relaxed);
        self.over.fetch_add(1, Relaxed);
    }
}

/// Polls without need, each with another waker, and drops, while other threads are in the middle of calling one: for a
/// mutex, and for a context.
#[test]
fn each_waker_is_called_or_dropped_once() {
    class! {
        struct Wound: WoundWait;
        struct Die: WaitDie;
        struct One: WoundWait, mutexes = 1, contexts = 1;
    }
    fn storm<C: Class>() {
        let (mutex, is_over) = (Mutex::<C, u64>::new(0), AtomicBool::new(false));
        let pause = |draws: &mut Draws| (0..draws.below(400)).for_each(|_| hint::spin_loop());
        let polls = |seed| {
            let mut draws = Draws(seed);
            for _ in 0..times(20_000) {
                let mut add = pin!(async {
                    transaction!(C, |tx| {
                        let mut count = tx.lock(&mutex).await?;
                        yield_now().await;
                        *count += 1;
                        Ok(())
                    })
                });
                let mut is_ready = || {
                    // SAFETY: the functions do what those of a waker have to.
                    let waker = unsafe { Waker::from_raw(USES.make()) };
                    add.as_mut().poll(&mut Polling::from_waker(&waker)).is_ready()
                };
                while !is_ready() && draws.below(8) > 0 {
                    pause(&mut draws);
                }
            }
        };
        thread::scope(|scope| {
            scope.spawn(|| {
                let mut draws = Draws(3);
                while !is_over.load(Relaxed) {
                    let held = mutex.lock();
                    pause(&mut draws);
                    drop(held);
                    pause(&mut draws);
                }
            });
            for thread in [scope.spawn(|| polls(1)), scope.spawn(|| polls(2))] {
                thread.join().unwrap();
            }
            is_over.store(true, Relaxed);
        });
        drop(mutex.try_lock().expect("nobody holds it"));
    }
    storm::<Wound>();
    storm::<Die>();
    storm::<One>();
    assert_eq!(USES.wrong.load(Relaxed), 0);
    assert_eq!(USES.over.load(Relaxed), USES.made.load(Relaxed));
}

// ---- one thread that says who goes on ----

/// In each order: two tasks that lock two objects in opposite orders, three that lock three in a ring, and so on; with
/// drops at each point, and polls without need.
#[test]
fn in_each_order() {
    class! {
        struct Wound: WoundWait, mutexes = 8, contexts = 4;
        struct Die: WaitDie, mutexes = 8, contexts = 4;
        struct OneWound: WoundWait, mutexes = 8, contexts = 1;
        struct TwoDie: WaitDie, mutexes = 8, contexts = 2;
    }
    fn run<C: Class>(lists: &[&[usize]], yields: usize, drops: usize, anyway: usize, contexts: usize) {
        let bank = bank::<C>(3);
        let make = || {
            lists
                .iter()
                .map(|list| {
                    let bank = &bank;
                    Box::pin(async move { assert!(transfer::<C>(bank, list, yields).await.is_ok()) })
                        as Pin<Box<dyn Future<Output = ()> + '_>>
                })
                .collect::<Vec<_>>()
        };
        let (runs, others) = each_order(make, drops, anyway, |_| nothing_is_left(&bank, contexts));
        let class = std::any::type_name::<C>();
        println!("{class}: {lists:?}, {drops} drops, {anyway} more polls: {runs} orders, {others} went another way");
        // A later run finds the token of a wait that was cancelled; the debug library's Deadlock comes at other places each time.
        assert!(others * 50 <= runs || cfg!(feature = "debug-library"));
    }
    fn all<C: Class>(contexts: usize) {
        type Lists = &'static [&'static [usize]];
        let opposite: Lists = &[&[0, 1], &[1, 0]];
        let ring: Lists = &[&[0, 1], &[1, 2], &[2, 0]];
        let same: Lists = &[&[0, 1], &[0, 2], &[0, 1]];
        run::<C>(opposite, 2, 0, 3, contexts);
        run::<C>(ring, 0, 0, 2, contexts);
        run::<C>(same, 0, 0, 2, contexts);
        run::<C>(ring, 1, 0, 0, contexts);
        run::<C>(opposite, 2, 2, 2, contexts);
        run::<C>(&[&[0, 1, 2], &[2, 1, 0]], 1, 1, 1, contexts);
        run::<C>(ring, 0, 2, 1, contexts);
        run::<C>(same, 0, 2, 1, contexts);
        if !cfg!(debug_assertions) {
            run::<C>(ring, 1, 2, 0, contexts);
            run::<C>(same, 1, 2, 0, contexts);
            run::<C>(&[&[0, 1, 2], &[2, 1, 0]], 2, 2, 1, contexts);
        }
    }
    all::<Wound>(4);
    all::<Die>(4);
    all::<OneWound>(1);
    all::<TwoDie>(2);
}

/// Whoever is woken and dropped hands the mutex on.
#[test]
fn a_wake_up_is_handed_on() {
    class!(struct Boxes: WoundWait);
    static BOX: Mutex<Boxes, u64> = Mutex::new(0);
    for drops_first in [false, true] {
        let flags: [Arc<Flag>; 3] = Default::default();
        let add = || async {
            transaction!(Boxes, |tx| {
                *tx.lock(&BOX).await? += 1;
                Ok(())
            })
        };
        let (mut one, mut other) = (Box::pin(add()), Box::pin(add()));
        let held = BOX.lock();
        assert!(poll(one.as_mut(), &flags[0]).is_pending() && poll(other.as_mut(), &flags[1]).is_pending());
        drop(held);
        let (first, second) = if flags[0].is_set() { (one, other) } else { (other, one) };
        if drops_first {
            drop(first);
        } else {
            assert!(block_on(first).is_ok());
        }
        assert!(flags[0].is_set() && flags[1].is_set());
        assert!(block_on(second).is_ok());
    }
    assert_eq!(*BOX.lock(), 3);
}

/// The same of a context.
#[test]
fn a_context_is_handed_on() {
    class!(struct Boxes: WoundWait, mutexes = 2, contexts = 1);
    let flags: [Arc<Flag>; 3] = Default::default();
    let begin = || async {
        let mut context = Context::<Boxes>::new();
        context.attempt().await.map(|_| ())?;
        Ok::<_, Error>(context)
    };
    let held = block_on(begin()).unwrap();
    let (mut a, mut b, mut c) = (Box::pin(begin()), Box::pin(begin()), Box::pin(begin()));
    assert!(poll(a.as_mut(), &flags[0]).is_pending());
    assert!(poll(b.as_mut(), &flags[1]).is_pending());
    assert!(poll(c.as_mut(), &flags[2]).is_pending());
    drop(held);
    assert!(flags[0].is_set() && !flags[1].is_set());
    // One that has it is dropped, and one that waits.
    drop(b);
    assert!(!flags[1].is_set() && !flags[2].is_set());
    drop(a);
    assert!(!flags[1].is_set() && flags[2].is_set());
    let Poll::Ready(Ok(got)) = poll(c.as_mut(), &flags[2]) else { panic!() };
    let waiting = thread::spawn(|| Boxes::run(|tx| Ok(tx.attempts())));
    while Boxes::counts().context_waiters < 1 {
        thread::yield_now();
    }
    drop(got);
    assert_eq!(waiting.join().unwrap(), Ok(1));
    nothing_is_left::<Boxes>(&[], 1);
}

/// One of a mutex for which it had to wait, by a lock call and by a try.
#[test]
fn a_second_guard_is_refused() {
    class! {
        struct Wound: WoundWait;
        struct Die: WaitDie;
    }
    fn waits<C: Class>() {
        let mutex = Mutex::<C, u64>::new(0);
        let (flag, held) = (Arc::default(), mutex.lock());
        let mut twice = pin!(async {
            transaction!(C, |tx| {
                let mut one = tx.lock(&mutex).await?;
                assert!(tx.try_lock(&mutex).is_none());
                assert_eq!(tx.lock(&mutex).await.map(|_| ()), Err(Error::Duplicate));
                assert!(tx.try_lock(&mutex).is_none());
                *one += 1;
                drop(one);
                *tx.try_lock(&mutex).expect("nobody holds it") += 1;
                Ok(())
            })
        });
        assert!(poll(twice.as_mut(), &flag).is_pending());
        drop(held);
        assert!(flag.is_set() && block_on(twice) == Ok(()) && *mutex.try_lock().expect("nobody holds it") == 2);
    }
    waits::<Wound>();
    waits::<Die>();
}

/// How often a thread, by its folder, has gone to sleep so far.
fn sleeps_of(thread: &Path) -> u64 {
    let status = fs::read_to_string(thread.join("status")).unwrap();
    let line = status.lines().find_map(|line| line.strip_prefix("voluntary_ctxt_switches:"));
    line.unwrap().trim().parse().unwrap()
}

/// While one thread uses a context, another one that drops a guard of it sleeps: else, with a higher priority and the same
/// processor, it would wait forever. Here the first one is cloning a waker until the second has slept.
#[test]
fn whoever_waits_for_a_context_sleeps() {
    class!(struct Boxes: WoundWait);
    static BOXES: [Mutex<Boxes, u64>; 2] = [Mutex::new(0), Mutex::new(0)];
    static IS_IN_USE: AtomicBool = AtomicBool::new(false);
    static WAITS: OnceLock<(PathBuf, u64)> = OnceLock::new();
    fn has_slept() -> bool {
        WAITS.get().is_some_and(|(thread, before)| sleeps_of(thread) >= before + 10)
    }
    fn clone(_: *const ()) -> RawWaker {
        IS_IN_USE.store(true, Relaxed);
        while !has_slept() {
            thread::sleep(Duration::from_millis(1));
        }
        RawWaker::new(ptr::null(), Waker::noop().vtable())
    }
    static CLONES: RawWakerVTable = RawWakerVTable::new(clone, |_| {}, |_| {}, |_| {});
    // SAFETY: these functions access nothing.
    let waker = unsafe { Waker::new(ptr::null(), &CLONES) };
    let mut context = Context::<Boxes>::new();
    let tx = block_on(context.attempt()).unwrap();
    let (guard, held) = (block_on(tx.lock(&BOXES[0])).unwrap(), BOXES[1].lock());
    thread::scope(|scope| {
        scope.spawn(|| {
            let me = Path::new("/proc").join(fs::read_link("/proc/thread-self").unwrap());
            while !IS_IN_USE.load(Relaxed) {
                thread::sleep(Duration::from_millis(1));
            }
            let before = sleeps_of(&me);
            WAITS.set((me, before)).unwrap();
            drop(guard);
        });
        assert!(pin!(tx.lock(&BOXES[1])).poll(&mut Polling::from_waker(&waker)).is_pending());
    });
    assert!(!BOXES[0].is_locked());
    drop(held);
}

/// The clone of a waker panics, at the first poll of a call or at the next one: that call ends, and the context goes on.
#[test]
fn a_panic_of_a_waker_ends_a_call() {
    class!(struct Boxes: WoundWait);
    static BOXES: [Mutex<Boxes, u64>; 2] = [Mutex::new(0), Mutex::new(0)];
    static PANICS: RawWakerVTable = RawWakerVTable::new(|_| panic::resume_unwind(Box::new(())), |_| (), |_| (), |_| ());
    // SAFETY: these functions access nothing.
    let waker = unsafe { Waker::new(ptr::null(), &PANICS) };
    let mut context = Context::<Boxes>::new();
    let tx = block_on(context.attempt()).unwrap();
    let guard = block_on(tx.lock(&BOXES[0])).unwrap();
    for polls in [0, 1] {
        let held = BOXES[1].lock();
        let mut lock = Box::pin(tx.lock(&BOXES[1]));
        for _ in 0..polls {
            assert!(poll(lock.as_mut(), &Arc::default()).is_pending());
        }
        let told =
            panic::catch_unwind(AssertUnwindSafe(|| lock.as_mut().poll(&mut Polling::from_waker(&waker)).is_ready()));
        assert!(told.is_err());
        drop(lock);
        drop(held);
        assert!(BOXES[0].is_locked() && !BOXES[1].is_locked());
        drop(tx.try_lock(&BOXES[1]).expect("nobody holds it"));
    }
    drop(guard);
    assert!(block_on(tx.lock(&BOXES[0])).is_ok());
    drop(context);
    nothing_is_left::<Boxes>(&[], FOUND);
}

/// Its clone panics while a task waits for a context, or the drop of the last one: that wait is over with its future.
#[test]
fn a_panic_of_a_waker_ends_a_wait_for_a_context() {
    class!(struct Boxes: WoundWait, mutexes = 1, contexts = 1);
    static CLONES: RawWakerVTable = RawWakerVTable::new(|_| panic::resume_unwind(Box::new(())), |_| (), |_| (), |_| ());
    struct Drops;
    impl Wake for Drops {
        fn wake(self: Arc<Self>) {}
    }
    impl Drop for Drops {
        fn drop(&mut self) {
            panic::resume_unwind(Box::new(()));
        }
    }
    // SAFETY: these functions access nothing.
    let clones = unsafe { Waker::new(ptr::null(), &CLONES) };
    for (first, second) in [(Waker::noop().clone(), &clones), (Waker::from(Arc::new(Drops)), Waker::noop())] {
        let (mut only, mut context) = (Context::<Boxes>::new(), Context::<Boxes>::new());
        block_on(only.attempt()).unwrap();
        let mut attempt = Box::pin(context.attempt());
        assert!(attempt.as_mut().poll(&mut Polling::from_waker(&first)).is_pending());
        drop(first);
        let polls = || attempt.as_mut().poll(&mut Polling::from_waker(second)).is_ready();
        assert!(panic::catch_unwind(AssertUnwindSafe(polls)).is_err());
        drop(attempt);
        assert_eq!(Boxes::counts().context_waiters, 0);
    }
    nothing_is_left::<Boxes>(&[], 1);
}

/// Only the waker of the last poll is called, and none is kept.
#[test]
fn wakers_may_change() {
    class!(struct Boxes: WoundWait, mutexes = 2, contexts = 2);
    static BOX: Mutex<Boxes, u64> = Mutex::new(0);
    let flags: [Arc<Flag>; 3] = Default::default();
    let held = BOX.lock();
    let add = || async {
        transaction!(Boxes, |tx| {
            *tx.lock(&BOX).await? += 1;
            Ok(())
        })
    };
    let (mut locks, mut begins) = (Box::pin(add()), Box::pin(add()));
    for flag in &flags {
        assert!(poll(locks.as_mut(), flag).is_pending() && poll(locks.as_mut(), flag).is_pending());
        assert!(poll(begins.as_mut(), flag).is_pending() && poll(begins.as_mut(), flag).is_pending());
    }
    assert!(
        Arc::strong_count(&flags[0]) == 1 && Arc::strong_count(&flags[1]) == 1 && Arc::strong_count(&flags[2]) == 3
    );
    drop(held);
    assert!(!flags[0].is_set() && !flags[1].is_set() && flags[2].is_set());
    assert!(block_on(locks).is_ok() && block_on(begins).is_ok());
    assert!(flags.iter().all(|flag| Arc::strong_count(flag) == 1));
}

/// Two lock calls of a context at once, as `join!` makes them: they come one after the other.
#[test]
fn locks_of_a_context_take_turns() {
    class!(struct Boxes: WoundWait);
    static BOXES: [Mutex<Boxes, u64>; 3] = [Mutex::new(0), Mutex::new(0), Mutex::new(0)];
    let flags: [Arc<Flag>; 2] = Default::default();
    let mut context = Context::<Boxes>::new();
    let tx = block_on(context.attempt()).unwrap();
    let held = BOXES[0].lock();
    {
        let (mut one, mut other) = (pin!(tx.lock(&BOXES[0])), pin!(tx.lock(&BOXES[1])));
        assert!(poll(one.as_mut(), &flags[0]).is_pending() && poll(other.as_mut(), &flags[1]).is_pending());
        drop(held);
        assert!(flags[0].is_set() && !flags[1].is_set());
        let Poll::Ready(Ok(first)) = poll(one.as_mut(), &flags[0]) else { panic!() };
        assert!(flags[1].is_set());
        let Poll::Ready(Ok(second)) = poll(other.as_mut(), &flags[1]) else { panic!() };
        assert_eq!(*first + *second, 0);
    }
    // Where the first one is dropped the second goes on.
    let held = BOXES[0].lock();
    {
        let (mut one, mut other) = (Box::pin(tx.lock(&BOXES[0])), pin!(tx.lock(&BOXES[1])));
        assert!(poll(one.as_mut(), &flags[0]).is_pending() && poll(other.as_mut(), &flags[1]).is_pending());
        drop(one);
        assert!(flags[1].is_set() && poll(other.as_mut(), &flags[1]).is_ready());
    }
    drop(held);
    assert!(BOXES.iter().all(|it| !it.is_locked()));
}

/// What a context waited for before an attempt is handed out once, and goes with the attempt.
#[test]
fn what_came_first() {
    class!(struct Boxes: WaitDie);
    static BOXES: [Mutex<Boxes, u64>; 3] = [Mutex::new(0), Mutex::new(0), Mutex::new(0)];
    block_on(async {
        let (mut older, mut younger) = (Context::<Boxes>::new(), Context::<Boxes>::new());
        older.attempt().await?;
        for first in [0, 1] {
            let older_tx = older.attempt().await?;
            let held = older_tx.lock(&BOXES[first]).await?;
            let tx = younger.attempt().await?;
            // What came first in the attempt before isn't asked for in this one.
            assert!(first == 0 || BOXES[0].is_locked());
            let told = async {
                let _other = tx.lock(&BOXES[2]).await?;
                tx.lock(&BOXES[first]).await.map(|_| ())
            }
            .await;
            assert_eq!(told, Err(Error::Deadlock));
            assert!(younger.settle(told).is_continue());
            drop(held);
        }
        assert!(BOXES.iter().all(|it| !it.is_locked()));
        let tx = younger.attempt().await?;
        for (k, is_first) in [(0, false), (1, true)] {
            assert!(BOXES[k].is_locked() == is_first);
            let _held = tx.lock(&BOXES[k]).await?;
            assert_eq!(tx.lock(&BOXES[k]).await.map(|_| ()), Err(Error::Duplicate));
        }
        assert!(BOXES.iter().all(|it| !it.is_locked()));
        Ok::<_, Error>(())
    })
    .unwrap();
}

/// It is the mutex's next owner already, or about to be, as its future is dropped: the body goes on without it.
#[test]
fn a_dropped_lock_leaves_its_mutex() {
    class!(struct Boxes: WoundWait);
    static BOXES: [Mutex<Boxes, u64>; 2] = [Mutex::new(0), Mutex::new(0)];
    let flag = Arc::<Flag>::default();
    let mut context = Context::<Boxes>::new();
    let tx = block_on(context.attempt()).unwrap();
    for is_woken in [false, true] {
        let held = BOXES[0].lock();
        let mut lock = Box::pin(tx.lock(&BOXES[0]));
        assert!(poll(lock.as_mut(), &flag).is_pending());
        if is_woken {
            drop(held);
            assert!(flag.is_set());
            drop(lock);
        } else {
            drop(lock);
            drop(held);
            assert!(!flag.is_set());
        }
        assert!(!BOXES[0].is_locked() && Arc::strong_count(&flag) == 1);
        let other = block_on(tx.lock(&BOXES[1])).unwrap();
        assert!(BOXES[1].is_locked() && *other == 0);
    }
}

/// The library can't release during a wait: that ends, and begins again.
#[test]
fn a_guard_goes_amid_a_wait() {
    class!(struct Boxes: WaitDie);
    static BOXES: [Mutex<Boxes, u64>; 2] = [Mutex::new(0), Mutex::new(0)];
    let flag = Arc::<Flag>::default();
    let mut context = Context::<Boxes>::new();
    let tx = block_on(context.attempt()).unwrap();
    let first = block_on(tx.lock(&BOXES[0])).unwrap();
    let held = BOXES[1].lock();
    let mut second = pin!(tx.lock(&BOXES[1]));
    assert!(poll(second.as_mut(), &flag).is_pending() && !flag.is_set());
    drop(first);
    assert!(flag.is_set() && !BOXES[0].is_locked());
    assert!(poll(second.as_mut(), &flag).is_pending());
    drop(held);
    assert!(flag.is_set() && poll(second.as_mut(), &flag).is_ready());
}

/// In another thread, while this one polls.
#[test]
fn guards_go_in_other_threads() {
    class!(struct Boxes: WoundWait);
    let bank = bank::<Boxes>(3);
    let pool = Arc::new(Pool::default());
    for me in 0..times(300) {
        let bank = Arc::clone(&bank);
        pool.spawn(async move {
            let list = Draws(me as u64).places(3, 3);
            let mut context = Context::<Boxes>::new();
            loop {
                let tx = context.attempt().await.unwrap();
                let told = async {
                    let first = tx.lock(&bank[list[0]]).await?;
                    let mut second = Box::pin(tx.lock(&bank[list[1]]));
                    // Nothing is awaited in a scope of threads, so it is polled once there.
                    let early = thread::scope(|scope| {
                        let other = scope.spawn(|| drop(first));
                        let polled = second.as_mut().poll(&mut Polling::from_waker(Waker::noop()));
                        other.join().unwrap();
                        match polled {
                            Poll::Ready(told) => Some(told),
                            Poll::Pending => None,
                        }
                    });
                    drop(second);
                    let mut second = match early {
                        Some(told) => told?,
                        None => tx.lock(&bank[list[1]]).await?,
                    };
                    let mut third = tx.lock(&bank[list[2]]).await?;
                    *second -= 1;
                    *third += 1;
                    Ok::<_, Error>(())
                }
                .await;
                if context.settle(told).is_break() {
                    break;
                }
            }
        });
    }
    pool.run_by(2);
    nothing_is_left(&bank, FOUND);
}

/// What is forgotten is released by the next attempt, or at the end: guards, and lock calls that wait.
#[test]
fn what_is_forgotten() {
    class!(struct Boxes: WoundWait, mutexes = 4, contexts = 2);
    static BOXES: [Mutex<Boxes, u64>; 2] = [Mutex::new(0), Mutex::new(0)];
    let flag = Arc::<Flag>::default();
    let held = BOXES[1].lock();
    let mut context = Context::<Boxes>::new();
    {
        let tx = block_on(context.attempt()).unwrap();
        mem::forget(block_on(tx.lock(&BOXES[0])).unwrap());
        let mut second = Box::pin(tx.lock(&BOXES[1]));
        assert!(poll(second.as_mut(), &flag).is_pending());
        mem::forget(second);
    }
    drop(context);
    assert!(!BOXES[0].is_locked());
    drop(held);
    assert!(!flag.is_set() && !BOXES[1].is_locked());
    nothing_is_left::<Boxes>(&[], 2);
}

/// A body that awaits another transaction of the class, as a function that it calls may: it goes on, however few contexts at a time
/// tasks may have, whichever call began either of them.
#[test]
fn a_transaction_in_a_transaction() {
    class!(struct Boxes: WoundWait);
    static BOX: Mutex<Boxes, u64> = Mutex::new(0);
    fn nested(more: u64, runs: bool) -> Pin<Box<dyn Future<Output = Result<(), Error>>>> {
        Box::pin(async move {
            match more {
                0 => *BOX.lock_by_task().await? += 1,
                _ if runs => Boxes::run_async(async |_| nested(more - 1, runs).await).await?,
                _ => transaction!(Boxes, |tx| {
                    assert!(tx.attempts() > 0);
                    nested(more - 1, runs).await
                })?,
            }
            Ok(())
        })
    }
    Boxes::open().unwrap();
    let few = Boxes::counts().task_contexts;
    let once = |more, runs| poll(pin!(nested(more, runs)).as_mut(), &Arc::default());
    let many = || [false, true].map(|runs| assert_eq!(once(few.min(800), runs), Poll::Ready(Ok(()))));
    many();
    // Who isn't in one waits, also behind a body that panicked, and one that was dropped; unless more may begin meanwhile.
    let panics = || block_on(async { transaction!(Boxes, |_tx| panic!("it is to end so")) }) as Result<(), Error>;
    assert!(panic::catch_unwind(panics).is_err());
    let mut pending = Box::pin(async {
        transaction!(Boxes, |_tx| {
            yield_now().await;
            Ok(())
        })
    });
    assert!(poll(pending.as_mut(), &Arc::default()).is_pending());
    // By a thread that was in none. More may begin at a time meanwhile: then all that may are begun once more.
    let begin_all = || thread::spawn(|| contexts::<Boxes>(896)).join().unwrap();
    let mut all = begin_all();
    let waits = |all: &mut Vec<_>, more, runs| {
        let still_begins = || {
            all.extend(begin_all());
            once(more, runs).is_ready()
        };
        assert!(std::iter::repeat_with(still_begins).take(896).any(|begins| !begins));
    };
    waits(&mut all, 0, false);
    drop(pending);
    waits(&mut all, 1, false);
    waits(&mut all, 1, true);
    drop(all);
    many();
}

/// A wait costs no time of the processor, and a release ends it.
#[test]
fn a_task_sleeps() {
    class!(struct Boxes: WoundWait);
    static BOX: Mutex<Boxes, u64> = Mutex::new(0);
    let held = BOX.lock();
    let waiting = thread::spawn(|| {
        let polls = AtomicU64::new(0);
        let mut add = pin!(async {
            transaction!(Boxes, |tx| {
                *tx.lock(&BOX).await? += 1;
                Ok(())
            })
        });
        let counted = std::future::poll_fn(|cx| {
            polls.fetch_add(1, Relaxed);
            add.as_mut().poll(cx)
        });
        block_on(counted).unwrap();
        polls.into_inner()
    });
    while Boxes::counts().lock_waits < 1 {
        thread::yield_now();
    }
    thread::sleep(Duration::from_millis(200));
    drop(held);
    assert!(waiting.join().unwrap() <= 3);
}

#[test]
fn types_are_sent() {
    class!(struct Boxes: WoundWait);
    fn sends<T: Send>() {}
    fn shares<T: Sync>() {}
    sends::<Context<Boxes>>();
    shares::<Tx<Boxes>>();
    sends::<Guard<'_, Boxes, std::cell::Cell<u64>>>();
    shares::<Guard<'_, Boxes, u64>>();
    sends::<ww_mutex::task::Lock<'_, Boxes, u64>>();
    sends::<ww_mutex::task::ArcGuard<'_, Boxes, u64>>();
}

/// What is locked at once or not at all, and lists. The debug library would tell it Deadlock without need.
#[cfg(not(feature = "debug-library"))]
#[test]
fn tries_and_lists() {
    class!(struct Boxes: WaitDie);
    static BOXES: [Mutex<Boxes, u64>; 3] = [const { Mutex::new(0) }; 3];
    let flag = Arc::<Flag>::default();
    let mut context = Context::<Boxes>::new();
    let tx = block_on(context.attempt()).unwrap();
    let first = tx.try_lock(&BOXES[0]).unwrap();
    let held = BOXES[1].lock();
    assert!(tx.try_lock(&BOXES[0]).is_none() && tx.try_lock(&BOXES[1]).is_none());
    {
        let mut waiting = pin!(tx.lock(&BOXES[1]));
        assert!(poll(waiting.as_mut(), &flag).is_pending() && tx.try_lock(&BOXES[2]).is_none());
    }
    {
        // It keeps none of them.
        let mut all = pin!(tx.lock_all([&BOXES[2], &BOXES[1]]));
        assert!(poll(all.as_mut(), &flag).is_pending() && BOXES[2].is_locked());
    }
    assert!(!BOXES[2].is_locked() && BOXES[0].is_locked());
    assert_eq!(block_on(tx.lock_all([&BOXES[2], &BOXES[0]])).map(|_| ()), Err(Error::Duplicate));
    drop((held, first));
    let [mut one, mut other] = block_on(tx.lock_all([&BOXES[2], &BOXES[0]])).unwrap();
    (*one, *other) = (1, 2);
    drop((one, other));
    let sum = block_on(async { tx.lock_each(&BOXES).await.map(|all| all.iter().map(|it| **it).sum::<u64>()) });
    assert_eq!(sum, Ok(3));
}

/// Locks without a context: by tasks, beside a thread; dropped while it waits, and cancelled.
#[test]
fn lone_locks() {
    class!(struct Boxes: WoundWait, mutexes = 2, contexts = 2);
    static BOX: Mutex<Boxes, u64> = Mutex::new(0);
    let flags: [Arc<Flag>; 2] = Default::default();
    let held = BOX.lock();
    let (mut one, mut other) = (Box::pin(BOX.lock_by_task()), Box::pin(BOX.lock_by_task()));
    assert!(poll(one.as_mut(), &flags[0]).is_pending() && poll(other.as_mut(), &flags[1]).is_pending());
    drop(one); // so the other one gets the context
    assert!(flags[1].is_set() && poll(other.as_mut(), &flags[1]).is_pending());
    drop(held);
    assert!(flags[1].is_set() && BOX.try_lock().is_none());
    let Poll::Ready(Ok(mut guard)) = poll(other.as_mut(), &flags[1]) else { panic!() };
    *guard += 1;
    // It may be sent.
    thread::scope(|scope| scope.spawn(move || drop(guard)).join().unwrap());
    assert_eq!(*BOX.lock(), 1);
    nothing_is_left::<Boxes>(&[], 2);
    let held = BOX.lock();
    Boxes::cancel().unwrap();
    assert!(matches!(poll(Box::pin(BOX.lock_by_task()).as_mut(), &flags[0]), Poll::Ready(Err(Error::Cancelled))));
    drop(held);
    assert!(block_on(BOX.lock_by_task()).is_ok() && !BOX.is_locked());
}

/// A body that got `Deadlock` and returns `Ok` all the same.
#[test]
fn what_is_swallowed() {
    class!(struct Boxes: WaitDie);
    static BOXES: [Mutex<Boxes, u64>; 2] = [const { Mutex::new(0) }; 2];
    block_on(async {
        let mut older = Context::<Boxes>::new();
        let tx = older.attempt().await?;
        let mut held = Some(tx.lock(&BOXES[0]).await?);
        let told = transaction!(Boxes, |tx| {
            let _other = tx.lock(&BOXES[1]).await?;
            let told = tx.lock(&BOXES[0]).await.map(|_| tx.attempts());
            drop(held.take());
            Ok(told)
        });
        assert!(matches!(told, Ok(Ok(2..))));
        Ok::<_, Error>(())
    })
    .unwrap();
    assert!(BOXES.iter().all(|it| !it.is_locked()));
}

/// Objects that are found on the way.
#[test]
fn a_chain() {
    class!(struct Nodes: WoundWait);
    struct Node {
        value: u64,
        next: Option<Arc<Mutex<Nodes, Node>>>,
    }
    let mut first = Arc::new(Mutex::new(Node { value: 0, next: None }));
    for value in 1..=100 {
        first = Arc::new(Mutex::new(Node { value, next: Some(first) }));
    }
    let sum = block_on(async {
        transaction!(Nodes, |tx| {
            let mut held = vec![tx.lock_arc(&first).await?];
            while let Some(next) = held.last().and_then(|node| node.next.clone()) {
                held.push(tx.lock_arc(&next).await?);
            }
            Ok(held.iter().map(|node| node.value).sum::<u64>())
        })
    });
    assert_eq!(sum, Ok(5050));
}

/// What a thread suspended goes on in a task, once what was contended is free. If the future is dropped before, it is still suspended.
#[test]
fn a_task_goes_on_with_what_a_thread_suspended() {
    class!(struct Boxes: WaitDie);
    static BOXES: [Mutex<Boxes, u64>; 2] = [Mutex::new(0), Mutex::new(0)];
    let (mut age, flag) = (ww_mutex::Suspended::new(), Arc::new(executor::Flag::default()));
    let mut old = ww_mutex::typed::Context::begin().unwrap();
    let Ok((_, held)) = old.start().lock(&BOXES[0]) else { panic!() };
    let told = age.run(Boxes::options(), |tx| {
        let _other = tx.lock(&BOXES[1])?;
        tx.lock(&BOXES[0]).map(|_| ())
    });
    assert_eq!(told, Err(Error::Deadlock));
    assert!(executor::poll(pin!(ww_mutex::task::Context::resume(&mut age)), &flag).is_pending());
    assert!(!age.is_none() && !flag.is_set() && Boxes::counts().contexts == 2);
    {
        let mut resumes = pin!(ww_mutex::task::Context::resume(&mut age));
        assert!(executor::poll(resumes.as_mut(), &flag).is_pending());
        drop(held);
        assert!(flag.is_set());
        let Poll::Ready(Ok(mut context)) = executor::poll(resumes, &flag) else { panic!() };
        let adds = async {
            transaction!(in &mut context, |tx| {
                *tx.lock(&BOXES[0]).await? += 1;
                Ok(tx.attempts())
            })
        };
        assert_eq!(executor::poll(pin!(adds), &flag), Poll::Ready(Ok(1)));
    }
    drop(old);
    assert!(age.is_none() && Boxes::counts().contexts == 0 && *BOXES[0].lock() == 1);
}
