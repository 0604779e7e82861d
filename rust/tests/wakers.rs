//! Wakers that use the library where it calls them, or panic.
#![cfg(all(feature = "async", not(feature = "debug-library")))] // That makes up Deadlocks.
#![forbid(unsafe_code)]
#![allow(clippy::incompatible_msrv, reason = "the feature asks for Rust 1.85")]

mod executor;

use executor::block_on;
use std::cell::RefCell;
use std::future::Future;
use std::panic;
use std::sync::atomic::{AtomicUsize, Ordering::SeqCst};
use std::sync::Arc;
use std::task::{Context as Polling, Wake, Waker};
use ww_mutex::task::{Context, Tx};
use ww_mutex::{class, typed, Class, Mutex, MutexGuard};

/// Calls a function, which counts for itself.
struct Calls<F: Fn()>(F);

impl<F: Fn() + Send + Sync + 'static> Calls<F> {
    fn waker(f: F) -> Waker {
        Waker::from(Arc::new(Calls(f)))
    }
}

impl<F: Fn() + Send + Sync + 'static> Wake for Calls<F> {
    fn wake(self: Arc<Self>) {
        self.0();
    }
}

/// A waker that is called by what one does with a context, and uses that context: it is called once nobody else uses that. By a
/// guard that goes, by a lock call that wounds, and by a lock call that is dropped, behind which another one waits.
#[test]
fn a_waker_may_use_the_context_that_calls_it() {
    class!(struct Boxes: WoundWait);
    static BOXES: [Mutex<Boxes, u64>; 5] = [const { Mutex::new(0) }; 5];
    static CALLS: AtomicUsize = AtomicUsize::new(0);
    let context = || &mut *Box::leak(Box::new(Context::<Boxes>::new()));
    let (tx, other): (&'static Tx<Boxes>, &'static Tx<Boxes>) =
        (block_on(context().attempt()).unwrap(), block_on(context().attempt()).unwrap());
    let uses = || {
        Calls::waker(move || {
            drop(tx.try_lock(&BOXES[3])); // None, while a lock call of the context waits.
            CALLS.fetch_add(1, SeqCst);
        })
    };
    let calls = |wanted| assert_eq!(CALLS.load(SeqCst), wanted);
    // The guard goes that the other context waits for.
    let guard = block_on(tx.lock(&BOXES[0])).unwrap();
    let second = block_on(other.lock(&BOXES[1])).unwrap();
    let mut waits = Box::pin(other.lock(&BOXES[0]));
    assert!(waits.as_mut().poll(&mut Polling::from_waker(&uses())).is_pending());
    drop(guard);
    calls(1);
    drop(waits);
    // The older one, which holds something, wounds the other one, which waits for a third one.
    let own = block_on(tx.lock(&BOXES[4])).unwrap();
    let third = BOXES[2].lock();
    let mut waits = Box::pin(other.lock(&BOXES[2]));
    assert!(waits.as_mut().poll(&mut Polling::from_waker(&uses())).is_pending());
    let mut wounds = Box::pin(tx.lock(&BOXES[1]));
    assert!(wounds.as_mut().poll(&mut Polling::from_waker(Waker::noop())).is_pending());
    calls(2);
    // That one goes for which another call of its context waits.
    let mut next = Box::pin(tx.lock(&BOXES[3]));
    assert!(next.as_mut().poll(&mut Polling::from_waker(&uses())).is_pending());
    drop(wounds);
    calls(3);
    drop((next, waits, own, second, third));
}

/// The same in the thread of a context of threads.
#[test]
fn a_waker_may_use_its_threads_context() {
    class!(struct Boxes: WoundWait);
    static BOXES: [Mutex<Boxes, u64>; 2] = [const { Mutex::new(0) }; 2];
    thread_local! {
        static REST: RefCell<Option<typed::Acquiring<'static, Boxes>>> = const { RefCell::new(None) };
        static KEPT: RefCell<Option<MutexGuard<'static, Boxes, u64>>> = const { RefCell::new(None) };
    }
    let context = Box::leak(Box::new(typed::Context::<Boxes>::begin().unwrap()));
    let Ok((rest, guard)) = context.start().lock(&BOXES[0]) else { panic!() };
    REST.set(Some(rest));
    let waker = Calls::waker(|| {
        let Ok((rest, guard)) = REST.take().unwrap().lock(&BOXES[1]) else { panic!() };
        REST.set(Some(rest));
        KEPT.set(Some(guard));
    });
    let mut waits = Box::pin(BOXES[0].lock_by_task());
    assert!(waits.as_mut().poll(&mut Polling::from_waker(&waker)).is_pending());
    drop(guard);
    assert!(BOXES[1].is_locked());
    drop(KEPT.take());
    assert!(!BOXES[1].is_locked() && block_on(waits).is_ok());
}

/// A waker that panics ends nothing: who calls it goes on, and calls the others. By threads and tasks, in a release, in a lock call
/// that wounds, in the end of a context for which tasks wait, and in a cancel.
#[test]
fn a_waker_may_panic() {
    class!(struct Boxes: WoundWait, mutexes = 4, contexts = 3);
    static BOXES: [Mutex<Boxes, u64>; 3] = [const { Mutex::new(0) }; 3];
    static CALLS: AtomicUsize = AtomicUsize::new(0);
    /// Whose drop panics, too.
    struct Bomb;
    impl Drop for Bomb {
        fn drop(&mut self) {
            panic::resume_unwind(Box::new(()));
        }
    }
    fn panics() -> Waker {
        Calls::waker(|| {
            CALLS.fetch_add(1, SeqCst);
            panic::resume_unwind(Box::new(Bomb));
        })
    }
    let calls = |wanted| assert_eq!(CALLS.swap(0, SeqCst), wanted);
    let waits = |index: usize| {
        let mut waits = Box::pin(BOXES[index].lock_by_task());
        assert!(waits.as_mut().poll(&mut Polling::from_waker(&panics())).is_pending());
        waits
    };
    // A thread, without a context and with one; and a task.
    let held = BOXES[0].lock();
    let waiting = waits(0);
    drop(held);
    calls(1);
    drop(waiting);
    let waiting = Boxes::run(|tx| {
        let _held = tx.lock(&BOXES[0])?;
        Ok(waits(0))
    });
    calls(1);
    drop(waiting);
    let held = block_on(BOXES[0].lock_by_task()).unwrap();
    let waiting = waits(0);
    drop(held);
    calls(1);
    drop(waiting);
    // A lock call that wounds who waits.
    let (mut older, mut younger) = (Context::<Boxes>::new(), Context::<Boxes>::new());
    let (tx, other) = (block_on(older.attempt()).unwrap(), block_on(younger.attempt()).unwrap());
    let own = block_on(tx.lock(&BOXES[2])).unwrap();
    let (first, second) = (BOXES[0].lock(), block_on(other.lock(&BOXES[1])).unwrap());
    let mut waiting = Box::pin(other.lock(&BOXES[0]));
    assert!(waiting.as_mut().poll(&mut Polling::from_waker(&panics())).is_pending());
    let mut wounds = Box::pin(tx.lock(&BOXES[1]));
    assert!(wounds.as_mut().poll(&mut Polling::from_waker(&panics())).is_pending());
    calls(1);
    drop((waiting, second));
    calls(1);
    drop((wounds, first, own));
    drop((older, younger));
    // The end of a context, where all are in use; and a cancel, which calls all.
    let mut all = BOXES.each_ref().map(|mutex| Some(block_on(mutex.lock_by_task()).unwrap()));
    let waiting = [waits(0), waits(1)];
    all[2] = None;
    calls(1);
    Boxes::cancel().unwrap();
    assert!(CALLS.load(SeqCst) > 0);
    drop((waiting, all));
}
