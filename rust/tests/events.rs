//! What a hook is told, by threads and by tasks: each wait once at its begin and once at its end, and each back-off.
#![cfg(feature = "events")]

#[cfg(feature = "async")]
mod executor;

use std::cell::RefCell;
use std::thread;
use std::time::{Duration, Instant};
use ww_mutex::table::{Mode, Table};
use ww_mutex::typed::{Context, Refused};
use ww_mutex::{class, Class, Error, Event, Mutex, SharedMutex, Suspended, Wait};

thread_local! {
    /// Those of the thread, since a hook is called by the one that waits.
    static TOLD: RefCell<Vec<Event>> = const { RefCell::new(Vec::new()) };
}

fn tell(event: Event) {
    TOLD.with_borrow_mut(|told| told.push(event));
}

/// What of an event is no time.
type Seen = (Option<Wait>, Option<Result<(), Error>>);

fn told() -> Vec<Seen> {
    let event = |event| match event {
        Event::WaitBegan(wait) => (Some(wait), None),
        Event::WaitEnded(wait, _, told) => (Some(wait), Some(told)),
        _ => (None, None),
    };
    TOLD.take().into_iter().map(event).collect()
}

const BACKED_OFF: Seen = (None, None);

fn wait(of: Wait, told: Result<(), Error>) -> [Seen; 2] {
    [(Some(of), None), (Some(of), Some(told))]
}

/// A hook is told of a back-off, and takes nothing from the wait for what was contended.
#[test]
#[cfg_attr(feature = "debug-library", ignore)]
fn by_a_table() {
    class!(struct Rows: WaitDie);
    Rows::on_event(tell);
    let table = Table::<Rows>::open().unwrap();
    let begin = |owner| table.begin(owner, Rows::options(), &mut Suspended::new()).unwrap();
    let (mut older, mut younger) = (begin(1), begin(2));
    older.lock("1", Mode::Exclusive).unwrap();
    younger.lock("2", Mode::Exclusive).unwrap();
    assert_eq!(younger.lock("1", Mode::Shared), Err(Error::Deadlock));
    assert_eq!(told(), [BACKED_OFF]);
    younger.unlock_all();
    let late = Instant::now() + Duration::from_millis(20);
    younger.lock_until("3", Mode::Shared, late).unwrap();
    assert!(Instant::now() >= late && told().is_empty());
}

#[test]
fn by_threads() {
    class!(struct Boxes: WoundWait);
    static BOXES: [Mutex<Boxes, u64>; 2] = [Mutex::new(0), Mutex::new(0)];
    static SHARED: SharedMutex<Boxes, u64> = SharedMutex::new(0);
    Boxes::on_event(tell);
    let soon = || Boxes::options().timeout(Duration::from_millis(1));
    let lock = |k: usize| soon().run(|tx| tx.lock(&BOXES[k]).map(|_| ()));
    assert!(lock(0).is_ok() && told().is_empty());
    let held = BOXES[0].lock();
    assert_eq!(lock(0), Err(Error::TimedOut));
    assert_eq!(told(), wait(Wait::Mutex, Err(Error::TimedOut)));
    // One who waits without a limit.
    let before = Boxes::counts().lock_waits;
    let waits = thread::spawn(|| {
        let by_run = Boxes::run(|tx| tx.lock(&BOXES[0]).map(|_| ()));
        (by_run, told())
    });
    // Its first wait is one for no time.
    while Boxes::counts().lock_waits < before + 2 {
        thread::yield_now();
    }
    drop(held);
    assert_eq!(waits.join().unwrap(), (Ok(()), wait(Wait::Mutex, Ok(())).to_vec()));
    let write = || soon().run(|tx| tx.write(&SHARED).map(|_| ()));
    assert!(write().is_ok() && told().is_empty());
    thread::scope(|scope| {
        let by_other = Boxes::run(|tx| {
            let _read = tx.read(&SHARED)?;
            Ok(scope.spawn(|| (write(), told())).join().unwrap())
        });
        assert_eq!(by_other, Ok((Err(Error::TimedOut), wait(Wait::Mutex, Err(Error::TimedOut)).to_vec())));
    });
    assert!(told().is_empty());
}

/// In Wait-Die the younger one gets `Deadlock` in place of a wait, and then needn't wait for that mutex, which is free.
#[test]
fn back_offs() {
    class!(struct Boxes: WaitDie);
    static BOXES: [Mutex<Boxes, u64>; 2] = [Mutex::new(0), Mutex::new(0)];
    Boxes::on_event(tell);
    let mut older = Context::begin().unwrap();
    let mut younger = Context::begin().unwrap();
    let Ok((_, held)) = older.start().lock(&BOXES[0]) else { panic!() };
    let Ok((tx, other)) = younger.start().lock(&BOXES[1]) else { panic!() };
    let Err(Refused::Deadlock(lost)) = tx.lock(&BOXES[0]) else { panic!() };
    let [began, ended] = wait(Wait::Mutex, Err(Error::Deadlock));
    assert_eq!(told(), [began, ended, BACKED_OFF]);
    drop((other, held));
    drop(younger.back_off(lost).unwrap());
    assert!(told().is_empty());
}

#[cfg(feature = "async")]
#[test]
fn by_tasks() {
    use executor::{block_on, poll, Flag};
    use std::sync::Arc;
    use ww_mutex::{task, transaction};
    class! {
        struct Boxes: WaitDie;
        struct One: WoundWait, mutexes = 2, contexts = 1;
    }
    static BOXES: [Mutex<Boxes, u64>; 2] = [Mutex::new(0), Mutex::new(0)];
    Boxes::on_event(tell);
    One::on_event(tell);
    let flag = Arc::<Flag>::default();
    let lock = || Box::pin(async { transaction!(Boxes, |tx| tx.lock(&BOXES[0]).await.map(|_| ())) });
    assert!(block_on(lock()).is_ok() && told().is_empty());
    // It is told once, however often it is polled.
    let held = BOXES[0].lock();
    let (mut one, mut other) = (lock(), lock());
    for _ in 0..3 {
        assert!(poll(one.as_mut(), &flag).is_pending());
    }
    assert_eq!(told(), [(Some(Wait::Mutex), None)]);
    assert!(poll(other.as_mut(), &flag).is_pending());
    told();
    drop(other);
    assert_eq!(told(), [(Some(Wait::Mutex), Some(Err(Error::Cancelled)))]);
    drop(held);
    assert!(poll(one.as_mut(), &flag).is_ready());
    assert_eq!(told(), [(Some(Wait::Mutex), Some(Ok(())))]);
    // A back-off, and the wait for what it was at.
    let mut older = task::Context::<Boxes>::new();
    let tx = block_on(older.attempt()).unwrap();
    let held = block_on(tx.lock(&BOXES[0])).unwrap();
    let mut both = Box::pin(async {
        transaction!(Boxes, |tx| {
            let _other = tx.lock(&BOXES[1]).await?;
            tx.lock(&BOXES[0]).await.map(|_| ())
        })
    });
    assert!(poll(both.as_mut(), &flag).is_pending());
    assert_eq!(told(), [BACKED_OFF, (Some(Wait::Mutex), None)]);
    drop(held);
    assert!(poll(both.as_mut(), &flag).is_ready());
    assert_eq!(told(), [(Some(Wait::Mutex), Some(Ok(())))]);
    // Contexts: of those that wait one is served, and one is dropped.
    let mut first = task::Context::<One>::new();
    block_on(first.attempt()).unwrap();
    let begin = || {
        Box::pin(async {
            let mut context = task::Context::<One>::new();
            context.attempt().await.map(|_| ())
        })
    };
    let (mut one, mut other) = (begin(), begin());
    assert!(poll(one.as_mut(), &flag).is_pending() && poll(other.as_mut(), &flag).is_pending());
    assert_eq!(told(), [(Some(Wait::Context), None); 2]);
    drop(first);
    assert!(poll(one.as_mut(), &flag).is_ready());
    assert_eq!(told(), [(Some(Wait::Context), Some(Ok(())))]);
    drop(other);
    assert_eq!(told(), [(Some(Wait::Context), Some(Err(Error::Cancelled)))]);
}
