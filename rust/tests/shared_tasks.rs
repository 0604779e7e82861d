//! Tasks that read beside each other, or one that writes; some are dropped amid their waits.
#![cfg(feature = "async")]
#![allow(clippy::incompatible_msrv, reason = "the feature asks for Rust 1.85")]

mod executor;

use executor::{at_most, block_on, poll, times, yield_now, Draws, Flag, Pool};
use std::future::Future;
use std::mem;
use std::panic::{self, AssertUnwindSafe};
use std::pin::{pin, Pin};
use std::sync::atomic::{AtomicU64, Ordering::Relaxed};
use std::sync::Arc;
use std::task::Poll;
use ww_mutex::task::{Context, SharedGuard, Tx};
use ww_mutex::{class, transaction, Class, Error, Mutex, SharedMutex};

type Cells<C> = Arc<[SharedMutex<C, (u64, u64)>]>;

/// Whether a task can write it at once.
fn is_free<C: Class, T>(mutex: &SharedMutex<C, T>) -> bool {
    let mut context = Context::<C>::new();
    let tx = block_on(context.attempt()).unwrap();
    let flag = Arc::new(Flag::default());
    let mut write = pin!(tx.write(mutex));
    let told = poll(write.as_mut(), &flag);
    matches!(told, Poll::Ready(Ok(_)))
}

#[test]
#[cfg_attr(feature = "debug-library", ignore = "that makes up Deadlocks")]
fn readers_and_a_writer() {
    class!(struct Boxes: WoundWait, contexts = 4; struct Others: WaitDie, contexts = 4);
    static ONE: SharedMutex<Boxes, u64> = SharedMutex::new(7);
    static OTHER: SharedMutex<Others, u64> = SharedMutex::new(7);
    writes_after_readers(&ONE);
    writes_after_readers(&OTHER);
    assert!(is_free(&ONE) && is_free(&OTHER));
}

fn writes_after_readers<C: Class>(one: &SharedMutex<C, u64>) {
    let flag = Arc::new(Flag::default());
    // The writer is the oldest, so it waits in both kinds.
    let [mut oldest, mut reader, mut other] = [(); 3].map(|()| Context::<C>::new());
    let writer = block_on(oldest.attempt()).unwrap();
    {
        let (tx, too) = (block_on(reader.attempt()).unwrap(), block_on(other.attempt()).unwrap());
        let (value, same) = (block_on(tx.read(one)).unwrap(), block_on(too.read(one)).unwrap());
        assert_eq!((value, same, *block_on(tx.read(one)).unwrap()), (&7, &7, 7));
        assert_eq!(block_on(tx.write(one)).err(), Some(Error::Duplicate));
        let mut write = pin!(writer.write(one));
        assert!(poll(write.as_mut(), &flag).is_pending());
    }
    // The dropped wait left nothing; the readers read on.
    let mut write = pin!(writer.write(one));
    assert!(poll(write.as_mut(), &flag).is_pending());
    drop(reader);
    assert!(poll(write.as_mut(), &flag).is_pending());
    let moved = Box::new(other); // and it reads
    drop(moved);
    assert!(flag.is_set());
    let Poll::Ready(Ok(mut guard)) = poll(write.as_mut(), &flag) else { panic!("it is free") };
    *guard += 1;
    assert_eq!((block_on(writer.read(one)).err(), format!("{guard:?}")), (Some(Error::Duplicate), "8".to_owned()));
    drop(guard);
    assert_eq!(block_on(writer.read(one)), Ok(&8));
    assert!(!is_free(one));
}

/// Tries wait for nobody; and who writes may go on as a reader, beside who waited for that.
#[test]
#[cfg_attr(feature = "debug-library", ignore = "that makes up Deadlocks")]
fn tries_and_downgrades() {
    class!(struct Boxes: WoundWait; struct Others: WaitDie);
    tries::<Boxes>();
    tries::<Others>();
}

fn tries<C: Class>() {
    let (one, own) = (Arc::new(SharedMutex::<C, u64>::new(7)), Arc::new(SharedMutex::<C, u64>::default()));
    let flag = Arc::new(Flag::default());
    let [mut older, mut younger] = [(); 2].map(|()| Context::<C>::new());
    let (waits, tx) = (block_on(older.attempt()).unwrap(), block_on(younger.attempt()).unwrap());
    let mut guard = tx.try_write(&one).expect("it is free");
    *guard += 1;
    assert!(tx.try_read(&one).is_none() && tx.try_write(&one).is_none());
    assert!(waits.try_read(&one).is_none() && waits.try_write(&one).is_none());
    {
        let mut read = pin!(waits.read_arc(&one));
        assert!(poll(read.as_mut(), &flag).is_pending());
        assert!(waits.try_read(&own).is_none(), "a call of the context waits");
        let value = SharedGuard::downgrade(guard);
        assert!(flag.is_set());
        let Poll::Ready(Ok(same)) = poll(read.as_mut(), &flag) else { panic!("it is free to read") };
        assert_eq!((*value, *same), (8, 8));
    }
    assert_eq!((block_on(tx.write(&one)).err(), tx.try_read(&one)), (Some(Error::Duplicate), Some(&8)));
    assert!(tx.try_write(&one).is_none() && waits.try_write(&one).is_none());
    *block_on(waits.write_arc(&own)).unwrap() += 1;
    assert_eq!(waits.try_read(&own), Some(&1));
    drop(younger);
    drop(older);
    assert!(is_free(&one) && is_free(&own));
}

/// A guard that goes on as a read amid a wait of its context ends that wait, which is begun again.
#[test]
#[cfg_attr(feature = "debug-library", ignore = "that makes up Deadlocks")]
fn a_downgrade_amid_a_wait() {
    class!(struct Boxes: WoundWait);
    static ONE: SharedMutex<Boxes, u64> = SharedMutex::new(7);
    static BOX: Mutex<Boxes, u64> = Mutex::new(3);
    let flag = Arc::new(Flag::default());
    let mut context = Context::<Boxes>::new();
    let tx = block_on(context.attempt()).unwrap();
    let (guard, held) = (block_on(tx.write(&ONE)).unwrap(), BOX.lock());
    let mut lock = pin!(tx.lock(&BOX));
    assert!(poll(lock.as_mut(), &flag).is_pending());
    let value = SharedGuard::downgrade(guard);
    assert!(flag.is_set() && poll(lock.as_mut(), &flag).is_pending());
    drop(held);
    assert!(flag.is_set());
    let Poll::Ready(Ok(locked)) = poll(lock.as_mut(), &flag) else { panic!("it is free") };
    assert_eq!((*value, *locked), (7, 3));
}

/// A read that is dropped amid its wait leaves nothing either.
#[test]
#[cfg_attr(feature = "debug-library", ignore = "that makes up Deadlocks")]
fn a_reader_waits_for_a_writer() {
    class!(struct Boxes: WoundWait, contexts = 4);
    static ONE: SharedMutex<Boxes, u64> = SharedMutex::new(7);
    let flag = Arc::new(Flag::default());
    let (mut older, mut younger) = (Context::<Boxes>::new(), Context::<Boxes>::new());
    let (reads, writes) = (block_on(older.attempt()).unwrap(), block_on(younger.attempt()).unwrap());
    let guard = block_on(writes.write(&ONE)).unwrap();
    {
        let mut read = pin!(reads.read(&ONE));
        assert!(poll(read.as_mut(), &flag).is_pending());
    }
    let mut read = pin!(reads.read(&ONE));
    assert!(poll(read.as_mut(), &flag).is_pending());
    drop(guard);
    assert!(flag.is_set() && matches!(poll(read.as_mut(), &flag), Poll::Ready(Ok(7))));
    assert!(!is_free(&ONE));
}

/// A call that waits isn't passed by another of its context, which would read what it then writes.
#[test]
#[cfg_attr(feature = "debug-library", ignore = "that makes up Deadlocks")]
fn calls_of_a_context_come_one_after_the_other() {
    class!(struct Boxes: WoundWait);
    static ONE: SharedMutex<Boxes, u64> = SharedMutex::new(7);
    let flag = Arc::new(Flag::default());
    let (mut older, mut younger) = (Context::<Boxes>::new(), Context::<Boxes>::new());
    let tx = block_on(older.attempt()).unwrap();
    {
        let other = block_on(younger.attempt()).unwrap();
        block_on(other.read(&ONE)).unwrap();
    }
    let (mut write, mut read) = (pin!(tx.write(&ONE)), pin!(tx.read(&ONE)));
    assert!(poll(write.as_mut(), &flag).is_pending() && poll(read.as_mut(), &flag).is_pending());
    drop(younger);
    let Poll::Ready(Ok(guard)) = poll(write.as_mut(), &flag) else { panic!("it is free") };
    assert!(matches!(poll(read.as_mut(), &flag), Poll::Ready(Err(Error::Duplicate))));
    drop(guard);
}

/// As `a_mutex_that_goes_takes_its_read_along` of threads.
#[test]
#[cfg_attr(feature = "debug-library", ignore = "that makes up Deadlocks")]
fn a_mutex_that_goes_takes_its_read_along() {
    class!(struct Boxes: WoundWait, mutexes = 5, contexts = 2);
    let flag = Arc::new(Flag::default());
    for _ in 0..20 {
        let (mut one, mut other) = (Context::<Boxes>::new(), Context::<Boxes>::new());
        let (reader, writer) = (block_on(one.attempt()).unwrap(), block_on(other.attempt()).unwrap());
        let old = SharedMutex::new(1);
        assert_eq!(block_on(reader.read(&old)), Ok(&1));
        drop(old);
        let new = SharedMutex::new(7);
        let seen = block_on(reader.read(&new)).unwrap();
        assert!(poll(pin!(writer.write(&new)), &flag).is_pending() && *seen == 7);
        let last = SharedMutex::new(9);
        *block_on(reader.write(&last)).unwrap() += 1;
    }
}

/// As `nobody_waits_for_a_stranger` of threads.
#[test]
#[cfg_attr(feature = "debug-library", ignore = "that makes up Deadlocks")]
fn nobody_waits_for_a_stranger() {
    class!(struct Boxes: WaitDie, mutexes = 8);
    let flag = Arc::new(Flag::default());
    for writes in [None, Some(false), Some(true)] {
        let strangers: [Mutex<Boxes, u64>; 8] = std::array::from_fn(|_| Mutex::new(0));
        let other = Mutex::new(0);
        let (mut older, mut younger) = (Context::<Boxes>::new(), Context::<Boxes>::new());
        let told = block_on(async {
            let (older, tx) = (older.attempt().await?, younger.attempt().await?);
            let (gone, shared, _other) = (Mutex::new(0), SharedMutex::new(0), tx.lock(&other).await?);
            let _held = (older.lock(&gone).await?, older.write(&shared).await?);
            match writes {
                None => tx.lock(&gone).await.map(|_| ()),
                Some(false) => tx.read(&shared).await.map(|_| ()),
                Some(true) => tx.write(&shared).await.map(|_| ()),
            }
        });
        assert!(told == Err(Error::Deadlock) && younger.settle(told).is_continue());
        let held: Vec<_> = strangers.iter().filter_map(Mutex::try_lock).collect();
        assert!(held.len() > 2 && poll(pin!(younger.attempt()), &flag).is_ready());
    }
}

/// As `what_came_first_may_have_gone` of threads.
#[test]
#[cfg_attr(feature = "debug-library", ignore = "that makes up Deadlocks")]
fn what_came_first_may_have_gone() {
    class!(struct Boxes: WaitDie, mutexes = 8, contexts = 4);
    async fn first_lock(shared: &SharedMutex<Boxes, u64>) -> Result<(), Error> {
        transaction!(Boxes, |tx| tx.write(shared).await.map(|_| ()))
    }
    block_on(async {
        for k in 0..3 {
            let (other, shared) = (Mutex::new(0), SharedMutex::new(7));
            if k == 0 {
                first_lock(&shared).await?;
            }
            let (mut older, mut younger) = (Context::<Boxes>::new(), Context::<Boxes>::new());
            let (older, tx) = (older.attempt().await?, younger.attempt().await?);
            let told = async {
                let (gone, _other) = (Mutex::new(0), tx.lock(&other).await?);
                let _held = older.lock(&gone).await?;
                tx.lock(&gone).await.map(|_| ())
            }
            .await;
            first_lock(&shared).await?;
            assert!(told == Err(Error::Deadlock) && younger.settle(told).is_continue());
            let tx = younger.attempt().await?;
            assert_eq!(if k == 2 { *tx.write(&shared).await? } else { *tx.read(&shared).await? }, 7);
        }
        Ok::<_, Error>(())
    })
    .unwrap();
}

/// The number by which a context reads is that of a mutex that is gone, and for which another one waits first; and it waits itself
/// first for a number that the mutex which it then reads has by now.
#[test]
#[cfg_attr(feature = "debug-library", ignore = "that makes up Deadlocks")]
fn what_came_first_may_be_what_is_read() {
    class!(struct Boxes: WaitDie, contexts = 8);
    let flag = Arc::new(Flag::default());
    let (first, second, other) = (Mutex::new(0), Mutex::new(0), Mutex::new(0));
    let shared: SharedMutex<Boxes, u64> = SharedMutex::new(1);
    Boxes::run(|tx| tx.write(&shared).map(|mut it| *it = 1)).unwrap(); // so that it has its number
    let (mut oldest, mut reader, mut youngest) =
        (Context::<Boxes>::new(), Context::<Boxes>::new(), Context::<Boxes>::new());
    let tx = block_on(oldest.attempt()).unwrap();
    let (has_first, has_second) = (block_on(tx.lock(&first)).unwrap(), block_on(tx.lock(&second)).unwrap());
    block_on(reader.attempt()).unwrap();
    let told = block_on(async {
        let tx = youngest.attempt().await?;
        let _other = tx.lock(&other).await?;
        tx.lock(&first).await.map(|_| ())
    });
    assert!(told == Err(Error::Deadlock) && youngest.settle(told).is_continue());
    drop(has_first);
    drop(first);
    let told = block_on(async {
        let tx = reader.attempt().await?;
        assert_eq!(*tx.read(&shared).await?, 1);
        tx.lock(&second).await.map(|_| ())
    });
    assert!(told == Err(Error::Deadlock) && reader.settle(told).is_continue());
    drop(has_second);
    drop((oldest, second));
    block_on(youngest.attempt()).unwrap();
    let new = SharedMutex::new(2);
    let tx = block_on(reader.attempt()).unwrap();
    let mut read = pin!(tx.read(&new));
    let told = poll(read.as_mut(), &flag);
    drop(youngest);
    match told {
        Poll::Pending => assert_eq!(block_on(read).as_deref().copied(), Ok(2)),
        Poll::Ready(told) => assert_eq!(told.as_deref().copied(), Ok(2)),
    }
}

/// A read that is dropped amid its wait, also once it has its turn, is none: another context writes it, and so may its own.
#[test]
#[cfg_attr(feature = "debug-library", ignore = "that makes up Deadlocks")]
fn a_dropped_read_leaves_its_mutex() {
    class!(struct Boxes: WoundWait, contexts = 4);
    static ONE: SharedMutex<Boxes, u64> = SharedMutex::new(7);
    static OTHER: SharedMutex<Boxes, u64> = SharedMutex::new(7);
    let flag = Arc::new(Flag::default());
    for (is_woken, reads_another) in [(false, false), (true, false), (false, true), (true, true)] {
        let (mut one, mut other) = (Context::<Boxes>::new(), Context::<Boxes>::new());
        let (writer, reader) = (block_on(one.attempt()).unwrap(), block_on(other.attempt()).unwrap());
        if reads_another {
            assert_eq!(block_on(reader.read(&OTHER)), Ok(&7));
        }
        let guard = block_on(writer.write(&ONE)).unwrap();
        let mut read = Box::pin(reader.read(&ONE));
        assert!(poll(read.as_mut(), &flag).is_pending());
        if is_woken {
            drop(guard);
            assert!(flag.is_set());
            drop(read);
        } else {
            drop(read);
            drop(guard);
            assert!(!flag.is_set());
        }
        assert!(Arc::strong_count(&flag) == 1 && is_free(&ONE) && is_free(&OTHER) != reads_another);
        drop(block_on(reader.write(&ONE)).unwrap());
        assert_eq!(block_on(reader.write(&OTHER)).err(), reads_another.then_some(Error::Duplicate));
    }
    assert!(is_free(&ONE) && is_free(&OTHER));
}

// ---- forgotten futures ----

/// What its mutex is, its size apart from that of others.
type Value = [u64; 61];

/// A call by a context, and what another one has before it: at each, the call waits, or not.
#[derive(Clone, Copy, Debug, PartialEq)]
enum Way {
    Lock,
    Read,
    Write,
}

fn call<'x, C: Class>(
    way: Way,
    tx: &'x Tx<C>,
    (plain, shared): (&'x Mutex<C, Value>, &'x SharedMutex<C, Value>),
) -> Pin<Box<dyn Future<Output = Result<(), Error>> + 'x>> {
    match way {
        Way::Lock => Box::pin(async { tx.lock(plain).await.map(mem::forget) }),
        Way::Read => Box::pin(async { tx.read(shared).await.map(|_| ()) }),
        Way::Write => Box::pin(async { tx.write(shared).await.map(mem::forget) }),
    }
}

/// Which context's end comes last, and how: it is dropped, or begins another attempt.
#[derive(Clone, Copy, Debug, PartialEq)]
enum End {
    Drop,
    Attempt,
}

/// A call of a context is forgotten behind so many polls, before or after another context lets it have its turn. Then its mutex
/// goes, and others come in its memory; the end of the context, which releases what was forgotten, accesses none of them. No
/// mutex of the class, no context, and no waker is lost. The address sanitizer sees where it is otherwise, by a nightly compiler.
#[test]
#[cfg_attr(feature = "debug-library", ignore = "that makes up Deadlocks")]
fn calls_are_forgotten_at_each_poll() {
    class!(struct Wound: WoundWait, mutexes = 6, contexts = 2; struct Die: WaitDie, mutexes = 6, contexts = 2);
    for way in [Way::Lock, Way::Read, Way::Write] {
        for before in [Way::Lock, Way::Read, Way::Write] {
            for (polls, is_woken, reads_another) in (0..12).map(|k| (k / 4, k % 2 == 1, k % 4 > 1)) {
                for end in [End::Drop, End::Attempt] {
                    forgets::<Wound>(way, before, polls, is_woken, reads_another, end);
                    forgets::<Die>(way, before, polls, is_woken, reads_another, end);
                }
            }
        }
    }
}

fn forgets<C: Class>(way: Way, before: Way, polls: usize, is_woken: bool, reads_another: bool, end: End) {
    let (plain, shared) = (Arc::new(Mutex::new([0; 61])), Arc::new(SharedMutex::new([0; 61])));
    let another = SharedMutex::new(7);
    let flag = Arc::new(Flag::default());
    // The one that waits is the older one, so it does so in both kinds.
    let (mut waits, mut holds) = (Context::<C>::new(), Context::<C>::new());
    let (waiter, holder) = (block_on(waits.attempt()).unwrap(), block_on(holds.attempt()).unwrap());
    if reads_another {
        block_on(waiter.read(&another)).unwrap();
    }
    block_on(call(before, holder, (&plain, &shared))).unwrap();
    let (one, other) = (Arc::clone(&plain), Arc::clone(&shared));
    let mut asks = call(way, waiter, (&one, &other));
    for _ in 0..polls {
        if poll(asks.as_mut(), &flag).is_ready() {
            break;
        }
    }
    mem::forget(asks);
    if is_woken {
        drop(holds);
        drop((plain, shared, one, other));
    } else {
        drop((plain, shared, one, other));
        drop(holds);
    }
    let size = mem::size_of::<SharedMutex<C, Value>>().max(mem::size_of::<Mutex<C, Value>>());
    // In the memory of each of the two.
    let others: Vec<Arc<[u64]>> = (0..16).map(|k| (0..size / 8 - k % 4).map(|_| 0).collect()).collect();
    if end == End::Attempt {
        let tx = block_on(waits.attempt()).unwrap();
        assert!(block_on(tx.write(&another)).is_ok());
    }
    drop(waits);
    let told = format!("{way:?} behind {before:?}, {polls} polls, {is_woken}, {reads_another}, {end:?}");
    assert!(others.iter().all(|it| it.iter().all(|word| *word == 0)), "{told}");
    assert!(C::counts().contexts == 0 && Arc::strong_count(&flag) == 1, "{told}");
    // Four places, since each context that has read has one.
    let all: Vec<_> = (0..3).map(|_| Mutex::<C, u64>::try_new(0)).collect();
    assert!(all.iter().all(Result::is_ok) && is_free(&another), "{told}");
}

/// Reads two cells, and writes a third, in any order.
async fn transact<C: Class>(cells: &Cells<C>, list: &[usize], yields: bool) -> Result<(), Error> {
    transaction!(C, |tx| {
        let (one, other) = (tx.read(&cells[list[0]]).await?, tx.read(&cells[list[1]]).await?);
        let before = (*one, *other);
        if yields {
            yield_now().await;
        }
        let mut cell = tx.write(&cells[list[2]]).await?;
        cell.0 += 1;
        if yields {
            yield_now().await;
        }
        cell.1 += 1;
        assert!((*one, *other) == before && one.0 == one.1 && other.0 == other.1);
        Ok(())
    })
}

#[test]
fn no_half_is_seen_and_no_write_lost() {
    class!(struct Boxes: WoundWait; struct Others: WaitDie);
    storm::<Boxes>();
    storm::<Others>();
}

fn storm<C: Class>() {
    let cells: Cells<C> = (0..4).map(|_| SharedMutex::new((0, 0))).collect();
    let (pool, written) = (Arc::new(Pool::default()), Arc::new(AtomicU64::new(0)));
    for first in 0..24 {
        let (cells, written) = (Arc::clone(&cells), Arc::clone(&written));
        pool.spawn(async move {
            let mut draws = Draws(first);
            for _ in 0..times(60) {
                let list = draws.places(3, 4);
                // Where it is dropped amid its body a half may be written: so only such are dropped as write at last.
                let dropped = draws.below(3) == 0;
                let told = at_most(if dropped { 1 } else { usize::MAX }, transact(&cells, &list, !dropped)).await;
                assert!(matches!(told, None | Some(Ok(()))) && (dropped || told.is_some()));
                written.fetch_add(u64::from(told.is_some()), Relaxed);
            }
        });
    }
    pool.run_by(3);
    let sum: u64 = cells.iter().map(|cell| block_on(transact_alone(cell))).sum();
    assert_eq!(sum, written.load(Relaxed));
}

async fn transact_alone<C: Class>(cell: &SharedMutex<C, (u64, u64)>) -> u64 {
    transaction!(C, |tx| Ok::<_, Error>(tx.read(cell).await?.0)).unwrap()
}

/// At once, though their context goes on.
#[test]
fn a_panic_releases_what_its_guards_hold() {
    class!(struct Boxes: WoundWait, contexts = 4);
    let [one, alone] = [1, 2].map(Mutex::<Boxes, u64>::new);
    let (at, shared) = (Arc::new(Mutex::<Boxes, u64>::new(3)), SharedMutex::<Boxes, u64>::new(4));
    let told: Result<[bool; 5], Error> = block_on(async {
        transaction!(Boxes, |tx| {
            let lone = alone.lock_by_task().await?;
            let held = (tx.lock(&one).await?, tx.lock_arc(&at).await?, tx.write(&shared).await?, lone);
            let panics = panic::catch_unwind(AssertUnwindSafe(|| {
                let _held = held;
                panic::resume_unwind(Box::new(()));
            }));
            Ok([panics.is_ok(), one.is_locked(), at.is_locked(), shared.is_locked(), alone.is_locked()])
        })
    });
    assert_eq!(told, Ok([false; 5]));
}
