//! Readers beside each other, or one writer.

use std::sync::atomic::{AtomicU64, Ordering};
use std::sync::{Arc, Barrier};
use std::thread;
use std::time::Duration;
use ww_mutex::typed::Context;
use ww_mutex::{class, Class, Error, Mutex, Options, SharedMutex, SharedMutexGuard, UpgradableGuard};

#[test]
fn readers_stand_beside_each_other() {
    class!(struct Boxes: WoundWait);
    static ONE: SharedMutex<Boxes, u64> = SharedMutex::new(7);
    let both = Barrier::new(2);
    thread::scope(|scope| {
        for _ in 0..2 {
            scope.spawn(|| {
                let read = Boxes::run(|tx| {
                    let value = tx.read(&ONE)?;
                    both.wait(); // where one had to wait for the other, neither would come here
                    assert!(ONE.is_locked());
                    Ok(*value + *tx.read(&ONE)?)
                });
                assert_eq!(read, Ok(14));
            });
        }
    });
}

#[test]
fn a_writer_stands_alone() {
    class!(struct Boxes: WaitDie);
    static ONE: SharedMutex<Boxes, u64> = SharedMutex::new(7);
    let soon = || Options::new().timeout(Duration::from_millis(5));
    Boxes::run(|tx| {
        let mut guard = tx.write(&ONE)?;
        *guard += 1;
        assert_eq!((tx.read(&ONE).err(), tx.write(&ONE).err()), (Some(Error::Duplicate), Some(Error::Duplicate)));
        thread::scope(|scope| {
            scope.spawn(|| {
                assert_eq!(soon().run(|tx: &ww_mutex::Tx<Boxes>| tx.read(&ONE).copied()), Err(Error::TimedOut));
            });
        });
        drop(guard);
        assert_eq!(*tx.read(&ONE)?, 8);
        assert_eq!(tx.write(&ONE).err(), Some(Error::Duplicate));
        thread::scope(|scope| {
            scope.spawn(|| {
                let told = soon().run(|tx: &ww_mutex::Tx<Boxes>| tx.write(&ONE).map(drop));
                assert_eq!(told, Err(Error::TimedOut));
            });
        });
        Ok(())
    })
    .unwrap();
    assert!(!ONE.is_locked());
    assert_eq!(Boxes::run(|tx| tx.write(&ONE).map(|mut it| std::mem::replace(&mut *it, 0))), Ok(8));
}

/// What was forgotten is released when the body has returned.
#[test]
fn a_forgotten_guard_is_released() {
    class!(struct Boxes: WoundWait);
    let one: SharedMutex<Boxes, u64> = SharedMutex::new(7);
    Boxes::run(|tx| tx.write(&one).map(std::mem::forget)).unwrap();
    assert_eq!(Boxes::run(|tx| tx.read(&one).copied()), Ok(7));
    assert_eq!(one.into_inner(), 7);
}

#[test]
fn no_half_is_seen_and_no_write_lost() {
    class!(struct Boxes: WoundWait; struct Others: WaitDie);
    storm::<Boxes>();
    storm::<Others>();
}

fn storm<C: Class>() {
    const ROUNDS: u64 = 2000;
    let cells: Vec<SharedMutex<C, (u64, u64)>> = (0..4).map(|_| SharedMutex::new((0, 0))).collect();
    let written = AtomicU64::new(0);
    thread::scope(|scope| {
        for me in 0..4_u64 {
            let (cells, written) = (&cells, &written);
            scope.spawn(move || {
                let mut x = 17 * me + 1;
                for _ in 0..ROUNDS {
                    x = x.wrapping_mul(6_364_136_223_846_793_005).wrapping_add(1_442_695_040_888_963_407);
                    let (a, b) = ((x >> 33) as usize % 4, (x >> 37) as usize % 4);
                    let done = C::run(|tx| {
                        let (one, other) = *tx.read(&cells[a])?;
                        assert_eq!(one, other);
                        if a != b {
                            let mut cell = tx.write(&cells[b])?;
                            cell.0 += 1;
                            cell.1 += 1;
                        }
                        Ok(u64::from(a != b))
                    });
                    written.fetch_add(done.unwrap(), Ordering::Relaxed);
                }
            });
        }
    });
    let sum: u64 = cells.into_iter().map(|cell| cell.into_inner().0).sum();
    assert_eq!(sum, written.into_inner());
}

#[test]
fn what_is_read_by_a_guard_may_be_written() {
    class!(struct Boxes: WaitDie);
    static ONE: SharedMutex<Boxes, u64> = SharedMutex::new(7);
    static OTHER: SharedMutex<Boxes, u64> = SharedMutex::new(0);
    let duplicate = Some(Error::Duplicate);
    Boxes::run(|tx| {
        let guard = tx.read_upgradable(&ONE)?;
        assert_eq!((*guard, format!("{guard:?}")), (7, "7".to_owned()));
        let told = (tx.read(&ONE).err(), tx.write(&ONE).err(), tx.read_upgradable(&ONE).err());
        assert_eq!(told, (duplicate, duplicate, duplicate));
        let mut guard = UpgradableGuard::upgrade(guard)?;
        *guard += 1;
        assert_eq!((tx.read(&ONE).err(), tx.read_upgradable(&ONE).err()), (duplicate, duplicate));
        drop(guard);
        assert_eq!((tx.read(&ONE).err(), tx.write(&ONE).err()), (duplicate, duplicate));
        tx.read(&OTHER)?;
        assert_eq!(tx.read_upgradable(&OTHER).err(), duplicate);
        Ok(())
    })
    .unwrap();
    // The next attempt reads it as it likes; and what is forgotten is released.
    Boxes::run(|tx| UpgradableGuard::upgrade(tx.read_upgradable(&ONE)?).map(std::mem::forget)).unwrap();
    assert_eq!(Boxes::run(|tx| tx.read(&ONE).copied()), Ok(8));
}

/// A try waits for nobody, and is refused where the attempt may have a reference or a guard that it would stand beside.
#[test]
fn tries_wait_for_nobody() {
    class!(struct Boxes: WaitDie);
    static ONE: SharedMutex<Boxes, u64> = SharedMutex::new(7);
    static OTHER: SharedMutex<Boxes, u64> = SharedMutex::new(0);
    let elsewhere = |mutex: &'static SharedMutex<Boxes, u64>| {
        let tries = || {
            let writes = Boxes::run(|tx| Ok(tx.try_write(mutex).is_some())).unwrap();
            (writes, Boxes::run(|tx| Ok(tx.try_read(mutex).copied())).unwrap())
        };
        thread::scope(|scope| scope.spawn(tries).join().unwrap())
    };
    Boxes::run(|tx| {
        let value = tx.try_read(&ONE).expect("it is free");
        assert_eq!((tx.try_read(&ONE), tx.try_write(&ONE).is_none()), (Some(&7), true));
        assert_eq!(elsewhere(&ONE), (false, Some(7)));
        let mut guard = tx.try_write(&OTHER).expect("it is free");
        *guard = *value;
        assert!(tx.try_read(&OTHER).is_none() && tx.try_write(&OTHER).is_none());
        assert_eq!(elsewhere(&OTHER), (false, None));
        drop(guard);
        let guard = tx.read_upgradable(&OTHER)?;
        assert!(tx.try_read(&OTHER).is_none() && tx.try_write(&OTHER).is_none());
        let guard = UpgradableGuard::upgrade(guard)?;
        assert!(tx.try_read(&OTHER).is_none() && tx.try_write(&OTHER).is_none());
        assert_eq!(*guard, 7);
        Ok(())
    })
    .unwrap();
    assert_eq!(elsewhere(&OTHER), (true, Some(7)));
}

/// Of one that writes: from then on others read beside it, also who waited for that, and nobody writes before the attempt's end.
#[test]
fn who_writes_may_go_on_as_a_reader() {
    class!(struct Boxes: WoundWait);
    static ONE: SharedMutex<Boxes, u64> = SharedMutex::new(7);
    let soon = Options::<Boxes>::new().timeout(Duration::from_millis(5));
    thread::scope(|scope| {
        let reader = Boxes::run(|tx| {
            let mut guard = tx.write(&ONE)?;
            *guard += 1;
            let reader = scope.spawn(|| Boxes::run(|tx| tx.read(&ONE).copied()));
            while Boxes::counts().lock_waits == 0 {
                thread::sleep(Duration::from_millis(1));
            }
            let value = SharedMutexGuard::downgrade(guard);
            let read = reader.join().unwrap();
            assert_eq!(scope.spawn(|| soon.run(|tx| tx.write(&ONE).map(drop))).join().unwrap(), Err(Error::TimedOut));
            assert_eq!((tx.write(&ONE).err(), tx.try_write(&ONE).is_none()), (Some(Error::Duplicate), true));
            assert_eq!((*value, tx.read(&ONE)), (8, Ok(&8)));
            Ok(read)
        });
        assert_eq!(reader, Ok(Ok(8)));
    });
    assert!(!ONE.is_locked() && Boxes::run(|tx| Ok(tx.try_write(&ONE).is_some())).unwrap());
}

/// What is found on the way may be dropped on the way.
#[test]
fn a_read_may_keep_its_mutex() {
    class!(struct Boxes: WoundWait, mutexes = 8);
    type Shared<T> = Arc<SharedMutex<Boxes, T>>;
    for _ in 0..20 {
        let inner: Shared<u64> = Arc::default();
        let weak = Arc::downgrade(&inner);
        let outer: Shared<Option<Shared<u64>>> = Arc::new(Some(inner).into());
        let told = Boxes::run(|tx| {
            let mut guard = tx.write_arc(&outer)?;
            let Some(found) = guard.take() else { return Ok(0) };
            *tx.write_arc(&found)? += 1;
            let value = tx.read_arc(&found)?;
            drop(found);
            assert_eq!((weak.strong_count(), tx.write(&outer).err()), (1, Some(Error::Duplicate)));
            Ok(*value)
        });
        assert!(told == Ok(1) && weak.strong_count() == 0 && !outer.is_locked());
        assert_eq!(Boxes::run(|tx| Ok(tx.read_arc(&outer)?.is_none())), Ok(true));
    }
}

#[test]
fn an_upgrade_waits_for_readers() {
    class!(struct Boxes: WoundWait);
    static ONE: SharedMutex<Boxes, u64> = SharedMutex::new(7);
    let soon = Options::new().timeout(Duration::from_millis(5));
    Boxes::run(|tx| {
        let value = tx.read(&ONE)?;
        thread::scope(|scope| {
            let upgrades = scope.spawn(|| {
                soon.run(|tx: &ww_mutex::Tx<Boxes>| {
                    let guard = tx.read_upgradable(&ONE)?;
                    assert_eq!(*guard, 7);
                    UpgradableGuard::upgrade(guard).map(drop)
                })
            });
            assert_eq!(upgrades.join().unwrap(), Err(Error::TimedOut));
        });
        assert_eq!(*value, 7);
        Ok(())
    })
    .unwrap();
}

/// No upgrade finds what another one has written since it read.
#[test]
fn upgrades_lose_no_count() {
    class!(struct Boxes: WoundWait; struct Others: WaitDie);
    count::<Boxes>();
    count::<Others>();
}

fn count<C: Class>() {
    const ROUNDS: u64 = 2000;
    let one: SharedMutex<C, u64> = SharedMutex::new(0);
    thread::scope(|scope| {
        for _ in 0..4 {
            scope.spawn(|| {
                for _ in 0..ROUNDS {
                    C::run(|tx| {
                        let guard = tx.read_upgradable(&one)?;
                        let seen = *guard;
                        *UpgradableGuard::upgrade(guard)? = seen + 1;
                        Ok(())
                    })
                    .unwrap();
                }
            });
        }
    });
    assert_eq!(one.into_inner(), 4 * ROUNDS);
}

/// A mutex that goes amid an attempt that has read it leaves nothing to the one that is made next: that is read as any other,
/// so a writer waits for it; and it may be written. Its place in the class is free once the attempt is over.
#[test]
fn a_mutex_that_goes_takes_its_read_along() {
    class!(struct Wound: WoundWait, mutexes = 5; struct Die: WaitDie, mutexes = 5);
    follows::<Wound>();
    follows::<Die>();
}

fn follows<C: Class>() {
    let soon = || Options::<C>::new().timeout(Duration::from_millis(5));
    for _ in 0..20 {
        let told = C::run(|tx| {
            let old = SharedMutex::<C, u64>::new(1);
            assert_eq!(*tx.read(&old)?, 1);
            drop(old);
            let new = Arc::new(SharedMutex::<C, u64>::new(7));
            let seen = tx.read(&new)?;
            let writer = Arc::clone(&new);
            let told = thread::spawn(move || soon().run(|tx| tx.write(&writer).map(|mut it| *it = 8))).join();
            assert_eq!((told.unwrap(), *seen), (Err(Error::TimedOut), 7));
            let last = SharedMutex::<C, u64>::new(9);
            drop(tx.write(&last)?);
            let guard = UpgradableGuard::upgrade(tx.read_upgradable(&last)?)?;
            Ok(*guard)
        });
        assert_eq!(told, Ok(9));
    }
}

/// A context that got `Deadlock` at a mutex which was dropped since waits for none of those that came meanwhile: none has its number,
/// though they have all that are left.
#[test]
fn nobody_waits_for_a_stranger() {
    class!(struct Boxes: WaitDie, mutexes = 8);
    for writes in [None, Some(false), Some(true)] {
        let strangers: [Mutex<Boxes, u64>; 8] = std::array::from_fn(|_| Mutex::new(0));
        let other = Mutex::<Boxes, u64>::new(0);
        let mut attempts = 0;
        let told = Boxes::run(|older| {
            let mut held = Vec::new();
            let late = Options::<Boxes>::new().timeout(Duration::from_secs(3600));
            late.run(|younger| {
                attempts += 1;
                let _other = younger.lock(&other)?;
                if attempts > 1 {
                    return Ok(held.len());
                }
                let (gone, shared) = (Mutex::new(0), SharedMutex::new(0));
                let told = match writes {
                    None => {
                        let _held = older.lock(&gone)?;
                        younger.lock(&gone).map(|_| 0)
                    }
                    Some(writes) => {
                        let _held = older.write(&shared)?;
                        if writes {
                            younger.write(&shared).map(|_| 0)
                        } else {
                            younger.read(&shared).map(|_| 0)
                        }
                    }
                };
                drop((gone, shared));
                held.extend(strangers.iter().filter_map(Mutex::try_lock));
                told
            })
        });
        assert!(attempts == 2 && told.is_ok_and(|held| held > 3));
    }
}

/// The mutex at which `Deadlock` came is gone, and other ones come.
#[test]
fn what_came_first_may_have_gone() {
    class!(struct Boxes: WaitDie, mutexes = 8, contexts = 4);
    for k in 0..4 {
        let (other, shared) = (Mutex::<Boxes, u64>::new(0), SharedMutex::<Boxes, u64>::new(7));
        let first_lock = || Boxes::run(|tx| tx.write(&shared).map(|_| ()));
        if k == 0 {
            first_lock().unwrap();
        }
        let mut older = Context::begin().unwrap();
        let mut tx = Some(older.start());
        let told = Boxes::run(|younger| {
            if let Some(tx) = tx.take() {
                let _other = younger.lock(&other)?;
                let gone = Mutex::new(0);
                let Ok((_, held)) = tx.lock(&gone) else { panic!() };
                let told = younger.lock(&gone).map(|_| 0);
                drop(held);
                drop(gone);
                first_lock()?;
                return told;
            }
            match k {
                0 | 1 => younger.read(&shared).copied(),
                2 => younger.write(&shared).map(|it| *it),
                _ => younger.read_upgradable(&shared).map(|it| *it),
            }
        });
        assert_eq!(told, Ok(7));
    }
}

/// However often an attempt reads, what it has read stays so until its end: here a read that fails comes behind the last one. The
/// library's own test, `shared_calls.c`, has more reads than 32 bits count.
#[test]
fn reads_are_counted_by_nothing() {
    class!(struct Boxes: WoundWait);
    static READ: SharedMutex<Boxes, u64> = SharedMutex::new(1);
    static OTHER: SharedMutex<Boxes, u64> = SharedMutex::new(1);
    let both = Barrier::new(2);
    thread::scope(|scope| {
        scope.spawn(|| {
            let told = Boxes::run(|tx| {
                let _guard = tx.write(&OTHER)?;
                both.wait();
                both.wait();
                Ok(())
            });
            assert_eq!(told, Ok(()));
        });
        both.wait();
        let told = Options::new().deadline(std::time::Instant::now()).run(|tx: &ww_mutex::Tx<Boxes>| {
            for _ in 0..=1 << 16 {
                tx.read(&READ)?;
            }
            assert_eq!(tx.read(&OTHER).err(), Some(Error::TimedOut));
            let soon = Options::<Boxes>::new().timeout(Duration::from_millis(5));
            Ok(thread::scope(|scope| scope.spawn(|| soon.run(|tx| tx.write(&READ).map(drop))).join().unwrap()))
        });
        both.wait();
        assert_eq!(told, Ok(Err(Error::TimedOut)));
    });
}
