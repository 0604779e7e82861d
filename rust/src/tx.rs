use crate::class::OfClass;
use crate::context::Context;
use crate::{ArcMutexGuard, ArcRead, ArcSharedMutexGuard, Class, Error, Guards, Mutex, MutexGuard};
use crate::{SharedMutex, SharedMutexGuard, UpgradableGuard};
use core::fmt;
use core::marker::PhantomData;
use core::sync::atomic::{AtomicU32, Ordering};
use std::sync::Arc;

/// The context of a body that [`Class::run`] runs: it locks mutexes of the class, in any order.
///
/// Guards borrow it, so none leaves the body:
///
/// ```compile_fail,E0521
/// # use ww_mutex::{class, Class, Mutex};
/// # class!(struct Boxes: WoundWait);
/// # static BOX: Mutex<Boxes, u64> = Mutex::new(0);
/// let mut kept = None;
/// Boxes::run(|tx| {
///     kept = Some(tx.lock(&BOX)?);
///     Ok(())
/// });
/// ```
///
/// A reference that came from a guard doesn't leave it either:
///
/// ```compile_fail,E0515
/// # use ww_mutex::{class, Class, Mutex};
/// # class!(struct Boxes: WoundWait);
/// # static BOX: Mutex<Boxes, String> = Mutex::new(String::new());
/// let kept: &str = Boxes::run(|tx| {
///     let text = tx.lock(&BOX)?;
///     Ok(text.as_str())
/// }).unwrap();
/// ```
///
/// It can't lock a mutex of another class:
///
/// ```compile_fail,E0308
/// # use ww_mutex::{class, Class, Mutex};
/// # class!(struct Boxes: WoundWait; struct Crates: WoundWait);
/// # static BOX: Mutex<Boxes, u64> = Mutex::new(0);
/// Crates::run(|tx| tx.lock(&BOX).map(|value| *value));
/// ```
///
/// It belongs to its thread:
///
/// ```compile_fail,E0277
/// # use ww_mutex::{class, Class, Mutex};
/// # class!(struct Boxes: WoundWait);
/// # static BOX: Mutex<Boxes, u64> = Mutex::new(0);
/// Boxes::run(|tx| std::thread::scope(|scope| scope.spawn(|| tx.lock(&BOX).map(|value| *value)).join().unwrap()));
/// ```
pub struct Tx<C: Class> {
    stays: PhantomData<*const OneThreadRunsATransaction>,
    context: Context,
    attempts: AtomicU32, // no Cell, which the compiler would name first
    class: OfClass<C>,
}

/// The compiler names it first where another thread would use a transaction.
enum OneThreadRunsATransaction {}

impl<C: Class> Tx<C> {
    #[inline]
    pub(crate) fn new(context: Context) -> Self {
        Tx { stays: PhantomData, context, attempts: AtomicU32::new(1), class: PhantomData }
    }

    /// Locks it, and waits for it.
    ///
    /// After [`Deadlock`](Error::Deadlock) this attempt is over: each further lock call returns `Deadlock` immediately,
    /// until the body has returned and runs again. So return it, with `?`.
    ///
    /// # Errors
    ///
    /// `Deadlock`; `Duplicate` for a mutex that it has a guard of; with [`Options`](crate::Options), `Cancelled` and
    /// `TimedOut`; `Exhausted` at a mutex's first lock, if the class has all that it may have. Except after `Deadlock`,
    /// the context holds what it held, and may go on.
    ///
    /// # Panics
    ///
    /// In a forked child, if the class was in use at the fork; with debug assertions, if another context of this
    /// thread holds the mutex, and nothing would end the wait.
    #[inline]
    #[track_caller]
    pub fn lock<'g, T: ?Sized>(&'g self, mutex: &'g Mutex<C, T>) -> Result<MutexGuard<'g, C, T>, Error> {
        self.context.lock(mutex)?;
        // SAFETY: it locked the mutex, for this guard.
        Ok(unsafe { MutexGuard::of(mutex, self.context.holder()) })
    }

    /// As [`lock`](Self::lock), for a mutex that the guard shares: one that was found while others were locked, and whose
    /// `Arc` is dropped before the guard.
    ///
    /// ```
    /// # use ww_mutex::{class, Class, Error, Mutex};
    /// # use std::sync::Arc;
    /// class!(struct Nodes: WoundWait);
    /// struct Node {
    ///     value: u64,
    ///     next: Option<Arc<Mutex<Nodes, Node>>>,
    /// }
    ///
    /// fn sum(first: &Arc<Mutex<Nodes, Node>>) -> Result<u64, Error> {
    ///     Nodes::run(|tx| {
    ///         let mut held = vec![tx.lock_arc(first)?];
    ///         while let Some(next) = held.last().and_then(|node| node.next.clone()) {
    ///             held.push(tx.lock_arc(&next)?);
    ///         }
    ///         Ok(held.iter().map(|node| node.value).sum())
    ///     })
    /// }
    /// # let last = Arc::new(Mutex::new(Node { value: 2, next: None }));
    /// # assert_eq!(sum(&Arc::new(Mutex::new(Node { value: 40, next: Some(last) }))), Ok(42));
    /// ```
    ///
    /// # Errors
    ///
    /// As [`lock`](Self::lock).
    #[inline]
    #[track_caller]
    pub fn lock_arc<'g, T: ?Sized>(&'g self, mutex: &Arc<Mutex<C, T>>) -> Result<ArcMutexGuard<'g, C, T>, Error> {
        self.context.lock(mutex)?;
        // SAFETY: it locked the mutex, for this guard, which doesn't outlive the context.
        Ok(unsafe { ArcMutexGuard::of(Arc::clone(mutex), self.context.holder()) })
    }

    /// Locks it if nobody has it or waits for it. `None` for one that it has a guard of, and after `Deadlock`.
    #[track_caller]
    pub fn try_lock<'g, T: ?Sized>(&'g self, mutex: &'g Mutex<C, T>) -> Option<MutexGuard<'g, C, T>> {
        let is_locked = self.context.try_lock(mutex);
        // SAFETY: it locked the mutex, for this guard.
        is_locked.then(|| unsafe { MutexGuard::of(mutex, self.context.holder()) })
    }

    /// Locks all of them, in this order. If one can't be locked, it keeps none of them.
    ///
    /// ```
    /// # use ww_mutex::{class, Class, Error, Mutex};
    /// # class!(struct Boxes: WoundWait);
    /// let (one, other) = (Mutex::new(1), Mutex::new(2));
    /// Boxes::run(|tx| {
    ///     let [mut one, mut other] = tx.lock_all([&one, &other])?;
    ///     std::mem::swap(&mut *one, &mut *other);
    ///     Ok(())
    /// })?;
    /// assert_eq!(one.into_inner(), 2);
    /// # Ok::<(), Error>(())
    /// ```
    ///
    /// # Errors
    ///
    /// As [`lock`](Self::lock).
    #[inline]
    #[track_caller]
    pub fn lock_all<'g, T: ?Sized, const N: usize>(
        &'g self,
        list: [&'g Mutex<C, T>; N],
    ) -> Result<[MutexGuard<'g, C, T>; N], Error> {
        self.context.lock_all(list)
    }

    /// The same for a list of any length, in its order.
    ///
    /// ```
    /// # use ww_mutex::{class, Class, Error, Mutex};
    /// # class!(struct Boxes: WoundWait);
    /// let boxes: Vec<Mutex<Boxes, u64>> = (1..=4).map(Mutex::new).collect();
    /// let sum = Boxes::run(|tx| Ok(tx.lock_each(&boxes)?.iter().map(|value| **value).sum::<u64>()))?;
    /// assert_eq!(sum, 10);
    /// # Ok::<(), Error>(())
    /// ```
    ///
    /// # Errors
    ///
    /// As [`lock`](Self::lock).
    pub fn lock_each<'g, 'm: 'g, T: ?Sized + 'm>(
        &'g self,
        list: impl IntoIterator<Item = &'m Mutex<C, T>>,
    ) -> Result<Vec<MutexGuard<'g, C, T>>, Error> {
        list.into_iter().map(|mutex| self.lock(mutex)).collect()
    }

    /// An empty set of guards, which locks each mutex once: for lists in which one may come twice, where `lock_each` returns
    /// `Duplicate`.
    #[inline]
    pub fn guards<T: ?Sized>(&self) -> Guards<'_, C, T> {
        Guards::new(self)
    }

    /// Reads it, beside other transactions that do, and waits while one writes it. The reference lives as long as the body
    /// may: all reads end with the attempt.
    ///
    /// # Errors
    ///
    /// As [`lock`](Self::lock); `Duplicate` while it has a guard of this mutex. The first read of a context of the class
    /// takes memory, so it may get `OutOfMemory`.
    ///
    /// # Panics
    ///
    /// In a forked child, if the class was in use at the fork.
    #[inline]
    #[track_caller]
    pub fn read<'g, T: ?Sized>(&'g self, mutex: &'g SharedMutex<C, T>) -> Result<&'g T, Error> {
        self.context.read(mutex)?;
        // SAFETY: the context reads it until the body has returned, and while it does nobody has `&mut T`: another context
        // can't write it, nor this one (`Duplicate`).
        Ok(unsafe { &*mutex.value() })
    }

    /// Writes it, and waits until nobody else reads or writes it.
    ///
    /// # Errors
    ///
    /// As [`lock`](Self::lock); `Duplicate` also if this attempt reads it: what it may come to write it reads by
    /// [`read_upgradable`](Self::read_upgradable).
    ///
    /// # Panics
    ///
    /// As [`read`](Self::read).
    #[inline]
    #[track_caller]
    pub fn write<'g, T: ?Sized>(&'g self, mutex: &'g SharedMutex<C, T>) -> Result<SharedMutexGuard<'g, C, T>, Error> {
        self.context.write(mutex)?;
        // SAFETY: it writes the mutex, for this guard, and doesn't read it.
        Ok(unsafe { SharedMutexGuard::of(mutex, self.context.holder()) })
    }

    /// As [`read`](Self::read), for a mutex that the result shares: one that was found while others were read, and whose `Arc` is
    /// dropped before.
    ///
    /// ```
    /// # use ww_mutex::{class, Class, Error, SharedMutex};
    /// # use std::sync::Arc;
    /// class!(struct Nodes: WoundWait);
    /// struct Node {
    ///     value: u64,
    ///     next: Option<Arc<SharedMutex<Nodes, Node>>>,
    /// }
    ///
    /// fn sum(first: &Arc<SharedMutex<Nodes, Node>>) -> Result<u64, Error> {
    ///     Nodes::run(|tx| {
    ///         let (mut node, mut sum) = (tx.read_arc(first)?, 0);
    ///         loop {
    ///             sum += node.value;
    ///             let Some(next) = node.next.clone() else { return Ok(sum) };
    ///             node = tx.read_arc(&next)?;
    ///         }
    ///     })
    /// }
    /// # let last = Arc::new(SharedMutex::new(Node { value: 2, next: None }));
    /// # assert_eq!(sum(&Arc::new(SharedMutex::new(Node { value: 40, next: Some(last) }))), Ok(42));
    /// ```
    ///
    /// # Errors
    ///
    /// As [`read`](Self::read).
    ///
    /// # Panics
    ///
    /// As [`read`](Self::read).
    #[track_caller]
    pub fn read_arc<'g, T: ?Sized>(&'g self, mutex: &Arc<SharedMutex<C, T>>) -> Result<ArcRead<'g, C, T>, Error> {
        self.context.read(mutex)?;
        // SAFETY: as in `read`.
        Ok(unsafe { ArcRead::of(Arc::clone(mutex)) })
    }

    /// As [`write`](Self::write), for a mutex that the guard shares.
    ///
    /// # Errors
    ///
    /// As [`write`](Self::write).
    ///
    /// # Panics
    ///
    /// As [`read`](Self::read).
    #[track_caller]
    pub fn write_arc<'g, T: ?Sized>(
        &'g self,
        mutex: &Arc<SharedMutex<C, T>>,
    ) -> Result<ArcSharedMutexGuard<'g, C, T>, Error> {
        self.context.write(mutex)?;
        // SAFETY: as in `write`; the guard doesn't outlive the context.
        Ok(unsafe { ArcSharedMutexGuard::of(Arc::clone(mutex), self.context.holder()) })
    }

    /// Reads it if nobody writes it or waits to. `None` also for what a guard writes, or may come to, and after `Deadlock`.
    pub fn try_read<'g, T: ?Sized>(&'g self, mutex: &'g SharedMutex<C, T>) -> Option<&'g T> {
        let reads = self.context.tries_shared(mutex, false);
        // SAFETY: as in `read`.
        reads.then(|| unsafe { &*mutex.value() })
    }

    /// Writes it if nobody reads or writes it, or waits for it. `None` also for what the attempt reads or has a guard of, and after
    /// `Deadlock`.
    pub fn try_write<'g, T: ?Sized>(&'g self, mutex: &'g SharedMutex<C, T>) -> Option<SharedMutexGuard<'g, C, T>> {
        let writes = self.context.tries_shared(mutex, true);
        // SAFETY: as in `write`.
        writes.then(|| unsafe { SharedMutexGuard::of(mutex, self.context.holder()) })
    }

    /// Reads it by a guard, which may come to write it.
    ///
    /// ```
    /// # use ww_mutex::{class, Class, Error, SharedMutex, UpgradableGuard};
    /// # class!(struct Cache: WoundWait);
    /// # static RATE: SharedMutex<Cache, u64> = SharedMutex::new(7);
    /// # static PRICE: SharedMutex<Cache, (u64, u64)> = SharedMutex::new((0, 0));
    /// let price = Cache::run(|tx| {
    ///     let rate = tx.read(&RATE)?;
    ///     let price = tx.read_upgradable(&PRICE)?;
    ///     if price.0 == *rate {
    ///         return Ok(price.1);
    ///     }
    ///     let mut price = UpgradableGuard::upgrade(price)?; // nobody has written it in between
    ///     *price = (*rate, 100 * rate);
    ///     Ok(price.1)
    /// })?;
    /// assert_eq!(price, 700);
    /// # Ok::<(), Error>(())
    /// ```
    ///
    /// # Errors
    ///
    /// As [`read`](Self::read); `Duplicate` also if this attempt reads it already. And from then on it is read by this guard
    /// alone: another read of it in this attempt gets `Duplicate`.
    ///
    /// # Panics
    ///
    /// As [`read`](Self::read).
    #[inline]
    #[track_caller]
    pub fn read_upgradable<'g, T: ?Sized>(
        &'g self,
        mutex: &'g SharedMutex<C, T>,
    ) -> Result<UpgradableGuard<'g, C, T>, Error> {
        self.context.read_upgradable(mutex)?;
        // SAFETY: the context reads it until the body has returned, and for this guard alone (`Duplicate`).
        Ok(unsafe { UpgradableGuard::of(mutex, &self.context) })
    }

    /// Whether it has a guard of this mutex, so that [`lock`](Self::lock) would return `Duplicate`.
    #[must_use]
    pub fn holds<T: ?Sized>(&self, mutex: &Mutex<C, T>) -> bool {
        self.context.holds(mutex)
    }

    /// How often the body has begun: 1 the first time.
    #[must_use]
    pub fn attempts(&self) -> u32 {
        self.attempts.load(Ordering::Relaxed)
    }

    #[inline]
    pub(crate) fn context(&self) -> &Context {
        &self.context
    }

    /// Runs the body, again after each `Deadlock`.
    ///
    /// # Safety
    ///
    /// The context has begun, and hasn't ended; there is no guard of it.
    #[inline]
    pub(crate) unsafe fn repeat<R, E: From<Error>>(
        &self,
        mut body: impl FnMut(&Tx<C>) -> Result<R, E>,
    ) -> Result<R, E> {
        loop {
            let result = body(self);
            if !self.context.is_over() {
                return result;
            }
            drop(result);
            // SAFETY: a guard lives no longer than the borrow with which the body was called, whose lifetime the body
            // doesn't choose: so where one was forgotten, nothing can reach it any more.
            unsafe { self.back_off() }?;
        }
    }

    /// Waits for what the attempt before collided with, if it did: then the body begins again.
    ///
    /// # Safety
    ///
    /// No guard of the context is left that anybody could use.
    pub(crate) unsafe fn back_off(&self) -> Result<(), Error> {
        // SAFETY: as asked for here.
        unsafe { self.context.back_off() }?;
        self.attempts.store(self.attempts().saturating_add(1), Ordering::Relaxed);
        Ok(())
    }
}

impl<C: Class> fmt::Debug for Tx<C> {
    fn fmt(&self, f: &mut fmt::Formatter<'_>) -> fmt::Result {
        f.debug_struct("Tx").field("attempts", &self.attempts()).finish_non_exhaustive()
    }
}

/// From the beginning of a context to its end, which also comes where the body panics. It is never forgotten, and while
/// it is there the `Tx` is neither moved nor borrowed exclusively.
pub(crate) struct Running<'t, C: Class>(&'t Tx<C>);

impl<'t, C: Class> Running<'t, C> {
    #[inline]
    #[track_caller]
    pub(crate) fn begin(tx: &'t Tx<C>) -> Result<Self, Error> {
        // SAFETY: it is borrowed as long as this is there, and `end` comes once, with this, which `Options::try_run`,
        // the only one that makes it, hands to nobody.
        unsafe { tx.context.begin() }?;
        Ok(Running(tx))
    }
}

impl<C: Class> Drop for Running<'_, C> {
    #[inline]
    fn drop(&mut self) {
        // SAFETY: as in `repeat`: the body has returned, or its panic has gone through it.
        unsafe { self.0.context.end() };
    }
}
