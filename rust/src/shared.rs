use crate::class::RawClass;
use crate::context::Context;
use crate::guard::{guards, Holder};
use crate::number::{Handle, Number};
use crate::{ffi, Class, Error};
use core::cell::UnsafeCell;
use core::fmt;
use core::marker::PhantomData;
use core::mem::ManuallyDrop;
use core::ops::Deref;
use std::sync::Arc;

/// A mutex around a value that transactions read beside each other ([`Tx::read`](crate::Tx::read)), or one of them writes
/// ([`Tx::write`](crate::Tx::write)): for what is read much more often than written.
///
/// Reads end with the attempt: the references that they give live as long as the body may.
///
/// ```
/// # use ww_mutex::{class, Class, Error, SharedMutex};
/// class!(struct Cache: WoundWait);
/// static RATE: SharedMutex<Cache, u64> = SharedMutex::new(7);
/// static PRICES: [SharedMutex<Cache, u64>; 2] = [SharedMutex::new(0), SharedMutex::new(0)];
///
/// Cache::run(|tx| {
///     let rate = tx.read(&RATE)?;
///     *tx.write(&PRICES[1])? = 100 * rate;
///     Ok(())
/// })?;
/// assert_eq!(Cache::run(|tx| Ok(tx.read(&PRICES[0])? + tx.read(&PRICES[1])?)), Ok(700));
/// # Ok::<(), Error>(())
/// ```
///
/// Readers take no mutexes of their class:
///
/// ```
/// # use ww_mutex::{class, Class, SharedMutex};
/// class!(struct Few: WoundWait, mutexes = 2);
/// static BOTH: [SharedMutex<Few, u64>; 2] = [SharedMutex::new(1), SharedMutex::new(2)];
/// assert_eq!(Few::run(|tx| Ok(*tx.read(&BOTH[0])? + *tx.read(&BOTH[1])?)), Ok(3));
/// ```
///
/// What it may come to write it reads by a guard ([`Tx::read_upgradable`](crate::Tx::read_upgradable)).
///
/// A reference doesn't leave the body:
///
/// ```compile_fail,E0521
/// # use ww_mutex::{class, Class, SharedMutex};
/// # class!(struct Boxes: WoundWait);
/// # static BOX: SharedMutex<Boxes, u64> = SharedMutex::new(0);
/// let mut kept = None;
/// Boxes::run(|tx| {
///     kept = Some(tx.read(&BOX)?);
///     Ok(())
/// });
/// ```
///
/// Threads share it only if they may share its value:
///
/// ```compile_fail,E0277
/// # use ww_mutex::{class, SharedMutex};
/// # class!(struct Boxes: WoundWait);
/// fn shared<M: Sync>(_: &M) {}
/// shared(&SharedMutex::<Boxes, _>::new(std::cell::Cell::new(1)));
/// ```
pub struct SharedMutex<C: Class, T: ?Sized> {
    handle: Handle<C>,
    value: UnsafeCell<T>,
}

// SAFETY: transactions of several threads get `&T` at a time, or one of them `&mut T`; what was done under the one is seen
// under the next.
unsafe impl<C: Class, T: ?Sized + Send + Sync> Sync for SharedMutex<C, T> {}
// SAFETY: one that is moved to another thread has no guard and no reference to its value, which comes along.
unsafe impl<C: Class, T: ?Sized + Send> Send for SharedMutex<C, T> {}

impl<C: Class, T> SharedMutex<C, T> {
    /// It takes a number of its class with its first lock.
    #[inline]
    #[must_use]
    pub const fn new(value: T) -> Self {
        SharedMutex { handle: Handle::new(), value: UnsafeCell::new(value) }
    }

    /// As [`new`](SharedMutex::new), but it takes a number of its class immediately, so that no call of it returns `Exhausted` for
    /// want of one. A class has [as many](crate::Mutex) as `class!` says.
    ///
    /// # Errors
    ///
    /// `Exhausted` or `OutOfMemory`, with the value.
    pub fn try_new(value: T) -> Result<Self, (T, Error)> {
        let mutex = Self::new(value);
        match mutex.number(C::raw()) {
            Ok(_) => Ok(mutex),
            Err(error) => Err((mutex.into_inner(), error)),
        }
    }

    /// The value. Nobody reads or writes it, since nobody borrows it.
    #[inline]
    pub fn into_inner(self) -> T {
        self.value.into_inner()
    }
}

impl<C: Class, T: ?Sized> SharedMutex<C, T> {
    /// The value. Nobody reads or writes it, since nobody else borrows it.
    #[inline]
    pub fn get_mut(&mut self) -> &mut T {
        self.value.get_mut()
    }

    /// Whether anybody reads or writes it, or waits for it; that may be out of date when it returns. A mutex that is free is
    /// taken for a moment, in which a `try_write` may fail.
    #[must_use]
    pub fn is_locked(&self) -> bool {
        let class = C::raw();
        let number = self.existing().filter(|number| number.tag() == class.tag());
        // SAFETY: the number is one of the class.
        number.is_some_and(|number| unsafe { ffi::ww_shared_mutex_is_locked(class.at(number)) })
    }

    /// For one who writes it by this holder, and is no task.
    fn downgrade_by(&self, holder: Holder) {
        let class = C::raw();
        let number = self.number(class).expect("it is locked");
        // SAFETY: the holder writes it.
        unsafe { holder.downgrade(class.at(number)) };
    }

    #[inline]
    pub(crate) fn value(&self) -> *mut T {
        self.value.get()
    }

    #[inline]
    pub(crate) fn existing(&self) -> Option<Number> {
        self.handle.existing()
    }

    #[inline]
    pub(crate) fn number(&self, class: &'static RawClass) -> Result<Number, Error> {
        self.handle.number(class)
    }
}

impl<C: Class, T: Default> Default for SharedMutex<C, T> {
    fn default() -> Self {
        SharedMutex::new(T::default())
    }
}

impl<C: Class, T> From<T> for SharedMutex<C, T> {
    fn from(value: T) -> Self {
        SharedMutex::new(value)
    }
}

impl<C: Class, T: ?Sized> fmt::Debug for SharedMutex<C, T> {
    fn fmt(&self, f: &mut fmt::Formatter<'_>) -> fmt::Result {
        f.debug_struct("SharedMutex").finish_non_exhaustive()
    }
}

/// A shared mutex that a transaction writes, with access to its value. Its drop ends that.
#[must_use = "the mutex is released as soon as its guard is dropped"]
#[clippy::has_significant_drop]
pub struct SharedMutexGuard<'g, C: Class, T: ?Sized> {
    mutex: &'g SharedMutex<C, T>,
    /// A pointer, so that the guard isn't `Send`.
    holder: Holder,
}

/// As [`SharedMutexGuard`], but it shares the mutex instead of borrowing it ([`Tx::write_arc`](crate::Tx::write_arc)).
#[must_use = "the mutex is released as soon as its guard is dropped"]
#[clippy::has_significant_drop]
pub struct ArcSharedMutexGuard<'x, C: Class, T: ?Sized> {
    mutex: Arc<SharedMutex<C, T>>,
    holder: Holder,
    of_this_context: PhantomData<&'x ()>,
}

impl<'g, C: Class, T: ?Sized> SharedMutexGuard<'g, C, T> {
    /// # Safety
    ///
    /// This thread's context writes the mutex, nobody has a reference by a read of it, and there is no other guard for that. `'g`
    /// ends before the context does.
    #[inline]
    pub(crate) unsafe fn of(mutex: &'g SharedMutex<C, T>, holder: Holder) -> Self {
        SharedMutexGuard { mutex, holder }
    }

    /// From now on it only reads it, as by [`Tx::read`](crate::Tx::read), to the end of the attempt; nobody writes it in between.
    ///
    /// ```
    /// # use ww_mutex::{class, Class, Error, SharedMutex, SharedMutexGuard};
    /// # class!(struct Cache: WoundWait);
    /// # static PRICE: SharedMutex<Cache, u64> = SharedMutex::new(6);
    /// let price = Cache::run(|tx| {
    ///     let mut price = tx.write(&PRICE)?;
    ///     *price += 1;
    ///     let price: &u64 = SharedMutexGuard::downgrade(price); // others may read it, too
    ///     Ok(*price)
    /// })?;
    /// assert_eq!(price, 7);
    /// # Ok::<(), Error>(())
    /// ```
    #[must_use = "a guard that isn't needed any more is dropped"]
    #[track_caller]
    pub fn downgrade(guard: Self) -> &'g T {
        let guard = ManuallyDrop::new(guard);
        guard.mutex.downgrade_by(guard.holder);
        // SAFETY: the context reads it until `'g` has ended, or goes on writing it; and while it does nobody has `&mut T`: the guard is
        // used up, and no other context can write it, nor this one (`Duplicate`).
        unsafe { &*guard.mutex.value() }
    }
}

impl<C: Class, T: ?Sized> ArcSharedMutexGuard<'_, C, T> {
    /// # Safety
    ///
    /// As that of [`SharedMutexGuard::of`], for `'x`.
    #[inline]
    pub(crate) unsafe fn of(mutex: Arc<SharedMutex<C, T>>, holder: Holder) -> Self {
        ArcSharedMutexGuard { mutex, holder, of_this_context: PhantomData }
    }
}

guards!(SharedMutexGuard ArcSharedMutexGuard => |guard| {
    // SAFETY: each is for one lock by its holder, and is dropped once.
    unsafe { guard.holder.release(guard.mutex.handle.index()) }
});

/// A shared mutex that a transaction reads, to the end of the attempt, and that this keeps, instead of borrowing it
/// ([`Tx::read_arc`](crate::Tx::read_arc)).
pub struct ArcRead<'x, C: Class, T: ?Sized> {
    mutex: Arc<SharedMutex<C, T>>,
    of_this_context: PhantomData<&'x ()>,
}

impl<C: Class, T: ?Sized> ArcRead<'_, C, T> {
    /// # Safety
    ///
    /// A context reads the mutex, and gives nobody a guard that writes it, until `'x` has ended.
    #[inline]
    pub(crate) unsafe fn of(mutex: Arc<SharedMutex<C, T>>) -> Self {
        ArcRead { mutex, of_this_context: PhantomData }
    }
}

impl<C: Class, T: ?Sized> Deref for ArcRead<'_, C, T> {
    type Target = T;

    #[inline]
    fn deref(&self) -> &T {
        // SAFETY: the context reads it, as `of` asked for; the mutex is there as long as this is.
        unsafe { &*self.mutex.value() }
    }
}

impl<C: Class, T: ?Sized + fmt::Debug> fmt::Debug for ArcRead<'_, C, T> {
    fn fmt(&self, f: &mut fmt::Formatter<'_>) -> fmt::Result {
        (**self).fmt(f)
    }
}

/// A shared mutex that a transaction reads, and may come to write ([`Tx::read_upgradable`](crate::Tx::read_upgradable)).
///
/// While it writes, there is no other way to the value:
///
/// ```compile_fail,E0505
/// # use ww_mutex::{class, Class, SharedMutex, UpgradableGuard};
/// # class!(struct Boxes: WoundWait);
/// # static BOX: SharedMutex<Boxes, u64> = SharedMutex::new(0);
/// Boxes::run(|tx| {
///     let guard = tx.read_upgradable(&BOX)?;
///     let before = &*guard;
///     let mut guard = UpgradableGuard::upgrade(guard)?;
///     *guard = before + 1;
///     Ok(())
/// });
/// ```
#[must_use = "what is only read needs no guard"]
pub struct UpgradableGuard<'g, C: Class, T: ?Sized> {
    mutex: &'g SharedMutex<C, T>,
    context: &'g Context,
}

impl<'g, C: Class, T: ?Sized> UpgradableGuard<'g, C, T> {
    /// # Safety
    ///
    /// The context reads the mutex, for this guard alone, until `'g` has ended.
    #[inline]
    pub(crate) unsafe fn of(mutex: &'g SharedMutex<C, T>, context: &'g Context) -> Self {
        UpgradableGuard { mutex, context }
    }

    /// Writes it, and waits until nobody else reads it: nobody writes it in between. Of two transactions that come to write what
    /// both read the younger one gets `Deadlock`.
    ///
    /// # Errors
    ///
    /// As [`Tx::lock`](crate::Tx::lock), but no `Duplicate`. Then it reads it on, without a guard, to the end of the attempt.
    ///
    /// # Panics
    ///
    /// As [`Tx::read`](crate::Tx::read).
    #[inline]
    #[track_caller]
    #[allow(clippy::needless_pass_by_value, reason = "it is used up")]
    pub fn upgrade(guard: Self) -> Result<SharedMutexGuard<'g, C, T>, Error> {
        guard.context.upgrade(guard.mutex)?;
        // SAFETY: it writes the mutex, for this guard; what it reads there it read by the other one alone, which is used up.
        Ok(unsafe { SharedMutexGuard::of(guard.mutex, guard.context.holder()) })
    }
}

impl<C: Class, T: ?Sized> Deref for UpgradableGuard<'_, C, T> {
    type Target = T;

    #[inline]
    fn deref(&self) -> &T {
        // SAFETY: the context reads the mutex, and writes it only once this guard is used up; and the guard is borrowed.
        unsafe { &*self.mutex.value() }
    }
}

impl<C: Class, T: ?Sized + fmt::Debug> fmt::Debug for UpgradableGuard<'_, C, T> {
    fn fmt(&self, f: &mut fmt::Formatter<'_>) -> fmt::Result {
        (**self).fmt(f)
    }
}
