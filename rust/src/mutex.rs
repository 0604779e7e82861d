use crate::class::RawClass;
use crate::guard::Holder;
use crate::number::{Handle, Number};
use crate::{clock, error, ffi, own, place, Class, Error, MutexGuard};
use core::cell::UnsafeCell;
use core::ffi::c_int;
use core::fmt;
use core::ptr;
use std::time::{Duration, Instant};

/// A mutex of a class, around a value.
///
/// A context locks it by [`Tx::lock`](crate::Tx::lock); [`lock`](Mutex::lock) does so without a context.
///
/// **A class has at most 65,536 mutexes at a time, unless [`class!`](crate::class!) says another number**: each from its first
/// lock, or from [`try_new`](Mutex::try_new), until it is dropped. Of one too many a `try_` call returns `None`, a context gets
/// [`Exhausted`](Error::Exhausted), and only `lock`, which has no answer for that, panics. So a program that may come to that
/// makes its mutexes by `try_new`, which says so while nothing is locked.
///
/// It may be a `static`, and may be moved while nobody borrows it. There is no poison: a guard that a panic drops releases its
/// mutex.
///
/// It isn't moved while it is locked:
///
/// ```compile_fail,E0505
/// # use ww_mutex::{class, Mutex};
/// # class!(struct Boxes: WoundWait);
/// let mutex: Mutex<Boxes, u64> = Mutex::new(0);
/// let guard = mutex.lock();
/// let moved = mutex;
/// drop(guard);
/// ```
///
/// Threads share it only if its value is `Send`:
///
/// ```compile_fail,E0277
/// # use ww_mutex::{class, Mutex};
/// # class!(struct Boxes: WoundWait);
/// fn shared<M: Sync>(_: &M) {}
/// shared(&Mutex::<Boxes, _>::new(std::rc::Rc::new(1)));
/// ```
pub struct Mutex<C: Class, T: ?Sized> {
    // This field has the `Drop`, so that mutexes may borrow each other in a cycle, as std's may.
    handle: Handle<C>,
    value: UnsafeCell<T>,
}

// SAFETY: from a shared mutex only a guard leads to the value, one thread at a time has one, and what was done under
// one is seen under the next.
unsafe impl<C: Class, T: ?Sized + Send> Sync for Mutex<C, T> {}
// SAFETY: a mutex that is moved to another thread has no guard, and its value comes along.
unsafe impl<C: Class, T: ?Sized + Send> Send for Mutex<C, T> {}

impl<C: Class, T> Mutex<C, T> {
    /// It doesn't take a number of its class yet: its first lock does.
    #[inline]
    #[must_use]
    pub const fn new(value: T) -> Self {
        Mutex { handle: Handle::new(), value: UnsafeCell::new(value) }
    }

    /// As [`new`](Mutex::new), but it takes a number of its class immediately, so that no lock of it returns `Exhausted`.
    ///
    /// # Errors
    ///
    /// `Exhausted` or `OutOfMemory`, with the value.
    pub fn try_new(value: T) -> Result<Self, (T, Error)> {
        let mutex = Self::new(value);
        match mutex.number(C::raw()) {
            Ok(_) => Ok(mutex),
            Err(error) => Err((mutex.into_inner(), error)),
        }
    }

    /// The value. Nobody holds the mutex, since nobody borrows it.
    #[inline]
    pub fn into_inner(self) -> T {
        self.value.into_inner()
    }
}

impl<C: Class, T: ?Sized> Mutex<C, T> {
    /// Locks it without a context, and waits for it. If all contexts of the class are in use, it waits for one, too,
    /// and keeps that until the guard is dropped.
    ///
    /// No deadlock is detected among mutexes that are locked so. A thread that holds something and needs more locks that
    /// with a context.
    ///
    /// # Panics
    ///
    /// If the class has all mutexes that it may have, or no memory to open ([`try_new`](Mutex::try_new) returns these
    /// errors); in a forked child, if the class was in use at the fork; and, with debug assertions, if a context of
    /// this thread holds the mutex.
    #[inline]
    #[track_caller]
    pub fn lock(&self) -> MutexGuard<'_, C, T> {
        let class = C::raw();
        let number = self.number_or_panic(class);
        own::check_wait(number, ptr::null(), true);
        // Nothing cancels this wait.
        match self.lock_alone(number, class, None) {
            Ok(guard) => guard,
            Err(_) => error::in_child(),
        }
    }

    /// Locks it without a context if nobody holds it or waits for it, and a context of the class is free. `None` also where the
    /// class has all mutexes that it may have, or no memory to open.
    #[inline]
    pub fn try_lock(&self) -> Option<MutexGuard<'_, C, T>> {
        let class = C::raw();
        let it = class.at(self.number(class).ok()?).cast();
        // SAFETY: the number is one of the class.
        let is_locked = unsafe { ffi::ww_mutex_trylock(it, ptr::null_mut()) } == 1;
        // SAFETY: it locked the mutex, for this guard.
        is_locked.then(|| unsafe { MutexGuard::of(self, Holder::alone(it)) })
    }

    /// As [`lock`](Mutex::lock), but waits at most until this time, or [`Class::cancel`]. A mutex that is free is locked, however late
    /// it is, if a context of the class is free. `None` immediately where the class has all mutexes that it may have, or no memory
    /// to open.
    ///
    /// # Panics
    ///
    /// In a forked child, if the class was in use at the fork.
    #[track_caller]
    pub fn try_lock_until(&self, deadline: Instant) -> Option<MutexGuard<'_, C, T>> {
        self.try_lock_at_most(Some(&clock::monotonic(deadline)))
    }

    #[track_caller]
    fn try_lock_at_most(&self, until: Option<&ffi::timespec>) -> Option<MutexGuard<'_, C, T>> {
        let class = C::raw();
        let number = self.number(class).ok()?;
        if until.is_none() {
            own::check_wait(number, ptr::null(), true);
        }
        match self.lock_alone(number, class, until) {
            Ok(guard) => Some(guard),
            Err(answer) if answer == -ffi::ETIMEDOUT || answer == -ffi::EINTR => None,
            Err(_) => error::in_child(),
        }
    }

    /// As [`try_lock_until`](Mutex::try_lock_until), with a time from now on; one beyond the clock's is no limit.
    ///
    /// # Panics
    ///
    /// As [`try_lock_until`](Mutex::try_lock_until).
    #[track_caller]
    pub fn try_lock_for(&self, timeout: Duration) -> Option<MutexGuard<'_, C, T>> {
        let deadline = Instant::now().checked_add(timeout);
        self.try_lock_at_most(deadline.map(clock::monotonic).as_ref())
    }

    /// Whether somebody holds it; that may be out of date when it returns. A mutex that is free is taken for a moment,
    /// in which a [`try_lock`](Mutex::try_lock) may fail.
    #[must_use]
    pub fn is_locked(&self) -> bool {
        let class = C::raw();
        let number = self.existing().filter(|number| number.tag() == class.tag());
        // SAFETY: the number is one of the class.
        number.is_some_and(|number| unsafe { ffi::ww_mutex_is_locked(class.at(number).cast()) })
    }

    /// The value. Nobody holds the mutex, since nobody else borrows it.
    #[inline]
    pub fn get_mut(&mut self) -> &mut T {
        self.value.get_mut()
    }

    /// For a caller that has a guard.
    #[inline]
    pub(crate) fn value(&self) -> *mut T {
        self.value.get()
    }

    #[inline]
    pub(crate) fn number(&self, class: &'static RawClass) -> Result<Number, Error> {
        self.handle.number(class)
    }

    /// Fetches the words of a lock in a list ahead, so that they don't come only after the lock before.
    #[inline]
    pub(crate) fn fetch(&self) {
        self.handle.fetch();
    }

    #[inline]
    pub(crate) fn existing(&self) -> Option<Number> {
        self.handle.existing()
    }

    /// For a caller that has a guard.
    #[inline]
    pub(crate) fn index(&self) -> u32 {
        self.handle.index()
    }

    #[inline]
    #[track_caller]
    fn number_or_panic(&self, class: &'static RawClass) -> Number {
        match self.number(class) {
            Ok(number) => number,
            Err(error) => no_number(error),
        }
    }

    /// Locks without a context; returns what the library returned, if that isn't 0.
    #[track_caller]
    fn lock_alone(
        &self,
        number: Number,
        class: &'static RawClass,
        until: Option<&ffi::timespec>,
    ) -> Result<MutexGuard<'_, C, T>, c_int> {
        place::said();
        let until = until.map_or(ptr::null(), ptr::from_ref);
        let it = class.at(number).cast();
        // SAFETY: the number is one of the class; the time, if there is one, lives for the call.
        match unsafe { ffi::ww_mutex_lock_until(it, ptr::null_mut(), until) } {
            // SAFETY: it locked the mutex, for this guard.
            0 => Ok(unsafe { MutexGuard::of(self, Holder::alone(it)) }),
            answer => Err(answer),
        }
    }
}

#[cold]
#[track_caller]
fn no_number(error: Error) -> ! {
    panic!("a mutex can't be locked: {error}")
}

impl<C: Class, T: Default> Default for Mutex<C, T> {
    fn default() -> Self {
        Mutex::new(T::default())
    }
}

impl<C: Class, T> From<T> for Mutex<C, T> {
    fn from(value: T) -> Self {
        Mutex::new(value)
    }
}

impl<C: Class, T: ?Sized + fmt::Debug> fmt::Debug for Mutex<C, T> {
    fn fmt(&self, f: &mut fmt::Formatter<'_>) -> fmt::Result {
        let mut shown = f.debug_struct("Mutex");
        // A mutex that was never locked gets no number of its class for this.
        match self.existing().and_then(|_| self.try_lock()) {
            Some(guard) => shown.field("data", &&*guard),
            None => shown.field("data", &format_args!("<locked>")),
        };
        shown.finish()
    }
}
