//! Reads and writes of shared mutexes by tasks.

use super::inner::Inner;
use super::lock::Acquire;
use super::waker::Wakers;
use super::Tx;
use crate::class::RawClass;
use crate::guard::guards;
use crate::number::Number;
use crate::{ffi, place, ArcRead, Class, Error, SharedMutex};
use core::ffi::c_int;
use core::future::{poll_fn, Future};
use core::marker::PhantomData;
use core::mem::ManuallyDrop;
use core::ptr;
use std::sync::Arc;

/// What a call asks for: a mutex, or to read or to write a shared one; or that what a call collided with is through, which
/// acquires nothing.
#[derive(Clone, Copy)]
pub(super) enum Asked {
    Lock(Number),
    Read(Number),
    Write(Number),
    Await,
}

impl Asked {
    /// Makes the call.
    ///
    /// # Safety
    ///
    /// The context, which is of this class, has begun; what is on its way is this call, or nothing.
    pub(super) unsafe fn poll(
        self,
        class: &'static RawClass,
        raw: *mut ffi::ww_acquire_ctx,
        waker: *const ffi::ww_waker,
    ) -> c_int {
        // SAFETY: as asked for here.
        unsafe {
            match self {
                Asked::Lock(number) => ffi::ww_mutex_lock_poll(class.at(number).cast(), raw, waker),
                Asked::Read(number) => ffi::ww_shared_mutex_lock_shared_poll(class.at(number), raw, waker),
                Asked::Write(number) => ffi::ww_shared_mutex_lock_poll(class.at(number), raw, waker),
                Asked::Await => ffi::ww_shared_mutex_await_poll(raw, waker),
            }
        }
    }

    /// What the call returns if it needn't wait; else `-ETIMEDOUT`.
    ///
    /// # Safety
    ///
    /// The context has begun, and no call of it is on its way.
    #[inline]
    pub(super) unsafe fn poll_once(self, class: &'static RawClass, raw: *mut ffi::ww_acquire_ctx) -> c_int {
        // SAFETY: as asked for here.
        unsafe {
            match self {
                Asked::Lock(number) => {
                    if ffi::locks_at_once(number.index(), raw) {
                        0
                    } else {
                        -ffi::ETIMEDOUT
                    }
                }
                _ if self.is_duplicate(class, raw) => -ffi::EALREADY,
                _ => self.poll(class, raw, ptr::null()),
            }
        }
    }

    /// Whether the call may not begin: there may be references to what it would write.
    ///
    /// # Safety
    ///
    /// The context has begun, and no call of it is on its way.
    pub(super) unsafe fn is_duplicate(self, class: &'static RawClass, raw: *mut ffi::ww_acquire_ctx) -> bool {
        // SAFETY: as asked for here.
        matches!(self, Asked::Write(number) if unsafe { ffi::ww_shared_mutex_is_read_by(class.at(number), raw) })
    }
}

impl Inner {
    /// Of one that it writes. A wait ends for that, as for a release.
    fn downgrade(&self, number: Number) {
        let mut wakers = Wakers::default();
        let mut inside = self.enter();
        let back = wakers.collect(|| {
            let back = inside.end_wait();
            // SAFETY: the context writes it, and no call of it is on its way.
            unsafe { ffi::downgrade(self.class.at(number), inside.raw()) };
            back
        });
        wakers.extend(back);
    }

    pub(super) async fn asks(&self, asked: Asked) -> Result<(), Error> {
        let mut acquire = Acquire::new(self);
        poll_fn(|cx| acquire.poll(asked, cx.waker())).await
    }
}

impl<C: Class> Tx<C> {
    /// Reads it, beside other transactions that do, and waits while one writes it; as [`Tx::read`](crate::Tx::read).
    ///
    /// ```
    /// # use ww_mutex::{class, transaction, Error, SharedMutex};
    /// # class!(struct Cache: WoundWait);
    /// async fn refresh(rate: &SharedMutex<Cache, u64>, price: &SharedMutex<Cache, u64>) -> Result<u64, Error> {
    ///     transaction!(Cache, |tx| {
    ///         let rate = tx.read(rate).await?; // a &u64, to the end of the attempt
    ///         *tx.write(price).await? = 100 * rate;
    ///         Ok(*rate)
    ///     })
    /// }
    /// # fn sends(_: impl Send) {}
    /// # sends(refresh(&SharedMutex::new(7), &SharedMutex::new(0)));
    /// ```
    ///
    /// # Errors
    ///
    /// As [`Tx::read`](crate::Tx::read).
    ///
    /// # Panics
    ///
    /// As [`lock`](Self::lock).
    #[track_caller]
    pub fn read<'x, T: ?Sized>(
        &'x self,
        mutex: &'x SharedMutex<C, T>,
    ) -> impl Future<Output = Result<&'x T, Error>> + use<'x, C, T> {
        place::said();
        async {
            self.inner.asks(Asked::Read(mutex.number(self.inner.class)?)).await?;
            // SAFETY: the context reads it as long as `'x` may last, and while it does nobody has `&mut T`: another context can't
            // write it, nor this one (`Duplicate`).
            Ok(unsafe { &*mutex.value() })
        }
    }

    /// Writes it, and waits until nobody else reads or writes it; as [`Tx::write`](crate::Tx::write).
    ///
    /// # Errors
    ///
    /// As [`Tx::write`](crate::Tx::write).
    ///
    /// # Panics
    ///
    /// As [`lock`](Self::lock).
    #[track_caller]
    pub fn write<'x, T: ?Sized>(
        &'x self,
        mutex: &'x SharedMutex<C, T>,
    ) -> impl Future<Output = Result<SharedGuard<'x, C, T>, Error>> + use<'x, C, T> {
        place::said();
        async {
            let number = mutex.number(self.inner.class)?;
            self.inner.asks(Asked::Write(number)).await?;
            Ok(SharedGuard { mutex, number, inner: &self.inner, value: PhantomData })
        }
    }

    /// As [`read`](Self::read), for a mutex that the result shares, as [`Tx::read_arc`](crate::Tx::read_arc).
    ///
    /// # Errors
    ///
    /// As [`Tx::read`](crate::Tx::read).
    ///
    /// # Panics
    ///
    /// As [`lock`](Self::lock).
    #[track_caller]
    pub fn read_arc<'x, T: ?Sized>(
        &'x self,
        mutex: &Arc<SharedMutex<C, T>>,
    ) -> impl Future<Output = Result<ArcRead<'x, C, T>, Error>> + use<'x, C, T> {
        place::said();
        let mutex = Arc::clone(mutex);
        async {
            self.inner.asks(Asked::Read(mutex.number(self.inner.class)?)).await?;
            // SAFETY: as in `read`.
            Ok(unsafe { ArcRead::of(mutex) })
        }
    }

    /// As [`write`](Self::write), for a mutex that the guard shares.
    ///
    /// # Errors
    ///
    /// As [`Tx::write`](crate::Tx::write).
    ///
    /// # Panics
    ///
    /// As [`lock`](Self::lock).
    #[track_caller]
    pub fn write_arc<'x, T: ?Sized>(
        &'x self,
        mutex: &Arc<SharedMutex<C, T>>,
    ) -> impl Future<Output = Result<ArcSharedGuard<'x, C, T>, Error>> + use<'x, C, T> {
        place::said();
        let mutex = Arc::clone(mutex);
        async {
            let number = mutex.number(self.inner.class)?;
            self.inner.asks(Asked::Write(number)).await?;
            Ok(ArcSharedGuard { mutex, number, inner: &self.inner, value: PhantomData })
        }
    }

    /// Reads it if nobody writes it or waits to, as [`Tx::try_read`](crate::Tx::try_read). `None` also while a lock call of this `Tx`
    /// waits.
    pub fn try_read<'x, T: ?Sized>(&'x self, mutex: &'x SharedMutex<C, T>) -> Option<&'x T> {
        let number = mutex.number(self.inner.class).ok()?;
        let reads = self.inner.tries(Asked::Read(number));
        // SAFETY: as in `read`.
        reads.then(|| unsafe { &*mutex.value() })
    }

    /// Writes it if nobody reads or writes it, or waits for it, as [`Tx::try_write`](crate::Tx::try_write). `None` also while a lock
    /// call of this `Tx` waits.
    pub fn try_write<'x, T: ?Sized>(&'x self, mutex: &'x SharedMutex<C, T>) -> Option<SharedGuard<'x, C, T>> {
        let number = mutex.number(self.inner.class).ok()?;
        let writes = self.inner.tries(Asked::Write(number));
        writes.then(|| SharedGuard { mutex, number, inner: &self.inner, value: PhantomData })
    }
}

/// A shared mutex that a task writes, with access to its value. Its drop ends that.
#[must_use = "the mutex is released as soon as its guard is dropped"]
#[clippy::has_significant_drop]
pub struct SharedGuard<'x, C: Class, T: ?Sized> {
    mutex: &'x SharedMutex<C, T>,
    number: Number,
    inner: &'x Inner,
    /// It is shared and sent only as the lines below say.
    value: PhantomData<*mut T>,
}

/// As [`SharedGuard`], but it shares the mutex instead of borrowing it ([`Tx::write_arc`]).
#[must_use = "the mutex is released as soon as its guard is dropped"]
#[clippy::has_significant_drop]
pub struct ArcSharedGuard<'x, C: Class, T: ?Sized> {
    mutex: Arc<SharedMutex<C, T>>,
    number: Number,
    inner: &'x Inner,
    value: PhantomData<*mut T>,
}

impl<'x, C: Class, T: ?Sized> SharedGuard<'x, C, T> {
    /// From now on it only reads it, as by [`Tx::read`], to the end of the attempt; nobody writes it in between.
    #[must_use = "a guard that isn't needed any more is dropped"]
    pub fn downgrade(guard: Self) -> &'x T {
        let guard = ManuallyDrop::new(guard);
        guard.inner.downgrade(guard.number);
        // SAFETY: the context reads it as long as `'x` may last, or goes on writing it; and while it does nobody has `&mut T`: the guard
        // is used up, and no other context can write it, nor this one (`Duplicate`).
        unsafe { &*guard.mutex.value() }
    }
}

// SAFETY: it leads to a value that may be sent, and releases its mutex in any thread.
unsafe impl<C: Class, T: ?Sized + Send> Send for SharedGuard<'_, C, T> {}
// SAFETY: likewise; and so may the `Arc`.
unsafe impl<C: Class, T: ?Sized + Send + Sync> Send for ArcSharedGuard<'_, C, T> {}

guards!(SharedGuard ArcSharedGuard => |guard| guard.inner.release(guard.number.index()));
