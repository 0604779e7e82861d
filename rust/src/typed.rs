//! Contexts by types, without a closure: a call is possible only with the value that it takes.
//!
//! | value | what it is | calls |
//! |---|---|---|
//! | [`Context`] | a context, from [`begin`](Context::begin) to its drop | [`start`](Context::start), [`back_off`](Context::back_off), [`lock_all`](Context::lock_all) |
//! | [`Acquiring`] | the one permission to lock something more; it borrows its context | [`lock`](Acquiring::lock), [`try_lock`](Acquiring::try_lock) |
//! | [`Deadlock`] | the mutex that comes first from now on | |
//! | [`MutexGuard`] | a mutex that is held; it borrows its context | |
//!
//! A lock call takes the `Acquiring`, and returns it with the guard. If it returns `Deadlock` it keeps it, so
//! nothing else can be locked. [`Context::back_off`] makes a new one; it borrows the context exclusively, so all guards
//! must be dropped before. A thread that has all its locks drops the `Acquiring`, as `ww_acquire_done` in the kernel.
//!
//! ```
//! use ww_mutex::typed::{Acquiring, Context, Refused};
//! use ww_mutex::{class, Error, Mutex};
//! class!(struct Boxes: WoundWait);
//!
//! fn swap<'x>(tx: Acquiring<'x, Boxes>, one: &Mutex<Boxes, u64>, other: &Mutex<Boxes, u64>) -> Result<(), Refused<'x, Boxes>> {
//!     let (tx, mut one) = tx.lock(one)?;
//!     let (_, mut other) = tx.lock(other)?;
//!     std::mem::swap(&mut *one, &mut *other);
//!     Ok(())
//! }
//!
//! let (one, other) = (Mutex::new(1), Mutex::new(2));
//! let mut context = Context::begin()?;
//! let mut tx = context.start();
//! loop {
//!     match swap(tx, &one, &other) {
//!         Ok(()) => break,
//!         Err(Refused::Deadlock(lost)) => tx = context.back_off(lost)?,
//!         Err(Refused::Other(error, _)) => return Err(error),
//!     }
//! }
//! # drop(context);
//! assert_eq!((one.into_inner(), other.into_inner()), (2, 1));
//! # Ok::<(), Error>(())
//! ```
//!
//! # What doesn't compile
//!
//! A lock after `Deadlock`, which kept the `Acquiring`:
//!
//! ```compile_fail,E0382
//! # use ww_mutex::typed::{Acquiring, Context, Refused};
//! # use ww_mutex::{class, Error, Mutex};
//! # class!(struct Boxes: WoundWait);
//! # fn f(one: &Mutex<Boxes, u64>, other: &Mutex<Boxes, u64>) {
//! let mut context = Context::<Boxes>::begin().unwrap();
//! let tx = context.start();
//! if let Err(Refused::Deadlock(_)) = tx.lock(one) {
//!     let _ = tx.lock(other);
//! }
//! # }
//! ```
//!
//! A back-off while a guard is held:
//!
//! ```compile_fail,E0499
//! # use ww_mutex::typed::{Acquiring, Context, Refused};
//! # use ww_mutex::{class, Error, Mutex};
//! # class!(struct Boxes: WoundWait);
//! # fn f(one: &Mutex<Boxes, u64>, other: &Mutex<Boxes, u64>) {
//! let mut context = Context::<Boxes>::begin().unwrap();
//! let tx = context.start();
//! let Ok((tx, held)) = tx.lock(one) else { return };
//! if let Err(Refused::Deadlock(lost)) = tx.lock(other) {
//!     let tx = context.back_off(lost);
//! }
//! drop(held);
//! # }
//! ```
//!
//! A back-off without `Deadlock`, or a second one:
//!
//! ```compile_fail,E0451
//! # use ww_mutex::typed::{Acquiring, Context, Deadlock, Refused};
//! # use ww_mutex::{class, Error, Mutex};
//! # class!(struct Boxes: WoundWait);
//! let mut context = Context::<Boxes>::begin().unwrap();
//! let tx = context.back_off(Deadlock { class: std::marker::PhantomData });
//! ```
//!
//! ```compile_fail,E0382
//! # use ww_mutex::typed::{Acquiring, Context, Refused};
//! # use ww_mutex::{class, Error, Mutex};
//! # class!(struct Boxes: WoundWait);
//! # fn f(one: &Mutex<Boxes, u64>) {
//! let mut context = Context::<Boxes>::begin().unwrap();
//! if let Err(Refused::Deadlock(lost)) = context.start().lock(one) {
//!     let _ = context.back_off(lost);
//!     let _ = context.back_off(lost);
//! }
//! # }
//! ```
//!
//! The end of a context while a guard is held, or a guard that outlives its context:
//!
//! ```compile_fail,E0505
//! # use ww_mutex::typed::{Acquiring, Context, Refused};
//! # use ww_mutex::{class, Error, Mutex};
//! # class!(struct Boxes: WoundWait);
//! # fn f(one: &Mutex<Boxes, u64>) {
//! let mut context = Context::<Boxes>::begin().unwrap();
//! let Ok((_, held)) = context.start().lock(one) else { return };
//! drop(context);
//! drop(held);
//! # }
//! ```
//!
//! ```compile_fail,E0597
//! # use ww_mutex::typed::{Acquiring, Context, Refused};
//! # use ww_mutex::{class, Error, Mutex};
//! # class!(struct Boxes: WoundWait);
//! # fn f(one: &Mutex<Boxes, u64>) {
//! let held = {
//!     let mut context = Context::<Boxes>::begin().unwrap();
//!     let Ok((_, held)) = context.start().lock(one) else { return };
//!     held
//! };
//! # }
//! ```
//!
//! A context that has ended:
//!
//! ```compile_fail,E0382
//! # use ww_mutex::typed::Context;
//! # ww_mutex::class!(struct Boxes: WoundWait);
//! let mut context = Context::<Boxes>::begin().unwrap();
//! drop(context);
//! let tx = context.start();
//! ```
//!
//! A lock after the [`Acquiring`] was dropped, as a thread does that has all its locks:
//!
//! ```compile_fail,E0382
//! # use ww_mutex::typed::{Acquiring, Context, Refused};
//! # use ww_mutex::{class, Error, Mutex};
//! # class!(struct Boxes: WoundWait);
//! # fn f(one: &Mutex<Boxes, u64>, other: &Mutex<Boxes, u64>) {
//! let mut context = Context::<Boxes>::begin().unwrap();
//! let Ok((tx, held)) = context.start().lock(one) else { return };
//! drop(tx);
//! let _ = tx.lock(other);
//! # }
//! ```
//!
//! A mutex of another class:
//!
//! ```compile_fail,E0308
//! # use ww_mutex::typed::Context;
//! # use ww_mutex::{class, Mutex};
//! # class!(struct Boxes: WoundWait; struct Crates: WoundWait);
//! # fn f(one: &Mutex<Crates, u64>) {
//! let mut context = Context::<Boxes>::begin().unwrap();
//! let _ = context.start().lock(one);
//! # }
//! ```
//!
//! Two threads with one context:
//!
//! ```compile_fail,E0277
//! # use ww_mutex::typed::Context;
//! # ww_mutex::class!(struct Boxes: WoundWait);
//! let context = Context::<Boxes>::begin().unwrap();
//! std::thread::spawn(move || drop(context));
//! ```

use crate::class::OfClass;
use crate::context::Context as Inner;
use crate::{Class, Error, Mutex, MutexGuard};
use core::fmt;
use core::marker::PhantomData;
use core::ptr::NonNull;

/// A context. No guard of it is left at its end.
///
/// One that is forgotten ([`std::mem::forget`]) never ends: it stays one of the contexts that its class may have, and
/// what was forgotten with it stays locked.
pub struct Context<C: Class> {
    /// From `Box::leak`: the library has its address, so it is never borrowed exclusively.
    inner: NonNull<Inner>,
    class: OfClass<C>,
}

/// The one permission of a context to lock something more.
#[must_use = "without it nothing more can be locked"]
pub struct Acquiring<'x, C: Class> {
    inner: &'x Inner,
    class: OfClass<C>,
}

/// What a lock call returns: the permission to lock more, and what it locked.
pub type Locked<'x, C, G> = (Acquiring<'x, C>, G);

/// An older context goes first: the context must release everything, and wait for the contended mutex.
#[must_use = "`Context::back_off` waits for the contended mutex"]
pub struct Deadlock<C: Class> {
    class: OfClass<C>,
}

/// Why a mutex wasn't locked.
#[derive(Debug)]
pub enum Refused<'x, C: Class> {
    /// Drop all guards of the context, and then call [`Context::back_off`].
    Deadlock(Deadlock<C>),
    /// Any other reason. What was held still is, and the context may go on.
    Other(Error, Acquiring<'x, C>),
}

impl<C: Class> From<Refused<'_, C>> for Error {
    fn from(refused: Refused<'_, C>) -> Error {
        match refused {
            Refused::Deadlock(_) => Error::Deadlock,
            Refused::Other(error, _) => error,
        }
    }
}

impl<C: Class> Context<C> {
    /// Begins a context. If all contexts of the class are in use, it waits for one.
    ///
    /// # Errors
    ///
    /// [`Error::OutOfMemory`], if this opens the class.
    ///
    /// # Panics
    ///
    /// In a forked child, if the class was in use at the fork.
    #[track_caller]
    pub fn begin() -> Result<Self, Error> {
        let inner = NonNull::from(Box::leak(Box::new(Inner::new(C::raw()))));
        // SAFETY: it stays where it is until the drop, which ends it; all borrow it as shared until then.
        match unsafe { inner.as_ref().begin() } {
            Ok(()) => Ok(Context { inner, class: PhantomData }),
            Err(error) => {
                // SAFETY: it came from a box, and nothing else has it.
                drop(unsafe { Box::from_raw(inner.as_ptr()) });
                Err(error)
            }
        }
    }

    fn inner(&self) -> &Inner {
        // SAFETY: it is there until the drop, and never borrowed exclusively.
        unsafe { self.inner.as_ref() }
    }

    /// The permission to lock mutexes. The context holds nothing when this returns, since no guard is left.
    pub fn start(&mut self) -> Acquiring<'_, C> {
        // SAFETY: guards borrow the context, and this does so exclusively: so where one was forgotten, nothing can
        // reach it.
        unsafe { self.inner().start() };
        Acquiring { inner: self.inner(), class: PhantomData }
    }

    /// After a lock call returned [`Deadlock`]: waits for the contended mutex. The context has it then, and the lock call
    /// for it returns immediately.
    ///
    /// # Errors
    ///
    /// [`Error::Cancelled`], by [`Class::cancel`]. The context holds nothing then.
    pub fn back_off(&mut self, _lost: Deadlock<C>) -> Result<Acquiring<'_, C>, Error> {
        // SAFETY: as in `start`.
        unsafe { self.inner().back_off() }?;
        Ok(Acquiring { inner: self.inner(), class: PhantomData })
    }

    /// Locks all of them, and backs off by itself.
    ///
    /// # Errors
    ///
    /// Those of [`Tx::lock`](crate::Tx::lock), except `Deadlock`. The context holds nothing then.
    #[track_caller]
    pub fn lock_all<'g, T: ?Sized, const N: usize>(
        &'g mut self,
        list: [&'g Mutex<C, T>; N],
    ) -> Result<Locked<'g, C, [MutexGuard<'g, C, T>; N]>, Error> {
        let inner: &'g Inner = self.inner();
        // SAFETY: as in `start`.
        unsafe { inner.start() };
        loop {
            match inner.lock_all(list) {
                Ok(guards) => return Ok((Acquiring { inner, class: PhantomData }, guards)),
                // SAFETY: as in `start`; no guard was kept.
                Err(Error::Deadlock) => unsafe { inner.back_off() }?,
                Err(error) => {
                    // SAFETY: as above.
                    unsafe { inner.start() };
                    return Err(error);
                }
            }
        }
    }
}

impl<'x, C: Class> Acquiring<'x, C> {
    /// Locks it, and waits for it.
    ///
    /// # Errors
    ///
    /// [`Refused::Deadlock`], which keeps the permission; [`Refused::Other`] with `Duplicate`, `Exhausted` or
    /// `OutOfMemory`, which returns it.
    ///
    /// # Panics
    ///
    /// As [`Tx::lock`](crate::Tx::lock).
    #[track_caller]
    pub fn lock<'g, T: ?Sized>(
        self,
        mutex: &'g Mutex<C, T>,
    ) -> Result<Locked<'x, C, MutexGuard<'g, C, T>>, Refused<'x, C>>
    where
        'x: 'g,
    {
        match self.inner.lock(mutex) {
            Ok(()) => {
                // SAFETY: it locked the mutex, for this guard, which lives no longer than the context's borrow.
                let guard = unsafe { MutexGuard::of(mutex, self.inner.holder()) };
                Ok((self, guard))
            }
            Err(Error::Deadlock) => Err(Refused::Deadlock(Deadlock { class: PhantomData })),
            Err(error) => Err(Refused::Other(error, self)),
        }
    }

    /// Locks it if nobody has it or waits for it. `None` for one that it has a guard of.
    pub fn try_lock<'g, T: ?Sized>(&mut self, mutex: &'g Mutex<C, T>) -> Option<MutexGuard<'g, C, T>>
    where
        'x: 'g,
    {
        let is_locked = self.inner.try_lock(mutex);
        // SAFETY: it locked the mutex, for this guard, which lives no longer than the context's borrow.
        is_locked.then(|| unsafe { MutexGuard::of(mutex, self.inner.holder()) })
    }
}

impl<C: Class> Drop for Context<C> {
    fn drop(&mut self) {
        // SAFETY: it has begun, and ends here; as in `start`, no guard can be reached.
        unsafe { self.inner().end() };
        // SAFETY: it came from a box, and the library has left it.
        drop(unsafe { Box::from_raw(self.inner.as_ptr()) });
    }
}

impl<C: Class> fmt::Debug for Context<C> {
    fn fmt(&self, f: &mut fmt::Formatter<'_>) -> fmt::Result {
        f.debug_struct("Context").field("held", &self.inner().held()).finish_non_exhaustive()
    }
}

impl<C: Class> fmt::Debug for Acquiring<'_, C> {
    fn fmt(&self, f: &mut fmt::Formatter<'_>) -> fmt::Result {
        f.debug_struct("Acquiring").field("held", &self.inner.held()).finish_non_exhaustive()
    }
}

impl<C: Class> fmt::Debug for Deadlock<C> {
    fn fmt(&self, f: &mut fmt::Formatter<'_>) -> fmt::Result {
        f.debug_struct("Deadlock").finish_non_exhaustive()
    }
}
