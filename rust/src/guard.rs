use crate::ffi::{self, ww_acquire_ctx, ww_mutex, ww_shared_mutex};
use crate::{Class, Mutex};
use core::marker::PhantomData;
use std::sync::Arc;

/// The owner of a lock: the address of a context, or, without one, that of the library's mutex plus one.
#[derive(Clone, Copy)]
pub(crate) struct Holder(*mut OnlyItsThreadUnlocks);

/// The compiler names it where another thread would drop a guard.
enum OnlyItsThreadUnlocks {}

impl Holder {
    #[inline]
    pub(crate) fn context(context: *mut ww_acquire_ctx) -> Self {
        Holder(context.cast())
    }

    #[inline]
    pub(crate) fn alone(mutex: *mut ww_mutex) -> Self {
        Holder(mutex.cast::<OnlyItsThreadUnlocks>().wrapping_byte_add(1))
    }

    /// # Safety
    ///
    /// It holds this mutex, and is this thread's.
    #[inline]
    pub(crate) unsafe fn release(self, index: u32) {
        let is_alone = self.0 as usize & 1 == 1;
        // SAFETY: as asked for here.
        unsafe {
            if is_alone {
                ffi::ww_mutex_unlock(self.0.wrapping_byte_sub(1).cast());
            } else {
                ffi::unlock(index, self.0.cast());
            }
        }
    }
}

impl Holder {
    /// # Safety
    ///
    /// It is a context, of this thread, and writes this shared mutex.
    pub(crate) unsafe fn downgrade(self, mutex: *mut ww_shared_mutex) {
        // SAFETY: as asked for here.
        unsafe { ffi::downgrade(mutex, self.0.cast()) };
    }
}

/// What all guards are by which one alone comes to the value of a mutex, and what their drop does.
macro_rules! guards {
    ($($guard:ident)* => |$this:ident| $drop:expr) => { $(
        // SAFETY: threads that share it get `&T`, and the mutex, which demands no more of T.
        unsafe impl<C: Class, T: ?Sized + Send + Sync> Sync for $guard<'_, C, T> {}

        impl<C: Class, T: ?Sized> ::core::ops::Deref for $guard<'_, C, T> {
            type Target = T;

            #[inline]
            fn deref(&self) -> &T {
                // SAFETY: the mutex is held, and the guard is borrowed.
                unsafe { &*self.mutex.value() }
            }
        }

        impl<C: Class, T: ?Sized> ::core::ops::DerefMut for $guard<'_, C, T> {
            #[inline]
            fn deref_mut(&mut self) -> &mut T {
                // SAFETY: the mutex is held, nobody reads it, and this is its one guard, borrowed exclusively.
                unsafe { &mut *self.mutex.value() }
            }
        }

        impl<C: Class, T: ?Sized> Drop for $guard<'_, C, T> {
            #[inline]
            fn drop(&mut self) {
                let $this = self;
                $drop;
            }
        }

        impl<C: Class, T: ?Sized + ::core::fmt::Debug> ::core::fmt::Debug for $guard<'_, C, T> {
            fn fmt(&self, f: &mut ::core::fmt::Formatter<'_>) -> ::core::fmt::Result {
                (**self).fmt(f)
            }
        }

        impl<C: Class, T: ?Sized + ::core::fmt::Display> ::core::fmt::Display for $guard<'_, C, T> {
            fn fmt(&self, f: &mut ::core::fmt::Formatter<'_>) -> ::core::fmt::Result {
                (**self).fmt(f)
            }
        }
    )* };
}
pub(crate) use guards;

guards!(MutexGuard ArcMutexGuard => |guard| {
    // SAFETY: each is for one lock by its holder, and is dropped once. A mutex that it shares may be dropped with it, after this.
    unsafe { guard.holder.release(guard.mutex.index()) }
});

/// A locked mutex, with access to its value. Its drop releases the mutex, in the thread that locked it.
///
/// ```compile_fail,E0277
/// # use ww_mutex::{class, Mutex};
/// # class!(struct Boxes: WoundWait);
/// # static BOX: Mutex<Boxes, u64> = Mutex::new(0);
/// let guard = BOX.lock();
/// std::thread::spawn(move || drop(guard)); // it isn't `Send`
/// ```
///
/// A mutex is released once:
///
/// ```compile_fail,E0382
/// # use ww_mutex::{class, Mutex};
/// # class!(struct Boxes: WoundWait);
/// # static BOX: Mutex<Boxes, u64> = Mutex::new(0);
/// let guard = BOX.lock();
/// drop(guard);
/// drop(guard);
/// ```
///
/// Threads share a guard only if they may share its value:
///
/// ```compile_fail,E0277
/// # use ww_mutex::{class, Mutex};
/// # use std::cell::Cell;
/// # class!(struct Boxes: WoundWait);
/// # static BOX: Mutex<Boxes, Cell<u64>> = Mutex::new(Cell::new(0));
/// let guard = BOX.lock();
/// std::thread::scope(|scope| { scope.spawn(|| guard.set(1)); });
/// ```
#[must_use = "the mutex is released as soon as its guard is dropped"]
#[clippy::has_significant_drop]
pub struct MutexGuard<'g, C: Class, T: ?Sized> {
    mutex: &'g Mutex<C, T>,
    /// A pointer, so that the guard isn't `Send`.
    holder: Holder,
}

impl<'g, C: Class, T: ?Sized> MutexGuard<'g, C, T> {
    /// # Safety
    ///
    /// This thread has locked the mutex, by this holder, and there is no other guard for that. `'g` ends before a context
    /// that holds it does.
    #[inline]
    pub(crate) unsafe fn of(mutex: &'g Mutex<C, T>, holder: Holder) -> Self {
        MutexGuard { mutex, holder }
    }

    /// The mutex that it holds.
    #[must_use]
    pub fn mutex(guard: &Self) -> &'g Mutex<C, T> {
        guard.mutex
    }
}

/// As [`MutexGuard`], but it shares the mutex instead of borrowing it: for one that was found while others were locked,
/// and that nothing else in the body keeps alive. It lives no longer than the borrow of its context, `'x`.
#[must_use = "the mutex is released as soon as its guard is dropped"]
#[clippy::has_significant_drop]
pub struct ArcMutexGuard<'x, C: Class, T: ?Sized> {
    mutex: Arc<Mutex<C, T>>,
    holder: Holder,
    of_this_context: PhantomData<&'x ()>,
}

impl<C: Class, T: ?Sized> ArcMutexGuard<'_, C, T> {
    /// # Safety
    ///
    /// As that of [`MutexGuard::of`], for `'x`.
    #[inline]
    pub(crate) unsafe fn of(mutex: Arc<Mutex<C, T>>, holder: Holder) -> Self {
        ArcMutexGuard { mutex, holder, of_this_context: PhantomData }
    }

    /// The mutex that it holds.
    #[must_use]
    pub fn mutex(guard: &Self) -> &Arc<Mutex<C, T>> {
        &guard.mutex
    }
}
