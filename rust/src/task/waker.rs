//! Wakers that the library calls, which are other programs' code.

use super::inner::is_using;
use crate::ffi;
use core::cell::Cell;
use core::ffi::c_void;
use core::mem::{self, ManuallyDrop};
use core::ptr;
use core::task::{RawWakerVTable, Waker};
use std::panic::{catch_unwind, AssertUnwindSafe};

/// What the library has of a waker: once it is called, or taken back, that is gone.
#[derive(Clone, Copy)]
pub(super) struct Lent(pub(super) ffi::ww_waker);

// SAFETY: it stands for a `Waker`.
unsafe impl Send for Lent {}

std::thread_local! {
    /// Where the wakers go that the library calls in this thread, if they are to wait until its call has returned.
    static COLLECTS: Cell<*mut Wakers> = const { Cell::new(ptr::null_mut()) };
}

unsafe extern "C" fn wake(vtable: *mut c_void, data: *mut c_void) {
    // SAFETY: `lend` took these of a waker, and they come back once.
    let waker = unsafe { Waker::new(data.cast(), &*vtable.cast::<RawWakerVTable>()) };
    let wakers = COLLECTS.get();
    if wakers.is_null() {
        wake_one(waker);
    } else {
        // SAFETY: `collect` has borrowed it exclusively, and uses it only in this way until its call has returned.
        unsafe { (*wakers).push(waker) };
    }
}

/// A waker's panic, which the hook has told of by then, is of no concern to whoever ends a wait: it goes on, and wakes the others.
fn wake_one(waker: Waker) {
    debug_assert!(!is_using(), "a waker is called while this thread uses a context");
    // What the panic carries may panic where it is dropped.
    catch_unwind(AssertUnwindSafe(|| waker.wake())).unwrap_or_else(mem::forget);
}

impl Lent {
    pub(super) fn lend(waker: Waker) -> Self {
        let waker = ManuallyDrop::new(waker);
        let vtable = ptr::from_ref(waker.vtable()).cast_mut().cast();
        Lent(ffi::ww_waker { wake: Some(wake), r#loop: vtable, task: waker.data().cast_mut().cast() })
    }

    /// # Safety
    ///
    /// The library has it no more, and hasn't called it.
    pub(super) unsafe fn back(self) -> Waker {
        // SAFETY: `lend` took these of a waker, which nobody else has.
        unsafe { Waker::new(self.0.task.cast(), &*self.0.r#loop.cast::<RawWakerVTable>()) }
    }
}

/// Wakers that are called once the context isn't used any more, nor the library, since they may use both: where this is dropped,
/// also by a panic.
#[derive(Default)]
pub(super) struct Wakers {
    first: Option<Waker>,
    others: Vec<Waker>,
}

impl Wakers {
    pub(super) fn push(&mut self, waker: Waker) {
        match &self.first {
            None => self.first = Some(waker),
            Some(_) => self.others.push(waker),
        }
    }

    /// Makes a call of the library, and keeps the wakers that this calls. The call doesn't block: else a task would wait for its
    /// wake-up as long, which may be what the call waits for.
    pub(super) fn collect<R>(&mut self, call: impl FnOnce() -> R) -> R {
        struct Before(*mut Wakers);
        impl Drop for Before {
            fn drop(&mut self) {
                COLLECTS.set(self.0);
            }
        }
        let _before = Before(COLLECTS.replace(self));
        call()
    }
}

impl Drop for Wakers {
    #[inline]
    fn drop(&mut self) {
        if let Some(first) = self.first.take() {
            wake_all(first, mem::take(&mut self.others));
        }
    }
}

#[cold]
fn wake_all(first: Waker, others: Vec<Waker>) {
    wake_one(first);
    others.into_iter().for_each(wake_one);
}

/// Makes a call of the library that doesn't block, by a context that others may come to meanwhile: wakers are called after it.
pub(crate) fn waking_after<R>(call: impl FnOnce() -> R) -> R {
    if !COLLECTS.get().is_null() {
        return call();
    }
    Wakers::default().collect(call)
}

impl Extend<Waker> for Wakers {
    fn extend<I: IntoIterator<Item = Waker>>(&mut self, wakers: I) {
        wakers.into_iter().for_each(|waker| self.push(waker));
    }
}
