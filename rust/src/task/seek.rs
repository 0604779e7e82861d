//! Waits for a context.

use super::inner::Call;
use super::waker::Lent;
use crate::class::RawClass;
use crate::{error, ffi, Error};
use core::cell::UnsafeCell;
use core::ffi::c_int;
use core::marker::PhantomPinned;
use core::pin::Pin;
use core::ptr;
use core::task::{Poll, Waker};

/// A wait for a context: it stays where it is until it is dropped. With an age it waits for the mutex at which that got `Deadlock`.
pub(super) struct Seek<'a> {
    raw: UnsafeCell<ffi::ww_acquire_ctx>,
    inside: UnsafeCell<ffi::ww_seek>,
    class: &'static RawClass,
    age: Option<&'a mut ffi::ww_retry>,
    /// Its one call, which waits or hasn't begun.
    call: Call,
    _stays: PhantomPinned,
}

// SAFETY: the library lets any thread poll, one at a time.
unsafe impl Send for Seek<'_> {}

impl<'a> Seek<'a> {
    /// Within another context: by a task that has one.
    pub(super) fn new(class: &'static RawClass, is_within: bool, age: Option<&'a mut ffi::ww_retry>) -> Self {
        Seek {
            raw: UnsafeCell::new(ffi::ww_acquire_ctx::uninit()),
            inside: ffi::ww_seek::new(is_within).into(),
            class,
            age,
            call: Call::None,
            _stays: PhantomPinned,
        }
    }

    /// What the library has lent, if nobody was or is being woken by it.
    fn take_back(&mut self) -> Option<Waker> {
        let Call::Waits(lent) = &mut self.call else { return None };
        let lent = lent.take()?;
        // SAFETY: a wait is on its way; if the library says so, it has the waker no more.
        unsafe { ffi::ww_poll_take_back(self.raw.get(), self.inside.get()).then(|| lent.back()) }
    }

    /// # Safety
    ///
    /// The waker may be called from now on, unless it is null.
    unsafe fn begin(&mut self, waker: *const ffi::ww_waker) -> c_int {
        let (raw, class, seek) = (self.raw.get(), self.class.get(), self.inside.get());
        // SAFETY: the class is static, and the wait stays where it is; the age is borrowed for as long.
        unsafe {
            match &mut self.age {
                None => ffi::ww_acquire_init_poll(raw, class, seek, waker),
                Some(age) => ffi::ww_acquire_resume_poll(raw, class, &raw mut **age, seek, waker),
            }
        }
    }

    pub(super) fn poll(self: Pin<&mut Self>, waker: &Waker) -> Poll<Result<ffi::ww_acquire_ctx, Error>> {
        // SAFETY: nothing is moved.
        let this = unsafe { self.get_unchecked_mut() };
        let waker = waker.clone();
        // If its drop panics, the wait is as it was, but for its waker.
        drop(this.take_back());
        let lent = Lent::lend(waker);
        // SAFETY: the library has the waker until it is taken back.
        let answer = unsafe { this.begin(&raw const lent.0) };
        if answer == -ffi::EINPROGRESS {
            this.call = Call::Waits(Some(lent));
            return Poll::Pending;
        }
        this.call = Call::None;
        // SAFETY: the library hasn't taken it.
        drop(unsafe { lent.back() });
        match answer {
            // SAFETY: it is of this, exclusively. It has begun, and the library keeps no address of it.
            0 => Poll::Ready(Ok(unsafe { this.raw.get().read() })),
            _ => Poll::Ready(Err(error::of_making(answer))),
        }
    }
}

impl Drop for Seek<'_> {
    fn drop(&mut self) {
        if matches!(self.call, Call::None) {
            return;
        }
        let back = self.take_back();
        // SAFETY: a wait is on its way, which ends with this; where a context was given first, somebody else gets it. What was
        // suspended is suspended again, unless it has begun by then, with nothing held.
        unsafe {
            if self.age.is_none() {
                ffi::ww_seek_end(self.inside.get());
            } else if self.begin(ptr::null()) == 0 {
                if let Some(age) = &mut self.age {
                    if ffi::ww_acquire_suspend(self.raw.get(), &raw mut **age) != 0 {
                        ffi::ww_acquire_fini(self.raw.get());
                    }
                }
            }
        }
        drop(back);
    }
}
