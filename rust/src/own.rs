//! The contexts that this thread has, so that a thread which would wait for itself forever panics. Only with debug
//! assertions.

use crate::class::RawClass;
use crate::ffi::{self, ww_acquire_ctx};
use crate::number::Number;
use core::cell::RefCell;

type Own = (*const ww_acquire_ctx, &'static RawClass);

std::thread_local! {
    static OWN: RefCell<Vec<Own>> = const { RefCell::new(Vec::new()) };
}

/// After the list was destroyed, as its thread ends, nothing is checked.
fn with_own<R>(with: impl FnOnce(&mut Vec<Own>) -> R) -> Option<R> {
    OWN.try_with(|own| with(&mut own.borrow_mut())).ok()
}

#[inline]
pub(crate) fn begun(context: *const ww_acquire_ctx, class: &'static RawClass) {
    if cfg!(debug_assertions) {
        with_own(|own| own.push((context, class)));
    }
}

#[inline]
pub(crate) fn ended(context: *const ww_acquire_ctx) {
    if cfg!(debug_assertions) {
        with_own(|own| own.retain(|&(other, _)| other != context));
    }
}

/// Called before a wait that nothing would end: without a context (null), or by one that won't get `Deadlock`. One that writes
/// waits for readers, too.
///
/// # Panics
///
/// Another context of this thread holds it.
#[inline]
#[track_caller]
pub(crate) fn check_wait(number: Number, context: *const ww_acquire_ctx, writes: bool) {
    if cfg!(debug_assertions) {
        let holds = |&(other, class): &Own| {
            if other == context || class.tag() != number.tag() {
                return false;
            }
            let mutex = class.at(number);
            // SAFETY: it has begun, hasn't ended, and is of this thread.
            unsafe {
                ffi::ww_shared_mutex_is_written_by(mutex, other)
                    || writes && ffi::ww_shared_mutex_is_read_by(mutex, other)
            }
        };
        let is_own = with_own(|own| own.iter().any(holds)).unwrap_or(false);
        assert!(!is_own, "another context of this thread holds the mutex, so this would wait forever");
    }
}
