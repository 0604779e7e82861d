//! The bodies that a thread is within.

use core::cell::Cell;
use core::future::Future;
use core::mem::ManuallyDrop;
use core::pin::Pin;
use core::task::{Context, Poll};

thread_local! {
    /// How many bodies this thread polls or drops, each within the one before.
    static BODIES: Cell<u32> = const { Cell::new(0) };
}

/// One more, until this is dropped, also by a panic.
struct Entered;

impl Entered {
    #[inline]
    fn new() -> Self {
        BODIES.set(BODIES.get() + 1);
        Entered
    }
}

impl Drop for Entered {
    #[inline]
    fn drop(&mut self) {
        BODIES.set(BODIES.get() - 1);
    }
}

/// Whether the caller is within a body.
pub(super) fn is_within() -> bool {
    BODIES.get() != 0
}

/// A body, or what one waits for: while this thread polls or drops it, it is within that. It drops the block as soon as that is
/// through, where the compiler knows that an async block then holds nothing.
#[must_use = "nothing is done until it is awaited"]
pub(super) struct Body<F> {
    block: ManuallyDrop<F>,
    is_through: bool,
}

impl<F> Body<F> {
    #[inline]
    pub(super) fn new(block: F) -> Self {
        Body { block: ManuallyDrop::new(block), is_through: false }
    }

    #[cold]
    #[inline(never)]
    fn stop(&mut self) {
        let _within = Entered::new();
        // SAFETY: it isn't through, so it is dropped only here, where it stands.
        unsafe { ManuallyDrop::drop(&mut self.block) };
    }
}

impl<F: Future> Future for Body<F> {
    type Output = F::Output;

    #[inline]
    fn poll(self: Pin<&mut Self>, cx: &mut Context<'_>) -> Poll<F::Output> {
        // SAFETY: the block stays in its place.
        let this = unsafe { self.get_unchecked_mut() };
        assert!(!this.is_through, "a body is polled after its end");
        let _within = Entered::new();
        // SAFETY: as above; it is dropped there, once.
        let told = unsafe { Pin::new_unchecked(&mut *this.block) }.poll(cx);
        if told.is_ready() {
            this.is_through = true;
            // SAFETY: likewise.
            unsafe { ManuallyDrop::drop(&mut this.block) };
        }
        told
    }
}

impl<F> Drop for Body<F> {
    #[inline]
    fn drop(&mut self) {
        if !self.is_through {
            self.stop();
        }
    }
}
