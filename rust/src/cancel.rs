use crate::ffi;
use crate::lock::Lock;
use core::fmt;
use core::sync::atomic::{AtomicBool, Ordering};
use std::sync::Arc;

/// Ends the waits of contexts that run with it ([`Options::cancelled_by`](crate::Options::cancelled_by)), from any
/// thread, and permanently. Its clones are the same canceller.
///
/// ```
/// # use ww_mutex::{class, Canceller, Class, Error, Mutex};
/// # class!(struct Boxes: WoundWait);
/// # static BOX: Mutex<Boxes, u64> = Mutex::new(0);
/// let canceller = Canceller::new();
/// let held = BOX.lock();
/// std::thread::scope(|scope| {
///     let waiting = scope.spawn(|| Boxes::options().cancelled_by(&canceller).run(|tx| tx.lock(&BOX).map(|value| *value)));
///     canceller.cancel();
///     assert_eq!(waiting.join().unwrap(), Err(Error::Cancelled));
/// });
/// # drop(held);
/// ```
#[derive(Clone, Default)]
pub struct Canceller {
    shared: Arc<Shared>,
}

#[derive(Default)]
struct Shared {
    is_cancelled: AtomicBool,
    running: Lock<Vec<Running>>,
}

/// A context that has begun, and hasn't ended: it leaves before that, under the lock.
struct Running(*mut ffi::ww_acquire_ctx);

// SAFETY: any thread that finds it under the lock may cancel it.
unsafe impl Send for Running {}

impl Canceller {
    /// A canceller that hasn't cancelled anything yet.
    #[must_use]
    pub fn new() -> Self {
        Self::default()
    }

    /// From now on each context that runs with it gets [`Cancelled`](crate::Error::Cancelled): immediately if it waits,
    /// else from its next lock.
    pub fn cancel(&self) {
        self.shared.is_cancelled.store(true, Ordering::SeqCst);
        for running in self.shared.running.lock().iter() {
            // SAFETY: the context has begun, and doesn't end before it has left the list, which is locked. If a
            // cancel is pending already, that serves as well.
            unsafe { ffi::ww_acquire_cancel(running.0) };
        }
    }

    /// Whether it was cancelled.
    #[must_use]
    pub fn is_cancelled(&self) -> bool {
        self.shared.is_cancelled.load(Ordering::SeqCst)
    }

    /// A context runs with it from now on.
    pub(crate) fn joins(&self, context: *mut ffi::ww_acquire_ctx) {
        self.shared.running.lock().push(Running(context));
    }

    pub(crate) fn leaves(&self, context: *mut ffi::ww_acquire_ctx) {
        self.shared.running.lock().retain(|running| running.0 != context);
    }
}

impl fmt::Debug for Canceller {
    fn fmt(&self, f: &mut fmt::Formatter<'_>) -> fmt::Result {
        f.debug_struct("Canceller").field("is_cancelled", &self.is_cancelled()).finish()
    }
}
