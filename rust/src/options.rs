use crate::age::Kept;
use crate::class::OfClass;
use crate::context::Context;
use crate::tx::Running;
use crate::{ffi, Canceller, Class, Error, Tx};
use core::fmt;
use core::marker::PhantomData;
use std::time::{Duration, Instant};

/// How long a context waits, and who may cancel it: [`Class::options`].
///
/// ```
/// # use ww_mutex::{class, Class, Error, Mutex};
/// # use std::time::Duration;
/// # class!(struct Boxes: WoundWait);
/// # static BOX: Mutex<Boxes, u64> = Mutex::new(0);
/// let held = BOX.lock();
/// let told = Boxes::options().timeout(Duration::from_millis(5)).run(|tx| tx.lock(&BOX).map(|value| *value));
/// assert_eq!(told, Err(Error::TimedOut));
/// # drop(held);
/// ```
#[must_use = "nothing runs until `run` or `try_run`"]
pub struct Options<'c, C> {
    deadline: Option<Instant>,
    canceller: Option<&'c Canceller>,
    class: OfClass<C>,
}

impl<'c, C: Class> Options<'c, C> {
    /// A context that waits without a limit.
    #[inline]
    pub const fn new() -> Self {
        Options { deadline: None, canceller: None, class: PhantomData }
    }

    /// It waits at most until this time: for a context if all are in use, for each mutex, and for the contended one
    /// before the body runs again. A mutex that is free is locked, however late it is.
    pub const fn deadline(mut self, at: Instant) -> Self {
        self.deadline = Some(at);
        self
    }

    /// It waits at most this long, from now on and in all.
    pub fn timeout(mut self, timeout: Duration) -> Self {
        self.deadline = Instant::now().checked_add(timeout);
        self
    }

    /// It waits until this canceller ends the wait. If all contexts of the class are in use, the wait for one of them may go on
    /// after a cancel for as long as it has lasted by then.
    pub const fn cancelled_by(mut self, canceller: &'c Canceller) -> Self {
        self.canceller = Some(canceller);
        self
    }

    #[inline]
    fn context(&self) -> Context {
        if self.deadline.is_none() && self.canceller.is_none() {
            Context::new(C::raw())
        } else {
            Context::with_limits(C::raw(), self.deadline, self.canceller)
        }
    }

    /// As [`Class::run`].
    ///
    /// # Errors
    ///
    /// As [`Class::run`]; and [`Error::TimedOut`] and [`Error::Cancelled`].
    ///
    /// # Panics
    ///
    /// As [`Class::run`].
    #[inline]
    #[track_caller]
    pub fn run<R>(&self, body: impl FnMut(&Tx<C>) -> Result<R, Error>) -> Result<R, Error> {
        self.try_run(body)
    }

    /// As [`Class::try_run`].
    ///
    /// # Errors
    ///
    /// As [`run`](Self::run).
    ///
    /// # Panics
    ///
    /// As [`Class::run`].
    #[inline]
    #[track_caller]
    pub fn try_run<R, E: From<Error>>(&self, body: impl FnMut(&Tx<C>) -> Result<R, E>) -> Result<R, E> {
        let tx = Tx::new(self.context());
        let _running = Running::begin(&tx)?;
        // SAFETY: it has begun, and ends with that.
        unsafe { tx.repeat(body) }
    }

    /// A context that is kept for further runs, with other limits.
    #[track_caller]
    pub(crate) fn begin(&self) -> Result<Kept<C>, Error> {
        Kept::begin(Tx::new(Context::with_limits(C::raw(), self.deadline, self.canceller)))
    }

    /// The same with the age of what is suspended, if anything is.
    #[track_caller]
    pub(crate) fn begin_with(&self, retry: &mut ffi::ww_retry) -> Result<Kept<C>, Error> {
        Kept::begin_with(Tx::new(Context::with_limits(C::raw(), self.deadline, self.canceller)), retry)
    }

    pub(crate) fn resume(&self, kept: &Kept<C>) -> Result<(), Error> {
        kept.resume(self.deadline, self.canceller)
    }
}

impl<C> Clone for Options<'_, C> {
    fn clone(&self) -> Self {
        *self
    }
}

impl<C> Copy for Options<'_, C> {}

impl<C: Class> Default for Options<'_, C> {
    fn default() -> Self {
        Self::new()
    }
}

impl<C> fmt::Debug for Options<'_, C> {
    fn fmt(&self, f: &mut fmt::Formatter<'_>) -> fmt::Result {
        f.debug_struct("Options").field("deadline", &self.deadline).field("canceller", &self.canceller).finish()
    }
}
