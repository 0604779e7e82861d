use crate::tx::Tx;
use crate::{ffi, Canceller, Class, Error, Options};
use core::fmt;
use core::mem::ManuallyDrop;
use core::ptr::NonNull;
use std::time::Instant;

/// The age of a transaction, from a run that fails to the next one. Else a run that timed out begins again as the youngest,
/// behind all that came meanwhile, and may time out forever.
///
/// ```
/// # use ww_mutex::{class, Age, Class, Error, Mutex};
/// # use std::time::Duration;
/// class!(struct Accounts: WoundWait);
///
/// fn deposit(account: &Mutex<Accounts, u64>, amount: u64) -> Result<(), Error> {
///     let mut age = Age::new();
///     loop {
///         let told = age.run(Accounts::options().timeout(Duration::from_millis(50)), |tx| {
///             *tx.lock(account)? += amount;
///             Ok(())
///         });
///         if told != Err(Error::TimedOut) {
///             return told;
///         }
///         eprintln!("it takes long");
///     }
/// }
/// # deposit(&Mutex::new(0), 1).unwrap();
/// ```
///
/// Between the runs the transaction holds nothing, but keeps one of the class's contexts (so the debug library reports another
/// context that the thread begins meanwhile). A run that returns `Ok`, one that was cancelled, and the drop of this end it. It
/// belongs to its thread:
///
/// ```compile_fail,E0277
/// # use ww_mutex::{class, Age, Class};
/// # class!(struct Boxes: WoundWait);
/// let mut age = Age::<Boxes>::new();
/// std::thread::spawn(move || age.run(Boxes::options(), |_| Ok(())));
/// ```
///
/// What a run locked doesn't reach the next one:
///
/// ```compile_fail,E0521
/// # use ww_mutex::{class, Age, Class, Mutex};
/// # class!(struct Boxes: WoundWait);
/// # static BOX: Mutex<Boxes, u64> = Mutex::new(0);
/// let (mut age, mut kept) = (Age::new(), None);
/// age.run(Boxes::options(), |tx| {
///     kept = Some(tx.lock(&BOX)?);
///     Ok(())
/// });
/// ```
pub struct Age<C: Class> {
    kept: Option<Kept<C>>,
}

impl<C: Class> Age<C> {
    /// Its first run begins the context.
    #[must_use]
    pub const fn new() -> Self {
        Age { kept: None }
    }

    /// As [`Options::run`]; if it fails, the next run has its age.
    ///
    /// # Errors
    ///
    /// As [`Options::run`].
    ///
    /// # Panics
    ///
    /// As [`Class::run`].
    #[track_caller]
    pub fn run<R>(
        &mut self,
        options: Options<'_, C>,
        body: impl FnMut(&Tx<C>) -> Result<R, Error>,
    ) -> Result<R, Error> {
        self.try_run(options, body)
    }

    /// As [`Options::try_run`]; if it fails, the next run has its age.
    ///
    /// # Errors
    ///
    /// As [`Options::run`].
    ///
    /// # Panics
    ///
    /// As [`Class::run`].
    #[track_caller]
    pub fn try_run<R, E: From<Error>>(
        &mut self,
        options: Options<'_, C>,
        body: impl FnMut(&Tx<C>) -> Result<R, E>,
    ) -> Result<R, E> {
        // A panic of the body ends it.
        let (kept, is_ready) = match self.kept.take() {
            Some(kept) => {
                let is_ready = options.resume(&kept);
                (kept, is_ready)
            }
            None => (options.begin()?, Ok(())),
        };
        // SAFETY: it has begun, ends with `kept`, and holds nothing.
        let told = is_ready.map_err(E::from).and_then(|()| unsafe { kept.tx().repeat(body) });
        if told.is_err() && kept.pause() {
            self.kept = Some(kept);
        }
        told
    }
}

impl<C: Class> Default for Age<C> {
    fn default() -> Self {
        Self::new()
    }
}

impl<C: Class> fmt::Debug for Age<C> {
    fn fmt(&self, f: &mut fmt::Formatter<'_>) -> fmt::Result {
        f.debug_struct("Age").finish_non_exhaustive()
    }
}

/// A context that has begun, and ends with this. From `Box::leak`: the library has its address, so it is never borrowed
/// exclusively.
pub(crate) struct Kept<C: Class>(NonNull<Tx<C>>);

impl<C: Class> Kept<C> {
    #[track_caller]
    pub(crate) fn begin(tx: Tx<C>) -> Result<Self, Error> {
        let kept = NonNull::from(Box::leak(Box::new(tx)));
        // SAFETY: it stays where it is until the drop, which ends it; all borrow it as shared until then.
        let begun = unsafe { kept.as_ref().context().begin() };
        Self::begun(kept, begun)
    }

    /// With the age of what is suspended, if anything is; after an error it still is.
    #[track_caller]
    pub(crate) fn begin_with(tx: Tx<C>, retry: &mut ffi::ww_retry) -> Result<Self, Error> {
        let kept = NonNull::from(Box::leak(Box::new(tx)));
        // SAFETY: as in `begin`; a `suspend` ends it, too.
        let begun = unsafe { kept.as_ref().context().resume(retry) };
        Self::begun(kept, begun)
    }

    fn begun(kept: NonNull<Tx<C>>, told: Result<(), Error>) -> Result<Self, Error> {
        told.map(|()| Kept(kept)).inspect_err(|_| {
            // SAFETY: it came from a box, and nothing else has it.
            drop(unsafe { Box::from_raw(kept.as_ptr()) });
        })
    }

    /// Instead of its end: its age goes on in the value, unless half of the class's contexts are suspended.
    pub(crate) fn suspend(self, retry: &mut ffi::ww_retry) {
        let kept = ManuallyDrop::new(self).0;
        // SAFETY: as in `pause`. It came from a box, and the library has left it then.
        unsafe {
            kept.as_ref().context().suspend(retry);
            drop(Box::from_raw(kept.as_ptr()));
        }
    }

    pub(crate) fn tx(&self) -> &Tx<C> {
        // SAFETY: it is there until the drop, and never borrowed exclusively.
        unsafe { self.0.as_ref() }
    }

    /// It goes on, with these limits.
    pub(crate) fn resume(&self, deadline: Option<Instant>, canceller: Option<&Canceller>) -> Result<(), Error> {
        self.tx().context().limit(deadline, canceller);
        // SAFETY: as in `pause`.
        unsafe { self.tx().back_off() }
    }

    /// Once a run is over: it holds nothing until the next one. Whether there may be one.
    pub(crate) fn pause(&self) -> bool {
        // SAFETY: the body has returned, and a guard lives no longer than the borrow with which it was called.
        unsafe { self.tx().context().pause() }
    }
}

impl<C: Class> Drop for Kept<C> {
    fn drop(&mut self) {
        // SAFETY: it has begun, and ends here; as in `pause`, also where a panic has gone through the body.
        unsafe { self.tx().context().end() };
        // SAFETY: it came from a box, and the library has left it.
        drop(unsafe { Box::from_raw(self.0.as_ptr()) });
    }
}
