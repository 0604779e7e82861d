use crate::class::OfClass;
use crate::{ffi, Class, Error, Options, Tx};
use core::fmt;
use core::marker::PhantomData;

/// The age of a transaction that is retried by others: by a framework, in another thread, behind a queue. A new transaction would be
/// the youngest, and give way again.
///
/// ```
/// # use ww_mutex::{class, Class, Error, Mutex, Suspended};
/// class!(struct Accounts: WoundWait);
///
/// /// One try of a job. After an error the queue runs it again, in whichever of its threads.
/// fn deposit(account: &Mutex<Accounts, u64>, age: &mut Suspended<Accounts>) -> Result<(), Error> {
///     age.run(Accounts::options(), |tx| {
///         *tx.lock(account)? += 1;
///         Ok(())
///     })
/// }
///
/// let (account, mut age) = (Mutex::new(0), Suspended::new());
/// std::thread::scope(|scope| {
///     scope.spawn(|| while deposit(&account, &mut age) == Err(Error::Deadlock) {});
/// });
/// assert!(age.is_none() && account.into_inner() == 1);
/// ```
///
/// What is suspended holds nothing, and nobody waits for it; but it keeps one of the contexts of its class, of which half may be
/// suspended at a time. Its drop ends it. It may be sent to any thread, and is used up by one:
///
/// ```compile_fail,E0499
/// # use ww_mutex::{class, Class, Suspended};
/// # class!(struct Boxes: WoundWait);
/// let mut age = Suspended::<Boxes>::new();
/// let (one, other) = (&mut age, &mut age);
/// std::thread::scope(|scope| {
///     scope.spawn(|| one.run(Boxes::options(), |_| Ok(())));
///     scope.spawn(|| other.run(Boxes::options(), |_| Ok(())));
/// });
/// ```
///
/// It resumes in its own class:
///
/// ```compile_fail,E0308
/// # use ww_mutex::{class, Class, Suspended};
/// # class!(struct Boxes: WoundWait; struct Crates: WoundWait);
/// let mut age = Suspended::<Boxes>::new();
/// age.run(Crates::options(), |_| Ok(()));
/// ```
pub struct Suspended<C: Class> {
    pub(crate) retry: ffi::ww_retry,
    class: OfClass<C>,
}

impl<C: Class> Suspended<C> {
    /// Of no transaction: what resumes it begins a new one.
    #[must_use]
    pub const fn new() -> Self {
        Suspended { retry: ffi::ww_retry { ticket_: 0, seat_: 0, awaits_: 0 }, class: PhantomData }
    }

    /// Whether no transaction is suspended: none was, or it went on and ended, or half of the class's contexts were suspended, so that
    /// its age was lost.
    #[must_use]
    pub const fn is_none(&self) -> bool {
        self.retry.ticket_ == 0
    }

    /// What resumes it doesn't wait first for the mutex at which it got [`Deadlock`](Error::Deadlock): after such a wait
    /// [timed out](Error::TimedOut), to lock others first.
    pub fn at_once(&mut self) {
        self.retry.awaits_ = 0;
    }

    /// Runs the body once, in a transaction with its age, which has waited for the mutex at which it got
    /// [`Deadlock`](Error::Deadlock). After an error the transaction is suspended; after `Ok`, or a panic of the body, it has ended.
    ///
    /// # Errors
    ///
    /// Those of the body; `Deadlock` also if it swallowed that. Before it is called, those of [`Options::run`]: then what was
    /// suspended still is.
    ///
    /// # Panics
    ///
    /// As [`Class::run`].
    #[track_caller]
    pub fn run<R>(
        &mut self,
        options: Options<'_, C>,
        body: impl FnOnce(&Tx<C>) -> Result<R, Error>,
    ) -> Result<R, Error> {
        self.try_run(options, body)
    }

    /// The same with an error type of the caller's.
    ///
    /// # Errors
    ///
    /// As [`run`](Self::run).
    ///
    /// # Panics
    ///
    /// As [`Class::run`].
    #[track_caller]
    pub fn try_run<R, E: From<Error>>(
        &mut self,
        options: Options<'_, C>,
        body: impl FnOnce(&Tx<C>) -> Result<R, E>,
    ) -> Result<R, E> {
        let kept = options.begin_with(&mut self.retry)?;
        kept.tx().context().is_of_this_thread();
        let told = body(kept.tx()).and_then(|it| {
            if kept.tx().context().is_over() {
                return Err(Error::Deadlock.into());
            }
            Ok(it)
        });
        if told.is_err() {
            kept.suspend(&mut self.retry);
        }
        told
    }
}

impl<C: Class> Drop for Suspended<C> {
    fn drop(&mut self) {
        // SAFETY: it names what is suspended, and no copy of it was made; or nothing.
        unsafe { ffi::ww_retry_drop(&raw mut self.retry) };
    }
}

impl<C: Class> Default for Suspended<C> {
    fn default() -> Self {
        Self::new()
    }
}

impl<C: Class> fmt::Debug for Suspended<C> {
    fn fmt(&self, f: &mut fmt::Formatter<'_>) -> fmt::Result {
        f.debug_struct("Suspended").field("is_none", &self.is_none()).finish_non_exhaustive()
    }
}
