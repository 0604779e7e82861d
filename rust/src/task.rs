//! Contexts of tasks: they wait without blocking their thread, under any executor.
//!
//! ```
//! # #![forbid(unsafe_code)]
//! use ww_mutex::{class, transaction, Error, Mutex};
//!
//! class!(struct Accounts: WoundWait);
//!
//! async fn transfer(from: &Mutex<Accounts, u64>, to: &Mutex<Accounts, u64>, amount: u64) -> Result<(), Error> {
//!     transaction!(Accounts, |tx| {
//!         let mut from = tx.lock(from).await?;
//!         let mut to = tx.lock(to).await?;
//!         *from -= amount;
//!         *to += amount;
//!         Ok(())
//!     })
//! }
//! # fn sends(_: impl Send) {}
//! # let (one, other) = (Mutex::new(70), Mutex::new(0));
//! # sends(transfer(&one, &other, 30));
//! ```
//!
//! [`transaction!`](crate::transaction) awaits a body again after each [`Deadlock`](Error::Deadlock), as
//! [`Class::run`] runs it; [`Class::run_async`] does so with an async closure. Both are [`Context`], which is there for
//! loops of your own. Threads ([`Class::run`], [`Mutex::lock`]) and tasks lock the same mutexes.
//!
//! A whole program, with an executor that is a loop (`tokio::spawn` takes these futures as well):
//!
//! ```
//! use std::future::Future;
//! use std::pin::pin;
//! use std::sync::Arc;
//! use std::task::{Context, Poll, Wake, Waker};
//! use std::thread::{self, Thread};
//! use ww_mutex::{class, transaction, Error, Mutex};
//!
//! class!(struct Accounts: WoundWait);
//! static BANK: [Mutex<Accounts, i64>; 2] = [Mutex::new(70), Mutex::new(0)];
//!
//! struct Unpark(Thread);
//! impl Wake for Unpark {
//!     fn wake(self: Arc<Self>) {
//!         self.0.unpark();
//!     }
//! }
//!
//! fn block_on<R>(future: impl Future<Output = R>) -> R {
//!     let waker = Waker::from(Arc::new(Unpark(thread::current())));
//!     let mut future = pin!(future);
//!     loop {
//!         match future.as_mut().poll(&mut Context::from_waker(&waker)) {
//!             Poll::Ready(value) => return value,
//!             Poll::Pending => thread::park(),
//!         }
//!     }
//! }
//!
//! async fn transfer(from: usize, to: usize, amount: i64) -> Result<(), Error> {
//!     transaction!(Accounts, |tx| {
//!         let [mut from, mut to] = tx.lock_all([&BANK[from], &BANK[to]]).await?;
//!         *from -= amount;
//!         *to += amount;
//!         Ok(())
//!     })
//! }
//!
//! let other = thread::spawn(|| block_on(transfer(1, 0, 10)));
//! block_on(transfer(0, 1, 30))?;
//! other.join().unwrap()?;
//! assert_eq!((*BANK[0].lock(), *BANK[1].lock()), (50, 20));
//! # Ok::<(), Error>(())
//! ```
//!
//! # How many run at once
//!
//! A class finds by itself how many tasks have a context at a time: it measures how many end the most in a second, up to 896.
//! If [`class!`](crate::class!) says how many contexts it has, that is a fixed bound, which threads and tasks share. Further tasks
//! wait for one, holding nothing; one that ends goes to whoever begins next, and each millisecond to whoever waits longest. So a task
//! waits for as many of these times as tasks came before it, shared among those that have one: of 10,000 the one that waits longest
//! comes after 0.1 to 0.2 s where bodies take microseconds. A transaction in the body of another one gets any context of tasks that
//! is free; but a body that awaits another task which needs one may wait forever, and so may what is begun in an attempt of a
//! [`Context`] by hand.
//!
//! # Guards across an `.await`
//!
//! A [`Guard`] may be held while its task waits for something else, but not for a task which waits for the mutex: such a
//! deadlock isn't detected, nor is that of a task with two contexts. Futures, contexts and guards are `Send` if the values
//! are, so that any thread may poll the task next. For this each lock and each release has one atomic exchange more than
//! those of a thread.
//!
//! # Wakers
//!
//! Whoever ends a task's wait calls its waker: any thread or task that releases, locks, cancels, or ends a context or a wait. By
//! then it uses none of its contexts, so the waker may use any, except in a call of a thread that itself waits. A waker that
//! panics ends nothing of whoever calls it.
//!
//! # Dropped futures
//!
//! A future may be dropped at any point, so tasks need no deadlines or cancellers. Dropping a [`Lock`], a read or a write leaves
//! its mutex as it was, and its context goes on; dropping any other future releases everything, and ends the context. What was
//! changed stays changed. The call of a future that is forgotten goes on until its attempt ends, and until then other calls of the
//! attempt wait for it.

mod body;
mod guards;
mod inner;
mod lock;
mod seek;
mod shared;
#[doc(hidden)]
pub mod transaction_;
mod waker;

pub use guards::Guards;
pub use lock::{ArcGuard, Guard, Lock, LockArc, LoneGuard};
pub use shared::{ArcSharedGuard, SharedGuard};
pub(crate) use waker::waking_after;

use crate::class::OfClass;
use crate::events::{Wait, Watch};
use crate::{error, ffi, place, Class, Error, Mutex, Suspended};
use body::is_within;
use core::fmt;
use core::future::{poll_fn, Future};
use core::marker::PhantomData;
use core::ops::ControlFlow;
use core::pin::pin;
use core::ptr;
use core::task::Poll;
use inner::Inner;
use lock::Acquire;
use seek::Seek;
use shared::Asked;
use std::sync::Arc;

/// The context of a body: it locks mutexes of the class, in any order. Guards borrow it, so none leaves the body:
///
/// ```compile_fail,E0521
/// # use ww_mutex::{class, Class, Mutex};
/// # class!(struct Boxes: WoundWait);
/// # static BOX: Mutex<Boxes, u64> = Mutex::new(0);
/// let mut kept = None;
/// Boxes::run_async(async |tx| {
///     kept = Some(tx.lock(&BOX).await?);
///     Ok(())
/// });
/// ```
///
/// ```compile_fail,E0499
/// # use ww_mutex::{class, transaction, Error, Mutex};
/// # class!(struct Boxes: WoundWait);
/// # static BOX: Mutex<Boxes, u64> = Mutex::new(0);
/// async { transaction!(Boxes, |tx| tx.lock(&BOX).await) };
/// ```
pub struct Tx<C: Class> {
    inner: Inner,
    attempts: u32,
    class: OfClass<C>,
}

impl<C: Class> Tx<C> {
    /// Locks it, and waits for it. As with [`Tx::lock`](crate::Tx::lock), return `Deadlock`, with `?`.
    ///
    /// # Errors
    ///
    /// `Deadlock`; `Duplicate` for a mutex that it has a guard of; `Exhausted` at a mutex's first lock, if the class
    /// has all that it may have. Except after `Deadlock`, the context holds what it held, and may go on.
    ///
    /// # Panics
    ///
    /// In a forked child, if the class was in use at the fork.
    #[inline]
    #[track_caller]
    pub fn lock<'x, T: ?Sized>(&'x self, mutex: &'x Mutex<C, T>) -> Lock<'x, C, T> {
        place::said();
        Lock { mutex, acquire: Acquire::new(&self.inner) }
    }

    /// The same for a mutex that the guard shares.
    #[inline]
    #[track_caller]
    pub fn lock_arc<'x, T: ?Sized>(&'x self, mutex: &Arc<Mutex<C, T>>) -> LockArc<'x, C, T> {
        place::said();
        LockArc { mutex: Arc::clone(mutex), acquire: Acquire::new(&self.inner) }
    }

    /// Locks it if nobody has it or waits for it. `None` for one that it has a guard of, after `Deadlock`, and while another
    /// lock call of this `Tx` waits.
    pub fn try_lock<'x, T: ?Sized>(&'x self, mutex: &'x Mutex<C, T>) -> Option<Guard<'x, C, T>> {
        let number = mutex.number(self.inner.class).ok()?;
        self.inner.tries(Asked::Lock(number)).then(|| Guard::of(mutex, &self.inner))
    }

    /// Locks all of them, in this order. If one can't be locked, or the future is dropped, it keeps none of them.
    ///
    /// # Errors
    ///
    /// As [`lock`](Self::lock).
    ///
    /// # Panics
    ///
    /// As [`lock`](Self::lock).
    #[inline]
    pub async fn lock_all<'x, T: ?Sized, const N: usize>(
        &'x self,
        list: [&'x Mutex<C, T>; N],
    ) -> Result<[Guard<'x, C, T>; N], Error> {
        list.iter().skip(1).for_each(|mutex| mutex.fetch());
        let mut guards = [const { None }; N];
        for (guard, mutex) in guards.iter_mut().zip(list) {
            *guard = Some(self.lock(mutex).await?);
        }
        Ok(guards.map(|guard| guard.expect("each was locked")))
    }

    /// The same for a list of any length, in its order.
    ///
    /// # Errors
    ///
    /// As [`lock`](Self::lock).
    ///
    /// # Panics
    ///
    /// As [`lock`](Self::lock).
    pub async fn lock_each<'x, 'm: 'x, T: ?Sized + 'm>(
        &'x self,
        list: impl IntoIterator<Item = &'m Mutex<C, T>>,
    ) -> Result<Vec<Guard<'x, C, T>>, Error> {
        let mut guards = Vec::new();
        for mutex in list {
            guards.push(self.lock(mutex).await?);
        }
        Ok(guards)
    }

    /// An empty set of guards, which locks each mutex once: for lists in which one may come twice, where `lock_each` returns
    /// `Duplicate`.
    #[inline]
    pub fn guards<T: ?Sized>(&self) -> Guards<'_, C, T> {
        Guards::new(self)
    }

    /// How often the body has begun: 1 the first time.
    #[must_use]
    pub fn attempts(&self) -> u32 {
        self.attempts
    }
}

impl<C: Class> fmt::Debug for Tx<C> {
    fn fmt(&self, f: &mut fmt::Formatter<'_>) -> fmt::Result {
        f.debug_struct("Tx").field("attempts", &self.attempts).finish_non_exhaustive()
    }
}

/// A context for loops of your own, as [`transaction!`](crate::transaction) makes one. Its drop releases everything.
///
/// ```
/// # use core::ops::ControlFlow;
/// # use ww_mutex::{class, task::Context, Error, Mutex};
/// # class!(struct Boxes: WoundWait);
/// # async fn swap(one: &Mutex<Boxes, u64>, other: &Mutex<Boxes, u64>) -> Result<(), Error> {
/// let mut context = Context::<Boxes>::new();
/// loop {
///     let tx = context.attempt().await?;
///     let told = async {
///         let (mut one, mut other) = (tx.lock(one).await?, tx.lock(other).await?);
///         core::mem::swap(&mut *one, &mut *other);
///         Ok(())
///     }
///     .await;
///     match context.settle(told) {
///         ControlFlow::Break(told) => return told,
///         ControlFlow::Continue(()) => {}
///     }
/// }
/// # }
/// ```
pub struct Context<C: Class> {
    tx: Tx<C>,
}

impl<C: Class> Context<C> {
    /// It begins with its first attempt.
    #[inline]
    #[must_use]
    pub fn new() -> Self {
        Context { tx: Tx { inner: Inner::new(C::raw()), attempts: 1, class: PhantomData } }
    }

    /// Starts an attempt. The first one begins the context, and waits if all contexts of the class are in use; each later
    /// one waits for the mutex at which the one before got `Deadlock`. What that one left locked is released.
    ///
    /// # Errors
    ///
    /// [`Error::OutOfMemory`], if this opens the class.
    ///
    /// # Panics
    ///
    /// In a forked child, if the class was in use at the fork.
    #[inline]
    pub async fn attempt(&mut self) -> Result<&Tx<C>, Error> {
        match self.begin_now() {
            Poll::Ready(begun) => begun?,
            Poll::Pending => self.wait().await?,
        }
        Ok(&self.tx)
    }

    // `attempt`, in the parts of which `transaction!` makes it: the future of one that waits for nothing isn't made.

    /// Pending: something is to be waited for, by `wait`.
    #[inline]
    #[track_caller]
    fn begin_now(&mut self) -> Poll<Result<(), Error>> {
        place::said();
        let class = self.tx.inner.class;
        let inside = self.tx.inner.own();
        if inside.has_begun() {
            return self.begin_again();
        }
        // SAFETY: the call reads nothing of what was there; the class is static. Without a waker it doesn't wait.
        match unsafe { ffi::ww_acquire_init_poll(inside.raw(), class.get(), ptr::null_mut(), ptr::null()) } {
            0 => Poll::Ready(Ok(())),
            answer if answer == -ffi::ETIMEDOUT => Poll::Pending,
            answer => Poll::Ready(Err(error::of_making(answer))),
        }
    }

    /// Pending: the mutex at which the attempt before got `Deadlock` is to be waited for.
    #[cold]
    fn begin_again(&mut self) -> Poll<Result<(), Error>> {
        self.release_all();
        let inside = self.tx.inner.own();
        let rare = inside.rare();
        rare.is_over = false;
        if rare.keeps.as_ref().is_some_and(ffi::Contended::is_gone) {
            (rare.contended, rare.keeps) = (None, None);
        }
        if rare.contended.is_some() {
            return Poll::Pending;
        }
        self.tx.attempts = self.tx.attempts.saturating_add(1);
        Poll::Ready(Ok(()))
    }

    #[cold]
    fn wait(&mut self) -> impl Future<Output = Result<(), Error>> + use<'_, C> {
        // The block below is a body as well.
        let is_within = is_within();
        transaction_::body(async move {
            let Inner { class, .. } = self.tx.inner;
            if !self.tx.inner.own().has_begun() {
                return self.seek(Seek::new(class, is_within, None)).await;
            }
            if let Some(first) = self.tx.inner.own().rare().contended {
                // A context that holds nothing never gets `Deadlock`.
                self.tx.inner.asks(first).await?;
                let rare = self.tx.inner.own().rare();
                let is_gone = rare.keeps.as_ref().is_some_and(ffi::Contended::is_gone);
                (rare.contended, rare.keeps) = (None, None);
                match first {
                    Asked::Lock(first) if is_gone => self.tx.inner.release(first.index()),
                    Asked::Lock(first) => rare.prelocked = Some(first),
                    _ => {}
                }
            }
            self.tx.attempts = self.tx.attempts.saturating_add(1);
            Ok(())
        })
    }

    async fn seek(&mut self, seek: Seek<'_>) -> Result<(), Error> {
        let (mut seek, mut watch, class) = (pin!(seek), Watch::default(), self.tx.inner.class);
        let told = poll_fn(|cx| {
            let told = seek.as_mut().poll(cx.waker());
            if told.is_pending() {
                watch.begins(class.hook(), Wait::Context);
            }
            told
        })
        .await;
        let told = told.map(|raw| self.tx.inner.own().raw = raw);
        watch.ends(told);
        told
    }

    /// A context with the age of what a thread suspended, which has waited for the mutex at which that got `Deadlock`; without an age
    /// it is a new one. If the future is dropped, or fails, the age is still there.
    ///
    /// ```
    /// # use ww_mutex::{class, task::Context, transaction, Error, Mutex, Suspended};
    /// # class!(struct Accounts: WoundWait);
    /// async fn deposit(account: &Mutex<Accounts, u64>, age: &mut Suspended<Accounts>) -> Result<(), Error> {
    ///     let mut context = Context::resume(age).await?;
    ///     transaction!(in &mut context, |tx| {
    ///         *tx.lock(account).await? += 1;
    ///         Ok(())
    ///     })
    /// }
    /// ```
    ///
    /// # Errors
    ///
    /// [`Error::Cancelled`]; [`Error::OutOfMemory`], if this opens the class.
    ///
    /// # Panics
    ///
    /// In a forked child, if the class was in use at the fork.
    pub async fn resume(age: &mut Suspended<C>) -> Result<Self, Error> {
        let mut context = Self::new();
        let seek = Seek::new(context.tx.inner.class, is_within(), Some(&mut age.retry));
        context.seek(seek).await?;
        context.tx.attempts = 0;
        Ok(context)
    }

    /// Awaits the body, again after each `Deadlock`, as [`run`] does. If it fails, or its future is dropped, everything is
    /// released, and the next transaction of this context has its age.
    ///
    /// # Errors
    ///
    /// As [`Class::run`].
    ///
    /// # Panics
    ///
    /// As [`Class::run`].
    pub async fn run<R, E: From<Error>>(&mut self, mut body: impl AsyncFnMut(&Tx<C>) -> Result<R, E>) -> Result<R, E> {
        let mut kept = transaction_::Kept::new(self);
        crate::transaction!(@again kept, tx, Result<R, E>, body(tx).await)
    }

    /// The result of an attempt; or, if a lock call of it returned `Deadlock`, whatever the attempt returned then, everything is
    /// released, and another attempt follows.
    #[inline]
    pub fn settle<R, E: From<Error>>(&mut self, told: Result<R, E>) -> ControlFlow<Result<R, E>> {
        if !self.tx.inner.own().is_over() {
            return ControlFlow::Break(told);
        }
        drop(told);
        self.release_all();
        ControlFlow::Continue(())
    }

    fn release_all(&mut self) {
        let class = self.tx.inner.class;
        let inside = self.tx.inner.own();
        if inside.has_begun() {
            // SAFETY: it has begun, and each guard borrows what this borrows exclusively.
            drop(unsafe { inside.release_all(class) });
        }
    }
}

impl<C: Class> Default for Context<C> {
    fn default() -> Self {
        Self::new()
    }
}

impl<C: Class> fmt::Debug for Context<C> {
    fn fmt(&self, f: &mut fmt::Formatter<'_>) -> fmt::Result {
        f.debug_struct("Context").field("tx", &self.tx).finish()
    }
}

impl<C: Class, T: ?Sized> Mutex<C, T> {
    /// Locks it without a context of the caller's, as [`lock`](Mutex::lock) does for threads. It uses one of the contexts
    /// of tasks, for which it waits too. So a task that holds something meanwhile may wait for itself, or for others.
    ///
    /// ```
    /// # use ww_mutex::{class, Error, Mutex};
    /// # class!(struct Accounts: WoundWait);
    /// async fn deposit(account: &Mutex<Accounts, u64>, amount: u64) -> Result<(), Error> {
    ///     *account.lock_by_task().await? += amount;
    ///     Ok(())
    /// }
    /// ```
    ///
    /// # Errors
    ///
    /// `Cancelled`, `Exhausted` and `OutOfMemory`, as [`Class::run`] and [`Tx::lock`].
    ///
    /// # Panics
    ///
    /// In a forked child, if the class was in use at the fork.
    pub async fn lock_by_task(&self) -> Result<LoneGuard<'_, C, T>, Error> {
        let mut context = Context::<C>::new();
        // A context that holds nothing never gets `Deadlock`.
        context.attempt().await?.lock(self).await.map(core::mem::forget)?;
        Ok(LoneGuard::of(self, context.tx.inner))
    }
}

/// Awaits the body in a new context, again after each `Deadlock`. As [`Class::run_async`], with an error type of the
/// caller's.
///
/// # Errors
///
/// As [`Class::run`].
///
/// # Panics
///
/// As [`Class::run`].
pub async fn run<C: Class, R, E: From<Error>>(body: impl AsyncFnMut(&Tx<C>) -> Result<R, E>) -> Result<R, E> {
    Context::new().run(body).await
}

/// Awaits a body in a context of a class, and again after each [`Deadlock`](Error::Deadlock); for use in async functions:
/// `transaction!(Accounts, |tx| { tx.lock(&mutex).await?; .. Ok(()) })`. The body is an async block, which may borrow
/// its surroundings, and whose `?` ends the attempt; its result is that of the macro.
///
/// Otherwise as [`Class::run_async`], but the future is `Send` also if the body borrows.
///
/// # Its result
///
/// A `Result<_, Error>`. A body with another error type says so, as a closure does:
///
/// ```
/// # use ww_mutex::{class, transaction, Error, Mutex};
/// # class!(struct Accounts: WoundWait);
/// #[derive(Debug)]
/// enum Refusal {
///     Short,
///     Lock(Error),
/// }
///
/// impl From<Error> for Refusal {
///     fn from(error: Error) -> Self {
///         Refusal::Lock(error)
///     }
/// }
///
/// async fn take(from: &Mutex<Accounts, u64>, amount: u64) -> Result<u64, Refusal> {
///     let seen = transaction!(Accounts, |tx| { Ok(*tx.lock(from).await?) })?;
///     println!("it had {seen}");
///     transaction!(Accounts, |tx| -> Result<u64, Refusal> {
///         let mut from = tx.lock(from).await?;
///         *from = from.checked_sub(amount).ok_or(Refusal::Short)?;
///         Ok(*from)
///     })
/// }
/// # fn sends(_: impl Send) {}
/// # sends(take(&Mutex::new(70), 30));
/// ```
///
/// # A retry that keeps its age
///
/// What is dropped, as by a timeout, and made again is the youngest then, behind all that came meanwhile. In a context of
/// yours it keeps its age, until it returns `Ok`:
///
/// ```
/// # use ww_mutex::{class, task::Context, transaction, Error, Mutex};
/// # class!(struct Accounts: WoundWait);
/// # async fn at_most<R>(future: impl core::future::Future<Output = R>) -> Option<R> { Some(future.await) }
/// async fn deposit(account: &Mutex<Accounts, u64>, amount: u64) -> Result<(), Error> {
///     let mut context = Context::new();
///     loop {
///         let deposit = async {
///             transaction!(in &mut context, |tx| {
///                 *tx.lock(account).await? += amount;
///                 Ok(())
///             })
///         };
///         // As `tokio::time::timeout` does.
///         if let Some(told) = at_most(deposit).await {
///             return told;
///         }
///         eprintln!("it takes long");
///     }
/// }
/// # fn sends(_: impl Send) {}
/// # sends(deposit(&Mutex::new(70), 30));
/// ```
///
/// Between the two the transaction holds nothing, but keeps one of the class's contexts, until that is dropped. No guard gets
/// there:
///
/// ```compile_fail,E0499
/// # use ww_mutex::{class, task::Context, transaction, Error, Mutex};
/// # class!(struct Boxes: WoundWait);
/// # static BOX: Mutex<Boxes, u64> = Mutex::new(0);
/// # async fn f(context: &mut Context<Boxes>) -> Result<(), Error> {
/// let kept = transaction!(in context, |tx| tx.lock(&BOX).await)?;
/// # Ok(())
/// # }
/// ```
#[macro_export]
macro_rules! transaction {
    (@again $context:ident, $tx:ident, $told:ty, $body:expr) => {
        loop {
            let begun = match $crate::task::transaction_::begin(&mut $context) {
                ::core::task::Poll::Ready(begun) => begun,
                ::core::task::Poll::Pending => $crate::task::transaction_::wait(&mut $context).await,
            };
            let $tx = match begun {
                ::core::result::Result::Ok(tx) => tx,
                ::core::result::Result::Err(error) => {
                    break ::core::result::Result::Err(::core::convert::From::from(error))
                }
            };
            let told: $told = $crate::task::transaction_::body(async { $body }).await;
            match $crate::task::transaction_::settle(&mut $context, told) {
                ::core::ops::ControlFlow::Break(told) => break told,
                ::core::ops::ControlFlow::Continue(()) => {}
            }
        }
    };
    (in $context:expr, |$tx:ident| -> $told:ty $body:block) => {{
        let mut context = $crate::task::transaction_::Kept::new($context);
        $crate::transaction!(@again context, $tx, $told, $body)
    }};
    (in $context:expr, |$tx:ident| $body:expr) => {{
        let mut context = $crate::task::transaction_::Kept::new($context);
        $crate::transaction!(@again context, $tx, ::core::result::Result<_, $crate::Error>, $body)
    }};
    ($class:ty, |$tx:ident| -> $told:ty $body:block) => {{
        let mut context = $crate::task::Context::<$class>::new();
        $crate::transaction!(@again context, $tx, $told, $body)
    }};
    ($class:ty, |$tx:ident| $body:expr) => {{
        let mut context = $crate::task::Context::<$class>::new();
        $crate::transaction!(@again context, $tx, ::core::result::Result<_, $crate::Error>, $body)
    }};
}
