//! Lock calls and guards.

use super::inner::{Call, Entered, Inner, Later};
use super::shared::Asked;
use super::waker::Wakers;
use crate::events::{Event, Wait, Watch};
use crate::guard::guards;
use crate::{ffi, Class, Error, Mutex};
use core::future::Future;
use core::marker::PhantomData;
use core::mem;
use core::pin::Pin;
use core::task::{Poll, Waker};
use std::sync::Arc;

/// The future of a lock call: of a number, which nobody need have a mutex of.
pub(super) struct Acquire<'x> {
    inner: &'x Inner,
    /// A call of the context is on its way, and is this one's.
    is_under_way: bool,
    watch: Watch,
}

impl<'x> Acquire<'x> {
    pub(super) fn new(inner: &'x Inner) -> Self {
        Acquire { inner, is_under_way: false, watch: Watch::default() }
    }

    #[inline]
    pub(super) fn poll(&mut self, asked: Asked, waker: &Waker) -> Poll<Result<(), Error>> {
        let mut inside = self.inner.enter();
        if inside.locks_at_once(asked) {
            return Poll::Ready(Ok(()));
        }
        self.poll_on(inside, asked, waker)
    }

    /// Where more is to be done than the first step of a lock.
    fn poll_on(&mut self, inside: Entered<'_>, asked: Asked, waker: &Waker) -> Poll<Result<(), Error>> {
        // In this order: wakers are called, also by a panic, once the context isn't used.
        let mut wakers = Wakers::default();
        let mut inside = inside;
        match wakers.collect(|| inside.poll_once(self.inner.class, asked)) {
            0 => Poll::Ready(Ok(())),
            answer if answer == -ffi::ETIMEDOUT => self.poll_further(wakers, inside, asked, waker),
            answer => {
                let told = Poll::Ready(inside.told(asked, answer));
                drop(inside);
                drop(wakers);
                self.tell(told)
            }
        }
    }

    /// Where it waits, or goes on with a wait.
    #[cold]
    fn poll_further(
        &mut self,
        wakers: Wakers,
        inside: Entered<'_>,
        asked: Asked,
        waker: &Waker,
    ) -> Poll<Result<(), Error>> {
        // In this order, as above.
        let mut later = Later { wakers, dropped: [None, None] };
        let mut inside = inside;
        let rare = inside.rare();
        if !self.is_under_way && !matches!(rare.call, Call::None) {
            if !rare.others.iter().any(|other| other.will_wake(waker)) {
                rare.others.push(waker.clone());
            }
            return Poll::Pending;
        }
        let told = inside.poll(self.inner.class, asked, waker, &mut later);
        self.is_under_way = told.is_pending();
        if told.is_ready() {
            later.wakers.extend(mem::take(&mut inside.rare().others));
        }
        drop(inside);
        drop(later);
        self.tell(told)
    }

    /// Tells the class's hook of it.
    fn tell(&mut self, told: Poll<Result<(), Error>>) -> Poll<Result<(), Error>> {
        if let Some(hook) = self.inner.class.hook() {
            match told {
                Poll::Pending => self.watch.begins(Some(hook), Wait::Mutex),
                Poll::Ready(told) => self.watch.ends(told),
            }
            if told == Poll::Ready(Err(Error::Deadlock)) {
                hook(Event::BackedOff);
            }
        }
        told
    }
}

impl Drop for Acquire<'_> {
    #[inline]
    fn drop(&mut self) {
        if self.is_under_way {
            self.stop();
        }
    }
}

impl Acquire<'_> {
    /// It is dropped under way: the call ends, and has acquired nothing.
    #[cold]
    fn stop(&mut self) {
        let mut later = Later::default();
        let mut inside = self.inner.enter();
        later.dropped[0] = later.wakers.collect(|| inside.end_wait());
        let rare = inside.rare();
        rare.call = Call::None;
        later.wakers.extend(mem::take(&mut rare.others));
    }
}

/// The future that [`Tx::lock`](super::Tx::lock) returns. The lock calls of a context come one after the other: where several of these are
/// polled in turn, one of them waits for its mutex, and the others for that one.
#[must_use = "nothing is locked until it is awaited"]
pub struct Lock<'x, C: Class, T: ?Sized> {
    pub(super) mutex: &'x Mutex<C, T>,
    pub(super) acquire: Acquire<'x>,
}

impl<'x, C: Class, T: ?Sized> Future for Lock<'x, C, T> {
    type Output = Result<Guard<'x, C, T>, Error>;

    #[inline]
    fn poll(mut self: Pin<&mut Self>, cx: &mut core::task::Context<'_>) -> Poll<Self::Output> {
        let (mutex, inner) = (self.mutex, self.acquire.inner);
        let number = mutex.number(inner.class)?;
        self.acquire.poll(Asked::Lock(number), cx.waker()).map(|told| told.map(|()| Guard::of(mutex, inner)))
    }
}

/// The future that [`Tx::lock_arc`](super::Tx::lock_arc) returns.
#[must_use = "nothing is locked until it is awaited"]
pub struct LockArc<'x, C: Class, T: ?Sized> {
    pub(super) mutex: Arc<Mutex<C, T>>,
    pub(super) acquire: Acquire<'x>,
}

impl<'x, C: Class, T: ?Sized> Future for LockArc<'x, C, T> {
    type Output = Result<ArcGuard<'x, C, T>, Error>;

    #[inline]
    fn poll(mut self: Pin<&mut Self>, cx: &mut core::task::Context<'_>) -> Poll<Self::Output> {
        let inner = self.acquire.inner;
        let number = self.mutex.number(inner.class)?;
        let told = self.acquire.poll(Asked::Lock(number), cx.waker());
        told.map(|told| told.map(|()| ArcGuard { mutex: self.mutex.clone(), inner, value: PhantomData }))
    }
}

/// A locked mutex, and the way to its value, as long as a task has it, in whichever thread. Its drop releases the mutex.
///
/// It is `Send` only if its value is:
///
/// ```compile_fail,E0277
/// # use ww_mutex::{class, transaction, Error, Mutex};
/// # class!(struct Boxes: WoundWait);
/// # fn sends(_: impl Send) {}
/// let shared: Mutex<Boxes, _> = Mutex::new(std::rc::Rc::new(1));
/// sends(async { transaction!(Boxes, |tx| { let value = tx.lock(&shared).await?; Ok(**value) }) });
/// ```
///
/// and threads share it only if they may share its value:
///
/// ```compile_fail,E0277
/// # use ww_mutex::{class, transaction, Error, Mutex};
/// # class!(struct Boxes: WoundWait);
/// # fn shares(_: impl Sync) {}
/// # static BOX: Mutex<Boxes, std::cell::Cell<u64>> = Mutex::new(std::cell::Cell::new(0));
/// async { transaction!(Boxes, |tx| { shares(&tx.lock(&BOX).await?); Ok(()) }) };
/// ```
#[must_use = "the mutex is released as soon as its guard is dropped"]
#[clippy::has_significant_drop]
pub struct Guard<'x, C: Class, T: ?Sized> {
    mutex: &'x Mutex<C, T>,
    inner: &'x Inner,
    /// It is shared and sent only as the lines below say.
    value: PhantomData<*mut T>,
}

/// As [`Guard`], but it shares the mutex rather than borrowing it.
#[must_use = "the mutex is released as soon as its guard is dropped"]
#[clippy::has_significant_drop]
pub struct ArcGuard<'x, C: Class, T: ?Sized> {
    mutex: Arc<Mutex<C, T>>,
    inner: &'x Inner,
    value: PhantomData<*mut T>,
}

impl<'x, C: Class, T: ?Sized> Guard<'x, C, T> {
    /// By a context that has just locked the mutex for it.
    #[inline]
    pub(super) fn of(mutex: &'x Mutex<C, T>, inner: &'x Inner) -> Self {
        Guard { mutex, inner, value: PhantomData }
    }
}

/// What [`Mutex::lock_by_task`] returns: a guard that has its context itself.
#[must_use = "the mutex is released as soon as its guard is dropped"]
#[clippy::has_significant_drop]
pub struct LoneGuard<'x, C: Class, T: ?Sized> {
    mutex: &'x Mutex<C, T>,
    inner: Inner,
    value: PhantomData<*mut T>,
}

impl<'x, C: Class, T: ?Sized> LoneGuard<'x, C, T> {
    pub(super) fn of(mutex: &'x Mutex<C, T>, inner: Inner) -> Self {
        LoneGuard { mutex, inner, value: PhantomData }
    }
}

// SAFETY: it leads to a value that may be sent, and releases its mutex in any thread.
unsafe impl<C: Class, T: ?Sized + Send> Send for Guard<'_, C, T> {}
// SAFETY: likewise; and so may the `Arc`.
unsafe impl<C: Class, T: ?Sized + Send> Send for ArcGuard<'_, C, T> {}
// SAFETY: likewise; and so may the context.
unsafe impl<C: Class, T: ?Sized + Send> Send for LoneGuard<'_, C, T> {}

guards!(Guard ArcGuard LoneGuard => |guard| guard.inner.release(guard.mutex.index()));
