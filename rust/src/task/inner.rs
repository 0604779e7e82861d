//! What the parts of a context share.

use super::shared::Asked;
use super::waker::{Lent, Wakers};
use crate::class::RawClass;
use crate::number::Number;
use crate::{error, ffi, Error};
use core::cell::{Cell, UnsafeCell};
use core::ffi::c_int;
use core::hint;
use core::mem::{ManuallyDrop, MaybeUninit};
use core::ops::{Deref, DerefMut};
use core::ptr;
use core::sync::atomic::{AtomicBool, Ordering};
use core::task::{Poll, Waker};
use std::thread;
use std::time::Duration;

/// A context. Its `Tx` and its guards may be in several threads, so one of them uses it at a time.
pub(super) struct Inner {
    is_used: AtomicBool,
    inside: UnsafeCell<Inside>,
    pub(super) class: &'static RawClass,
}

// SAFETY: the library lets any thread use a context, one at a time, which `enter` sees to.
unsafe impl Send for Inner {}
// SAFETY: as above.
unsafe impl Sync for Inner {}

pub(super) struct Inside {
    /// As long as it hasn't begun, only `own` is there. The library keeps no address of it.
    pub(super) raw: ffi::ww_acquire_ctx,
    /// As long as there is none of it, a lock call or a release is the library's and nothing else. `Inner` drops it.
    pub(super) rare: ManuallyDrop<Option<Rare>>,
}

/// What a context has once a lock call had to wait.
#[derive(Default)]
pub(super) struct Rare {
    /// A lock call got `Deadlock`, so nothing is locked until all is released.
    pub(super) is_over: bool,
    /// What comes first from then on: the mutex at which that was; or, where it was a shared one, who the library knows.
    pub(super) contended: Option<Asked>,
    /// Until then no other mutex gets its number.
    pub(super) keeps: Option<ffi::Contended>,
    /// It came first, and nobody has asked for it yet.
    pub(super) prelocked: Option<Number>,
    pub(super) call: Call,
    /// Tasks whose lock calls come behind that one.
    pub(super) others: Vec<Waker>,
}

impl Rare {
    /// A lock call may begin.
    pub(super) fn is_free(&self) -> bool {
        matches!(self.call, Call::None) && !self.is_over
    }

    /// Hands out what the context has from its back-off, if that is it.
    fn takes_first(&mut self, number: Number) -> bool {
        self.prelocked.take_if(|first| *first == number).is_some()
    }
}

/// The one lock call that may be on its way: the library knows which one that is.
#[derive(Default)]
pub(super) enum Call {
    #[default]
    None,
    /// It waits, with this waker; `None`: a panic came before there was another one.
    Waits(Option<Lent>),
    /// The wait was ended, since a guard had to be released: the call is to be made again.
    Ended,
}

/// What is done when the context isn't used any more: wakers are other programs', also where they are dropped. A drop that panics
/// comes after all wake-ups.
#[derive(Default)]
pub(super) struct Later {
    pub(super) wakers: Wakers,
    pub(super) dropped: [Option<Waker>; 2],
}

pub(super) struct Entered<'i>(&'i Inner);

impl Deref for Entered<'_> {
    type Target = Inside;

    #[inline]
    fn deref(&self) -> &Inside {
        // SAFETY: nobody else has entered.
        unsafe { &*self.0.inside.get() }
    }
}

impl DerefMut for Entered<'_> {
    #[inline]
    fn deref_mut(&mut self) -> &mut Inside {
        // SAFETY: nobody else has entered.
        unsafe { &mut *self.0.inside.get() }
    }
}

std::thread_local! {
    /// How many contexts this thread is using. Only with debug assertions.
    static USED: Cell<u32> = const { Cell::new(0) };
}

/// Wakers may use any context, so none is called meanwhile.
pub(super) fn is_using() -> bool {
    cfg!(debug_assertions) && USED.get() != 0
}

impl Drop for Entered<'_> {
    #[inline]
    fn drop(&mut self) {
        if cfg!(debug_assertions) {
            USED.set(USED.get() - 1);
        }
        self.0.is_used.store(false, Ordering::Release);
    }
}

impl Inner {
    #[inline]
    pub(super) fn new(class: &'static RawClass) -> Self {
        let mut inner = MaybeUninit::<Self>::uninit();
        let at = inner.as_mut_ptr();
        // SAFETY: the places are there, and after these all is that a context has which hasn't begun. Written one by one, since
        // the compiler would fill a value that is partly uninitialized.
        unsafe {
            (&raw mut (*at).is_used).write(AtomicBool::new(false));
            (&raw mut (*at).class).write(class);
            let inside = UnsafeCell::raw_get(&raw const (*at).inside);
            (&raw mut (*inside).rare).write(ManuallyDrop::new(None));
            ffi::own(&raw mut (*inside).raw).write(ptr::null_mut());
            inner.assume_init()
        }
    }

    /// Nobody else has it.
    #[inline]
    pub(super) fn own(&mut self) -> &mut Inside {
        self.inside.get_mut()
    }

    #[inline]
    pub(super) fn enter(&self) -> Entered<'_> {
        if self.is_used.swap(true, Ordering::Acquire) {
            self.await_others();
        }
        if cfg!(debug_assertions) {
            USED.set(USED.get() + 1);
        }
        Entered(self)
    }

    /// Another thread is in the middle of a call, for some instructions, unless it is preempted there. A thread of a higher
    /// priority may have its processor then, which a yield doesn't give it: so in the end this sleeps.
    #[cold]
    fn await_others(&self) {
        for step in 0u32.. {
            match step {
                0..64 => hint::spin_loop(),
                64..128 => thread::yield_now(),
                _ => thread::sleep(Duration::from_micros(50)),
            }
            if !self.is_used.swap(true, Ordering::Acquire) {
                return;
            }
        }
    }

    /// Releases a mutex that a guard held. The library can't do that during a wait, so the wait ends, and its task is woken.
    #[inline]
    pub(super) fn release(&self, index: u32) {
        let mut inside = self.enter();
        let mut answer = ffi::NOTHING_WAS_DONE;
        if inside.rare.is_none() {
            // SAFETY: the context holds it, and no call of it is on its way.
            answer = unsafe { ffi::unlock_at_once(index, inside.raw()) };
        }
        if answer != 0 {
            Self::release_rarely(inside, index, answer);
        }
    }

    /// Makes the call if it can be made at once, and returns whether it did.
    pub(super) fn tries(&self, asked: Asked) -> bool {
        let mut wakers = Wakers::default();
        let mut inside = self.enter();
        wakers.collect(|| inside.tries(self.class, asked))
    }

    #[cold]
    fn release_rarely(mut inside: Entered<'_>, index: u32, answer: c_int) {
        let mut wakers = Wakers::default();
        let back = wakers.collect(|| {
            let back = inside.end_wait();
            // SAFETY: as above.
            unsafe { ffi::unlock_further(index, inside.raw(), answer) };
            back
        });
        wakers.extend(back);
        drop(inside);
    }
}

impl Inside {
    /// The library says so.
    #[inline]
    pub(super) fn has_begun(&self) -> bool {
        // SAFETY: `own` is always there.
        unsafe { !(*ffi::own((&raw const self.raw).cast_mut())).is_null() }
    }

    #[inline]
    pub(super) fn raw(&mut self) -> *mut ffi::ww_acquire_ctx {
        &raw mut self.raw
    }

    pub(super) fn rare(&mut self) -> &mut Rare {
        self.rare.get_or_insert_with(Rare::default)
    }

    /// Whether it got `Deadlock`, and hasn't backed off since.
    #[inline]
    pub(super) fn is_over(&self) -> bool {
        self.rare.as_ref().is_some_and(|rare| rare.is_over)
    }

    /// The last call got `Deadlock`: from now on this comes first.
    fn comes_first(&mut self, contended: Asked) {
        // SAFETY: the last call of the context returned that; classes are static, and never freed.
        let keeps = unsafe { ffi::Contended::of(self.raw()) };
        let rare = self.rare();
        rare.is_over = true;
        (rare.contended, rare.keeps) = (Some(contended), Some(keeps));
    }

    /// What an answer of the library comes to.
    pub(super) fn told(&mut self, asked: Asked, answer: c_int) -> Result<(), Error> {
        match -answer {
            0 => Ok(()),
            ffi::EALREADY => Err(Error::Duplicate),
            ffi::EDEADLK => {
                self.comes_first(if matches!(asked, Asked::Lock(_)) { asked } else { Asked::Await });
                Err(Error::Deadlock)
            }
            _ => Err(error::of_making(answer)),
        }
    }

    /// What the library has lent, if nobody was or is being woken by it.
    fn take_back(&mut self, lent: Lent) -> Option<Waker> {
        // SAFETY: a lock call is on its way; if the library says so, it has the waker no more.
        unsafe { ffi::ww_poll_take_back(self.raw(), ptr::null_mut()).then(|| lent.back()) }
    }

    /// No call is on its way any more that waits, and what one has acquired by then is released. Its waker, if that wasn't called.
    pub(super) fn end_wait(&mut self) -> Option<Waker> {
        let rare = self.rare.as_mut()?;
        let Call::Waits(lent) = &mut rare.call else { return None };
        let lent = lent.take();
        rare.call = Call::Ended;
        let back = lent.and_then(|lent| self.take_back(lent));
        // SAFETY: the context has begun.
        if unsafe { ffi::ww_acquire_end_wait(self.raw()) } == -ffi::EDEADLK {
            self.comes_first(Asked::Await);
        }
        back
    }

    /// Whether this lock call needs no more than its first step.
    #[inline]
    pub(super) fn locks_at_once(&mut self, asked: Asked) -> bool {
        match asked {
            // SAFETY: the context has begun, and no call of it is on its way.
            Asked::Lock(number) if self.rare.is_none() => unsafe { ffi::locks_at_once(number.index(), self.raw()) },
            _ => false,
        }
    }

    fn tries(&mut self, class: &'static RawClass, asked: Asked) -> bool {
        if let Some(rare) = self.rare.as_mut() {
            if !rare.is_free() {
                return false;
            }
            if matches!(asked, Asked::Lock(number) if rare.takes_first(number)) {
                return true;
            }
        }
        let raw = self.raw();
        // SAFETY: the context has begun, and no call of it is on its way; the number is one of its class.
        unsafe {
            match asked {
                Asked::Lock(number) => ffi::ww_number_trylock(number.index(), raw) == 1,
                Asked::Read(number) => ffi::tries_shared(class.at(number), raw, false),
                Asked::Write(number) => ffi::tries_shared(class.at(number), raw, true),
                Asked::Await => false,
            }
        }
    }

    /// The call, if it needn't wait; else `-ETIMEDOUT`.
    pub(super) fn poll_once(&mut self, class: &'static RawClass, asked: Asked) -> c_int {
        if let Some(rare) = self.rare.as_mut() {
            if !rare.is_free() {
                return -ffi::ETIMEDOUT;
            }
            if matches!(asked, Asked::Lock(number) if rare.takes_first(number)) {
                return 0;
            }
        }
        // SAFETY: the number is one of the context's class, and no call is on its way.
        unsafe { asked.poll_once(class, self.raw()) }
    }

    /// The lock call goes on, whose future this is, or begins.
    pub(super) fn poll(
        &mut self,
        class: &'static RawClass,
        asked: Asked,
        waker: &Waker,
        later: &mut Later,
    ) -> Poll<Result<(), Error>> {
        let mut lent = None;
        if let Call::Waits(old) = &mut self.rare().call {
            match old.take().and_then(|old| self.take_back(old)) {
                Some(back) if back.will_wake(waker) => lent = Some(Lent::lend(back)),
                back => later.dropped[0] = back, // The task runs, and has another one.
            }
        } else if self.is_over() {
            return Poll::Ready(Err(Error::Deadlock));
        // SAFETY: it has begun, and no call is on its way; others wait for this one until it is.
        } else if unsafe { asked.is_duplicate(class, self.raw()) } {
            return Poll::Ready(Err(Error::Duplicate));
        }
        // If the clone panics, the call is as it was, but for its waker.
        let lent = lent.unwrap_or_else(|| Lent::lend(waker.clone()));
        // SAFETY: the context has begun; what is on its way is this call, or nothing.
        let answer = later.wakers.collect(|| unsafe { asked.poll(class, self.raw(), &raw const lent.0) });
        if answer == -ffi::EINPROGRESS {
            self.rare().call = Call::Waits(Some(lent));
            return Poll::Pending;
        }
        self.rare().call = Call::None;
        // SAFETY: the library hasn't taken it.
        later.dropped[1] = Some(unsafe { lent.back() });
        Poll::Ready(self.told(asked, answer))
    }

    /// Whatever the context, which is of this class, holds, also what was forgotten. A lock future that was forgotten may have left
    /// a call, whose waker this returns.
    ///
    /// # Safety
    ///
    /// It has begun, and nobody has a guard of it any more.
    pub(super) unsafe fn release_all(&mut self, class: &'static RawClass) -> Option<Waker> {
        let back = self.end_wait();
        let prelocked = self.rare.as_mut().and_then(|rare| {
            rare.call = Call::None;
            rare.prelocked.take()
        });
        // SAFETY: as asked for here.
        unsafe { class.release_all(self.raw(), prelocked) };
        back
    }

    /// How many mutexes it holds.
    ///
    /// # Safety
    ///
    /// It has begun.
    #[inline]
    unsafe fn held(&mut self) -> u32 {
        // SAFETY: as asked for here.
        unsafe { *ffi::acquired(self.raw()) }
    }

    /// # Safety
    ///
    /// It has begun, and holds nothing; it isn't used any more.
    #[inline]
    unsafe fn end(&mut self) {
        // SAFETY: as asked for here.
        unsafe { ffi::ww_acquire_fini(self.raw()) };
    }
}

impl Drop for Inner {
    fn drop(&mut self) {
        let inside = self.inside.get_mut();
        // SAFETY: it has begun then.
        unsafe {
            if inside.has_begun() {
                if inside.rare.is_some() || inside.held() != 0 {
                    return self.end_rarely();
                }
                inside.end();
            }
        }
    }
}

impl Inner {
    /// # Safety
    ///
    /// It has begun, and isn't used any more.
    #[cold]
    unsafe fn end_rarely(&mut self) {
        let class = self.class;
        let inside = self.inside.get_mut();
        // SAFETY: as asked for here; guards borrow it, and none is left.
        unsafe {
            let back = inside.release_all(class);
            inside.end();
            drop(back);
            ManuallyDrop::drop(&mut inside.rare);
        }
    }
}
