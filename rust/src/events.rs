//! What a hook is told of. Without the feature `events` nothing of it is compiled into anything.

use crate::ffi::{self, timespec};
use crate::{error, Error};
use core::ffi::c_int;
use core::mem;
use core::sync::atomic::{AtomicPtr, Ordering};
use std::time::{Duration, Instant};

/// What the hook of a class is told ([`Class::on_event`](crate::Class::on_event)).
#[derive(Clone, Copy, Debug, PartialEq, Eq)]
#[non_exhaustive]
pub enum Event {
    /// A context has to wait for this.
    WaitBegan(Wait),
    /// The wait has ended: with what it was for, or with this error. That is `Cancelled` also if a task's future was dropped.
    WaitEnded(Wait, Duration, Result<(), Error>),
    /// A lock call returns [`Deadlock`](Error::Deadlock): the context releases all, and its body runs again.
    BackedOff,
}

/// What is waited for.
#[derive(Clone, Copy, Debug, PartialEq, Eq)]
#[non_exhaustive]
pub enum Wait {
    /// A mutex, or those who read one.
    Mutex,
    /// A context of the class, by a task.
    Context,
}

pub(crate) type Hook = fn(Event);

/// The hook of a class, if it has one.
pub(crate) struct Hooked(AtomicPtr<()>);

impl Hooked {
    pub(crate) const fn new() -> Self {
        Hooked(AtomicPtr::new(core::ptr::null_mut()))
    }

    #[cfg(feature = "events")]
    pub(crate) fn set(&self, hook: Hook) {
        self.0.store(hook as *mut (), Ordering::Relaxed);
    }

    #[inline]
    pub(crate) fn get(&self) -> Option<Hook> {
        if !cfg!(feature = "events") {
            return None;
        }
        // SAFETY: null, which is `None`, or a function that `set` had.
        unsafe { mem::transmute::<*mut (), Option<Hook>>(self.0.load(Ordering::Relaxed)) }
    }
}

/// Makes a call that may wait until a time, or forever (null): first for no time, to see whether it has to.
#[cold]
pub(crate) fn watch(hook: Hook, until: *const timespec, call: impl Fn(*const timespec) -> c_int) -> c_int {
    let first = call(&timespec { tv_sec: 0, tv_nsec: 0 });
    if first != -ffi::ETIMEDOUT {
        return first;
    }
    let mut watch = Watch::default();
    watch.begins(Some(hook), Wait::Mutex);
    let answer = call(until);
    watch.ends(of_lock(answer));
    answer
}

/// What a lock call returned, which didn't find the mutex held by its own context.
fn of_lock(answer: c_int) -> Result<(), Error> {
    match -answer {
        0 => Ok(()),
        ffi::EDEADLK => Err(Error::Deadlock),
        ffi::EALREADY => Err(Error::Duplicate),
        ffi::ETIMEDOUT => Err(Error::TimedOut),
        _ => Err(error::of_making(answer)),
    }
}

/// A wait. One that is dropped, or goes down with a panic, ends as a cancelled one.
#[derive(Default)]
pub(crate) struct Watch {
    #[cfg(feature = "events")]
    begun: Option<(Hook, Wait, Instant)>,
}

impl Watch {
    /// If it hasn't begun yet.
    #[inline]
    pub(crate) fn begins(&mut self, hook: Option<Hook>, wait: Wait) {
        #[cfg(feature = "events")]
        if let (Some(hook), None) = (hook, self.begun) {
            self.begun = Some((hook, wait, Instant::now()));
            hook(Event::WaitBegan(wait));
        }
        let _ = (hook, wait);
    }

    /// If it has begun.
    #[inline]
    pub(crate) fn ends(&mut self, told: Result<(), Error>) {
        #[cfg(feature = "events")]
        if let Some((hook, wait, begun)) = self.begun.take() {
            hook(Event::WaitEnded(wait, begun.elapsed(), told));
        }
        let _ = told;
    }
}

#[cfg(feature = "events")]
impl Drop for Watch {
    #[inline]
    fn drop(&mut self) {
        self.ends(Err(Error::Cancelled));
    }
}
