//! Wound/wait mutexes: a thread locks several values, in any order, and finds out which ones as it goes. If threads
//! would deadlock, a younger one releases what it holds, and tries again.
//!
//! ```
//! use ww_mutex::{class, Class, Error, Mutex};
//!
//! class!(struct Buffers: WoundWait);
//!
//! let list: Vec<Mutex<Buffers, u64>> = vec![Mutex::new(1), Mutex::new(2), Mutex::new(3)];
//! let sum = Buffers::run(|tx| {
//!     let mut first = tx.lock(&list[2])?;
//!     let second = tx.lock(&list[0])?; // in any order
//!     *first += *second;
//!     Ok(*first)
//! })?;
//! assert_eq!(sum, 4);
//! # Ok::<(), Error>(())
//! ```
//!
//! - A [`Class`] is a type: the mutexes among which deadlocks are detected. It is Wound-Wait or Wait-Die, and has **up to
//!   65,536 mutexes at a time**, and 1,024 contexts besides one for each thread, or as many as [`class!`] says: up to 2^24
//!   and 4,094.
//! - A [`Mutex`] belongs to a class, and guards a value. It may be a `static`, and may be moved while nobody borrows
//!   it.
//! - [`Class::run`] runs a body with a context, [`Tx`], and runs it again after each [`Deadlock`](Error::Deadlock).
//!   [`Options`] give it a deadline, or a [`Canceller`] for other threads.
//! - [`Mutex::lock`] locks one mutex without a context, as std's does.
//! - [`typed`] has contexts without closures: there the borrow checker keeps the order of the calls.
//! - A [`table`] has locks by keys of any bytes, as a database's lock manager has them. [`Suspended`] is the age of a transaction that a
//!   framework retries, and [`why`] says who is in the way.
//!
//! # The body runs again
//!
//! After [`Deadlock`](Error::Deadlock) all guards are dropped, and the body that [`Class::run`] was given runs again from
//! its beginning. What it changed before is still changed. So a body locks all that it needs before it changes anything,
//! and what must happen once, like sending a message, comes after `run`.
//!
//! Such a mistake shows only where threads collide. The feature `debug-library` links a library in which some lock calls
//! return `Deadlock` without need: run the tests of a program with it.
//!
//! # What it doesn't do
//!
//! Deadlocks are detected among the mutexes of one class, and among contexts. A thread that has two contexts, or locks
//! a mutex without its context inside a body, can wait for itself forever; with debug assertions it panics if that is
//! certain. No deadlock is detected that involves another class, another kind of lock, a channel or a thread that is
//! waited for.
//!
//! There is no condition variable, no mapped guard, and no `lock_api`, whose locks know no class. [`typed`] has neither readers,
//! lists nor limits, and tasks have no upgrade.
//!
//! It isn't promised that a waiting call returns, or in which order; there is no fairness. In a
//! forked child a class goes on unless it was in use at the fork: a mutex was locked, a context had begun, or a thread was
//! amid a call. Then each use panics there. Signal handlers may use nothing of it. A wait blocks its thread, except the
//! waits of tasks: the feature `async` has a module for these, `task`.
//!
//! # Panics and leaks
//!
//! There is no poison: a panic releases what its guards held on its way through the body, and ends the context. A value
//! that it may leave half changed has to say so itself. As those of `parking_lot`, mutexes aren't `RefUnwindSafe`.
//!
//! A guard of a context that is forgotten ([`std::mem::forget`]) is released with the context's next attempt, or at its
//! end: by then nothing can reach the value. That takes a look at each mutex that the class has had at a time, which is
//! milliseconds for 65,536 of them. A guard without a context keeps its mutex locked, and one of the contexts of the class in
//! use, forever.
//!
//! # What it is built on
//!
//! The locks are those of `libww`, whose core is proved: mutual exclusion, that each cycle of waits contains a victim,
//! and that a context has to back off only because of an older one. What `libww` adds to its core in C (waits, wake-ups,
//! deadlines, cancels), and what this crate adds, is tested. It runs on Linux.

// docs.rs says of each item which feature it needs.
#![cfg_attr(docsrs, feature(doc_cfg))]

mod age;
mod cancel;
mod class;
mod clock;
mod context;
mod error;
#[cfg_attr(not(feature = "events"), allow(dead_code, unused_imports, clippy::unused_self, reason = "nothing is told"))]
mod events;
mod ffi;
mod guard;
mod guards;
mod lock;
mod mutex;
mod number;
mod options;
mod own;
mod place;
mod shared;
mod suspended;
pub mod table;
#[cfg(feature = "async")]
#[allow(clippy::incompatible_msrv, reason = "the feature asks for Rust 1.85")]
pub mod task;
mod tx;
pub mod typed;
pub mod why;

use core::ffi::{c_char, c_void, CStr};

pub use age::Age;
pub use cancel::Canceller;
#[doc(hidden)]
pub use class::ByClass_;
pub use class::{Class, Counts, Kind, RawClass};
pub use error::Error;
#[cfg(feature = "events")]
pub use events::{Event, Wait};
pub use guard::{ArcMutexGuard, MutexGuard};
pub use guards::Guards;
pub use mutex::Mutex;
pub use options::Options;
pub use shared::{ArcRead, ArcSharedMutexGuard, SharedMutex, SharedMutexGuard, UpgradableGuard};
pub use suspended::Suspended;
pub use tx::Tx;

/// The version of `libww`: 10,000 times its first number, 100 times the second one, and the third one.
#[must_use]
pub fn library_version() -> u32 {
    // SAFETY: it takes no arguments, and returns a constant.
    unsafe { ffi::ww_version() }
}

/// From now on this function gets each message with which the C library ends the program, and each of the debug library's,
/// in place of standard error. Threads may call it at the same time. It uses no class, and if it panics the program ends.
/// What another call has set before stays in memory.
pub fn report_to(function: impl Fn(&str) + Send + Sync + 'static) {
    type Reports = Box<dyn Fn(&str) + Send + Sync>;

    unsafe extern "C" fn pass(data: *mut c_void, message: *const c_char) {
        // SAFETY: `data` is what is given below, which nobody frees; the message ends with a zero.
        let (function, message) = unsafe { (&*data.cast::<Reports>(), CStr::from_ptr(message)) };
        function(&message.to_string_lossy());
    }

    let data: *mut Reports = Box::into_raw(Box::new(Box::new(function)));
    // SAFETY: whichever data a thread finds, all were made for this one function.
    unsafe { ffi::ww_report_to(Some(pass), data.cast()) };
}

/// The page for readers is tested, too.
#[cfg(all(doctest, feature = "async"))]
#[doc = include_str!("../README.md")]
struct Readme;

#[cfg(test)]
mod tests {
    use super::{ffi, report_to};
    use std::ffi::c_int;
    use std::mem::MaybeUninit;

    extern "C" {
        fn fork() -> c_int;
        fn waitpid(child: c_int, status: *mut c_int, options: c_int) -> c_int;
        fn _exit(status: c_int) -> !;
    }

    #[test]
    fn a_message_comes_to_the_program() {
        // SAFETY: the child calls nothing that another thread of this test may have been amid.
        let child = unsafe { fork() };
        if child == 0 {
            // SAFETY: nothing of the parent's is ended twice.
            report_to(|message| unsafe { _exit(c_int::from(!message.contains("the context has ended"))) });
            // SAFETY: a context of zeros has ended.
            unsafe { ffi::ww_acquire_fini(MaybeUninit::<ffi::ww_acquire_ctx>::zeroed().as_mut_ptr()) };
        }
        let mut status = 0;
        // SAFETY: it writes the status alone.
        assert_eq!((unsafe { waitpid(child, &raw mut status, 0) }, status), (child, 0));
    }
}
