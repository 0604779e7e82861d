use crate::ffi;
use core::ffi::c_int;
use core::fmt;

/// Why a mutex wasn't locked.
#[derive(Clone, Copy, PartialEq, Eq, Hash)]
#[non_exhaustive]
pub enum Error {
    /// An older context goes first. Drop all guards of this context, and then try again:
    /// [`Class::run`](crate::Class::run) does so once the body has returned, as `?` does.
    Deadlock,
    /// The context holds this mutex already. A second guard would be a second `&mut` to one value.
    Duplicate,
    /// The [`Canceller`](crate::Canceller) ended the wait, or [`Class::cancel`](crate::Class::cancel).
    Cancelled,
    /// The deadline came before the mutex was locked.
    TimedOut,
    /// All mutexes that the class may have are in use: 65,536, or its own limit; or all keys that a table may have.
    Exhausted,
    /// There is no memory to open the class, at its first use, or for a table or its key.
    OutOfMemory,
    /// The key is taken, and the call doesn't wait for it ([`Transaction::try_lock`](crate::table::Transaction::try_lock)).
    Taken,
    /// The transaction doesn't have the key ([`Transaction::unlock`](crate::table::Transaction::unlock)).
    NotHeld,
}

impl Error {
    /// Whether all guards must be dropped before anything else can be locked.
    #[must_use]
    pub const fn is_deadlock(self) -> bool {
        matches!(self, Error::Deadlock)
    }
}

impl fmt::Display for Error {
    fn fmt(&self, f: &mut fmt::Formatter<'_>) -> fmt::Result {
        f.write_str(match self {
            Error::Deadlock => "an older context goes first: return this by `?`, and the body runs again",
            Error::Duplicate => {
                "the context holds this mutex already, or reads what it would write: see `Tx::read_upgradable`"
            }
            Error::Cancelled => "the wait was cancelled",
            Error::TimedOut => "the deadline passed",
            Error::Exhausted => {
                "the class has all mutexes that it may have, 65,536 or as many as `class!` says, or the table all keys"
            }
            Error::OutOfMemory => "there is no memory to open the class, or for a key",
            Error::Taken => "another transaction has the key",
            Error::NotHeld => "the transaction doesn't have the key",
        })
    }
}

/// As derived, but an `unwrap` of [`Deadlock`](Error::Deadlock) says what to do instead.
impl fmt::Debug for Error {
    fn fmt(&self, f: &mut fmt::Formatter<'_>) -> fmt::Result {
        f.write_str(match self {
            Error::Deadlock => "Deadlock (not to be unwrapped: return it by `?`, and the body runs again)",
            Error::Duplicate => "Duplicate",
            Error::Cancelled => "Cancelled",
            Error::TimedOut => "TimedOut",
            Error::Exhausted => "Exhausted",
            Error::OutOfMemory => "OutOfMemory",
            Error::Taken => "Taken",
            Error::NotHeld => "NotHeld",
        })
    }
}

impl core::error::Error for Error {}

/// Why the library gave no mutex, no context, or no class.
#[cold]
#[track_caller]
pub(crate) fn of_making(answer: c_int) -> Error {
    match -answer {
        ffi::ENOSPC => Error::Exhausted,
        ffi::ENOMEM => Error::OutOfMemory,
        ffi::EINTR => Error::Cancelled,
        _ => in_child(),
    }
}

#[cold]
#[track_caller]
pub(crate) fn in_child() -> ! {
    panic!("the class was in use at a fork, of which this is the child: fork while no mutex is locked and no context begun")
}
