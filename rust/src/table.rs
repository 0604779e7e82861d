//! Locks by keys of any bytes, shared or exclusive, as a database's lock manager has them.
//!
//! ```
//! use ww_mutex::table::{Mode, Table};
//! use ww_mutex::{class, Class, Error, Suspended};
//!
//! class!(struct Rows: WoundWait);
//!
//! fn transfer(table: &Table<Rows>, me: u64, from: &str, to: &str) -> Result<(), Error> {
//!     let mut age = Suspended::new();
//!     loop {
//!         let mut transaction = table.begin(me, Rows::options(), &mut age)?;
//!         let locked = transaction.lock(from, Mode::Exclusive).and_then(|_| transaction.lock(to, Mode::Exclusive));
//!         match locked {
//!             Err(Error::Deadlock) => age = transaction.suspend(), // another thread may go on with it
//!             Err(error) => return Err(error),
//!             // .. what the keys protect is changed; and then the end of the transaction releases both
//!             Ok(_) => return Ok(()),
//!         }
//!     }
//! }
//!
//! let table = Table::open()?;
//! transfer(&table, 7, "accounts/1", "accounts/2")?;
//! assert!(table.all_users().is_empty());
//! # Ok::<(), Error>(())
//! ```
//!
//! Different keys never wait for one another. A lock is a right that the program has given itself: no value is behind it, so no guard
//! borrows anything, and a [`Transaction`] is a value that any thread may go on with, commit or drop. A framework that knows transactions
//! by numbers keeps them in a map.

use crate::age::Kept;
use crate::class::OfClass;
use crate::why::Counts;
use crate::{error, ffi, place, Class, Error, Options, Suspended};
use core::any::Any;
use core::cell::Cell;
use core::ffi::{c_uint, c_void};
use core::marker::PhantomData;
use core::num::NonZeroU32;
use core::{fmt, mem, ptr, slice};
use std::panic::{catch_unwind, resume_unwind, AssertUnwindSafe};
use std::sync::Arc;
use std::time::Instant;

/// How a key is locked.
#[derive(Clone, Copy, Debug, PartialEq, Eq, Hash)]
pub enum Mode {
    /// Beside others that share it.
    Shared,
    /// Alone.
    Exclusive,
}

impl Mode {
    fn raw(self) -> c_uint {
        match self {
            Mode::Shared => ffi::WW_TABLE_SHARED,
            Mode::Exclusive => ffi::WW_TABLE_EXCLUSIVE,
        }
    }

    fn of(raw: c_uint) -> Self {
        if raw == ffi::WW_TABLE_EXCLUSIVE {
            Mode::Exclusive
        } else {
            Mode::Shared
        }
    }
}

/// Since when a transaction has a key that it asked for.
#[derive(Clone, Copy, Debug, PartialEq, Eq, Hash)]
pub enum Granted {
    /// By this call, which may have raised a shared lock to an exclusive one.
    Now,
    /// It had the key before in this mode, or exclusive.
    Before,
}

/// How many keys a transaction had: [`Transaction::mark`].
#[derive(Clone, Copy, Debug, Default, PartialEq, Eq, PartialOrd, Ord, Hash)]
pub struct Mark(usize);

/// One that has a key, or waits for it.
#[derive(Clone, Debug, PartialEq, Eq, Hash)]
#[non_exhaustive]
pub struct User {
    /// The key.
    pub key: Box<[u8]>,
    /// Whose transaction that is, as its [`begin`](Table::begin) said.
    pub owner: u64,
    /// In which mode it has the key, or asks for it.
    pub mode: Mode,
    /// It doesn't have it yet.
    pub waits: bool,
}

/// The table in the library. Each transaction shares it, so it is closed once none is left.
struct Raw(*mut ffi::ww_table);

// SAFETY: any thread may call the library with a table.
unsafe impl Send for Raw {}
// SAFETY: likewise, at the same time.
unsafe impl Sync for Raw {}

impl Drop for Raw {
    fn drop(&mut self) {
        // SAFETY: it is open, and nobody else has it.  Where a child of a fork still has keys, it stays.
        unsafe { ffi::ww_table_close(self.0) };
    }
}

/// A table of locks by keys, over a class: a handle, whose clones are the same table. In a child of a fork it isn't used.
///
/// A key uses one of the class's [mutexes](crate::Mutex) while it is locked or waited for, and each context keeps up to 32 for its
/// next keys.
pub struct Table<C: Class> {
    raw: Arc<Raw>,
    class: OfClass<C>,
}

std::thread_local! {
    /// This thread shows a program who has a key, while part of a table is locked.
    static SHOWS: Cell<bool> = const { Cell::new(false) };
}

/// # Panics
///
/// This thread is in a function that says who has expired.
#[track_caller]
fn check_call() {
    assert!(!SHOWS.get(), "a function that says who has expired uses no table");
}

impl<C: Class> Table<C> {
    /// A table with as many keys at a time as its class has mutexes.
    ///
    /// # Errors
    ///
    /// `OutOfMemory`.
    ///
    /// # Panics
    ///
    /// In a forked child, if the class was in use at the fork.
    #[track_caller]
    pub fn open() -> Result<Self, Error> {
        Self::open_with(0)
    }

    /// A table in which at most this many keys are locked or waited for at a time, and kept.
    ///
    /// # Errors
    ///
    /// As [`open`](Self::open).
    ///
    /// # Panics
    ///
    /// As [`open`](Self::open).
    #[track_caller]
    pub fn open_limited(keys: NonZeroU32) -> Result<Self, Error> {
        Self::open_with(keys.get())
    }

    #[track_caller]
    fn open_with(keys: u32) -> Result<Self, Error> {
        let mut raw = ptr::null_mut();
        // SAFETY: the class is static, and `raw` lives for the call.
        match unsafe { ffi::ww_table_open(&raw mut raw, C::raw().get(), keys) } {
            0 => Ok(Table { raw: Arc::new(Raw(raw)), class: PhantomData }),
            answer => Err(error::of_making(answer)),
        }
    }

    /// Begins a transaction, whose keys are shown as this owner's; with the age of what is suspended, if anything is. That waits
    /// first for the key at which it got [`Deadlock`](Error::Deadlock).
    ///
    /// # Errors
    ///
    /// `TimedOut` and `Cancelled`, by the options, which limit all waits of the transaction: then what was suspended still is.
    /// `OutOfMemory`, if this opens the class.
    ///
    /// # Panics
    ///
    /// In a forked child, if the class was in use at the fork.
    #[track_caller]
    pub fn begin(&self, owner: u64, options: Options<'_, C>, age: &mut Suspended<C>) -> Result<Transaction<C>, Error> {
        check_call();
        let kept = options.begin_with(&mut age.retry)?;
        Ok(Transaction { kept: Some(kept), table: self.clone(), owner })
    }

    /// Who has the key, and who waits for it, the newest first. They go on meanwhile, so it may be out of date when it returns.
    #[must_use]
    #[track_caller]
    pub fn users(&self, key: impl AsRef<[u8]>) -> Vec<User> {
        let key = key.as_ref();
        self.see(key.as_ptr().cast(), key.len())
    }

    /// The same of all keys: each part of the table at another moment.
    #[must_use]
    #[track_caller]
    pub fn all_users(&self) -> Vec<User> {
        self.see(ptr::null(), 0)
    }

    #[track_caller]
    fn see(&self, key: *const c_void, length: usize) -> Vec<User> {
        unsafe extern "C" fn sees(data: *mut c_void, user: *const ffi::ww_table_user) {
            // SAFETY: `data` is the list below; the user, and its key, live for this call.
            unsafe {
                let (users, user) = (&mut *data.cast::<Vec<User>>(), &*user);
                let key = slice::from_raw_parts(user.key.cast::<u8>(), user.length).into();
                users.push(User { key, owner: user.owner, mode: Mode::of(user.mode), waits: user.waits });
            }
        }

        check_call();
        let mut users = Vec::new();
        // SAFETY: the table is open; the key and the list live for the call.
        unsafe { ffi::ww_table_see(self.raw.0, key, length, sees, (&raw mut users).cast()) };
        users
    }
}

impl<C: Class> Clone for Table<C> {
    fn clone(&self) -> Self {
        Table { raw: Arc::clone(&self.raw), class: PhantomData }
    }
}

impl<C: Class> fmt::Debug for Table<C> {
    fn fmt(&self, f: &mut fmt::Formatter<'_>) -> fmt::Result {
        f.debug_struct("Table").finish_non_exhaustive()
    }
}

/// A transaction, with its keys: [`Table::begin`]. Its drop releases them, and ends it. Any thread may go on with it.
///
/// Its calls are made by one thread at a time:
///
/// ```compile_fail,E0277
/// # use ww_mutex::{class, Class};
/// # class!(struct Rows: WoundWait);
/// fn shared<T: Sync>() {}
/// shared::<ww_mutex::table::Transaction<Rows>>();
/// ```
#[must_use = "a transaction ends as soon as it is dropped"]
pub struct Transaction<C: Class> {
    /// `None`: it is suspended.
    kept: Option<Kept<C>>,
    table: Table<C>,
    owner: u64,
}

// SAFETY: the library lets a context go on in any thread, and its values are plain; one thread at a time has it.
unsafe impl<C: Class> Send for Transaction<C> {}

/// What a program is asked about who has a key.
struct Asked<'f> {
    has_expired: &'f mut dyn FnMut(u64, Mode) -> bool,
    panic: Option<Box<dyn Any + Send>>,
}

impl Asked<'_> {
    unsafe extern "C" fn meets(data: *mut c_void, user: *const ffi::ww_table_user) -> bool {
        // SAFETY: `data` is what `lock_by` made, and is used by nothing else meanwhile; the user lives for this call.
        let (asked, user) = unsafe { (&mut *data.cast::<Asked<'_>>(), &*user) };
        SHOWS.set(true);
        let told = catch_unwind(AssertUnwindSafe(|| (asked.has_expired)(user.owner, Mode::of(user.mode))));
        SHOWS.set(false);
        told.unwrap_or_else(|panic| {
            asked.panic = Some(panic);
            false
        })
    }
}

impl<C: Class> Transaction<C> {
    /// Whose keys others see.
    #[must_use]
    pub fn owner(&self) -> u64 {
        self.owner
    }

    /// Locks the key, or raises a shared lock of it to an exclusive one. After an error the transaction has what it had before.
    ///
    /// # Errors
    ///
    /// - `Deadlock`: an older transaction goes first. Each further lock returns this until all keys are released, by
    ///   [`unlock_all`](Self::unlock_all) or [`suspend`](Self::suspend); what is locked next first waits for what was contended. One
    ///   that has no key never gets it.
    /// - `TimedOut`, `Cancelled`, by the options of the transaction: any key may come next.
    /// - `Exhausted`: as many keys as the table may have, or no mutex of the class is left: lock a coarser key.
    /// - `OutOfMemory`.
    ///
    /// # Panics
    ///
    /// In a forked child, if the class was in use at the fork.
    #[track_caller]
    pub fn lock(&mut self, key: impl AsRef<[u8]>, mode: Mode) -> Result<Granted, Error> {
        self.lock_by(key.as_ref(), mode, ffi::WW_TABLE_WAITS, None, None)
    }

    /// As [`lock`](Self::lock), but it waits at most until this time.
    ///
    /// # Errors
    ///
    /// As [`lock`](Self::lock).
    ///
    /// # Panics
    ///
    /// As [`lock`](Self::lock).
    #[track_caller]
    pub fn lock_until(&mut self, key: impl AsRef<[u8]>, mode: Mode, deadline: Instant) -> Result<Granted, Error> {
        self.lock_by(key.as_ref(), mode, ffi::WW_TABLE_WAITS, Some(deadline), None)
    }

    /// As [`lock`](Self::lock), but it doesn't wait.
    ///
    /// # Errors
    ///
    /// `Taken`: somebody else has the key, or waits for it; else as [`lock`](Self::lock).
    ///
    /// # Panics
    ///
    /// As [`lock`](Self::lock).
    #[track_caller]
    pub fn try_lock(&mut self, key: impl AsRef<[u8]>, mode: Mode) -> Result<Granted, Error> {
        self.lock_by(key.as_ref(), mode, ffi::WW_TABLE_TRIES, None, None)
    }

    /// As [`lock_until`](Self::lock_until), for locks that expire. If the key is taken, the function is called with the owner of each
    /// other transaction that has it, and its mode. If all have expired, they keep their locks, but who asks from then on doesn't wait for
    /// these. Once the time has passed, the caller may ask again.
    ///
    /// ```
    /// # use std::time::Instant;
    /// # use ww_mutex::table::{Mode, Table};
    /// # use ww_mutex::{class, Class, Error, Suspended};
    /// # class!(struct Rows: WoundWait);
    /// let table = Table::open()?;
    /// let mut slow = table.begin(1, Rows::options(), &mut Suspended::new())?;
    /// slow.lock("row", Mode::Exclusive)?;
    /// let mut next = table.begin(2, Rows::options(), &mut Suspended::new())?;
    /// next.lock_from_expired("row", Mode::Exclusive, Instant::now(), |owner, _| owner == 1)?;
    /// # Ok::<(), Error>(())
    /// ```
    ///
    /// # Errors
    ///
    /// As [`lock`](Self::lock).
    ///
    /// # Panics
    ///
    /// As [`lock`](Self::lock); and if the function panics, or uses a table: part of this one is locked while it is called.
    #[track_caller]
    pub fn lock_from_expired(
        &mut self,
        key: impl AsRef<[u8]>,
        mode: Mode,
        deadline: Instant,
        mut has_expired: impl FnMut(u64, Mode) -> bool,
    ) -> Result<Granted, Error> {
        let mut asked = Asked { has_expired: &mut has_expired, panic: None };
        let told = self.lock_by(key.as_ref(), mode, ffi::WW_TABLE_WAITS, Some(deadline), Some(&mut asked));
        match asked.panic {
            Some(panic) => resume_unwind(panic),
            None => told,
        }
    }

    #[track_caller]
    fn lock_by(
        &mut self,
        key: &[u8],
        mode: Mode,
        by: c_uint,
        deadline: Option<Instant>,
        asked: Option<&mut Asked<'_>>,
    ) -> Result<Granted, Error> {
        check_call();
        let context = self.kept().tx().context();
        let meets = asked.is_some().then_some(Asked::meets as unsafe extern "C" fn(_, _) -> _);
        let data = asked.map_or(ptr::null_mut(), |asked| ptr::from_mut(asked).cast());
        let answer = context.ask_table(deadline, |until| {
            let how = ffi::ww_table_how { owner: self.owner, by, until, waker: ptr::null(), meets, waits: None, data };
            // SAFETY: the context has begun, is of the table's class, and is borrowed exclusively with the transaction; all else
            // lives for the call.
            unsafe {
                ffi::ww_table_lock(
                    self.table.raw.0,
                    context.raw(),
                    key.as_ptr().cast(),
                    key.len(),
                    mode.raw(),
                    &raw const how,
                )
            }
        });
        match -answer {
            0 => Ok(Granted::Now),
            ffi::EALREADY => Ok(Granted::Before),
            ffi::EDEADLK => Err(Error::Deadlock),
            ffi::ETIMEDOUT => Err(Error::TimedOut),
            ffi::EBUSY => Err(Error::Taken),
            _ => Err(error::of_making(answer)),
        }
    }

    /// Releases the key.
    ///
    /// # Errors
    ///
    /// `NotHeld`.
    #[track_caller]
    pub fn unlock(&mut self, key: impl AsRef<[u8]>) -> Result<(), Error> {
        check_call();
        place::said();
        let key = key.as_ref();
        // SAFETY: as in `lock_by`.
        let answer = unsafe {
            ffi::ww_table_unlock(self.table.raw.0, self.kept().tx().context().raw(), key.as_ptr().cast(), key.len())
        };
        if answer == 0 {
            Ok(())
        } else {
            Err(Error::NotHeld)
        }
    }

    /// What it has cost since it began: how often it waited for keys, and for how long.
    #[must_use]
    pub fn counts(&self) -> Counts {
        self.kept().tx().counts()
    }

    /// How many keys it has, for [`unlock_to`](Self::unlock_to): for a savepoint.
    #[must_use]
    pub fn mark(&self) -> Mark {
        // SAFETY: as in `lock_by`; the call only reads.
        Mark(unsafe { ffi::ww_table_mark(self.table.raw.0, self.kept().tx().context().raw()) })
    }

    /// Releases all keys but the oldest, so that it has as many as at the mark.
    #[track_caller]
    pub fn unlock_to(&mut self, mark: Mark) {
        check_call();
        place::said();
        self.release(mark);
    }

    /// Releases all keys: after `Deadlock`, to try again with its age.
    #[track_caller]
    pub fn unlock_all(&mut self) {
        self.unlock_to(Mark(0));
    }

    fn release(&mut self, mark: Mark) {
        if let Some(kept) = &self.kept {
            // SAFETY: as in `lock_by`.
            unsafe { ffi::ww_table_unlock_to(self.table.raw.0, kept.tx().context().raw(), mark.0) };
        }
    }

    /// Releases all keys, and keeps its age for a retry, by whichever thread. If half of the class's contexts are suspended, that
    /// is lost, and the retry will be the youngest.
    #[must_use = "if it isn't a retry's, its age is lost"]
    #[track_caller]
    pub fn suspend(mut self) -> Suspended<C> {
        check_call();
        place::said();
        self.release(Mark(0));
        let mut age = Suspended::new();
        if let Some(kept) = self.kept.take() {
            kept.suspend(&mut age.retry);
        }
        age
    }

    fn kept(&self) -> &Kept<C> {
        self.kept.as_ref().expect("only `suspend` takes it, and the transaction with it")
    }
}

impl<C: Class> Drop for Transaction<C> {
    #[track_caller]
    fn drop(&mut self) {
        if SHOWS.get() {
            mem::forget(self.kept.take()); // it stays as it is: its end would wait for the part of the table that is locked
        }
        check_call();
        self.release(Mark(0));
    }
}

impl<C: Class> fmt::Debug for Transaction<C> {
    fn fmt(&self, f: &mut fmt::Formatter<'_>) -> fmt::Result {
        f.debug_struct("Transaction").field("owner", &self.owner).finish_non_exhaustive()
    }
}
