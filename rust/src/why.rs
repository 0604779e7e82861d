//! Who is in the way: what a transaction collided with, and who has a mutex or waits for it.
//!
//! ```
//! use std::num::NonZeroU64;
//! use std::time::Duration;
//! use ww_mutex::{class, Class, Error, Mutex};
//!
//! class!(struct Rows: WoundWait);
//! static ROW: Mutex<Rows, u64> = Mutex::new(0);
//!
//! # let (has, goes_on) = (std::sync::Barrier::new(2), std::sync::Barrier::new(2));
//! # std::thread::scope(|scope| {
//! # scope.spawn(|| {
//! Rows::run(|tx| {
//!     tx.label(NonZeroU64::new(5));
//!     let _row = tx.lock(&ROW)?;
//! #   has.wait();
//! #   goes_on.wait();
//!     // ..
//!     Ok(())
//! })
//! # .unwrap();
//! # });
//! # has.wait();
//! // And meanwhile, in another thread:
//! let told = Rows::options().timeout(Duration::from_millis(5)).run(|tx| {
//!     tx.lock(&ROW).map(|row| *row).inspect_err(|error| {
//!         if let Some(at) = tx.why().at {
//!             assert!(at.is(&ROW));
//!             println!("{error}: {:?} has it", at.user.unwrap().label);
//! #           assert_eq!(at.user.unwrap().label, NonZeroU64::new(5));
//!         }
//!     })
//! });
//! # goes_on.wait();
//! # assert_eq!(told, Err(Error::TimedOut));
//! # });
//! ```
//!
//! All of it is a look at others, which go on meanwhile: so it may be out of date when it returns. Who doesn't ask pays nothing for it.

use crate::class::OfClass;
use crate::number::Number;
use crate::{ffi, Class, Mutex, SharedMutex, Tx};
use core::fmt;
use core::marker::PhantomData;
use core::num::NonZeroU64;
use std::time::Duration;

/// What one does with a mutex.
#[derive(Clone, Copy, Debug, PartialEq, Eq, Hash)]
pub enum Part {
    /// It holds it; of a [`SharedMutex`], it writes.
    Holds,
    /// It reads it.
    Reads,
    /// It waits for it.
    Waits,
}

/// One that has a mutex, or waits for it.
#[derive(Clone, Copy, Debug, PartialEq, Eq, Hash)]
#[non_exhaustive]
pub struct User {
    /// That of its transaction ([`Tx::label`]). `None`: it has none, or the mutex is locked without a transaction.
    pub label: Option<NonZeroU64>,
    /// The number of its context, which no other of the class has at the same time.
    pub context: u32,
    /// What it does there.
    pub part: Part,
}

impl User {
    fn of(user: ffi::ww_user) -> Option<Self> {
        let part = match user.part {
            ffi::WW_NOBODY => return None,
            ffi::WW_HOLDS => Part::Holds,
            ffi::WW_READS => Part::Reads,
            _ => Part::Waits,
        };
        Some(User { label: NonZeroU64::new(user.label), context: user.place, part })
    }
}

/// A mutex, and one of its users.
#[non_exhaustive]
pub struct Place<C: Class> {
    number: u32,
    /// `None`: nobody is there any more.
    pub user: Option<User>,
    class: OfClass<C>,
}

impl<C: Class> Place<C> {
    fn of(place: ffi::ww_place) -> Option<Self> {
        let place = (!place.mutex.is_null()).then_some(place)?;
        Some(Place { number: place.number, user: User::of(place.by), class: PhantomData })
    }

    /// Whether it is this mutex. One that was dropped may have had the number of this one.
    #[must_use]
    pub fn is<T: ?Sized>(&self, mutex: &Mutex<C, T>) -> bool {
        mutex.existing().is_some_and(|number| number.index() == self.number)
    }

    /// Whether it is this shared mutex.
    #[must_use]
    pub fn is_shared<T: ?Sized>(&self, mutex: &SharedMutex<C, T>) -> bool {
        mutex.existing().is_some_and(|number| number.index() == self.number)
    }
}

impl<C: Class> Clone for Place<C> {
    fn clone(&self) -> Self {
        *self
    }
}

impl<C: Class> Copy for Place<C> {}

impl<C: Class> fmt::Debug for Place<C> {
    fn fmt(&self, f: &mut fmt::Formatter<'_>) -> fmt::Result {
        f.debug_struct("Place").field("number", &self.number).field("user", &self.user).finish_non_exhaustive()
    }
}

/// What a transaction collided with: [`Tx::why`].
#[non_exhaustive]
pub struct Why<C: Class> {
    /// Where its last lock call ended that waited, or failed with `Deadlock`, `TimedOut` or `Cancelled`; and who has that mutex now.
    pub at: Option<Place<C>>,
    /// A mutex that it still has, and one that waits for it: in Wound-Wait `Deadlock` comes because of such a one.
    pub wanted: Option<Place<C>>,
}

impl<C: Class> Clone for Why<C> {
    fn clone(&self) -> Self {
        *self
    }
}

impl<C: Class> Copy for Why<C> {}

impl<C: Class> fmt::Debug for Why<C> {
    fn fmt(&self, f: &mut fmt::Formatter<'_>) -> fmt::Result {
        f.debug_struct("Why").field("at", &self.at).field("wanted", &self.wanted).finish()
    }
}

/// What a transaction has cost since it began: [`Tx::counts`].
#[derive(Clone, Copy, Debug, Default, PartialEq, Eq)]
#[non_exhaustive]
pub struct Counts {
    /// How often it has waited for mutexes.
    pub waits: u64,
    /// How often it got `Deadlock`.
    pub back_offs: u64,
    /// How long its threads have waited.
    pub waited: Duration,
}

/// A cycle has at most as many as a class has contexts.
const MOST: usize = crate::RawClass::MOST_CONTEXTS as usize + 256;

impl<C: Class> Tx<C> {
    /// Labels the transaction to its end, by a number by which others find it; `None` takes the label away.
    pub fn label(&self, label: Option<NonZeroU64>) {
        // SAFETY: the context has begun, and hasn't ended.
        unsafe { ffi::ww_acquire_label(self.context().raw(), label.map_or(0, NonZeroU64::get)) };
    }

    /// What it collided with: to be asked in the body, after the lock call failed, while it has its guards.
    #[must_use]
    pub fn why(&self) -> Why<C> {
        let mut why = ffi::ww_why { at: ffi::ww_place::none(), wanted: ffi::ww_place::none() };
        // SAFETY: the context has begun, and hasn't ended; `why` lives for the call.
        unsafe { ffi::ww_acquire_why(self.context().raw(), &raw mut why) };
        Why { at: Place::of(why.at), wanted: Place::of(why.wanted) }
    }

    /// The cycle of waits that its `Deadlock` broke: first where its lock call failed, and who has that; then for what that one waits,
    /// and who has that; the last one is this transaction. Empty if there is none: Wound-Wait and Wait-Die return `Deadlock` also
    /// where there is none yet.
    #[must_use]
    pub fn cycle(&self) -> Vec<Place<C>> {
        for room in [16, MOST] {
            let mut path = vec![ffi::ww_place::none(); room];
            // SAFETY: as in `why`; the path has that much room.
            let count = unsafe { ffi::ww_acquire_cycle(self.context().raw(), path.as_mut_ptr(), room) };
            if count != 0 {
                return path[..count].iter().filter_map(|&place| Place::of(place)).collect();
            }
        }
        Vec::new()
    }

    /// What it has cost since it began.
    #[must_use]
    pub fn counts(&self) -> Counts {
        let mut counts = ffi::ww_acquire_counts::default();
        // SAFETY: as in `why`.
        unsafe { ffi::ww_acquire_count(self.context().raw(), &raw mut counts) };
        let ffi::ww_acquire_counts { waits, back_offs, waited_ns } = counts;
        Counts { waits, back_offs, waited: Duration::from_nanos(waited_ns) }
    }
}

/// Who has the mutex of this number, or waits for it.
fn users_of<C: Class>(number: Option<Number>) -> Vec<User> {
    let class = C::raw();
    let Some(number) = number.filter(|number| number.tag() == class.tag()) else { return Vec::new() };
    let mutex = class.at(number).cast_const().cast();
    let mut users = vec![ffi::ww_user::default(); 16];
    loop {
        // SAFETY: the number is one of the class; the list has that much room.
        let count = unsafe { ffi::ww_mutex_users(mutex, users.as_mut_ptr(), users.len()) };
        if count <= users.len() {
            return users[..count].iter().filter_map(|&user| User::of(user)).collect();
        }
        users.resize(2 * count, ffi::ww_user::default());
    }
}

impl<C: Class, T: ?Sized> Mutex<C, T> {
    /// Who holds it or waits for it.
    #[must_use]
    pub fn users(&self) -> Vec<User> {
        users_of::<C>(self.existing())
    }
}

impl<C: Class, T: ?Sized> SharedMutex<C, T> {
    /// Who writes it, reads it or waits for it.
    #[must_use]
    pub fn users(&self) -> Vec<User> {
        users_of::<C>(self.existing())
    }
}
