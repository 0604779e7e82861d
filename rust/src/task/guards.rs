//! Guards by their mutexes, for tasks.

use super::lock::{ArcGuard, Guard};
use super::Tx;
use crate::guards::{by_mutex, Held, Set};
use crate::{Class, Error, Mutex};
use core::future::Future;
use std::collections::btree_map::Entry;
use std::sync::Arc;

/// Guards by their mutexes, one for each, however often it is locked ([`Tx::guards`]), as [`Guards`](crate::Guards) are for
/// threads.
///
/// ```
/// # use ww_mutex::{class, transaction, Error, Mutex};
/// class!(struct Accounts: WoundWait);
///
/// async fn transfer(from: &Mutex<Accounts, i64>, to: &Mutex<Accounts, i64>, amount: i64) -> Result<(), Error> {
///     transaction!(Accounts, |tx| {
///         let mut held = tx.guards();
///         held.lock_each([from, to]).await?; // they may be the same
///         held[from] -= amount;
///         held[to] += amount;
///         Ok(())
///     })
/// }
/// # fn sends(_: impl Send) {}
/// # let one = Mutex::new(70);
/// # sends(transfer(&one, &one, 30));
/// ```
///
/// There is one `&mut` at a time, also across an await:
///
/// ```compile_fail,E0499
/// # use ww_mutex::{class, transaction, Error, Mutex};
/// # class!(struct Boxes: WoundWait);
/// # async fn f(one: &Mutex<Boxes, u64>) -> Result<(), Error> {
/// transaction!(Boxes, |tx| {
///     let mut held = tx.guards();
///     let one = (held.lock(one).await?, held.lock(one).await?);
///     std::mem::swap(one.0, one.1);
///     Ok(())
/// })
/// # }
/// ```
#[must_use = "the mutexes are released as soon as the set is dropped"]
#[clippy::has_significant_drop]
pub struct Guards<'x, C: Class, T: ?Sized> {
    tx: &'x Tx<C>,
    held: Set<Guard<'x, C, T>, ArcGuard<'x, C, T>>,
}

by_mutex!(Guards);

impl<'x, C: Class, T: ?Sized> Guards<'x, C, T> {
    pub(super) fn new(tx: &'x Tx<C>) -> Self {
        Guards { tx, held: Set::new() }
    }

    /// The value of this mutex, which it locks, and waits for, if the set doesn't hold it.
    ///
    /// # Errors
    ///
    /// As [`Tx::lock`]; `Duplicate` only if another guard of the body holds it.
    ///
    /// # Panics
    ///
    /// As [`Tx::lock`].
    #[track_caller]
    pub fn lock<'s>(
        &'s mut self,
        mutex: &'x Mutex<C, T>,
    ) -> impl Future<Output = Result<&'s mut T, Error>> + use<'s, 'x, C, T> {
        let lock = self.tx.lock(mutex);
        async move {
            let held = match self.held.entry(mutex.number(C::raw())?) {
                Entry::Occupied(held) => held.into_mut(),
                Entry::Vacant(place) => place.insert(Held::Borrowing(lock.await?)),
            };
            Ok(held.value_mut())
        }
    }

    /// The same for a mutex that the set shares.
    ///
    /// # Errors
    ///
    /// As [`lock`](Self::lock).
    ///
    /// # Panics
    ///
    /// As [`Tx::lock`].
    #[track_caller]
    pub fn lock_arc<'s>(
        &'s mut self,
        mutex: &Arc<Mutex<C, T>>,
    ) -> impl Future<Output = Result<&'s mut T, Error>> + use<'s, 'x, C, T> {
        let lock = self.tx.lock_arc(mutex);
        async move {
            let held = match self.held.entry(lock.mutex.number(C::raw())?) {
                Entry::Occupied(held) => held.into_mut(),
                Entry::Vacant(place) => place.insert(Held::Sharing(lock.await?)),
            };
            Ok(held.value_mut())
        }
    }

    /// Locks those of the list that it doesn't hold, in its order. If one can't be locked, it keeps those before.
    ///
    /// # Errors
    ///
    /// As [`lock`](Self::lock).
    ///
    /// # Panics
    ///
    /// As [`Tx::lock`].
    pub async fn lock_each(&mut self, list: impl IntoIterator<Item = &'x Mutex<C, T>>) -> Result<(), Error> {
        for mutex in list {
            self.lock(mutex).await?;
        }
        Ok(())
    }
}
