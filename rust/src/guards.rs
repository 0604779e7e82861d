//! Guards by their mutexes.

use crate::number::Number;
use crate::{ArcMutexGuard, Class, Error, Mutex, MutexGuard, Tx};
use core::ops::DerefMut;
use std::collections::btree_map::{BTreeMap, Entry};
use std::sync::Arc;

/// A guard that borrows its mutex, or one that shares it.
pub(crate) enum Held<B, A> {
    Borrowing(B),
    Sharing(A),
}

impl<T: ?Sized, B: DerefMut<Target = T>, A: DerefMut<Target = T>> Held<B, A> {
    #[inline]
    pub(crate) fn value(&self) -> &T {
        match self {
            Held::Borrowing(guard) => guard,
            Held::Sharing(guard) => guard,
        }
    }

    #[inline]
    pub(crate) fn value_mut(&mut self) -> &mut T {
        match self {
            Held::Borrowing(guard) => guard,
            Held::Sharing(guard) => guard,
        }
    }
}

/// By the number, since a mutex that has a guard is neither moved nor dropped, and keeps it.
pub(crate) type Set<B, A> = BTreeMap<Number, Held<B, A>>;

/// What guards by mutexes are once they are there, of threads and of tasks.
macro_rules! by_mutex {
    ($guards:ident) => {
        impl<'x, C: Class, T: ?Sized> $guards<'x, C, T> {
            /// The value of a mutex that was locked by this set.
            #[must_use]
            pub fn get(&self, mutex: &Mutex<C, T>) -> Option<&T> {
                self.held.get(&mutex.existing()?).map(Held::value)
            }

            /// As [`get`](Self::get), to change it.
            #[must_use]
            pub fn get_mut(&mut self, mutex: &Mutex<C, T>) -> Option<&mut T> {
                self.held.get_mut(&mutex.existing()?).map(Held::value_mut)
            }

            /// The values, in no particular order.
            pub fn values(&self) -> impl Iterator<Item = &T> + use<'_, 'x, C, T> {
                self.held.values().map(Held::value)
            }

            /// As [`values`](Self::values), to change them.
            pub fn values_mut(&mut self) -> impl Iterator<Item = &mut T> + use<'_, 'x, C, T> {
                self.held.values_mut().map(Held::value_mut)
            }

            /// How many mutexes it holds, each counted once.
            #[must_use]
            pub fn len(&self) -> usize {
                self.held.len()
            }

            /// Whether it holds none.
            #[must_use]
            pub fn is_empty(&self) -> bool {
                self.held.is_empty()
            }
        }

        impl<C: Class, T: ?Sized> ::core::ops::Index<&Mutex<C, T>> for $guards<'_, C, T> {
            type Output = T;

            fn index(&self, mutex: &Mutex<C, T>) -> &T {
                self.get(mutex).expect("this set locked the mutex")
            }
        }

        impl<C: Class, T: ?Sized> ::core::ops::IndexMut<&Mutex<C, T>> for $guards<'_, C, T> {
            fn index_mut(&mut self, mutex: &Mutex<C, T>) -> &mut T {
                self.get_mut(mutex).expect("this set locked the mutex")
            }
        }

        impl<C: Class, T: ?Sized + ::core::fmt::Debug> ::core::fmt::Debug for $guards<'_, C, T> {
            fn fmt(&self, f: &mut ::core::fmt::Formatter<'_>) -> ::core::fmt::Result {
                f.debug_list().entries(self.values()).finish()
            }
        }
    };
}
#[cfg(feature = "async")]
pub(crate) use by_mutex;

/// Guards by their mutexes, one for each, however often it is locked ([`Tx::guards`]): for lists in which a mutex may come
/// twice, and for walks that may meet one again.
///
/// ```
/// # use ww_mutex::{class, Class, Error, Mutex};
/// class!(struct Accounts: WoundWait);
///
/// fn transfer(from: &Mutex<Accounts, i64>, to: &Mutex<Accounts, i64>, amount: i64) -> Result<(), Error> {
///     Accounts::run(|tx| {
///         let mut held = tx.guards();
///         held.lock_each([from, to])?; // they may be the same
///         held[from] -= amount;
///         held[to] += amount;
///         Ok(())
///     })
/// }
/// # let (one, other) = (Mutex::new(70), Mutex::new(0));
/// # transfer(&one, &one, 30)?;
/// # transfer(&one, &other, 30)?;
/// # assert_eq!((one.into_inner(), other.into_inner()), (40, 30));
/// # Ok::<(), Error>(())
/// ```
///
/// A mutex that isn't in the set has no value there: the index panics.
///
/// The set is borrowed by what leads to a value, so that there is one `&mut` at a time:
///
/// ```compile_fail,E0499
/// # use ww_mutex::{class, Class, Mutex};
/// # class!(struct Boxes: WoundWait);
/// # static BOX: Mutex<Boxes, u64> = Mutex::new(0);
/// Boxes::run(|tx| {
///     let mut held = tx.guards();
///     let one = held.lock(&BOX)?;
///     let same = held.lock(&BOX)?;
///     std::mem::swap(one, same);
///     Ok(())
/// });
/// ```
///
/// ```compile_fail,E0502
/// # use ww_mutex::{class, Class, Mutex};
/// # class!(struct Boxes: WoundWait);
/// # static BOX: Mutex<Boxes, u64> = Mutex::new(0);
/// Boxes::run(|tx| {
///     let mut held = tx.guards();
///     held.lock(&BOX)?;
///     let seen = &held[&BOX];
///     held[&BOX] = 1;
///     Ok(*seen)
/// });
/// ```
///
/// Nor does it leave the body:
///
/// ```compile_fail,E0521
/// # use ww_mutex::{class, Class, Mutex};
/// # class!(struct Boxes: WoundWait);
/// # static BOX: Mutex<Boxes, u64> = Mutex::new(0);
/// let mut kept = None;
/// Boxes::run(|tx| {
///     let mut held = tx.guards();
///     held.lock(&BOX)?;
///     kept = Some(held);
///     Ok(())
/// });
/// ```
#[must_use = "the mutexes are released as soon as the set is dropped"]
#[clippy::has_significant_drop]
pub struct Guards<'x, C: Class, T: ?Sized> {
    tx: &'x Tx<C>,
    held: Set<MutexGuard<'x, C, T>, ArcMutexGuard<'x, C, T>>,
}

by_mutex!(Guards);

impl<'x, C: Class, T: ?Sized> Guards<'x, C, T> {
    pub(crate) fn new(tx: &'x Tx<C>) -> Self {
        Guards { tx, held: Set::new() }
    }

    /// The value of this mutex, which it locks, and waits for, if the set doesn't hold it.
    ///
    /// # Errors
    ///
    /// As [`Tx::lock`]; `Duplicate` only if another guard of the body holds it.
    ///
    /// # Panics
    ///
    /// As [`Tx::lock`].
    #[track_caller]
    pub fn lock(&mut self, mutex: &'x Mutex<C, T>) -> Result<&mut T, Error> {
        let held = match self.held.entry(mutex.number(C::raw())?) {
            Entry::Occupied(held) => held.into_mut(),
            Entry::Vacant(place) => place.insert(Held::Borrowing(self.tx.lock(mutex)?)),
        };
        Ok(held.value_mut())
    }

    /// The same for a mutex that the set shares.
    ///
    /// ```
    /// # use ww_mutex::{class, Class, Error, Mutex};
    /// # use std::sync::Arc;
    /// class!(struct Nodes: WoundWait);
    /// #[derive(Default)]
    /// struct Node {
    ///     visits: u64,
    ///     next: Vec<Arc<Mutex<Nodes, Node>>>,
    /// }
    ///
    /// fn visit_all(first: &Arc<Mutex<Nodes, Node>>) -> Result<usize, Error> {
    ///     Nodes::run(|tx| {
    ///         let mut held = tx.guards();
    ///         let mut found = vec![Arc::clone(first)];
    ///         while let Some(node) = found.pop() {
    ///             if held.get(&node).is_none() {
    ///                 found.extend(held.lock_arc(&node)?.next.iter().cloned());
    ///             }
    ///         }
    ///         held.values_mut().for_each(|node| node.visits += 1);
    ///         Ok(held.len())
    ///     })
    /// }
    /// # let one = Arc::new(Mutex::new(Node::default()));
    /// # let other = Arc::new(Mutex::new(Node { visits: 0, next: vec![one.clone(), one.clone()] }));
    /// # one.lock().next.push(other.clone());
    /// # assert_eq!(visit_all(&one), Ok(2));
    /// # assert_eq!((one.lock().visits, other.lock().visits), (1, 1));
    /// # one.lock().next.clear();
    /// ```
    ///
    /// # Errors
    ///
    /// As [`lock`](Self::lock).
    ///
    /// # Panics
    ///
    /// As [`Tx::lock`].
    #[track_caller]
    pub fn lock_arc(&mut self, mutex: &Arc<Mutex<C, T>>) -> Result<&mut T, Error> {
        let held = match self.held.entry(mutex.number(C::raw())?) {
            Entry::Occupied(held) => held.into_mut(),
            Entry::Vacant(place) => place.insert(Held::Sharing(self.tx.lock_arc(mutex)?)),
        };
        Ok(held.value_mut())
    }

    /// Locks those of the list that it doesn't hold, in its order. If one can't be locked, it keeps those before.
    ///
    /// # Errors
    ///
    /// As [`lock`](Self::lock).
    ///
    /// # Panics
    ///
    /// As [`Tx::lock`].
    #[track_caller]
    pub fn lock_each(&mut self, list: impl IntoIterator<Item = &'x Mutex<C, T>>) -> Result<(), Error> {
        for mutex in list {
            self.lock(mutex)?;
        }
        Ok(())
    }
}
