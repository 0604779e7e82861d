//! A lock for what is seldom touched: std's, without its poison.

use core::ops::{Deref, DerefMut};
use core::sync::atomic::{AtomicBool, Ordering};
use std::sync::{Mutex, MutexGuard, PoisonError};

#[derive(Default)]
pub(crate) struct Lock<T> {
    /// Orders what std's lock already orders, for the thread sanitizer: it sees what std does only if std was built for it,
    /// too.
    seen: AtomicBool,
    value: Mutex<T>,
}

pub(crate) struct Locked<'l, T> {
    seen: &'l AtomicBool,
    value: MutexGuard<'l, T>,
}

impl<T> Lock<T> {
    pub(crate) const fn new(value: T) -> Self {
        Lock { seen: AtomicBool::new(false), value: Mutex::new(value) }
    }

    pub(crate) fn lock(&self) -> Locked<'_, T> {
        let value = self.value.lock().unwrap_or_else(PoisonError::into_inner);
        self.seen.load(Ordering::Acquire);
        Locked { seen: &self.seen, value }
    }
}

impl<T> Drop for Locked<'_, T> {
    fn drop(&mut self) {
        self.seen.store(true, Ordering::Release);
    }
}

impl<T> Deref for Locked<'_, T> {
    type Target = T;

    fn deref(&self) -> &T {
        &self.value
    }
}

impl<T> DerefMut for Locked<'_, T> {
    fn deref_mut(&mut self) -> &mut T {
        &mut self.value
    }
}
