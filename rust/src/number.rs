//! What a mutex has of its class: one of the library's mutexes, known by its number alone. The library keeps no address
//! for it, so a [`Mutex`](crate::Mutex) may be moved, forgotten or dropped whenever Rust allows that.

use crate::class::{OfClass, RawClass};
use crate::{Class, Error};
use core::marker::PhantomData;
use core::sync::atomic::{AtomicU64, Ordering};

/// A number with the tag of its class, since a [`Class::raw`] may return different classes.
#[derive(Clone, Copy, PartialEq, Eq, PartialOrd, Ord)]
pub(crate) struct Number(u64);

impl Number {
    /// The tag isn't 0.
    pub(crate) const fn new(tag: u32, index: u32) -> Self {
        Number((tag as u64) << u32::BITS | index as u64)
    }

    #[inline]
    pub(crate) const fn tag(self) -> u32 {
        (self.0 >> u32::BITS) as u32
    }

    /// The number as the library has it.
    #[inline]
    #[allow(clippy::cast_possible_truncation, reason = "the tag goes")]
    pub(crate) const fn index(self) -> u32 {
        self.0 as u32
    }
}

/// The number of a mutex, which it gets by its first lock.
pub(crate) struct Handle<C: Class> {
    /// 0 before that.
    word: AtomicU64,
    class: OfClass<C>,
}

impl<C: Class> Handle<C> {
    pub(crate) const fn new() -> Self {
        Handle { word: AtomicU64::new(0), class: PhantomData }
    }

    #[inline]
    fn load(&self) -> Number {
        Number(self.word.load(Ordering::Acquire))
    }

    /// Fetches it into the cache, where the compiler has an instruction for that.
    #[inline]
    pub(crate) fn fetch(&self) {
        #[cfg(target_arch = "x86_64")]
        // SAFETY: that accesses nothing.
        unsafe {
            use core::arch::x86_64::{_mm_prefetch, _MM_HINT_T0};
            _mm_prefetch::<_MM_HINT_T0>((&raw const self.word).cast());
        }
    }

    /// The number, if it has one.
    #[inline]
    pub(crate) fn existing(&self) -> Option<Number> {
        let number = self.load();
        (number.tag() != 0).then_some(number)
    }

    /// The number of a mutex that is locked.
    #[inline]
    pub(crate) fn index(&self) -> u32 {
        self.load().index()
    }

    /// The number, for a lock by this class.
    ///
    /// # Panics
    ///
    /// It is of another class.
    #[inline]
    pub(crate) fn number(&self, class: &'static RawClass) -> Result<Number, Error> {
        let number = self.load();
        if number.tag() == class.tag() {
            Ok(number)
        } else {
            self.first(class)
        }
    }

    #[cold]
    fn first(&self, class: &'static RawClass) -> Result<Number, Error> {
        let number = match self.existing() {
            Some(number) => number,
            None => self.take(C::raw())?,
        };
        class.check(number);
        Ok(number)
    }

    /// Called by one thread of a class at a time: a second one would take a number that another mutex needs.
    fn take(&self, class: &'static RawClass) -> Result<Number, Error> {
        let takes = class.takes();
        if let Some(number) = self.existing() {
            return Ok(number);
        }
        let number = class.take()?;
        let was = self.word.compare_exchange(0, number.0, Ordering::AcqRel, Ordering::Acquire);
        drop(takes);
        match was {
            Ok(_) => Ok(number),
            Err(other) => {
                // Another thread was first, to which `Class::raw` returned another class.
                class.give(number);
                Ok(Number(other))
            }
        }
    }
}

impl<C: Class> Drop for Handle<C> {
    fn drop(&mut self) {
        if let Some(number) = self.existing() {
            C::raw().give(number);
        }
    }
}
