use crate::events::{Hook, Hooked};
use crate::lock::{Lock, Locked};
use crate::number::Number;
use crate::{error, ffi, library_version, Error, Options, Tx};
use core::cell::UnsafeCell;
use core::ffi::{c_int, CStr};
use core::fmt;
use core::marker::PhantomData;
use core::sync::atomic::{AtomicU32, Ordering::Relaxed};

/// What happens when contexts collide. In both kinds the older one goes first.
#[derive(Clone, Copy, Debug, PartialEq, Eq, Hash)]
pub enum Kind {
    /// An older context wounds a younger one that holds what it wants; that one gets `Deadlock` when it next waits.
    WoundWait,
    /// A younger context doesn't wait for an older one while it holds something: it gets `Deadlock` immediately.
    WaitDie,
}

/// Of a type that belongs to one class: neither a class that is a subtype of `C` nor one of which it is a subtype will do.
///
/// ```compile_fail,E0308
/// # use std::marker::PhantomData;
/// # use ww_mutex::{class, ByClass_, Class, Mutex, RawClass};
/// # class!(struct One: WoundWait; struct Other: WoundWait);
/// struct Of<F>(PhantomData<fn() -> F>);
/// type Sub = Of<for<'a> fn(&'a u8)>;
/// type Super = Of<fn(&'static u8)>;
/// # impl ByClass_ for Sub { fn raw_() -> &'static RawClass { One::raw() } }
/// # impl ByClass_ for Super { fn raw_() -> &'static RawClass { Other::raw() } }
/// fn lent(mutex: &Mutex<Sub, u64>) -> &Mutex<Super, u64> {
///     mutex
/// }
/// ```
pub(crate) type OfClass<C> = PhantomData<fn(C) -> C>;

/// What [`class!`](crate::class!) implements.
#[doc(hidden)]
pub trait ByClass_: Sized + 'static {
    fn raw_() -> &'static RawClass;
}

impl<C: ByClass_> Class for C {}

/// Mutexes among which deadlocks are detected: a type, so that a context of another class can't lock them.
///
/// [`class!`](crate::class!) makes one, and nothing else does:
///
/// ```compile_fail,E0277
/// # use ww_mutex::{class, Class, RawClass};
/// class!(struct Boxes: WoundWait);
/// enum Twins {}
/// impl Class for Twins {
///     fn raw() -> &'static RawClass {
///         Boxes::raw()
///     }
/// }
/// ```
pub trait Class: ByClass_ {
    /// What the class has at run time.
    #[inline]
    #[must_use]
    fn raw() -> &'static RawClass {
        Self::raw_()
    }

    /// Runs the body in a new context, and releases everything that it locked. If a lock call returned
    /// [`Deadlock`](Error::Deadlock), this waits for the contended mutex and runs the body again, whatever the body returned:
    /// what it returns without all its locks is no result.
    ///
    /// So the body may run several times, and should change nothing before it has all its locks.
    ///
    /// ```
    /// # use ww_mutex::{class, Class, Error, Mutex};
    /// class!(struct Accounts: WoundWait);
    /// static ONE: Mutex<Accounts, u64> = Mutex::new(70);
    /// static OTHER: Mutex<Accounts, u64> = Mutex::new(0);
    ///
    /// Accounts::run(|tx| {
    ///     let mut from = tx.lock(&ONE)?;
    ///     let mut to = tx.lock(&OTHER)?;
    ///     *from -= 30;
    ///     *to += 30;
    ///     Ok(())
    /// })?;
    /// assert_eq!((*ONE.lock(), *OTHER.lock()), (40, 30));
    /// # Ok::<(), Error>(())
    /// ```
    ///
    /// If all contexts of the class are in use (1,024 besides the thread's own, unless [`class!`](crate::class!) says
    /// another number), it waits for one first; no deadlock is detected that involves this wait.
    ///
    /// # Errors
    ///
    /// The errors of a body whose context got no [`Error::Deadlock`]; [`Error::OutOfMemory`], if this opens the class.
    ///
    /// # Panics
    ///
    /// In a forked child, if the class was in use at the fork.
    #[inline]
    #[track_caller]
    fn run<R>(body: impl FnMut(&Tx<Self>) -> Result<R, Error>) -> Result<R, Error> {
        Options::new().run(body)
    }

    /// The same with an error type of the caller's.
    ///
    /// ```
    /// # use ww_mutex::{class, Class, Error, Mutex};
    /// # class!(struct Accounts: WoundWait);
    /// #[derive(Debug)]
    /// enum Refusal {
    ///     Short,
    ///     Lock(Error),
    /// }
    ///
    /// impl From<Error> for Refusal {
    ///     fn from(error: Error) -> Self {
    ///         Refusal::Lock(error)
    ///     }
    /// }
    ///
    /// fn transfer(from: &Mutex<Accounts, u64>, to: &Mutex<Accounts, u64>, amount: u64) -> Result<(), Refusal> {
    ///     Accounts::try_run(|tx| {
    ///         let mut from = tx.lock(from)?;
    ///         let mut to = tx.lock(to)?;
    ///         *from = from.checked_sub(amount).ok_or(Refusal::Short)?;
    ///         *to += amount;
    ///         Ok(())
    ///     })
    /// }
    ///
    /// let (one, other) = (Mutex::new(70), Mutex::new(0));
    /// assert!(matches!(transfer(&one, &other, 71), Err(Refusal::Short)));
    /// assert!(matches!(transfer(&one, &one, 1), Err(Refusal::Lock(Error::Duplicate))));
    /// assert!(transfer(&one, &other, 70).is_ok());
    /// ```
    ///
    /// # Errors
    ///
    /// As [`run`](Class::run).
    ///
    /// # Panics
    ///
    /// As [`run`](Class::run).
    #[inline]
    #[track_caller]
    fn try_run<R, E: From<Error>>(body: impl FnMut(&Tx<Self>) -> Result<R, E>) -> Result<R, E> {
        Options::new().try_run(body)
    }

    /// The same for a task, whose thread does something else while it waits: [`task`](crate::task).
    ///
    /// ```
    /// # use ww_mutex::{class, Class, Error, Mutex};
    /// # use std::sync::Arc;
    /// class!(struct Accounts: WoundWait);
    ///
    /// async fn transfer(from: Arc<Mutex<Accounts, u64>>, to: Arc<Mutex<Accounts, u64>>) -> Result<(), Error> {
    ///     Accounts::run_async(async move |tx| {
    ///         let mut from = tx.lock(&from).await?;
    ///         let mut to = tx.lock(&to).await?;
    ///         *from -= 30;
    ///         *to += 30;
    ///         Ok(())
    ///     })
    ///     .await
    /// }
    /// # fn sends(_: impl Send) {}
    /// # sends(transfer(Arc::new(Mutex::new(30)), Arc::new(Mutex::new(30))));
    /// ```
    ///
    /// If the body borrows, the compiler doesn't see that the future is `Send`: use
    /// [`transaction!`](crate::transaction) then.
    ///
    /// # Errors
    ///
    /// As [`run`](Class::run).
    ///
    /// # Panics
    ///
    /// As [`run`](Class::run).
    #[cfg(feature = "async")]
    fn run_async<R>(
        body: impl AsyncFnMut(&crate::task::Tx<Self>) -> Result<R, Error>,
    ) -> impl core::future::Future<Output = Result<R, Error>> {
        crate::task::run(body)
    }

    /// Contexts with a deadline, or which other threads may cancel.
    #[inline]
    fn options<'c>() -> Options<'c, Self> {
        Options::new()
    }

    /// Ends each wait of the class's contexts with [`Cancelled`](Error::Cancelled), of threads and of tasks, also the waits
    /// for a context; and each later one immediately: the class stays cancelled. It stops nothing else: what needn't wait goes
    /// on, and so does [`Mutex::lock`], which can't fail. So a program that ends needs no list of what waits.
    ///
    /// ```
    /// # use ww_mutex::{class, Class, Error, Mutex};
    /// class!(struct Boxes: WoundWait);
    /// static BOX: Mutex<Boxes, u64> = Mutex::new(0);
    ///
    /// let held = BOX.lock();
    /// std::thread::scope(|scope| {
    ///     let waiting = scope.spawn(|| Boxes::run(|tx| tx.lock(&BOX).map(|value| *value)));
    ///     Boxes::cancel()?;
    ///     assert_eq!(waiting.join().unwrap(), Err(Error::Cancelled));
    ///     Ok::<(), Error>(())
    /// })?;
    /// # drop(held);
    /// # Ok::<(), Error>(())
    /// ```
    ///
    /// [`Mutex::lock`]: crate::Mutex::lock
    ///
    /// # Errors
    ///
    /// [`Error::OutOfMemory`], if this opens the class.
    ///
    /// # Panics
    ///
    /// In a forked child, if the class was in use at the fork.
    #[track_caller]
    fn cancel() -> Result<(), Error> {
        Self::raw().cancel()
    }

    /// How often its contexts backed off and waited, and how many there are.
    #[must_use]
    fn counts() -> Counts {
        Self::raw().counts()
    }

    /// From now on this function is told of the waits and back-offs of the class's contexts, in place of the one before: with
    /// the feature `events`, so that nobody else pays for it.
    ///
    /// It is called by the thread that waits, or in the poll of the task that does, so a span of `tracing`, or a backtrace, says
    /// which lock call that is. It may hold mutexes then, so the function locks none of the class, and is quick.
    ///
    /// ```
    /// # use ww_mutex::{class, Class, Error, Event, Mutex};
    /// # use std::sync::atomic::{AtomicU64, Ordering::Relaxed};
    /// # class!(struct Boxes: WaitDie);
    /// # static BOX: Mutex<Boxes, u64> = Mutex::new(0);
    /// static WAITS: AtomicU64 = AtomicU64::new(0);
    ///
    /// Boxes::on_event(|event| {
    ///     // For the crate `tracing`: tracing::debug!(target: "boxes", ?event).
    ///     if let Event::WaitEnded(_, time, _) = event {
    ///         WAITS.fetch_add(1 + time.as_millis() as u64 / 1000, Relaxed);
    ///     }
    /// });
    /// let held = BOX.lock();
    /// let told = Boxes::options().timeout(std::time::Duration::from_millis(5)).run(|tx| tx.lock(&BOX).map(|value| *value));
    /// assert!(told == Err(Error::TimedOut) && WAITS.load(Relaxed) > 0);
    /// # drop(held);
    /// ```
    ///
    /// A thread then asks for each mutex without a wait first: so [`counts`](Self::counts) has its lock waits twice, and a
    /// `Deadlock` in place of a wait is told as one of no time. Not told: waits of locks without a context
    /// ([`Mutex::lock`](crate::Mutex::lock)), waits for keys of a [`table`](crate::table), and those of threads for a context or a
    /// permit, which are counted there.
    #[cfg(feature = "events")]
    fn on_event(hook: fn(crate::Event)) {
        Self::raw().hooked.set(hook);
    }

    /// Allocates the class's memory now, and not at its first use: some 70 bytes for each mutex that it may have, and 0.8
    /// to 1.3 KiB for each context.
    ///
    /// # Errors
    ///
    /// [`Error::OutOfMemory`].
    fn open() -> Result<(), Error> {
        Self::raw().open()
    }
}

/// Counts since a class was opened, and how many contexts it has now.
#[derive(Clone, Copy, Debug, Default, PartialEq, Eq)]
#[non_exhaustive]
pub struct Counts {
    /// Lock calls that returned [`Deadlock`](Error::Deadlock), without those that the debug library forced.
    pub back_offs: u64,
    /// Lock calls that waited, be it for a moment.
    pub lock_waits: u64,
    /// Waits for a context of the class.
    pub context_waits: u64,
    /// Waits for a permit, which contexts need while threads often wait for mutexes of the class.
    pub permit_waits: u64,
    /// Contexts that are in use now.
    pub contexts: u64,
    /// Calls and tasks that wait for one now.
    pub context_waiters: u64,
    /// How many contexts tasks may have at a time now.
    pub task_contexts: u64,
}

/// What a [`Class`] has at run time: a static of its own, opened at its first use and never freed.
pub struct RawClass {
    raw: UnsafeCell<ffi::ww_class>,
    kind: Kind,
    name: &'static CStr,
    /// No other class has the same one; `NO_TAG` until its first mutex has a number.
    tag: AtomicU32,
    /// Who holds this takes numbers.
    takes: Lock<()>,
    /// The greatest number that it has taken.
    most: AtomicU32,
    hooked: Hooked,
}

/// The tag of a mutex without a number.
const NO_TAG: u32 = u32::MAX;

// SAFETY: any thread may call the library with a `ww_class`, and nothing else reads or writes `raw`.
unsafe impl Sync for RawClass {}

impl RawClass {
    /// How many mutexes a class may have at a time, unless [`class!`](crate::class!) says another number.
    pub const MUTEXES: u32 = 65_536;
    /// How many mutexes a class may have at a time at most.
    pub const MOST_MUTEXES: u32 = (1 << 24) - 4_095;
    /// How many contexts a class has at a time at least. If [`class!`](crate::class!) says another number, it has exactly
    /// as many, and each costs more.
    pub const CONTEXTS: u32 = 1_024;
    /// How many contexts a class may have at a time at most.
    pub const MOST_CONTEXTS: u32 = 4_094;

    /// A class with at most this many mutexes and contexts at a time, and a name that ends with a zero. What isn't so doesn't
    /// compile in a `static`.
    #[doc(hidden)]
    #[must_use]
    pub const fn by_class_(kind: Kind, name: &'static str, mutexes: u32, contexts: u32) -> Self {
        let Ok(name) = CStr::from_bytes_with_nul(name.as_bytes()) else { panic!("a name has one zero, at its end") };
        assert!(mutexes >= 1 && mutexes <= Self::MOST_MUTEXES, "a class has 1 to 16,773,121 mutexes");
        assert!(contexts >= 1 && contexts <= Self::MOST_CONTEXTS, "a class has 1 to 4,094 contexts");
        RawClass {
            raw: UnsafeCell::new(ffi::ww_class {
                pool: core::ptr::null_mut(),
                mutexes,
                // 0: the usual number, besides which threads keep contexts of their own.
                contexts: if contexts == Self::CONTEXTS { 0 } else { contexts },
                is_wait_die: matches!(kind, Kind::WaitDie) as c_int,
                permits: 0,
                name: name.as_ptr(),
            }),
            kind,
            name,
            tag: AtomicU32::new(NO_TAG),
            takes: Lock::new(()),
            most: AtomicU32::new(0),
            hooked: Hooked::new(),
        }
    }

    /// Wound-Wait or Wait-Die.
    #[must_use]
    pub const fn kind(&self) -> Kind {
        self.kind
    }

    /// What it was called.
    #[must_use]
    pub const fn name(&self) -> &'static CStr {
        self.name
    }

    pub(crate) fn get(&'static self) -> *mut ffi::ww_class {
        self.raw.get()
    }

    #[inline]
    pub(crate) fn hook(&self) -> Option<Hook> {
        self.hooked.get()
    }

    // ---- numbers ----

    #[inline]
    pub(crate) fn tag(&self) -> u32 {
        self.tag.load(Relaxed)
    }

    /// # Panics
    ///
    /// The number is of another class.
    pub(crate) fn check(&self, number: Number) {
        assert!(number.tag() == self.tag(), "`Class::raw` tells different classes");
    }

    fn first_tag(&self) -> u32 {
        static LAST: AtomicU32 = AtomicU32::new(0);
        assert_eq!(library_version() / 10_000, ffi::INTERFACE, "this is a library of another interface");
        let last = LAST.fetch_update(Relaxed, Relaxed, |last| (last + 1 < NO_TAG).then_some(last + 1));
        let tag = last.expect("each class has a tag of its own") + 1;
        self.tag.compare_exchange(NO_TAG, tag, Relaxed, Relaxed).map_or_else(|other| other, |_| tag)
    }

    /// Only the thread that holds this takes numbers.
    pub(crate) fn takes(&self) -> Locked<'_, ()> {
        self.takes.lock()
    }

    /// A number that no mutex has.
    pub(crate) fn take(&'static self) -> Result<Number, Error> {
        let tag = if self.tag() == NO_TAG { self.first_tag() } else { self.tag() };
        let mut index = 0;
        // SAFETY: the class is static, and `index` lives for the call.
        match unsafe { ffi::ww_number_take(&raw mut index, self.get()) } {
            0 => {
                self.most.fetch_max(index, Relaxed);
                Ok(Number::new(tag, index))
            }
            answer => Err(error::of_making(answer)),
        }
    }

    /// The library's mutex of a number of this class, or null, if it has none.
    pub(crate) fn at(&'static self, number: Number) -> *mut ffi::ww_shared_mutex {
        // SAFETY: the class is static.
        unsafe { ffi::ww_number_at(number.index(), self.get()) }
    }

    /// Puts back the number of a mutex that was dropped; the library waits until no context holds it or reads it. A context that got
    /// `Deadlock` at it counts as one that waits for it until it has backed off.
    pub(crate) fn give(&'static self, number: Number) {
        // A number of another class is lost.
        if number.tag() == self.tag() {
            // SAFETY: the class is static; no mutex has the number, which was taken, and is put back once.
            unsafe { ffi::ww_number_leave(number.index(), self.get()) };
        }
    }

    /// Releases all that a context holds but by guards: its reads; the mutex that it has since its back-off; and those of which the
    /// guards were forgotten. Nothing lists these, so each number of the class is looked at; no other context pays for that.
    ///
    /// # Safety
    ///
    /// The context, which is of this class, has begun, and no call of it is on its way. Nobody can use a guard of it, or a reference
    /// that a read gave.
    #[inline(never)]
    pub(crate) unsafe fn release_all(&'static self, context: *mut ffi::ww_acquire_ctx, prelocked: Option<Number>) {
        // SAFETY: as asked for here.
        let is_through = || unsafe { *ffi::acquired(context) == 0 };
        // SAFETY: likewise.
        unsafe {
            if let Some(first) = prelocked {
                ffi::unlock(first.index(), context);
            }
            if !is_through() {
                ffi::ww_acquire_end_reads(context);
            }
            if !is_through() {
                self.release_forgotten(context);
            }
        }
    }

    /// # Safety
    ///
    /// That of `release_all`, of a context that reads nothing.
    #[cold]
    unsafe fn release_forgotten(&'static self, context: *mut ffi::ww_acquire_ctx) {
        for index in 0..=self.most.load(Relaxed) {
            // SAFETY: as asked for here; a number that was ever taken has a mutex, also one that was put back.
            unsafe {
                let mutex = ffi::ww_number_at(index, self.get());
                if !mutex.is_null() && ffi::ww_shared_mutex_is_written_by(mutex, context) {
                    ffi::unlock(index, context);
                }
            }
        }
    }

    #[track_caller]
    fn cancel(&'static self) -> Result<(), Error> {
        // SAFETY: the class is static, and never freed.
        match unsafe { ffi::ww_class_cancel(self.get()) } {
            0 => Ok(()),
            answer => Err(error::of_making(answer)),
        }
    }

    fn counts(&'static self) -> Counts {
        let mut counts = ffi::ww_class_counts::default();
        // SAFETY: the class is static, and `counts` lives for the call.
        unsafe { ffi::ww_class_stats(self.get(), &raw mut counts) };
        let ffi::ww_class_counts { back_offs, lock_waits, context_waits, permit_waits, .. } = counts;
        let ffi::ww_class_counts { contexts, context_waiters, task_contexts, .. } = counts;
        Counts { back_offs, lock_waits, context_waits, permit_waits, contexts, context_waiters, task_contexts }
    }

    pub(crate) fn open(&'static self) -> Result<(), Error> {
        // SAFETY: the class is static.
        match unsafe { ffi::ww_class_open(self.get()) } {
            0 => Ok(()),
            answer => Err(error::of_making(answer)),
        }
    }
}

impl fmt::Debug for RawClass {
    fn fmt(&self, f: &mut fmt::Formatter<'_>) -> fmt::Result {
        f.debug_struct("RawClass").field("name", &self.name()).field("kind", &self.kind()).finish_non_exhaustive()
    }
}

/// Makes a [`Class`], or several: `class!(pub struct Buffers: WoundWait);`, with limits if you need them.
///
/// ```
/// ww_mutex::class! {
///     /// The buffers of all devices.
///     pub struct Buffers: WoundWait;
///     struct Ports: WaitDie, mutexes = 64, contexts = 4;
///     struct Sessions: WoundWait, contexts = 4000;
/// }
/// ```
///
/// Limits outside 1 to 16,773,121 mutexes and 1 to 4,094 contexts don't compile:
///
/// ```compile_fail,E0080
/// ww_mutex::class!(struct Ports: WaitDie, mutexes = 16_773_122);
/// ```
///
/// ```compile_fail,E0080
/// ww_mutex::class!(struct Ports: WaitDie, contexts = 4_095);
/// ```
///
/// ```compile_fail,E0080
/// ww_mutex::class!(struct Ports: WaitDie, mutexes = 0, contexts = 4);
/// ```
#[macro_export]
macro_rules! class {
    ($(
        $(#[$about:meta])*
        $seen:vis struct $name:ident : $kind:ident $(, mutexes = $mutexes:expr)? $(, contexts = $contexts:expr)?
    );+ $(;)?) => {
        $(
            $(#[$about])*
            #[derive(::core::clone::Clone, ::core::marker::Copy, ::core::fmt::Debug)]
            $seen enum $name {}

            impl $crate::ByClass_ for $name {
                #[inline]
                fn raw_() -> &'static $crate::RawClass {
                    static RAW: $crate::RawClass = $crate::RawClass::by_class_(
                        $crate::Kind::$kind,
                        ::core::concat!(::core::stringify!($name), "\0"),
                        $crate::class!(@limit MUTEXES $($mutexes)?),
                        $crate::class!(@limit CONTEXTS $($contexts)?),
                    );
                    &RAW
                }
            }
        )+
    };
    (@limit $usual:ident) => { $crate::RawClass::$usual };
    (@limit $usual:ident $limit:expr) => { $limit };
    ($($other:tt)*) => {
        ::core::compile_error!("a class is written `struct Accounts: WoundWait`, or `WaitDie`, then `, mutexes = 1_000` or `, contexts = 8`, or both");
    };
}
