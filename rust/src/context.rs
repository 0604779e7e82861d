//! A context of the library, as both forms of contexts here use it.

use crate::class::RawClass;
use crate::events::{self, Event};
use crate::guard::Holder;
use crate::number::Number;
use crate::{clock, error, ffi, own, place, Canceller, Class, Error, Kind, Mutex, MutexGuard, SharedMutex};
use core::cell::{Cell, OnceCell, RefCell, UnsafeCell};
use core::ffi::c_int;
use core::ptr;
use std::time::{Duration, Instant};

/// From `begin` to `end` it isn't moved or borrowed exclusively, since the library has its address.
pub(crate) struct Context {
    raw: UnsafeCell<ffi::ww_acquire_ctx>,
    class: &'static RawClass,
    /// While this is `None`, a lock call is just that of the library.
    rare: OnceCell<Box<Rare>>,
}

/// What a context has in addition if it has limits, or once it got `Deadlock`.
#[derive(Default)]
struct Rare {
    /// They change between two runs of one age.
    limits: RefCell<Limits>,
    /// A lock call got `Deadlock`: nothing is locked until all is released, and what it collided with was awaited.
    is_over: Cell<bool>,
    /// The number at which that was: it is locked first from then on, whatever happens to its mutex meanwhile. `None`, if that was
    /// at a shared mutex, or at one who reads it: the library knows where.
    contended: Cell<Option<Number>>,
    /// Until then no other mutex gets that number.
    keeps: Cell<Option<ffi::Contended>>,
    /// It was locked first, and the body hasn't asked for it yet.
    prelocked: Cell<Option<Number>>,
    /// What this attempt reads by `UpgradableGuard`s alone.
    upgradable: RefCell<Vec<Number>>,
}

impl Rare {
    /// From now on its canceller may cancel this context.
    #[cold]
    fn join(&self, context: *mut ffi::ww_acquire_ctx) {
        self.limits.borrow().canceller.iter().for_each(|canceller| canceller.joins(context));
    }

    #[cold]
    fn leave(&self, context: *mut ffi::ww_acquire_ctx) {
        self.limits.borrow().canceller.iter().for_each(|canceller| canceller.leaves(context));
    }

    /// Whether the context holds it since its back-off, without a guard.
    fn comes_first(&self, number: Number) -> bool {
        self.prelocked.get() == Some(number)
    }
}

/// What may end the waits of a context.
#[derive(Default)]
struct Limits {
    until: Option<(Instant, ffi::timespec)>,
    canceller: Option<Canceller>,
}

impl Limits {
    fn new(deadline: Option<Instant>, canceller: Option<&Canceller>) -> Self {
        Limits { until: deadline.map(|at| (at, clock::monotonic(at))), canceller: canceller.cloned() }
    }

    fn until(&self) -> *const ffi::timespec {
        self.until.as_ref().map_or(ptr::null(), |(_, until)| ptr::from_ref(until))
    }

    fn is_cancelled(&self) -> bool {
        self.canceller.as_ref().is_some_and(Canceller::is_cancelled)
    }

    /// The error, if one of them ends the wait now: for a wait in which the library looks at none of them.
    fn check(&self) -> Result<(), Error> {
        if self.is_cancelled() {
            Err(Error::Cancelled)
        } else if self.until.is_some_and(|(at, _)| at <= Instant::now()) {
            Err(Error::TimedOut)
        } else {
            Ok(())
        }
    }
}

impl Context {
    #[inline]
    pub(crate) const fn new(class: &'static RawClass) -> Self {
        Context { raw: UnsafeCell::new(ffi::ww_acquire_ctx::uninit()), class, rare: OnceCell::new() }
    }

    #[cold]
    pub(crate) fn with_limits(
        class: &'static RawClass,
        deadline: Option<Instant>,
        canceller: Option<&Canceller>,
    ) -> Self {
        let limits = Limits::new(deadline, canceller).into();
        Context { rare: Box::new(Rare { limits, ..Rare::default() }).into(), ..Self::new(class) }
    }

    #[inline]
    pub(crate) fn raw(&self) -> *mut ffi::ww_acquire_ctx {
        self.raw.get()
    }

    /// How many mutexes it holds.
    #[inline]
    pub(crate) fn held(&self) -> u32 {
        // SAFETY: the context has begun, and only its own thread, which is this one, writes that field.
        unsafe { *ffi::acquired(self.raw()) }
    }

    #[inline]
    fn rare(&self) -> Option<&Rare> {
        self.rare.get().map(|rare| &**rare)
    }

    // ---- beginning and end ----

    /// # Safety
    ///
    /// It stays where it is, and isn't borrowed exclusively, until `end`, which comes once.
    #[inline]
    #[track_caller]
    pub(crate) unsafe fn begin(&self) -> Result<(), Error> {
        place::said();
        // SAFETY: the call reads nothing of what was there; the class is static, and the time lives for the call. It waits for a
        // context.
        let wait = |until: Option<&ffi::timespec>| unsafe {
            ffi::ww_acquire_init_until(self.raw(), self.class.get(), until.map_or(ptr::null(), ptr::from_ref))
        };
        let begun = match self.rare() {
            None => wait(None),
            // SAFETY: as above.
            Some(_) => unsafe { ffi::ww_acquire_init_checked(self.raw(), self.class.get()) },
        };
        match begun {
            0 => {}
            answer => self.begin_late(answer, wait)?,
        }
        // No program sees when a context began, so none needs an age of its own. A cancel of its class ends its waits.
        // SAFETY: it has begun, and has locked nothing.
        unsafe { ffi::ww_acquire_flags(self.raw(), ffi::WW_MAY_BE_OLDER | ffi::WW_INTERRUPTIBLE) };
        own::begun(self.raw(), self.class);
        if let Some(rare) = self.rare() {
            rare.join(self.raw());
        }
        Ok(())
    }

    /// As `begin`, with the age of what is suspended, if anything is; after an error it still is. It has the age of a context by hand,
    /// and may go on in another thread: so it isn't listed among this thread's.
    ///
    /// # Safety
    ///
    /// That of `begin`.
    #[track_caller]
    pub(crate) unsafe fn resume(&self, retry: &mut ffi::ww_retry) -> Result<(), Error> {
        place::said();
        let retry = ptr::from_mut(retry);
        // SAFETY: as in `begin`; the value lives for the call.
        let wait = |until: Option<&ffi::timespec>| unsafe {
            let until = until.map_or(ptr::null(), ptr::from_ref);
            ffi::ww_acquire_resume(self.raw(), self.class.get(), retry, until)
        };
        self.begin_late(-ffi::EAGAIN, wait)?;
        // SAFETY: it has begun, and has locked nothing.
        unsafe { ffi::ww_acquire_flags(self.raw(), ffi::WW_INTERRUPTIBLE) };
        if let Some(rare) = self.rare() {
            rare.join(self.raw());
        }
        Ok(())
    }

    /// It is this thread's until its end.
    pub(crate) fn is_of_this_thread(&self) {
        own::begun(self.raw(), self.class);
    }

    /// The library's wait for a context ends at a time, but not by a canceller: with one, it is made of waits, each twice as long as
    /// the one before. Each begins at the end of the queue, so one has to last until all those before have had their turn.
    #[cold]
    fn begin_late(&self, mut answer: c_int, wait: impl Fn(Option<&ffi::timespec>) -> c_int) -> Result<(), Error> {
        let limits = self.rare().map(|rare| rare.limits.borrow());
        let limits = limits.as_deref();
        let deadline = limits.and_then(|limits| limits.until.as_ref());
        let mut pause = Duration::from_micros(20);
        if answer == -ffi::EAGAIN && limits.is_none_or(|limits| limits.canceller.is_none()) {
            answer = wait(deadline.map(|(_, until)| until));
        }
        while answer == -ffi::EAGAIN {
            limits.map_or(Ok(()), Limits::check)?;
            let end = Instant::now() + pause;
            answer = match wait(Some(&clock::monotonic(deadline.map_or(end, |(at, _)| end.min(*at))))) {
                timed_out if timed_out == -ffi::ETIMEDOUT => -ffi::EAGAIN,
                other => other,
            };
            pause *= 2;
        }
        match -answer {
            0 => Ok(()),
            ffi::ETIMEDOUT => Err(Error::TimedOut),
            _ => Err(error::of_making(answer)),
        }
    }

    /// # Safety
    ///
    /// It has begun, and hasn't ended; no guard of it is left that anybody could use.
    #[inline]
    pub(crate) unsafe fn end(&self) {
        // SAFETY: as asked for here.
        unsafe { self.release_all() };
        if let Some(rare) = self.rare() {
            rare.leave(self.raw());
        }
        own::ended(self.raw());
        // SAFETY: it has begun, hasn't ended, and holds nothing.
        unsafe { ffi::ww_acquire_fini(self.raw()) };
    }

    /// Instead of `end`: its age goes on in the value, unless half of the class's contexts are suspended.
    ///
    /// # Safety
    ///
    /// That of `end`.
    pub(crate) unsafe fn suspend(&self, retry: &mut ffi::ww_retry) {
        // SAFETY: as asked for here.
        unsafe { self.release_all() };
        if let Some(rare) = self.rare() {
            rare.leave(self.raw());
        }
        own::ended(self.raw());
        // SAFETY: it has begun, hasn't ended, and holds nothing; no poll is made by it.
        unsafe {
            if ffi::ww_acquire_suspend(self.raw(), retry) != 0 {
                ffi::ww_acquire_fini(self.raw());
            }
        }
    }

    /// Between two runs of one age: releases all, and leaves its canceller. False: it was cancelled, so it may not go on.
    ///
    /// # Safety
    ///
    /// No guard of the context is left that anybody could use.
    pub(crate) unsafe fn pause(&self) -> bool {
        // SAFETY: as asked for here.
        unsafe { self.release_all() };
        let Some(rare) = self.rare() else { return true };
        rare.leave(self.raw());
        let limits = rare.limits.take();
        // What it said to the library may be still to come.
        !limits.is_cancelled()
    }

    /// After `pause`.
    pub(crate) fn limit(&self, deadline: Option<Instant>, canceller: Option<&Canceller>) {
        let rare = self.rare.get_or_init(Box::default);
        rare.limits.replace(Limits::new(deadline, canceller));
        rare.join(self.raw());
    }

    // ---- locks ----

    /// The context as the owner of a lock that it has acquired.
    #[inline]
    pub(crate) fn holder(&self) -> Holder {
        Holder::context(self.raw())
    }

    /// Acquires the mutex, which the caller borrows.
    #[inline]
    #[track_caller]
    pub(crate) fn lock<C: Class, T: ?Sized>(&self, mutex: &Mutex<C, T>) -> Result<(), Error> {
        self.lock_with(self.rare(), mutex.number(self.class)?)
    }

    #[inline]
    #[track_caller]
    fn lock_with(&self, rare: Option<&Rare>, number: Number) -> Result<(), Error> {
        if rare.is_some() || self.class.hook().is_some() {
            return self.lock_rarely(number);
        }
        self.check_wait(number, true);
        // SAFETY: the context has begun, and hasn't ended; the number is one of its class.
        match unsafe { ffi::lock(number.index(), self.raw()) } {
            0 => Ok(()),
            answer => self.lock_refused(number, answer),
        }
    }

    #[cold]
    #[track_caller]
    fn lock_rarely(&self, number: Number) -> Result<(), Error> {
        if self.is_over() {
            return Err(Error::Deadlock);
        }
        if self.take_first(number) {
            return Ok(());
        }
        // SAFETY: as above; the time lives for the call.
        let lock = |until| unsafe { ffi::ww_mutex_lock_until(self.class.at(number).cast(), self.raw(), until) };
        match self.ask(Some((number, true)), lock) {
            0 => Ok(()),
            answer => self.lock_refused(number, answer),
        }
    }

    /// Before a wait that nothing would end. In Wait-Die a context that holds something may get `Deadlock` instead.
    #[inline]
    #[track_caller]
    fn check_wait(&self, number: Number, writes: bool) {
        place::said();
        if cfg!(debug_assertions) && (self.held() == 0 || self.class.kind() == Kind::WoundWait) {
            own::check_wait(number, self.raw(), writes);
        }
    }

    /// Makes a call that may wait, as long as the context's limits let it; for this number, to write it, or to read it.
    #[track_caller]
    fn ask(&self, asked: Option<(Number, bool)>, call: impl Fn(*const ffi::timespec) -> c_int) -> c_int {
        let limits = self.rare().map(|rare| rare.limits.borrow());
        let limits = limits.as_deref().filter(|limits| limits.until.is_some() || limits.canceller.is_some());
        match (limits, asked) {
            (Some(limits), _) if limits.is_cancelled() => return -ffi::EINTR,
            (None, Some((number, writes))) => self.check_wait(number, writes),
            _ => place::said(),
        }
        let until = limits.map_or(ptr::null(), Limits::until);
        match self.class.hook() {
            Some(hook) => events::watch(hook, until, call),
            None => call(until),
        }
    }

    /// Makes a lock call of a table, which waits no longer than the limits let it, and than until this time. It is made once, also
    /// where there is a hook, since the wait for what was contended would end with a call of no time.
    #[track_caller]
    pub(crate) fn ask_table(
        &self,
        deadline: Option<Instant>,
        call: impl FnOnce(*const ffi::timespec) -> c_int,
    ) -> c_int {
        let deadline = deadline.map(clock::monotonic);
        let limits = self.rare().map(|rare| rare.limits.borrow());
        let limits = limits.as_deref();
        if limits.is_some_and(Limits::is_cancelled) {
            return -ffi::EINTR;
        }
        place::said();
        let own = limits.and_then(|limits| limits.until.as_ref()).map(|(_, until)| until);
        let answer = call(own.into_iter().chain(deadline.as_ref()).min().map_or(ptr::null(), ptr::from_ref));
        if let (ffi::EDEADLK, Some(hook)) = (-answer, self.class.hook()) {
            hook(Event::BackedOff);
        }
        answer
    }

    /// The error for a value other than 0 that the library returned.
    #[cold]
    #[track_caller]
    fn refused(&self, answer: c_int) -> Error {
        match -answer {
            ffi::EALREADY => Error::Duplicate,
            ffi::EDEADLK => {
                let rare = self.rare.get_or_init(Box::default);
                rare.is_over.set(true);
                // SAFETY: the last lock call of the context returned that; classes are static, and never freed.
                rare.keeps.set(Some(unsafe { ffi::Contended::of(self.raw()) }));
                if let Some(hook) = self.class.hook() {
                    hook(Event::BackedOff);
                }
                Error::Deadlock
            }
            ffi::ETIMEDOUT => Error::TimedOut,
            _ => error::of_making(answer),
        }
    }

    /// The same of a lock: after `Deadlock` its mutex comes first.
    #[cold]
    #[track_caller]
    fn lock_refused(&self, number: Number, answer: c_int) -> Result<(), Error> {
        let error = self.refused(answer);
        if error.is_deadlock() {
            self.rare.get_or_init(Box::default).contended.set(Some(number));
        }
        Err(error)
    }

    /// Acquires all of them, in this order, for guards that live no longer than the context; or none of them. If a lock
    /// call panics, what it acquired is released like what was forgotten.
    #[inline]
    #[track_caller]
    pub(crate) fn lock_all<'g, C: Class, T: ?Sized, const N: usize>(
        &'g self,
        list: [&'g Mutex<C, T>; N],
    ) -> Result<[MutexGuard<'g, C, T>; N], Error> {
        list.iter().skip(1).for_each(|mutex| mutex.fetch());
        // This changes only when a lock call is refused.
        let rare = self.rare();
        for (count, mutex) in list.iter().enumerate() {
            let told = mutex.number(self.class).and_then(|number| self.lock_with(rare, number));
            if told.is_err() {
                // SAFETY: these were locked here, and no other guards stand for that.
                list[..count].iter().for_each(|mutex| drop(unsafe { MutexGuard::of(mutex, self.holder()) }));
                told?;
            }
        }
        // SAFETY: each was locked, for these guards.
        Ok(list.map(|mutex| unsafe { MutexGuard::of(mutex, self.holder()) }))
    }

    /// Acquires it if nobody has it or waits for it.
    pub(crate) fn try_lock<C: Class, T: ?Sized>(&self, mutex: &Mutex<C, T>) -> bool {
        let Ok(number) = mutex.number(self.class) else { return false };
        if self.is_over() {
            return false;
        }
        // SAFETY: as in `lock_with`.
        self.take_first(number) || unsafe { ffi::ww_number_trylock(number.index(), self.raw()) == 1 }
    }

    /// Whether a guard of the context holds it.
    pub(crate) fn holds<C: Class, T: ?Sized>(&self, mutex: &Mutex<C, T>) -> bool {
        let Some(number) = mutex.existing().filter(|number| number.tag() == self.class.tag()) else { return false };
        // SAFETY: as in `lock_with`.
        let has = unsafe { ffi::ww_shared_mutex_is_written_by(self.class.at(number), self.raw()) };
        has && !self.rare().is_some_and(|rare| rare.comes_first(number))
    }

    fn reads(&self, number: Number) -> bool {
        // SAFETY: as in `lock_with`.
        unsafe { ffi::ww_shared_mutex_is_read_by(self.class.at(number), self.raw()) }
    }

    /// Hands out what the context holds since its back-off, if it is this mutex.
    fn take_first(&self, number: Number) -> bool {
        let Some(rare) = self.rare().filter(|rare| rare.comes_first(number)) else { return false };
        rare.prelocked.take();
        true
    }

    // ---- shared mutexes ----

    /// Reads it from now on until the back-off, or the end. `Duplicate`: a guard of the context writes it, or may come to.
    #[track_caller]
    pub(crate) fn read<C: Class, T: ?Sized>(&self, mutex: &SharedMutex<C, T>) -> Result<(), Error> {
        let number = mutex.number(self.class)?;
        if self.rare().is_some_and(|rare| rare.upgradable.borrow().contains(&number)) {
            return Err(Error::Duplicate);
        }
        self.ask_shared(number, false)
    }

    /// Writes it, for one guard. `Duplicate`: one is there, or the context reads it, so that there may be references.
    #[track_caller]
    pub(crate) fn write<C: Class, T: ?Sized>(&self, mutex: &SharedMutex<C, T>) -> Result<(), Error> {
        let number = mutex.number(self.class)?;
        if self.reads(number) {
            return Err(Error::Duplicate);
        }
        self.ask_shared(number, true)
    }

    /// Reads it likewise, for one guard, which may come to write it. `Duplicate`: the context reads or writes it otherwise, so that
    /// there may be references.
    #[track_caller]
    pub(crate) fn read_upgradable<C: Class, T: ?Sized>(&self, mutex: &SharedMutex<C, T>) -> Result<(), Error> {
        let number = mutex.number(self.class)?;
        if self.reads(number) {
            return Err(Error::Duplicate);
        }
        self.ask_shared(number, false)?;
        self.rare.get_or_init(Box::default).upgradable.borrow_mut().push(number);
        Ok(())
    }

    /// Reads or writes it if that needs no wait, and if no guard or reference of the context is in its way.
    pub(crate) fn tries_shared<C: Class, T: ?Sized>(&self, mutex: &SharedMutex<C, T>, writes: bool) -> bool {
        let Ok(number) = mutex.number(self.class) else { return false };
        if self.rare().is_some_and(|rare| rare.is_over.get() || rare.upgradable.borrow().contains(&number)) {
            return false;
        }
        // SAFETY: as in `lock_with`.
        unsafe { ffi::tries_shared(self.class.at(number), self.raw(), writes) }
    }

    /// Writes what it reads by a guard, which is used no more.
    #[track_caller]
    pub(crate) fn upgrade<C: Class, T: ?Sized>(&self, mutex: &SharedMutex<C, T>) -> Result<(), Error> {
        self.ask_shared(mutex.number(self.class)?, true)
    }

    #[track_caller]
    fn ask_shared(&self, number: Number, writes: bool) -> Result<(), Error> {
        if self.is_over() {
            return Err(Error::Deadlock);
        }
        // SAFETY: as in `lock_rarely`.
        let call = |until| unsafe {
            if writes {
                ffi::ww_shared_mutex_lock_until(self.class.at(number), self.raw(), until)
            } else {
                ffi::ww_shared_mutex_lock_shared_until(self.class.at(number), self.raw(), until)
            }
        };
        match self.ask(Some((number, writes)), call) {
            0 => Ok(()),
            answer => Err(self.refused(answer)),
        }
    }

    // ---- back-offs ----

    /// Whether it got `Deadlock`, and hasn't backed off since.
    #[inline]
    pub(crate) fn is_over(&self) -> bool {
        self.rare().is_some_and(|rare| rare.is_over.get())
    }

    /// Releases all, so that anything can be locked.
    ///
    /// # Safety
    ///
    /// No guard of the context is left that anybody could use.
    pub(crate) unsafe fn start(&self) {
        // SAFETY: as asked for here.
        unsafe { self.release_all() };
        if let Some(rare) = self.rare() {
            rare.contended.take();
            rare.keeps.take();
            rare.is_over.set(false);
        }
    }

    /// Releases all. If it got `Deadlock` since it began last, it waits for the mutex at which that was, which it then holds; or, where
    /// that was a shared one, for what it collided with.
    ///
    /// # Safety
    ///
    /// No guard of the context is left that anybody could use.
    #[cold]
    pub(crate) unsafe fn back_off(&self) -> Result<(), Error> {
        let rare = self.rare.get_or_init(Box::default);
        let (first, keeps, is_over) = (rare.contended.take(), rare.keeps.take(), rare.is_over.get());
        let is_gone = || keeps.as_ref().is_some_and(ffi::Contended::is_gone);
        // SAFETY: as asked for here.
        unsafe { self.start() };
        // A context that holds nothing never gets `Deadlock`. So an ordinary lock call serves as the slow one, and has
        // the same limits.
        let told = match first {
            _ if is_gone() => return Ok(()),
            Some(first) => {
                self.class.check(first);
                self.lock_rarely(first)
            }
            // SAFETY: the context got `Deadlock`, and has released all since.
            None if is_over => match self.ask(None, |until| unsafe { ffi::ww_shared_mutex_await(self.raw(), until) }) {
                0 => Ok(()),
                answer => Err(self.refused(answer)),
            },
            None => Ok(()),
        };
        match first {
            _ if told.is_err() => {
                // It comes first in a further run, too.
                rare.contended.set(first);
                rare.keeps.set(keeps);
                rare.is_over.set(is_over);
            }
            // SAFETY: the context holds it, without a guard.
            Some(first) if is_gone() => unsafe { ffi::unlock(first.index(), self.raw()) },
            _ => rare.prelocked.set(first),
        }
        told
    }

    /// Releases whatever it holds, also what was forgotten.
    ///
    /// # Safety
    ///
    /// No guard of the context is left that anybody could use, and no reference that a read gave.
    #[inline]
    unsafe fn release_all(&self) {
        if self.rare().is_some() || self.held() != 0 {
            // SAFETY: as asked for here.
            unsafe { self.release_held() };
        }
    }

    /// # Safety
    ///
    /// That of `release_all`.
    #[cold]
    unsafe fn release_held(&self) {
        let prelocked = self.rare().and_then(|rare| {
            rare.upgradable.borrow_mut().clear();
            rare.prelocked.take()
        });
        // SAFETY: the context has begun, and hasn't ended.
        unsafe { self.class.release_all(self.raw(), prelocked) };
    }
}
