//! Executors for the tests of tasks: one with threads, which may also drop a future between two polls, and one without,
//! which polls in each order that there is.

#![allow(dead_code)]

use std::collections::VecDeque;
use std::future::Future;
use std::ops::{Deref, DerefMut};
use std::pin::Pin;
use std::sync::atomic::{AtomicBool, AtomicU8, AtomicUsize, Ordering::SeqCst};
use std::sync::{Arc, Condvar, Mutex, MutexGuard, Weak};
use std::task::{Context, Poll, Wake, Waker};
use std::thread;

/// std's lock, which tells the thread sanitizer its order, since that doesn't see what std does.
#[derive(Default)]
struct Lock<T> {
    seen: AtomicBool,
    value: Mutex<T>,
}

struct Locked<'l, T> {
    seen: &'l AtomicBool,
    value: Option<MutexGuard<'l, T>>,
}

impl<T> Lock<T> {
    fn new(value: T) -> Self {
        Lock { seen: AtomicBool::new(false), value: Mutex::new(value) }
    }

    fn lock(&self) -> Locked<'_, T> {
        let value = Some(self.value.lock().unwrap());
        self.seen.load(SeqCst);
        Locked { seen: &self.seen, value }
    }
}

impl<T> Locked<'_, T> {
    fn wait(&mut self, until: &Condvar) {
        self.seen.store(true, SeqCst);
        self.value = self.value.take().map(|value| until.wait(value).unwrap());
        self.seen.load(SeqCst);
    }
}

impl<T> Deref for Locked<'_, T> {
    type Target = T;

    fn deref(&self) -> &T {
        self.value.as_ref().unwrap()
    }
}

impl<T> DerefMut for Locked<'_, T> {
    fn deref_mut(&mut self) -> &mut T {
        self.value.as_mut().unwrap()
    }
}

impl<T> Drop for Locked<'_, T> {
    fn drop(&mut self) {
        self.seen.store(true, SeqCst);
    }
}

type Work = Pin<Box<dyn Future<Output = ()> + Send>>;

const IDLE: u8 = 0;
const QUEUED: u8 = 1;
const RUNS: u8 = 2;
const RUNS_AND_IS_WOKEN: u8 = 3;

/// A task. Its waker keeps it, so what its future has may go in a waker's drop.
pub struct Task {
    work: Lock<Option<Work>>,
    state: AtomicU8,
    is_aborted: AtomicBool,
    pool: Weak<Pool>,
}

#[derive(Default)]
pub struct Pool {
    queue: Lock<VecDeque<Arc<Task>>>,
    filled: Condvar,
    left: AtomicUsize,
}

impl Pool {
    pub fn spawn(self: &Arc<Self>, work: impl Future<Output = ()> + Send + 'static) -> Arc<Task> {
        self.left.fetch_add(1, SeqCst);
        let task = Arc::new(Task {
            work: Lock::new(Some(Box::pin(work))),
            state: AtomicU8::new(QUEUED),
            is_aborted: AtomicBool::new(false),
            pool: Arc::downgrade(self),
        });
        self.push(Arc::clone(&task));
        task
    }

    fn push(&self, task: Arc<Task>) {
        self.queue.lock().push_back(task);
        self.filled.notify_one();
    }

    fn one_less(&self) {
        if self.left.fetch_sub(1, SeqCst) == 1 {
            let _queue = self.queue.lock();
            self.filled.notify_all();
        }
    }

    /// Until all tasks have ended.
    pub fn run(&self) {
        loop {
            let task = {
                let mut queue = self.queue.lock();
                loop {
                    if let Some(task) = queue.pop_front() {
                        break task;
                    }
                    if self.left.load(SeqCst) == 0 {
                        return;
                    }
                    queue.wait(&self.filled);
                }
            };
            task.run();
        }
    }

    pub fn run_by(&self, threads: usize) {
        thread::scope(|scope| {
            let threads: Vec<_> = (0..threads).map(|_| scope.spawn(|| self.run())).collect();
            for thread in threads {
                thread.join().unwrap();
            }
        });
    }
}

impl Task {
    /// Its future is dropped as soon as it isn't being polled.
    pub fn abort(self: &Arc<Self>) {
        self.is_aborted.store(true, SeqCst);
        self.wake_by_ref();
    }

    fn run(self: Arc<Self>) {
        self.state.store(RUNS, SeqCst);
        let mut work = self.work.lock();
        let Some(future) = work.as_mut() else { return };
        let waker = Waker::from(Arc::clone(&self));
        let is_over = self.is_aborted.load(SeqCst) || future.as_mut().poll(&mut Context::from_waker(&waker)).is_ready();
        if is_over {
            *work = None;
            drop(work);
            self.pool.upgrade().unwrap().one_less();
        } else if self.state.compare_exchange(RUNS, IDLE, SeqCst, SeqCst).is_err() {
            drop(work);
            self.state.store(QUEUED, SeqCst);
            self.pool.upgrade().unwrap().push(self);
        }
    }
}

impl Wake for Task {
    fn wake(self: Arc<Self>) {
        self.wake_by_ref();
    }

    fn wake_by_ref(self: &Arc<Self>) {
        let next = |state| match state {
            IDLE => Some(QUEUED),
            RUNS => Some(RUNS_AND_IS_WOKEN),
            _ => None,
        };
        if self.state.fetch_update(SeqCst, SeqCst, next) == Ok(IDLE) {
            if let Some(pool) = self.pool.upgrade() {
                pool.push(Arc::clone(self));
            }
        }
    }
}

/// Lets others run.
pub fn yield_now() -> impl Future<Output = ()> + Send {
    let mut has_yielded = false;
    std::future::poll_fn(move |cx| {
        if std::mem::replace(&mut has_yielded, true) {
            return Poll::Ready(());
        }
        cx.waker().wake_by_ref();
        Poll::Pending
    })
}

/// By this thread alone, which sleeps meanwhile.
pub fn block_on<R>(future: impl Future<Output = R>) -> R {
    struct Unpark(thread::Thread);
    impl Wake for Unpark {
        fn wake(self: Arc<Self>) {
            self.0.unpark();
        }
    }
    let waker = Waker::from(Arc::new(Unpark(thread::current())));
    let mut future = std::pin::pin!(future);
    loop {
        if let Poll::Ready(value) = future.as_mut().poll(&mut Context::from_waker(&waker)) {
            return value;
        }
        thread::park();
    }
}

/// Drops the future behind so many polls that were in vain: `None`.
pub fn at_most<R>(polls: usize, future: impl Future<Output = R> + Send) -> impl Future<Output = Option<R>> + Send {
    let mut future = Some(Box::pin(future));
    let mut left = polls;
    std::future::poll_fn(move |cx| {
        let told = future.as_mut().unwrap().as_mut().poll(cx).map(Some);
        if told.is_pending() && left == 0 {
            future = None;
            return Poll::Ready(None);
        }
        left = left.saturating_sub(1);
        told
    })
}

// ---- each order ----

/// Counts how often it is woken.
#[derive(Default)]
pub struct Flag(AtomicUsize);

impl Flag {
    pub fn is_set(&self) -> bool {
        self.0.load(SeqCst) > 0
    }

    pub fn clear(&self) {
        self.0.store(0, SeqCst);
    }
}

impl Wake for Flag {
    fn wake(self: Arc<Self>) {
        self.0.fetch_add(1, SeqCst);
    }
}

/// Once, by this waker.
pub fn poll<F: Future + ?Sized>(future: Pin<&mut F>, flag: &Arc<Flag>) -> Poll<F::Output> {
    flag.clear();
    future.poll(&mut Context::from_waker(&Waker::from(Arc::clone(flag))))
}

/// What may come next.
#[derive(Clone, Copy, Debug, PartialEq)]
pub enum Step {
    Poll(usize),
    /// Though nobody woke it.
    PollAnyway(usize),
    Drop(usize),
}

/// Runs these futures in each order in which woken ones can be polled, with up to so many drops and polls without need
/// in between, and calls `check` behind each run. A run that stands still is a lost wake-up. How many runs there were; and
/// how many of them went another way than the one that they repeat: what a dropped wait left to the next user of its
/// context, a cancel that it no longer needed, wakes once more.
pub fn each_order<'f>(
    make: impl Fn() -> Vec<Pin<Box<dyn Future<Output = ()> + 'f>>>,
    drops: usize,
    anyway: usize,
    check: impl Fn(&[Step]),
) -> (usize, usize) {
    let mut path: Vec<usize> = Vec::new();
    let (mut runs, mut others) = (0, 0);
    loop {
        let mut futures: Vec<_> = make().into_iter().map(Some).collect();
        let flags: Vec<Arc<Flag>> = futures.iter().map(|_| Arc::default()).collect();
        for flag in &flags {
            flag.clone().wake();
        }
        let (mut taken, mut counts, mut is_other) = (Vec::new(), Vec::new(), false);
        let (mut drops, mut anyway) = (drops, anyway);
        while futures.iter().any(Option::is_some) {
            let mut steps = Vec::new();
            for k in 0..futures.len() {
                if futures[k].is_none() {
                    continue;
                }
                if flags[k].is_set() {
                    steps.push(Step::Poll(k));
                } else if anyway > 0 {
                    steps.push(Step::PollAnyway(k));
                }
                if drops > 0 {
                    steps.push(Step::Drop(k));
                }
            }
            assert!(steps.iter().any(|step| matches!(step, Step::Poll(_))), "nobody is woken after {taken:?}");
            let choice = path.get(counts.len()).copied().unwrap_or(0);
            counts.push(steps.len());
            if path.len() < counts.len() {
                path.push(0);
            }
            is_other |= choice >= steps.len();
            let step = steps[choice.min(steps.len() - 1)];
            taken.push(step);
            match step {
                Step::Poll(k) | Step::PollAnyway(k) => {
                    anyway -= usize::from(step == Step::PollAnyway(k));
                    flags[k].clear();
                    let waker = Waker::from(flags[k].clone());
                    let polled = futures[k].as_mut().unwrap().as_mut().poll(&mut Context::from_waker(&waker));
                    if polled.is_ready() {
                        futures[k] = None;
                    }
                }
                Step::Drop(k) => {
                    drops -= 1;
                    futures[k] = None;
                }
            }
        }
        check(&taken);
        runs += 1;
        others += usize::from(is_other);
        path.truncate(counts.len());
        // The next path: the last choice that has another one.
        while let Some(last) = path.pop() {
            if last + 1 < counts[path.len()] {
                path.push(last + 1);
                break;
            }
        }
        if path.is_empty() {
            return (runs, others);
        }
    }
}

// ---- what tests draw ----

/// So many times as much, of a usual thousand.
pub fn times(usual: usize) -> usize {
    let per_mille = std::env::var("WW_TIMES").ok().and_then(|word| word.parse().ok()).unwrap_or(6000);
    (usual * per_mille / 6000).max(1)
}

pub struct Draws(pub u64);

impl Draws {
    pub fn below(&mut self, count: usize) -> usize {
        self.0 = self.0.wrapping_mul(6_364_136_223_846_793_005).wrapping_add(1_442_695_040_888_963_407);
        usize::try_from(self.0 >> 33).unwrap() % count
    }

    /// Different ones.
    pub fn places(&mut self, count: usize, of: usize) -> Vec<usize> {
        let mut list = Vec::new();
        while list.len() < count {
            let k = self.below(of);
            if !list.contains(&k) {
                list.push(k);
            }
        }
        list
    }
}
