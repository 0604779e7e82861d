//! Tasks that lock some of 64 objects and add one to each: this crate's contexts beside tokio's mutexes in sorted order and one
//! mutex for all, under tokio's executor; and threads that block.
//!
//!     time SECONDS ROUNDS THREADS     thousands of transactions a second: medians, and attempts a commit
//!     timers SECONDS ROUNDS THREADS   the same without one mutex for all, where tasks hold their locks across a timer, of
//!                                     4,096 objects too
//!     alone ENGINE LOCKS TIMES        one task alone, for who counts instructions: own, sorted, one, thread, none
use std::cell::UnsafeCell;
use std::future::Future;
use std::pin::pin;
use std::sync::atomic::{AtomicU64, Ordering::Relaxed};
use std::sync::Arc;
use std::task::{Context, Poll, Waker};
use std::thread;
use std::time::{Duration, Instant};
use ww_mutex::{class, transaction, Class, Mutex};

mod wheel;

class! {
    struct Wound: WoundWait;
    struct Die: WaitDie;
}

/// If no other number is named.
const OBJECTS: usize = 64;

static ATTEMPTS: AtomicU64 = AtomicU64::new(0);
static COMMITS: AtomicU64 = AtomicU64::new(0);

#[repr(align(64))]
struct Line<T>(T);

struct Objects<C: Class> {
    own: Vec<Line<Mutex<C, u64>>>,
    tokio: Vec<Line<tokio::sync::Mutex<u64>>>,
    one: Line<tokio::sync::Mutex<()>>,
    bare: Vec<Line<UnsafeCell<u64>>>,
}

// SAFETY: `bare` is reached under `one` alone.
unsafe impl<C: Class> Sync for Objects<C> {}

fn each<T>(many: usize, make: impl Fn() -> T) -> Vec<Line<T>> {
    (0..many).map(|_| Line(make())).collect()
}

impl<C: Class> Objects<C> {
    fn new(many: usize) -> Self {
        Objects {
            own: each(many, || Mutex::try_new(0).unwrap()),
            tokio: each(many, || tokio::sync::Mutex::new(0)),
            one: Line(tokio::sync::Mutex::new(())),
            bare: each(many, || UnsafeCell::new(0)),
        }
    }
}

/// Different ones.
fn draw<const N: usize>(x: &mut u64, of: usize) -> [usize; N] {
    let mut list = [usize::MAX; N];
    let mut count = 0;
    while count < N {
        *x = x
            .wrapping_mul(6_364_136_223_846_793_005)
            .wrapping_add(1_442_695_040_888_963_407);
        let it = usize::try_from(*x >> 33).unwrap() % of;
        if !list[..count].contains(&it) {
            list[count] = it;
            count += 1;
        }
    }
    list
}

/// Lets the executor run others.
async fn yield_now() {
    let mut has_yielded = false;
    std::future::poll_fn(|cx| {
        if std::mem::replace(&mut has_yielded, true) {
            return Poll::Ready(());
        }
        cx.waker().wake_by_ref();
        Poll::Pending
    })
    .await;
}

/// What is done under the locks.
#[derive(Clone, Copy, PartialEq)]
enum Under {
    Nothing,
    /// About two microseconds of the processor.
    Work,
    /// Others run.
    Await,
    Timer(Duration),
}

impl Under {
    async fn pass(self) {
        match self {
            Under::Nothing => {}
            Under::Work => {
                for k in 0..2000_u64 {
                    std::hint::black_box(k);
                }
            }
            Under::Await => yield_now().await,
            Under::Timer(time) => wheel::sleep(time).await,
        }
    }
}

async fn own<C: Class, const N: usize>(
    objects: &Objects<C>,
    list: &[usize; N],
    under: Under,
) -> u32 {
    let told = transaction!(C, |tx| {
        let mut guards: [Option<_>; N] = [const { None }; N];
        for k in 0..N {
            guards[k] = Some(tx.lock(&objects.own[list[k]].0).await?);
        }
        under.pass().await;
        for guard in guards.iter_mut().flatten() {
            **guard += 1;
        }
        Ok(tx.attempts())
    });
    told.unwrap()
}

async fn sorted<C: Class, const N: usize>(objects: &Objects<C>, list: &[usize; N], under: Under) {
    let mut list = *list;
    list.sort_unstable();
    let mut guards: [Option<_>; N] = [const { None }; N];
    for k in 0..N {
        guards[k] = Some(objects.tokio[list[k]].0.lock().await);
    }
    under.pass().await;
    for guard in guards.iter_mut().flatten() {
        **guard += 1;
    }
}

async fn one<C: Class, const N: usize>(objects: &Objects<C>, list: &[usize; N], under: Under) {
    let _all = objects.one.0.lock().await;
    under.pass().await;
    for &k in list {
        // SAFETY: under the one mutex.
        unsafe { *objects.bare[k].0.get() += 1 };
    }
}

fn by_thread<C: Class, const N: usize>(objects: &Objects<C>, list: &[usize; N]) {
    C::run(|tx| {
        let mut guards: [Option<_>; N] = [const { None }; N];
        for k in 0..N {
            guards[k] = Some(tx.lock(&objects.own[list[k]].0)?);
        }
        for guard in guards.iter_mut().flatten() {
            **guard += 1;
        }
        Ok(())
    })
    .unwrap();
}

#[derive(Clone, Copy)]
enum Engine {
    Own,
    Sorted,
    One,
}

/// What is timed, but for who locks how many.
#[derive(Clone, Copy)]
struct Load {
    objects: usize,
    tasks: usize,
    under: Under,
    threads: usize,
    time: Duration,
}

/// Thousands of transactions a second.
fn run<C: Class, const N: usize>(engine: Engine, load: Load) -> f64 {
    let runtime = tokio::runtime::Builder::new_multi_thread()
        .worker_threads(load.threads)
        .build()
        .unwrap();
    let done = Arc::new(AtomicU64::new(0));
    let objects = Arc::new(Objects::<C>::new(load.objects));
    let begun = Instant::now();
    let all: Vec<_> = (0..load.tasks)
        .map(|me| {
            let (objects, done) = (objects.clone(), done.clone());
            runtime.spawn(async move {
                let (mut x, mut made) = (99 * me as u64 + 7, 0);
                loop {
                    let list = draw::<N>(&mut x, load.objects);
                    match engine {
                        Engine::Own => {
                            let attempts = own(&objects, &list, load.under).await;
                            ATTEMPTS.fetch_add(u64::from(attempts), Relaxed);
                            COMMITS.fetch_add(1, Relaxed);
                        }
                        Engine::Sorted => sorted(&objects, &list, load.under).await,
                        Engine::One => one(&objects, &list, load.under).await,
                    }
                    if wheel::STOPS.load(Relaxed) {
                        break;
                    }
                    made += 1;
                    if made % 8 == 0 {
                        yield_now().await;
                    }
                }
                done.fetch_add(made, Relaxed);
            })
        })
        .collect();
    thread::sleep(load.time);
    wheel::STOPS.store(true, Relaxed);
    let took = begun.elapsed();
    runtime.block_on(async {
        for it in all {
            it.await.unwrap();
        }
    });
    wheel::STOPS.store(false, Relaxed);
    done.load(Relaxed) as f64 / took.as_secs_f64() / 1e3
}

/// Of those since this was asked last.
fn attempts_a_commit() -> f64 {
    ATTEMPTS.swap(0, Relaxed) as f64 / COMMITS.swap(0, Relaxed) as f64
}

fn median(list: &mut [f64]) -> f64 {
    list.sort_by(f64::total_cmp);
    list[list.len() / 2]
}

fn row<C: Class, const N: usize>(kind: &str, rounds: usize, load: Load) {
    let mut seen = [const { Vec::new() }; 3];
    attempts_a_commit();
    for _ in 0..rounds {
        for (of, engine) in seen
            .iter_mut()
            .zip([Engine::Own, Engine::Sorted, Engine::One])
        {
            of.push(run::<C, N>(engine, load));
        }
    }
    let [own, sorted, one] = seen.each_mut().map(|list| median(list));
    let under = match load.under {
        Under::Nothing => "nothing",
        Under::Work => "work",
        Under::Await => "an await",
        Under::Timer(_) => "a timer",
    };
    println!(
        "| {kind} | {N} of {OBJECTS} | {} | {under} | {own:.0} | {sorted:.0} | {one:.0} | {:.2} | {:.2} |",
        load.tasks,
        own / sorted,
        attempts_a_commit()
    );
}

fn time(time: Duration, rounds: usize, threads: usize) {
    println!("| kind | locks | tasks | under them | tasks' contexts | tokio, sorted | one mutex | to sorted | attempts a commit |");
    println!("|---|---|---|---|---|---|---|---|---|");
    for under in [Under::Nothing, Under::Work, Under::Await] {
        for tasks in [64, 4096] {
            let load = Load {
                objects: OBJECTS,
                tasks,
                under,
                threads,
                time,
            };
            row::<Wound, 2>("Wound-Wait", rounds, load);
            row::<Die, 2>("Wait-Die", rounds, load);
            row::<Wound, 8>("Wound-Wait", rounds, load);
            row::<Die, 8>("Wait-Die", rounds, load);
        }
    }
}

fn timers(time: Duration, rounds: usize, threads: usize) {
    fn row<const N: usize>(timer: Duration, rounds: usize, load: Load) {
        let mut seen = [const { Vec::new() }; 3];
        for _ in 0..rounds {
            seen[0].push(run::<Wound, N>(Engine::Own, load));
            seen[1].push(run::<Die, N>(Engine::Own, load));
            seen[2].push(run::<Wound, N>(Engine::Sorted, load));
        }
        let [wound, die, sorted] = seen.each_mut().map(|list| median(list));
        println!(
            "| {N} of {} | {timer:?} | {} | {wound:.1} | {die:.1} | {sorted:.1} | {:.2} | {:.2} |",
            load.objects,
            load.tasks,
            wound / sorted,
            die / sorted
        );
    }
    println!("| locks | timer | tasks | Wound-Wait | Wait-Die | tokio, sorted | to sorted | |");
    println!("|---|---|---|---|---|---|---|---|");
    wheel::turn();
    for timer in [100, 1000, 10_000].map(Duration::from_micros) {
        for tasks in [64, 1024, 10_000] {
            let load = |objects| Load {
                objects,
                tasks,
                under: Under::Timer(timer),
                threads,
                time: time.max(100 * timer),
            };
            row::<2>(timer, rounds, load(OBJECTS));
            row::<8>(timer, rounds, load(OBJECTS));
            row::<2>(timer, rounds, load(4096));
        }
    }
}

/// What waits for nothing.
fn at_once<R>(future: impl Future<Output = R>) -> R {
    match pin!(future).poll(&mut Context::from_waker(Waker::noop())) {
        Poll::Ready(it) => it,
        Poll::Pending => panic!("it waits"),
    }
}

fn alone<const N: usize>(engine: &str, times: u64) {
    let objects = Objects::<Wound>::new(OBJECTS);
    let mut x = 7;
    for _ in 0..times {
        let list = draw::<N>(&mut x, OBJECTS);
        match engine {
            "own" => drop(at_once(own(&objects, &list, Under::Nothing))),
            "sorted" => at_once(sorted(&objects, &list, Under::Nothing)),
            "one" => at_once(one(&objects, &list, Under::Nothing)),
            "thread" => by_thread(&objects, &list),
            _ => drop(std::hint::black_box(list)),
        }
    }
}

fn main() {
    let words: Vec<String> = std::env::args().skip(1).collect();
    let seconds = |word: &str| Duration::from_secs_f64(word.parse().unwrap());
    match words.iter().map(String::as_str).collect::<Vec<_>>()[..] {
        ["time", s, rounds, threads] => time(
            seconds(s),
            rounds.parse().unwrap(),
            threads.parse().unwrap(),
        ),
        ["timers", s, rounds, threads] => timers(
            seconds(s),
            rounds.parse().unwrap(),
            threads.parse().unwrap(),
        ),
        ["alone", engine, "1", times] => alone::<1>(engine, times.parse().unwrap()),
        ["alone", engine, "2", times] => alone::<2>(engine, times.parse().unwrap()),
        ["alone", engine, "8", times] => alone::<8>(engine, times.parse().unwrap()),
        _ => panic!("time|timers SECONDS ROUNDS THREADS | alone ENGINE LOCKS TIMES"),
    }
}
