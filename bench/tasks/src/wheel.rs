//! A wheel of timers, since tokio's own round to a millisecond: one thread turns it, and a sleep ends up to two ticks late.
use std::future::Future;
use std::pin::Pin;
use std::sync::atomic::{AtomicBool, AtomicU64, Ordering::SeqCst};
use std::sync::{LazyLock, Mutex};
use std::task::{Context, Poll, Waker};
use std::thread;
use std::time::{Duration, Instant};

const TICK: u64 = 20_000;
const SLOTS: usize = 4096;

struct Wheel {
    /// Whom to wake, by the tick that is due modulo their number.
    slots: Vec<Mutex<Vec<Waker>>>,
    begun: Instant,
    /// Ticks.
    done: AtomicU64,
}

static WHEEL: LazyLock<Wheel> = LazyLock::new(|| Wheel {
    slots: (0..SLOTS).map(|_| Mutex::default()).collect(),
    begun: Instant::now(),
    done: AtomicU64::new(0),
});

/// While this is set sleeps end at once, and those that have begun end in time.
pub static STOPS: AtomicBool = AtomicBool::new(false);

fn ticks(time: Duration) -> u64 {
    u64::try_from(time.as_nanos()).unwrap() / TICK
}

/// Turns the wheel as long as the program runs.
pub fn turn() {
    thread::spawn(|| loop {
        thread::sleep(Duration::from_nanos(TICK / 2));
        for done in WHEEL.done.load(SeqCst)..ticks(WHEEL.begun.elapsed()) {
            WHEEL.done.store(done + 1, SeqCst);
            let due = std::mem::take(&mut *slot(done + 1).lock().unwrap());
            due.into_iter().for_each(Waker::wake);
        }
    });
}

fn slot(tick: u64) -> &'static Mutex<Vec<Waker>> {
    &WHEEL.slots[usize::try_from(tick).unwrap() % SLOTS]
}

pub fn sleep(time: Duration) -> impl Future<Output = ()> {
    let now = WHEEL.begun.elapsed();
    Sleep(ticks(now + time) + 1)
}

/// The tick that ends it.
struct Sleep(u64);

impl Future for Sleep {
    type Output = ();

    fn poll(self: Pin<&mut Self>, cx: &mut Context<'_>) -> Poll<()> {
        let mut slot = slot(self.0).lock().unwrap();
        if WHEEL.done.load(SeqCst) >= self.0 || STOPS.load(SeqCst) {
            return Poll::Ready(());
        }
        // Also if it was woken a turn of the wheel too early.
        slot.push(cx.waker().clone());
        Poll::Pending
    }
}
