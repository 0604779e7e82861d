//! Each thread locks another mutex than it should: the thread sanitizer has to find that (`check`).

use std::cell::UnsafeCell;
use std::sync::Barrier;
use std::thread;
use ww_mutex::{class, Class, Mutex};

class!(struct Boxes: WoundWait);

struct Shared(UnsafeCell<u64>);
// SAFETY: none, which is what this is for.
unsafe impl Sync for Shared {}

static COUNT: Shared = Shared(UnsafeCell::new(0));
static LOCKS: [Mutex<Boxes, ()>; 2] = [const { Mutex::new(()) }; 2];

/// Once both threads have counted. So neither begins when the other one has ended, and nothing orders what follows.
static BOTH: Barrier = Barrier::new(2);

fn count_under(lock: &'static Mutex<Boxes, ()>, times: usize) {
    for _ in 0..times {
        let told = Boxes::run(|tx| {
            let _held = tx.lock(lock)?;
            // SAFETY: none.
            unsafe { *COUNT.0.get() += 1 };
            Ok(())
        });
        told.unwrap();
    }
}

fn main() {
    let both = LOCKS.each_ref().map(|lock| {
        thread::spawn(|| {
            count_under(lock, 1);
            BOTH.wait();
            count_under(lock, 1000);
        })
    });
    for thread in both {
        thread.join().unwrap();
    }
}
