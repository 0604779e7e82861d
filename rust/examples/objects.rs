//! A chain of objects that is found on the way. Each buffer names the one that it was copied from, and a thread locks a
//! buffer and all its origins, which others lock from other ends; then it puts another buffer behind the last one. So no
//! order of locking can be agreed upon.

use std::thread;
use ww_mutex::{class, Class, Error, Mutex};

class!(struct Buffers: WoundWait);

const THREADS: usize = 4;
const BUFFERS: usize = 50;
const TIMES: usize = 5000;
const LONGEST: usize = 5;

struct Buffer {
    origin: Option<usize>,
    count: usize,
}

static ALL: [Mutex<Buffers, Buffer>; BUFFERS] = [const { Mutex::new(Buffer { origin: None, count: 0 }) }; BUFFERS];

/// Counts each buffer of the chain that begins with this one, and puts another one behind it. How many these were.
fn count_chain(first: usize, behind: usize) -> Result<usize, Error> {
    Buffers::run(|tx| {
        let mut chain = Vec::new();
        let mut next = Some(first);
        // A ring of buffers ends where it comes back to one that is held.
        while let Some(k) = next.filter(|&k| chain.len() < LONGEST && !tx.holds(&ALL[k])) {
            let buffer = tx.lock(&ALL[k])?;
            next = buffer.origin;
            chain.push(buffer);
        }
        // All locks are there: only now something changes.
        for buffer in &mut chain {
            buffer.count += 1;
        }
        if let Some(last) = chain.last_mut() {
            last.origin = Some(behind);
        }
        Ok(chain.len())
    })
}

fn work(me: usize) -> usize {
    let mut drawn = me + 1;
    let mut draw = || {
        drawn = drawn.wrapping_mul(6_364_136_223_846_793_005).wrapping_add(1_442_695_040_888_963_407);
        (drawn >> 33) % BUFFERS
    };
    (0..TIMES).map(|_| count_chain(draw(), draw()).expect("without limits it ends with all locks")).sum()
}

fn main() {
    for (k, buffer) in ALL.iter().enumerate() {
        buffer.lock().origin = k.checked_sub(1);
    }
    let locked: usize = thread::scope(|scope| {
        let threads: Vec<_> = (0..THREADS).map(|me| scope.spawn(move || work(me))).collect();
        threads.into_iter().map(|thread| thread.join().unwrap()).sum()
    });
    let counted: usize = ALL.iter().map(|buffer| buffer.lock().count).sum();
    assert_eq!(locked, counted);
    println!("objects: {THREADS} threads counted chains of buffers, {} times, each buffer exactly", THREADS * TIMES);
}
