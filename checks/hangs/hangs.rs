//! Three threads in a ring of locks without a transaction; a fourth, with one, waits behind them. It prints a line once all sleep.
use std::sync::{Arc, Barrier};
use std::thread::{self, Builder};
use std::time::Duration;
use ww_mutex::{class, Class, Mutex};

class!(struct Forks: WoundWait);

fn main() {
    let forks: Arc<Vec<Mutex<Forks, u32>>> = Arc::new((0..3).map(Mutex::new).collect());
    let all = Arc::new(Barrier::new(3));
    for me in 0..3 {
        let (forks, all) = (forks.clone(), all.clone());
        let eats = move || {
            let _one = forks[me].lock();
            all.wait();
            let _two = forks[(me + 1) % 3].lock();
        };
        Builder::new().name(format!("eater {me}")).spawn(eats).unwrap();
    }
    thread::sleep(Duration::from_secs(1));
    let guest = forks.clone();
    let waits = move || Forks::run(|tx| tx.lock(&guest[0]).map(drop));
    Builder::new().name("guest".into()).spawn(waits).unwrap();
    thread::sleep(Duration::from_secs(1));
    println!("it hangs");
    thread::sleep(Duration::from_secs(100_000));
}
