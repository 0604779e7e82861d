//! Read, await, then change: orders that ask a slow service for a price while they hold their account and their stock.
//! Some of the clients lose patience at any point, and no order is half made.
//!
//! What happens across the await:
//!
//! - The guards stay: nobody else sees or changes the account and the stock between the read and the change, so the balance
//!   that was read is still true after it. Who needs them waits, or goes first if that is older: then a later lock call of
//!   this body returns `Deadlock`, and the body begins again. So lock all that you need before you await something that costs.
//! - No thread is held: the executor runs others.
//! - The future may be dropped there, and isn't resumed. Its guards are released, and nothing is rolled back: what was changed
//!   before the await would stay. So change after the last await, in one go.
//! - What the service did stays done: it may be asked again, by the next attempt. Ask for what may be asked twice.
//!
//!     cargo run --release --features async --example quotes
#![allow(clippy::incompatible_msrv, reason = "the feature asks for Rust 1.85")]

use std::future::Future;
use std::pin::Pin;
use std::task::{Context, Poll, Waker};
use std::thread;
use ww_mutex::{class, transaction, Error, Mutex};

class!(struct Shop: WoundWait);

static ACCOUNTS: [Mutex<Shop, u64>; 3] = [Mutex::new(100), Mutex::new(100), Mutex::new(100)];
static STOCK: [Mutex<Shop, u64>; 2] = [Mutex::new(20), Mutex::new(20)];
const PRICE: u64 = 3;

#[derive(Debug, PartialEq)]
enum Refusal {
    Short,
    SoldOut,
    Lock(Error),
}

impl From<Error> for Refusal {
    fn from(error: Error) -> Self {
        Refusal::Lock(error)
    }
}

async fn buy(account: usize, article: usize) -> Result<(), Refusal> {
    transaction!(Shop, |tx| -> Result<(), Refusal> {
        // Read.
        let mut money = tx.lock(&ACCOUNTS[account]).await?;
        let mut left = tx.lock(&STOCK[article]).await?;
        if *left == 0 {
            return Err(Refusal::SoldOut);
        }
        // Await: both are still locked after it, and what was read is still true.
        let price = ask_price(article).await;
        // Then change: from here on nothing is awaited, so all of it is done, or nothing.
        *money = money.checked_sub(price).ok_or(Refusal::Short)?;
        *left -= 1;
        Ok(())
    })
}

/// A service that answers after some turns of the executor.
async fn ask_price(article: usize) -> u64 {
    for _ in 0..=article {
        yield_now().await;
    }
    PRICE
}

async fn yield_now() {
    let mut has_yielded = false;
    std::future::poll_fn(|cx| {
        if std::mem::replace(&mut has_yielded, true) {
            return Poll::Ready(());
        }
        cx.waker().wake_by_ref();
        Poll::Pending
    })
    .await;
}

// ---- an executor; a program would have tokio's ----

type Order = Pin<Box<dyn Future<Output = Result<(), Refusal>>>>;

/// Polls all in turn until each is ready, or was polled as often as its client has patience.
fn run_all(mut tasks: Vec<(Order, u32)>) -> Vec<Result<(), Refusal>> {
    let (mut told, mut turn) = (Vec::new(), 0);
    while !tasks.is_empty() {
        turn += 1;
        tasks.retain_mut(|(task, patience)| match task.as_mut().poll(&mut Context::from_waker(Waker::noop())) {
            Poll::Ready(answer) => {
                told.push(answer);
                false
            }
            Poll::Pending => turn < *patience,
        });
        thread::yield_now();
    }
    told
}

fn main() {
    let clients = |seed: usize| {
        let orders = (0..60).map(move |k| (k * 7 + seed, k));
        let tasks = orders.map(|(it, k)| {
            let patience = if k % 2 == 0 { u32::MAX } else { u32::try_from(k % 9).unwrap() };
            (Box::pin(buy(it % 3, it / 3 % 2)) as Order, patience)
        });
        run_all(tasks.collect())
    };
    let other = thread::spawn(move || clients(1));
    let mut told = clients(0);
    told.extend(other.join().unwrap());
    let sold: u64 = 40 - STOCK.iter().map(|left| *left.lock()).sum::<u64>();
    let paid: u64 = 300 - ACCOUNTS.iter().map(|money| *money.lock()).sum::<u64>();
    let made = told.iter().filter(|told| told.is_ok()).count();
    assert!(told.iter().all(|told| !matches!(told, Err(Refusal::Lock(_)))));
    // Each order that was made is paid once, and those that were dropped changed nothing.
    assert_eq!((u64::try_from(made).unwrap(), paid), (sold, sold * PRICE));
    println!("quotes: each article sold was paid");
}
