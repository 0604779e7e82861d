//! A program whose own names are those that the exported macros might use: traits with methods that come before the crate's, and
//! types, functions and macros with std's names. None of them comes in, and nothing here is unsafe.

#![forbid(unsafe_code)]

#[allow(dead_code, unused, non_camel_case_types, non_upper_case_globals, reason = "most are there not to be used")]
mod hostile {

    macro_rules! concat {
        ($($any:tt)*) => {
            0
        };
    }
    macro_rules! stringify {
        ($($any:tt)*) => {
            0
        };
    }
    macro_rules! panic {
        ($($any:tt)*) => {
            0
        };
    }

    pub struct str;
    pub struct Result;
    pub struct Option;
    pub struct Poll;
    pub struct ControlFlow;
    pub struct CStr;
    pub struct Clone;
    pub struct Copy;
    pub struct Debug;
    pub struct From;
    pub const Ok: u8 = 0;
    pub const Err: u8 = 1;
    pub const Some: u8 = 2;
    pub const None: u8 = 3;

    ww_mutex::class! {
        pub struct Boxes: WoundWait;
        pub struct Few: WaitDie, mutexes = 4, contexts = 2;
    }

    #[cfg(feature = "async")]
    pub mod tasks {
        use super::*;
        use ww_mutex::task::Context;

        type Told<R, E> = ::core::result::Result<R, E>;

        /// Of whatever there is.
        trait Begins: Sized {
            fn begin_now_(&self) -> ::core::task::Poll<Told<(), ww_mutex::Error>> {
                ::core::task::Poll::Ready(Told::Ok(()))
            }
            fn wait_(&self) -> ::core::future::Ready<Told<(), ww_mutex::Error>> {
                ::core::future::ready(Told::Ok(()))
            }
            fn settle<R, E>(&self, told: Told<R, E>) -> ::core::ops::ControlFlow<Told<R, E>> {
                ::core::ops::ControlFlow::Break(told)
            }
            fn begin(&self) {}
            fn wait(&self) {}
            fn context(&self) {}
            fn succeeded(&self) {}
            fn begun_(&self) {}
        }
        impl<T> Begins for T {}

        fn begin() {}
        fn wait() {}
        fn body() {}
        fn settle() {}

        pub async fn add(mutex: &ww_mutex::Mutex<Boxes, u64>) -> Told<u64, ww_mutex::Error> {
            let _all = (begin(), wait(), body(), settle());
            ww_mutex::transaction!(Boxes, |tx| {
                let mut value = tx.lock(mutex).await?;
                *value += 1;
                Told::Ok(*value)
            })
        }

        pub async fn add_in(
            context: &mut Context<Boxes>,
            mutex: &ww_mutex::Mutex<Boxes, u64>,
        ) -> Told<u64, ww_mutex::Error> {
            ww_mutex::transaction!(in context, |tx| -> Told<u64, ww_mutex::Error> {
                let mut value = tx.lock(mutex).await?;
                *value += 1;
                Told::Ok(*value)
            })
        }
    }
}

#[test]
fn a_class_is_what_it_says() {
    use ww_mutex::{Class, Kind};
    assert_eq!((hostile::Boxes::raw().name(), hostile::Boxes::raw().kind()), (c"Boxes", Kind::WoundWait));
    assert_eq!((hostile::Few::raw().name(), hostile::Few::raw().kind()), (c"Few", Kind::WaitDie));
    let mutex = ww_mutex::Mutex::<hostile::Few, u64>::new(3);
    assert_eq!(hostile::Few::run(|tx| Ok(*tx.lock(&mutex)?)), Ok(3));
}

#[cfg(feature = "async")]
#[test]
fn a_transaction_has_begun() {
    use hostile::{tasks, Boxes};
    use std::future::Future;
    use std::pin::pin;
    use std::task::{Context, Poll, Waker};
    use ww_mutex::{task, Error, Mutex};

    fn once(future: impl Future<Output = Result<u64, Error>>) -> Poll<Result<u64, Error>> {
        pin!(future).poll(&mut Context::from_waker(Waker::noop()))
    }

    // The class is open, and the mutex has its number.
    let mutex = Mutex::<Boxes, u64>::try_new(0).unwrap();
    drop(mutex.lock());
    assert_eq!(once(tasks::add(&mutex)), Poll::Ready(Ok(1)));
    let mut context = task::Context::new();
    assert_eq!(once(tasks::add_in(&mut context, &mutex)), Poll::Ready(Ok(2)));
    assert!(!mutex.is_locked());
}
