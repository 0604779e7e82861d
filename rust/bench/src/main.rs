//! Transactions in Wound-Wait by this crate, the same in C, and the same by `std::sync::Mutex` in sorted order, for who counts
//! instructions or misses. Each locks some of many objects, and adds one to each.
//!
//!     bench ENGINE LOCKS OBJECTS TIMES    so many transactions by one engine and one thread

use std::array;
use std::env;
use std::ffi::{c_int, c_uint, c_ulong};
use std::sync::Mutex as Plain;
use ww_mutex::typed::Context;
use ww_mutex::{class, Class, Error, Mutex, Tx};

class! {
    struct Wound: WoundWait;
}

extern "C" {
    fn engines_open(count: c_uint);
    fn engines_go(by_number: c_int, takes: c_uint, count: c_uint, seed: c_ulong, times: c_ulong);
    fn engines_draw(x: *mut c_ulong, takes: c_uint, count: c_uint, list: *mut c_uint);
}

/// Each object has a cache line of its own, as in C.
#[repr(align(64))]
struct Line<T>(T);

struct Objects<C: Class> {
    own: Vec<Line<Mutex<C, u64>>>,
    plain: Vec<Line<Plain<u64>>>,
}

impl<C: Class> Objects<C> {
    fn own(&self, k: c_uint) -> &Mutex<C, u64> {
        &self.own[k as usize].0
    }

    /// As in C, each mutex has its number from the beginning.
    fn new(count: usize) -> Self {
        Objects {
            own: (0..count).map(|_| Line(Mutex::try_new(0).unwrap())).collect(),
            plain: (0..count).map(|_| Line(Plain::new(0))).collect(),
        }
    }
}

// ---- engines ----

fn by_list<C: Class, const N: usize>(objects: &Objects<C>, list: &[c_uint; N]) {
    let told = C::run(|tx| {
        let mut guards = tx.lock_all(array::from_fn::<_, N, _>(|k| objects.own(list[k])))?;
        for guard in &mut guards {
            **guard += 1;
        }
        Ok(())
    });
    told.unwrap();
}

/// As most bodies do; of more than two locks by a function that calls itself, since no list is to be allocated.
fn one_by_one<C: Class, const N: usize>(objects: &Objects<C>, list: &[c_uint; N]) {
    fn add<C: Class>(tx: &Tx<C>, objects: &Objects<C>, list: &[c_uint]) -> Result<(), Error> {
        let Some((&k, rest)) = list.split_first() else { return Ok(()) };
        let mut value = tx.lock(objects.own(k))?;
        add(tx, objects, rest)?;
        *value += 1;
        Ok(())
    }
    let told = match list[..] {
        [one] => C::run(|tx| {
            *tx.lock(objects.own(one))? += 1;
            Ok(())
        }),
        [one, other] => C::run(|tx| {
            let mut one = tx.lock(objects.own(one))?;
            let mut other = tx.lock(objects.own(other))?;
            *one += 1;
            *other += 1;
            Ok(())
        }),
        _ => C::run(|tx| add(tx, objects, list)),
    };
    told.unwrap();
}

fn by_types<C: Class, const N: usize>(objects: &Objects<C>, list: &[c_uint; N]) {
    let mut context = Context::<C>::begin().unwrap();
    let (_, mut guards) = context.lock_all(array::from_fn::<_, N, _>(|k| objects.own(list[k]))).unwrap();
    for guard in &mut guards {
        **guard += 1;
    }
}

fn sorted<C: Class, const N: usize>(objects: &Objects<C>, list: &[c_uint; N]) {
    let mut list = *list;
    list.sort_unstable();
    let mut guards = list.map(|k| objects.plain[k as usize].0.lock().unwrap());
    for guard in &mut guards {
        **guard += 1;
    }
}

#[derive(Clone, Copy, PartialEq)]
enum Engine {
    List,
    OneByOne,
    Types,
    C,
    Numbers,
    Sorted,
}

impl Engine {
    const ALL: [(Engine, &'static str); 6] = [
        (Engine::List, "lock_all"),
        (Engine::OneByOne, "lock"),
        (Engine::Types, "typed"),
        (Engine::C, "C"),
        (Engine::Numbers, "C numbers"),
        (Engine::Sorted, "std sorted"),
    ];

    /// So many transactions.
    fn go<C: Class, const N: usize>(self, objects: &Objects<C>, seed: u64, times: u64) {
        match self {
            Engine::List => repeat(objects, seed, times, by_list::<C, N>),
            Engine::OneByOne => repeat(objects, seed, times, one_by_one::<C, N>),
            Engine::Types => repeat(objects, seed, times, by_types::<C, N>),
            Engine::Sorted => repeat(objects, seed, times, sorted::<C, N>),
            Engine::C | Engine::Numbers => {
                let by_number = c_int::from(self == Engine::Numbers);
                // SAFETY: the engines are open with as many objects.
                unsafe { engines_go(by_number, N as c_uint, objects.own.len() as c_uint, seed, times) };
            }
        }
    }
}

fn repeat<C: Class, const N: usize>(
    objects: &Objects<C>,
    mut x: u64,
    times: u64,
    transact: impl Fn(&Objects<C>, &[c_uint; N]),
) {
    let mut list = [0; N];
    for _ in 0..times {
        // SAFETY: it writes as many numbers as the list has, each below the number of objects.
        unsafe { engines_draw(&raw mut x, N as c_uint, objects.own.len() as c_uint, list.as_mut_ptr()) };
        transact(objects, &list);
    }
}

fn go<const N: usize>(engine: Engine, count: usize, times: u64) {
    let objects = Objects::<Wound>::new(count);
    // SAFETY: nobody uses them now.
    unsafe { engines_open(count as c_uint) };
    engine.go::<Wound, N>(&objects, 7, times);
}

fn main() {
    let words: Vec<String> = env::args().skip(1).collect();
    let [name, locks, objects, times] = &words[..] else { panic!("usage: bench ENGINE LOCKS OBJECTS TIMES") };
    let (engine, _) = Engine::ALL.into_iter().find(|(_, it)| it == name).expect("an engine's name");
    let (count, times) = (objects.parse().unwrap(), times.parse().unwrap());
    match locks.as_str() {
        "1" => go::<1>(engine, count, times),
        "2" => go::<2>(engine, count, times),
        "8" => go::<8>(engine, count, times),
        _ => panic!("1, 2 or 8 locks"),
    }
}
