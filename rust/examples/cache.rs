//! A cache that threads read beside each other: a lookup reads the rates and an entry, and if the entry is of older rates it
//! comes to write that, and computes it anew. Meanwhile another thread changes the rates.

use std::thread;
use ww_mutex::{class, Class, Error, SharedMutex, UpgradableGuard};

class!(struct Cache: WoundWait);

#[derive(Default)]
struct Entry {
    /// Of which rates the price is.
    version: u64,
    price: u64,
    computed: u64,
}

const READERS: usize = 3;
const ENTRIES: usize = 16;
const LOOKUPS: usize = 20_000;
const CHANGES: u64 = 300;

/// Their version.
static RATES: SharedMutex<Cache, u64> = SharedMutex::new(1);

fn price_of(entry: usize, version: u64) -> u64 {
    100 * entry as u64 + version
}

fn look_up(entries: &[SharedMutex<Cache, Entry>], of: usize) -> Result<u64, Error> {
    Cache::run(|tx| {
        let version = *tx.read(&RATES)?;
        let entry = tx.read_upgradable(&entries[of])?;
        if entry.version == version {
            assert_eq!(entry.price, price_of(of, version));
            return Ok(entry.price);
        }
        let before = entry.computed;
        let mut entry = UpgradableGuard::upgrade(entry)?; // nobody has written it since it was read
        assert_eq!(entry.computed, before);
        *entry = Entry { version, price: price_of(of, version), computed: before + 1 };
        Ok(entry.price)
    })
}

fn main() -> Result<(), Error> {
    let entries: Vec<_> = (0..ENTRIES).map(|_| SharedMutex::new(Entry::default())).collect();
    thread::scope(|scope| {
        let readers: Vec<_> = (0..READERS)
            .map(|first| {
                let entries = &entries;
                scope
                    .spawn(move || (0..LOOKUPS).try_for_each(|k| look_up(entries, (first + 7 * k) % ENTRIES).map(drop)))
            })
            .collect();
        for _ in 0..CHANGES {
            Cache::run(|tx| tx.write(&RATES).map(|mut version| *version += 1))?;
        }
        readers.into_iter().try_for_each(|reader| reader.join().expect("each price is of the rates that were read"))
    })?;
    let computed: u64 = entries.into_iter().map(|entry| entry.into_inner().computed).sum();
    let (least, most) = (ENTRIES as u64, ENTRIES as u64 * (CHANGES + 1));
    assert!((least..=most).contains(&computed));
    println!("{} lookups, each of the rates that it read, beside {CHANGES} changes", READERS * LOOKUPS);
    Ok(())
}
