//! Times by the clock that the library reads.

use crate::ffi;
use std::time::Instant;

fn now() -> ffi::timespec {
    let mut at = ffi::timespec { tv_sec: 0, tv_nsec: 0 };
    // SAFETY: the call writes only into `at`, and doesn't fail for this clock.
    unsafe { ffi::clock_gettime(ffi::CLOCK_MONOTONIC, &raw mut at) };
    at
}

/// This time by the monotonic clock; a time in the past becomes now.
pub(crate) fn monotonic(at: Instant) -> ffi::timespec {
    const NANOSECONDS: i64 = 1_000_000_000;
    let left = at.saturating_duration_since(Instant::now());
    let now = now();
    let nanoseconds = now.tv_nsec + i64::from(left.subsec_nanos());
    let seconds = i64::try_from(left.as_secs()).unwrap_or(i64::MAX);
    ffi::timespec {
        tv_sec: now.tv_sec.saturating_add(seconds).saturating_add(nanoseconds / NANOSECONDS),
        tv_nsec: nanoseconds % NANOSECONDS,
    }
}

#[cfg(test)]
mod tests {
    use super::{monotonic, now};
    use crate::ffi::timespec;
    use std::time::{Duration, Instant};

    fn nanoseconds(at: timespec) -> i64 {
        at.tv_sec * 1_000_000_000 + at.tv_nsec
    }

    #[test]
    fn a_time_is_the_same_by_both_clocks() {
        let before = nanoseconds(now());
        let at = nanoseconds(monotonic(Instant::now() + Duration::from_millis(1500)));
        let took = nanoseconds(now()) - before;
        let least = before + 1_500_000_000;
        // The time that passes between two readings of the clock makes it late.
        assert!((least..=least + 2 * took).contains(&at));
    }
}
