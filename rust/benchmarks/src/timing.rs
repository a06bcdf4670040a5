//! Measuring.

use std::time::{Duration, Instant};

/// The time that `work` takes.
pub fn once<T>(work: impl FnOnce() -> T) -> (T, Duration) {
    let start = Instant::now();
    let result = work();
    (result, start.elapsed())
}

/// The least time of several runs of `work`, which makes `calls` calls, for each call: other
/// programs on the machine only ever add to it.
pub fn for_each_call(calls: usize, mut work: impl FnMut()) -> Duration {
    let runs = (0..7).map(|_| once(&mut work).1);
    runs.min().unwrap_or_default() / calls as u32
}

/// The middle one of some times.
pub fn median(mut times: Vec<Duration>) -> Duration {
    times.sort();
    times[times.len() / 2]
}
