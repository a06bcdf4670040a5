//! The product in a process of its own, which ends where a compare takes too long.
//!
//! The process is this program, started with the word `compare`, both diagrams, the bound, the
//! seconds that it may take, and `timed` or `once`. It prints the object count of the difference,
//! or `none`, and the nanoseconds.

use crate::inputs::Pair;
use crate::timing;
use boundary::{encode, replay, room_for, Call};
use generators::hex::{bytes, hex};
use std::process::{exit, Command, Stdio};
use std::thread;
use std::time::Duration;

/// What a compare came to.
#[derive(Clone, Copy, Debug, PartialEq, Eq)]
pub enum Outcome {
    /// The object count of the difference, if there is one, and the time for it.
    Answered(Option<usize>, Duration),
    TimedOut,
}

/// A compare that takes longer is measured once.
const LONG: Duration = Duration::from_millis(200);

/// A list of calls that is measured takes about this long.
const LIST: Duration = Duration::from_millis(20);

/// The most compares in one list.
const MOST: u128 = 1_000;

/// Lists that are measured.
const LISTS: usize = 7;

/// The exit status of a process that ended itself at the limit.
const ENDED: i32 = 3;

/// The product's outcome for a pair.
pub fn compare(pair: &Pair, bound: usize, limit: Duration) -> Outcome {
    let program = std::env::current_exe().expect("this program has a path");
    let mut command = Command::new(program);
    command.args(arguments(pair, bound, limit, "timed"));
    printed(&mut command).map_or(Outcome::TimedOut, |said| answer(&said))
}

/// The arguments of a process that compares a pair.
pub fn arguments(pair: &Pair, bound: usize, limit: Duration, how: &str) -> [String; 6] {
    let (bound, limit) = (bound.to_string(), limit.as_secs().to_string());
    let (old, new) = (hex(&pair.old), hex(&pair.new));
    ["compare".into(), old, new, bound, limit, how.into()]
}

/// What a process that compares printed; none where it came to its limit.
///
/// Panics where it fails.
pub fn printed(command: &mut Command) -> Option<String> {
    let output = command.stderr(Stdio::inherit()).output();
    let output = output.unwrap_or_else(|error| panic!("it cannot be started: {error}"));
    if output.status.code() == Some(ENDED) {
        return None;
    }
    assert!(output.status.success(), "compare: {}", output.status);
    Some(String::from_utf8(output.stdout).expect("it is text"))
}

/// The printed line as an outcome.
fn answer(said: &str) -> Outcome {
    let (count, nanoseconds) = said.trim().split_once(' ').expect("two words");
    let time = nanoseconds.parse().map(Duration::from_nanos);
    Outcome::Answered(count.parse().ok(), time.expect("nanoseconds"))
}

/// The other side: compares as the arguments say, and prints.
pub fn run(arguments: &[String]) {
    let [old, new, bound, seconds, how] = arguments else {
        panic!("two diagrams, a bound, a limit, and how");
    };
    let limit = Duration::from_secs(seconds.parse().expect("a limit is a number"));
    let (old, new) = (bytes(old), bytes(new));
    let bound = bound.parse().expect("a bound is a number");
    thread::spawn(move || {
        thread::sleep(limit);
        exit(ENDED);
    });
    let (least, mut time) = listed(&old, &new, bound, 1);
    if how == "timed" && time < LONG {
        let times = LIST.as_nanos() / time.as_nanos().max(1);
        let times = times.clamp(1, MOST) as usize;
        let runs = (0..LISTS).map(|_| listed(&old, &new, bound, times).1 / times as u32);
        time = timing::median(runs.collect());
    }
    let least = least.map_or("none".to_string(), |count| count.to_string());
    println!("{least} {}", time.as_nanos());
}

/// The object count of the difference, and the time of a list with so many equal compares. What
/// comes once for a list, as the loads, is spread where there are many.
fn listed(old: &[u8], new: &[u8], bound: u8, times: usize) -> (Option<u8>, Duration) {
    let load = |place, file| Call::Load { place, file };
    let mut calls = vec![load(0, old), load(1, new)];
    calls.resize(2 + times, Call::Compare { bound });
    let coded = encode(&calls);
    let mut replies = vec![0; room_for(&calls)];
    let (written, time) = timing::once(|| replay(&coded, &mut replies));
    let decoded = boundary::decode(&calls, &replies[..written]);
    assert_eq!(decoded.len(), calls.len(), "every call is replied to");
    let least = match decoded.last() {
        Some(boundary::Reply::NoDifference) => None,
        Some(boundary::Reply::Difference(count)) => Some(*count),
        other => panic!("compare was refused: {other:?}"),
    };
    (least, time)
}
