//! Comparing at growing bounds.

use crate::inputs::{pairs, Pair};
use crate::{table, timing};
use boundary::{run, Call, Reply};
use std::time::Duration;

/// A pair is left once a compare took this long.
const LONG: Duration = Duration::from_secs(5);

/// A bound is left out where the growth so far says that it would take this long.
const TOO_LONG: Duration = Duration::from_secs(60);

/// A search that is repeated takes at most this long.
const SHORT: Duration = Duration::from_millis(20);

/// How often a short search is repeated in one list of calls.
const REPEATED: usize = 20;

/// Steps that the independent search may take.
const BUDGET: u64 = 20_000_000;

/// Prints the times for every pair.
pub fn report() {
    table::heading("Comparing (compare), by bound");
    for pair in pairs() {
        growing(&pair);
    }
}

/// Raises the bound until a compare takes long, or the next one would take too long.
fn growing(pair: &Pair) {
    let mut before = Duration::ZERO;
    for bound in 0..=8 {
        let (reply, product) = measured(pair, bound);
        let independent = independently(pair, bound);
        let what = format!("{}, bound {bound}: {}", pair.name, words(&reply));
        table::line(&what, product, independent);
        let growth = product.as_secs_f64() / before.as_secs_f64().max(1e-5);
        let next = product.as_secs_f64() * growth;
        let left_out = product > LONG || (bound < 8 && next > TOO_LONG.as_secs_f64());
        if left_out {
            println!(
                "  {}: larger bounds are left out, they take long",
                pair.name
            );
            return;
        }
        before = product;
    }
}

/// The product's reply and its time; a short search is repeated, so that what comes once for a
/// list of calls is spread.
fn measured(pair: &Pair, bound: u8) -> (Reply, Duration) {
    let (reply, once) = timing::once(|| compare(pair, bound, 1));
    if once > SHORT {
        return (reply, once);
    }
    let time = timing::for_each_call(REPEATED, || {
        compare(pair, bound, REPEATED);
    });
    (reply, time)
}

/// The last reply to so many equal compares.
fn compare(pair: &Pair, bound: u8, times: usize) -> Reply {
    let load = |place: u8, file| Call::Load { place, file };
    let mut calls = vec![load(0, pair.old.as_slice()), load(1, pair.new.as_slice())];
    calls.resize(2 + times, Call::Compare { bound });
    run(&calls).pop().expect("a reply to compare")
}

/// The independent time; none where the search is given up.
fn independently(pair: &Pair, bound: u8) -> Option<Duration> {
    let old = brute::read_diagram(&pair.old).expect("the old diagram is accepted");
    let new = brute::read_diagram(&pair.new).expect("the new diagram is accepted");
    let search = || brute::compare_within(&old, &new, usize::from(bound), BUDGET);
    let (found, once) = timing::once(search);
    if found.is_err() || once > SHORT {
        return found.is_ok().then_some(once);
    }
    Some(timing::for_each_call(1, || {
        search().ok();
    }))
}

/// The reply in words.
fn words(reply: &Reply) -> String {
    match reply {
        Reply::NoDifference => "no difference".to_string(),
        Reply::Difference(count) => format!("difference {count}"),
        other => format!("{other:?}"),
    }
}
