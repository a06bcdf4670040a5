//! Comparing: one question for each number of objects, fewest first.

use crate::cadical::{solve, Answer};
use crate::formula::Formula;
use crate::question::Question;
use brute::{judge, Diagram, Record};
use std::time::Duration;

/// The answer for one number of objects.
#[derive(Clone, Debug, PartialEq, Eq)]
pub enum Found {
    /// A site that old allows and new forbids.
    Difference(Record),
    NoDifference,
    TimedOut,
}

/// One question: its number of objects is its place in the row.
pub struct Step {
    pub found: Found,
    /// The solver's time for it.
    pub time: Duration,
}

/// The answers for 0, 1, ... objects, up to the bound or up to the first that is not "no
/// difference". The solver has the limit's time for all of them together.
///
/// Panics where a site that the solver found is not one, judged by the independent comparer.
pub fn steps(old: &Diagram, new: &Diagram, bound: usize, limit: Duration) -> Vec<Step> {
    let mut steps: Vec<Step> = Vec::new();
    let mut left = limit;
    for count in 0..=bound {
        let question = Question::new(old, new, count);
        let (answer, time) = match left.is_zero() {
            true => (Answer::TimedOut, Duration::ZERO),
            false => solve(&question.formula, left),
        };
        let found = match answer {
            Answer::Model(literals) => {
                let record = question.record(|literal| literals.contains(&literal));
                assert_eq!(judge(old, &record), 0, "illegal for old: {record:?}");
                assert_ne!(judge(new, &record), 0, "legal for new: {record:?}");
                Found::Difference(record)
            }
            Answer::None => Found::NoDifference,
            Answer::TimedOut => Found::TimedOut,
        };
        let goes_on = found == Found::NoDifference;
        steps.push(Step { found, time });
        left = left.saturating_sub(time);
        if !goes_on {
            break;
        }
    }
    steps
}

/// The solver's time for a formula that asks nothing: its start and its end.
pub fn least_time() -> Duration {
    let mut times: Vec<Duration> = (0..9)
        .map(|_| solve(&Formula::new(), Duration::from_secs(1)).1)
        .collect();
    times.sort();
    times[times.len() / 2]
}
