//! Comparing beside the solver cadical: the same pairs at the same bounds, in one run. Answers that
//! differ end it.

use crate::child::{self, Outcome};
use crate::families::Family;
use crate::inputs::Pair;
use crate::rows::{Row, BOUNDS};
use crate::{nodes, summary};
use sat::{Found, Step};
use std::time::Duration;

/// Time that the product and the solver each have for a pair at a bound.
pub const LIMIT: Duration = Duration::from_secs(10);

/// Nodes are counted where the compare takes no longer.
const COUNTED: Duration = Duration::from_millis(100);

/// Prints a row for every pair and bound, then what they come to; the words of the first
/// disagreement where there is one.
pub fn report() -> Result<(), String> {
    Row::heading();
    let mut rows = Vec::new();
    for family in Family::ALL {
        println!("  {family:?}");
        for pair in family.pairs() {
            for row in compared(family, &pair)? {
                rows.push(row);
            }
        }
    }
    summary::print(&rows);
    Ok(())
}

/// A pair's rows, printed one by one.
fn compared(family: Family, pair: &Pair) -> Result<Vec<Row>, String> {
    let steps = solved(pair);
    let mut rows: Vec<Row> = Vec::new();
    for bound in BOUNDS {
        // What is not answered at a bound is not answered at a larger one.
        let product = match rows.last().map(|row| row.product) {
            Some(Outcome::TimedOut) => Outcome::TimedOut,
            _ => child::compare(pair, bound, LIMIT),
        };
        let counted = match product {
            Outcome::Answered(_, time) if time <= COUNTED => nodes::counted(pair, bound),
            _ => None,
        };
        let row = Row {
            family,
            name: pair.name.clone(),
            bound,
            product,
            solver: at_bound(&steps, bound),
            nodes: counted,
        };
        row.print();
        row.agrees()?;
        rows.push(row);
    }
    Ok(rows)
}

/// The solver's answers for each number of objects up to the largest bound.
fn solved(pair: &Pair) -> Vec<Step> {
    let old = brute::read_diagram(&pair.old).expect("the old diagram is accepted");
    let new = brute::read_diagram(&pair.new).expect("the new diagram is accepted");
    sat::steps(&old, &new, BOUNDS[BOUNDS.len() - 1], LIMIT)
}

/// What these answers say for a bound, and the time for those that it takes.
fn at_bound(steps: &[Step], bound: usize) -> Outcome {
    let asked = &steps[..steps.len().min(bound + 1)];
    let time = asked.iter().map(|step| step.time).sum();
    match asked.last().map(|step| &step.found) {
        Some(Found::Difference(record)) => Outcome::Answered(Some(record.objects.len()), time),
        Some(Found::NoDifference) => Outcome::Answered(None, time),
        Some(Found::TimedOut) | None => Outcome::TimedOut,
    }
}
