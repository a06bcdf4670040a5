//! What the rows of the table beside the solver come to.

use crate::child::Outcome;
use crate::families::Family;
use crate::rows::{time, Ratio, Row, BOUNDS};
use std::time::Duration;

/// Prints the lines under the table.
pub fn print(rows: &[Row]) {
    println!();
    agreement(rows);
    ratios(rows);
    slowest(rows);
    growth(rows);
}

/// How many answers were there to agree.
fn agreement(rows: &[Row]) {
    let answered = |outcome| outcome != Outcome::TimedOut;
    let number = |test: &dyn Fn(&&Row) -> bool| rows.iter().filter(test).count();
    println!(
        "{} pairs at {} bounds: the product answered {} of {} in time, cadical {}; where both did ({}), \
         the answers agree.",
        rows.len() / BOUNDS.len(),
        BOUNDS.len(),
        number(&|row| answered(row.product)),
        rows.len(),
        number(&|row| answered(row.solver)),
        number(&|row| answered(row.product) && answered(row.solver)),
    );
}

/// The middle ratio, and how often the product was the slower one.
fn ratios(rows: &[Row]) {
    let mut ratios: Vec<Ratio> = rows.iter().filter_map(Row::ratio).collect();
    ratios.sort_by(|one, other| one.number().total_cmp(&other.number()));
    if let Some(middle) = ratios.get(ratios.len() / 2) {
        println!("Median ratio: {}.", middle.words());
    }
    let slower = |row: &&Row| {
        let ratio = row.ratio();
        ratio.is_some_and(|ratio| ratio.number() < 1.0 && !matches!(ratio, Ratio::Above(_)))
    };
    let slow: Vec<&Row> = rows.iter().filter(slower).collect();
    let mut names: Vec<&str> = slow.iter().map(|row| row.name.as_str()).collect();
    names.dedup();
    println!(
        "Slower than cadical: {} pairs, at {} of {} bounds and pairs.",
        names.len(),
        slow.len(),
        ratios.len()
    );
}

/// The realistic pair that took the product longest.
fn slowest(rows: &[Row]) {
    let realistic = rows.iter().filter(|row| row.family == Family::Realistic);
    let longest = realistic.max_by_key(|row| spent(row).unwrap_or(Duration::MAX));
    if let Some(row) = longest {
        println!(
            "Slowest realistic pair: {}, bound {}, {}.",
            row.name,
            row.bound,
            time(row.product)
        );
    }
}

/// How much longer the product takes for the largest bound than for the smallest.
fn growth(rows: &[Row]) {
    let realistic: Vec<&Row> = rows
        .iter()
        .filter(|row| row.family == Family::Realistic)
        .collect();
    let both = realistic
        .chunks(BOUNDS.len())
        .filter_map(|pair| Some((spent(pair[0])?, spent(pair[BOUNDS.len() - 1])?)));
    let mut factors: Vec<f64> = both
        .map(|(small, large)| large.as_secs_f64() / small.as_secs_f64().max(1e-9))
        .collect();
    factors.sort_by(f64::total_cmp);
    let (low, high) = (BOUNDS[0], BOUNDS[BOUNDS.len() - 1]);
    match (factors.get(factors.len() / 2), factors.last()) {
        (Some(middle), Some(most)) => println!(
            "Growth from bound {low} to bound {high}, realistic pairs: median {middle:.1}, at most {most:.1} \
             ({} of {} pairs answered at both).",
            factors.len(),
            realistic.len() / BOUNDS.len()
        ),
        _ => println!("Growth from bound {low} to bound {high}: no realistic pair was answered at both."),
    }
}

/// The product's time, if it answered.
fn spent(row: &Row) -> Option<Duration> {
    match row.product {
        Outcome::Answered(_, time) => Some(time),
        Outcome::TimedOut => None,
    }
}
