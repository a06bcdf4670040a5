//! A row of the table beside the solver.

use crate::child::Outcome;
use crate::families::Family;
use crate::solving::LIMIT;
use crate::table;

/// The bounds that each pair is compared at.
pub const BOUNDS: [usize; 3] = [3, 5, 8];

/// A pair at a bound: both outcomes, and the nodes where they were counted.
pub struct Row {
    pub family: Family,
    pub name: String,
    pub bound: usize,
    pub product: Outcome,
    pub solver: Outcome,
    pub nodes: Option<String>,
}

/// How many times the product's time the solver took, or a limit of that where one timed out.
#[derive(Clone, Copy, Debug, PartialEq)]
pub enum Ratio {
    Known(f64),
    /// The solver timed out.
    Above(f64),
    /// The product timed out.
    Below(f64),
}

impl Ratio {
    /// The number itself.
    pub fn number(self) -> f64 {
        match self {
            Ratio::Known(number) | Ratio::Above(number) | Ratio::Below(number) => number,
        }
    }

    /// The number with its sign.
    pub fn words(self) -> String {
        let sign = match self {
            Ratio::Known(_) => "",
            Ratio::Above(_) => "> ",
            Ratio::Below(_) => "< ",
        };
        let number = self.number();
        let places = match number {
            large if large >= 10.0 => 0,
            middle if middle >= 0.1 => 2,
            _ => 4,
        };
        format!("{sign}{number:.places$}")
    }
}

impl Row {
    /// Prints the title and the columns' names.
    pub fn heading() {
        println!();
        println!("Comparing (compare) beside the solver cadical");
        println!("The ratio is cadical's time by the product's: above 1 the product was faster.");
        println!(
            "cadical runs once for each number of objects, from 0 to the answer or the bound; a run on a \
             formula that asks nothing takes {}.",
            table::words(sat::least_time())
        );
        println!(
            "  {:<46} {:>5} {:>13} {:>11} {:>11} {:>10}  nodes",
            "", "bound", "answer", "product", "cadical", "ratio"
        );
    }

    /// Prints the row.
    pub fn print(&self) {
        let ratio = self.ratio().map_or("-".to_string(), Ratio::words);
        println!(
            "  {:<46} {:>5} {:>13} {:>11} {:>11} {ratio:>10}  {}",
            self.name,
            self.bound,
            self.answer(),
            time(self.product),
            time(self.solver),
            self.nodes.as_deref().unwrap_or("-"),
        );
    }

    /// Both times beside each other; none where both timed out.
    pub fn ratio(&self) -> Option<Ratio> {
        let limit = LIMIT.as_secs_f64();
        match (self.product, self.solver) {
            (Outcome::Answered(_, product), Outcome::Answered(_, solver)) => {
                let product = product.as_secs_f64().max(1e-9);
                Some(Ratio::Known(solver.as_secs_f64() / product))
            }
            (Outcome::Answered(_, product), Outcome::TimedOut) => {
                Some(Ratio::Above(limit / product.as_secs_f64().max(1e-9)))
            }
            (Outcome::TimedOut, Outcome::Answered(_, solver)) => {
                Some(Ratio::Below(solver.as_secs_f64() / limit))
            }
            (Outcome::TimedOut, Outcome::TimedOut) => None,
        }
    }

    /// An error where both answered and not alike.
    pub fn agrees(&self) -> Result<(), String> {
        match (self.product, self.solver) {
            (Outcome::Answered(product, _), Outcome::Answered(solver, _)) if product != solver => {
                Err(format!(
                    "{}, bound {}: the product says {}, cadical {}",
                    self.name,
                    self.bound,
                    words(product),
                    words(solver)
                ))
            }
            _ => Ok(()),
        }
    }

    /// The answer of whichever has one.
    fn answer(&self) -> String {
        match (self.product, self.solver) {
            (Outcome::Answered(found, _), _) | (_, Outcome::Answered(found, _)) => words(found),
            _ => "-".to_string(),
        }
    }
}

/// An answer in words.
fn words(found: Option<usize>) -> String {
    found.map_or("none".to_string(), |count| format!("difference {count}"))
}

/// A time, or the limit that was passed.
pub fn time(outcome: Outcome) -> String {
    match outcome {
        Outcome::Answered(_, time) => table::words(time),
        Outcome::TimedOut => format!("> {} s", LIMIT.as_secs()),
    }
}

#[cfg(test)]
mod tests {
    use super::*;
    use std::time::Duration;

    /// A row with these outcomes.
    fn row(product: Outcome, solver: Outcome) -> Row {
        Row {
            family: Family::Realistic,
            name: "village".to_string(),
            bound: 8,
            product,
            solver,
            nodes: None,
        }
    }

    /// An answer after so many milliseconds.
    fn answered(found: Option<usize>, milliseconds: u64) -> Outcome {
        Outcome::Answered(found, Duration::from_millis(milliseconds))
    }

    #[test]
    fn ratios_have_a_sign_where_one_timed_out() {
        let words = |product, solver| row(product, solver).ratio().map(Ratio::words);
        let (short, long) = (answered(None, 5), answered(None, 100));
        assert_eq!(words(short, long).as_deref(), Some("20"));
        assert_eq!(words(long, short).as_deref(), Some("0.0500"));
        assert_eq!(words(short, Outcome::TimedOut).as_deref(), Some("> 2000"));
        assert_eq!(words(Outcome::TimedOut, short).as_deref(), Some("< 0.0005"));
        assert_eq!(words(Outcome::TimedOut, Outcome::TimedOut), None);
    }

    #[test]
    fn only_two_answers_can_disagree() {
        let agree = |product, solver| row(product, solver).agrees().is_ok();
        assert!(agree(answered(Some(3), 1), answered(Some(3), 2)));
        assert!(agree(answered(Some(3), 1), Outcome::TimedOut));
        assert!(agree(Outcome::TimedOut, answered(None, 1)));
        assert!(!agree(answered(Some(3), 1), answered(Some(4), 1)));
        assert!(!agree(answered(None, 1), answered(Some(4), 1)));
    }
}
