//! How many literals hold.

use crate::formula::{Formula, Literal, FALSE, TRUE};
use brute::Limits;

/// Holds exactly when the number of inputs that hold lies within the limits.
pub fn within(formula: &mut Formula, inputs: &[Literal], limits: Limits) -> Literal {
    let counts = counts(formula, inputs);
    let at_least = |number: usize| counts.get(number).copied().unwrap_or(FALSE);
    let low = at_least(usize::from(limits.low));
    let above = limits.up.map_or(FALSE, |up| at_least(usize::from(up) + 1));
    formula.and(&[low, !above])
}

/// For each number up to that of the inputs, whether at least so many of them hold.
fn counts(formula: &mut Formula, inputs: &[Literal]) -> Vec<Literal> {
    let mut counts = vec![TRUE];
    for input in inputs {
        let before = counts.clone();
        counts.push(FALSE);
        for number in 1..counts.len() {
            let one_more = formula.and(&[*input, before[number - 1]]);
            counts[number] = formula.or(&[counts[number], one_more]);
        }
    }
    counts
}

#[cfg(test)]
mod tests {
    use super::*;

    /// Whether so many of eight inputs are within the limits.
    fn admitted(number: usize, limits: Limits) -> bool {
        let inputs: Vec<Literal> = (0..8)
            .map(|at| if at < number { TRUE } else { FALSE })
            .collect();
        match within(&mut Formula::new(), &inputs, limits) {
            TRUE => true,
            FALSE => false,
            open => panic!("{open:?} is open"),
        }
    }

    #[test]
    fn numbers_are_within_limits_as_they_are_admitted() {
        let tried = [0, 1, 2, 7, 8, 9, 100, 255, 256, 257, 258, 264, 4_000];
        for low in tried {
            let ups = tried.into_iter().filter(|up| low <= *up).map(Some);
            for up in ups.chain([None]) {
                let limits = Limits { low, up };
                for number in 0..=8 {
                    let expected = limits.admits(number);
                    assert_eq!(admitted(number, limits), expected, "{number}, {limits:?}");
                }
            }
        }
    }

    #[test]
    fn a_low_above_all_inputs_is_met_by_none() {
        let mut formula = Formula::new();
        let inputs: Vec<Literal> = (0..8).map(|_| formula.variable()).collect();
        for low in [9, 256, 258, 4_000] {
            for up in [Some(4_000), None] {
                assert_eq!(within(&mut formula, &inputs, Limits { low, up }), FALSE);
            }
        }
        for up in [Some(8), Some(255), Some(256), Some(4_000), None] {
            assert_eq!(within(&mut formula, &inputs, Limits { low: 0, up }), TRUE);
        }
    }
}
