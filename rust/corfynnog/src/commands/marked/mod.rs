//! `marked`: the cases of document 01's section "Shelf and card", as document 02 amends it, run through
//! the proved code.

mod answer;
mod asking;
mod case;
mod files;
mod question;
mod table;
mod telling;

use crate::outcome::Outcome;
use crate::trouble::Trouble;

/// Runs all cases.
pub fn run() -> Result<Outcome, Trouble> {
    Ok(run_table(files::TABLE))
}

/// Runs the cases of a table.
fn run_table(table: &str) -> Outcome {
    let cases: Vec<case::Case> = table::rows(table).map(case::Case::of).collect();
    telling::outcome(&cases)
}

#[cfg(test)]
mod tests {
    use super::*;
    use crate::outcome::{FINE, FOUND};

    /// The line of the text that is about this question.
    fn line<'a>(outcome: &'a Outcome, asked: &str) -> &'a str {
        let mut lines = outcome.text.lines();
        lines.find(|line| line.contains(asked)).expect(asked)
    }

    #[test]
    fn a_row_that_fits_is_told_with_what_came() {
        let outcome = run_table("* judge p card = 7\ncompare s p bound 1 = difference, 1 object\n");
        assert_eq!(outcome.status, FINE);
        assert_eq!(
            line(&outcome, "judge p card"),
            "* judge p card         7                     7"
        );
        assert_eq!(
            line(&outcome, "compare s p"),
            "  compare s p bound 1  difference, 1 object  difference, 1 object, record card (0 under s, 7 under p)"
        );
        assert!(outcome
            .text
            .ends_with("\n2 of 2 as the documents have them\n"));
    }

    #[test]
    fn a_wrong_expectation_is_told_as_such() {
        let table = "* judge p card = 7\n* judge p shelf_5 = 5\n";
        let outcome = run_table(table);
        assert_eq!(outcome.status, FOUND);
        let told = line(&outcome, "judge p shelf_5");
        assert!(
            told.ends_with("5          6  <- NOT as the documents have it"),
            "{told}"
        );
        assert!(!line(&outcome, "judge p card").contains("NOT"));
        assert!(outcome
            .text
            .ends_with("\n1 of 2 as the documents have them\n"));
        let json = outcome.json.to_string();
        assert!(json.contains(
            r#""result": "not all as the documents have them", "number": 2, "as_asked": 1"#
        ));
        assert!(json.contains(r#""expected": "5", "came": "6", "marked": true, "fits": false"#));
    }

    #[test]
    fn each_part_of_an_answer_counts() {
        for row in [
            "compare p q bound 4 = difference, 3 objects",
            "compare s p bound 1 = difference, 1 object, record main",
            "compare p q bound 4 = no difference",
            "compare p q bound 3 = difference, 4 objects",
            "compare p q bound 9 = refused 10",
            "load name_17 = refused 3",
            "load name_17 = refused 23",
            "load name_17 = refused 23, as text refused 3",
            "load associations_17 = accepted",
            "hand out p q bound 4 buffer 59999 = accepted",
            "hand out p q bound 3 buffer 60000 = accepted",
        ] {
            assert_eq!(run_table(row).status, FOUND, "{row}");
        }
    }

    #[test]
    fn a_row_that_is_not_understood_does_not_fit() {
        for (row, why) in [
            ("judge p tower = 0", "there is no record tower"),
            ("judge x card = 0", "there is no diagram x"),
            (
                "compare p q = no difference",
                "nothing is asked here that this program knows",
            ),
            (
                "compare p q bound 256 = refused 9",
                "'256' is not a number that can stand there",
            ),
            (
                "judge p card",
                "no answer that this program knows is expected here",
            ),
        ] {
            let outcome = run_table(row);
            assert_eq!(outcome.status, FOUND, "{row}");
            let told = format!("the row is not understood: {why}");
            assert!(outcome.text.contains(&told), "{}", outcome.text);
        }
    }
}
