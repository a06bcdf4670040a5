//! The cases as lines and for scripts.

use super::case::Case;
use crate::json::Json;
use crate::outcome::{Outcome, FINE, FOUND};

/// All cases, and how many are as the documents have them.
pub fn outcome(cases: &[Case]) -> Outcome {
    let number = cases.len();
    let as_asked = cases.iter().filter(|case| case.fits).count();
    let (status, result) = match as_asked == number {
        true => (FINE, "as the documents have them"),
        false => (FOUND, "not all as the documents have them"),
    };
    let members = vec![
        ("command", Json::text("marked")),
        ("result", Json::text(result)),
        ("number", Json::Number(number)),
        ("as_asked", Json::Number(as_asked)),
        ("cases", Json::list(cases, case_json)),
    ];
    let last = format!("\n{as_asked} of {number} as the documents have them\n");
    Outcome::answer(status, lines(cases) + &last, members)
}

/// A line for each case, in columns, below a heading.
fn lines(cases: &[Case]) -> String {
    let asked = width("asked", cases.iter().map(|case| case.row.asked));
    let expected = width("documents", cases.iter().map(|case| case.row.expected));
    let mut text = format!("  {:asked$}  {:expected$}  came\n", "asked", "documents");
    for Case { row, came, fits } in cases {
        let mark = if row.marked { "*" } else { " " };
        let remark = match fits {
            true => "",
            false => "  <- NOT as the documents have it",
        };
        text += &format!(
            "{mark} {:asked$}  {:expected$}  {came}{remark}\n",
            row.asked, row.expected
        );
    }
    text
}

/// The width of a column: that of its heading or its longest entry.
fn width<'a>(heading: &str, entries: impl Iterator<Item = &'a str>) -> usize {
    entries.map(str::len).fold(heading.len(), usize::max)
}

/// A case for scripts.
fn case_json(case: &Case) -> Json {
    Json::Object(vec![
        ("asked", Json::text(case.row.asked)),
        ("expected", Json::text(case.row.expected)),
        ("came", Json::text(case.came.as_str())),
        ("marked", Json::Bool(case.row.marked)),
        ("fits", Json::Bool(case.fits)),
    ])
}
