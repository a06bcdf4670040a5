//! `evaluate DIAGRAM RECORD`: all compiled predicates hold, or the first that does not.

use std::path::Path;

use crate::disk::load;
use crate::json::Json;
use crate::names::count_of;
use crate::outcome::{Outcome, FINE, FOUND};
use crate::proved;
use crate::reasons::{Forbidden, TOLD};
use crate::trouble::Trouble;

/// Evaluates one diagram's predicates on one record.
pub fn run(diagram: &Path, record: &Path) -> Result<Outcome, Trouble> {
    let (diagram_file, record_file) = (load(diagram)?, load(record)?);
    let judged = proved::judge(&diagram_file, &record_file)?;
    let number = judged.predicates.len();
    let members = vec![
        ("command", Json::text("evaluate")),
        ("diagram", diagram_file.json_name()),
        ("record", record_file.json_name()),
        ("number", Json::Number(number)),
        ("result", Json::text("all hold")),
        ("first_false", Json::Null),
        ("predicate", Json::Null),
        ("places", Json::Null),
    ];
    let (by, site) = (diagram_file.name(), record_file.name());
    let Some(predicate) = judged.false_predicate() else {
        let all = match number {
            0 => format!("{by} has no predicates, so that all hold on {site}.\n"),
            _ => {
                let count = count_of(number, "predicate", "predicates");
                format!("All hold: {count} of {by} on {site}.\n")
            }
        };
        return Ok(Outcome::answer(FINE, all, members));
    };
    let diagram = proved::diagram_of(&diagram_file)?;
    let record = proved::record_of(&record_file)?;
    let places = predicate.breaches(&diagram, &record);
    let forbidden = Forbidden::by(&diagram, &record);
    let index = judged.first_false;
    let text = format!(
        "Not all hold: predicate {index} of {by} is the first that does not hold on {site} ({} in all, counted from 0).\n  {}: {}.\n{}",
        number,
        predicate.name(),
        predicate.in_words(&diagram),
        forbidden.places_text(&places, TOLD)
    );
    let mut outcome = Outcome::answer(FOUND, text, members);
    for (name, value) in [
        ("result", Json::text("not all hold")),
        ("first_false", Json::Number(index)),
        ("predicate", predicate.json(Some(&diagram))),
        ("places", forbidden.places_json(&places)),
    ] {
        outcome.json.set(name, value);
    }
    Ok(outcome)
}
