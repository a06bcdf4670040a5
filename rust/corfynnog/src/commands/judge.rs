//! `judge DIAGRAM RECORD...`: legal, or the lowest rule broken.

use std::path::{Path, PathBuf};

use super::several::{several, Told};
use crate::disk::{load, Loaded};
use crate::json::Json;
use crate::outcome::{Outcome, FINE, FOUND};
use crate::proved;
use crate::reasons::{Forbidden, Reason, TOLD};
use crate::trouble::Trouble;

/// Judges one record or several under one diagram.
pub fn run(diagram: &Path, records: &[PathBuf], all: bool) -> Result<Outcome, Trouble> {
    let diagram = load(diagram)?;
    if let [record] = records {
        return judge(&diagram, record, all);
    }
    proved::check_diagram(&diagram)?;
    let told = match all {
        true => Told::InFull,
        false => Told::InLines,
    };
    let one = |record: &Path| judge(&diagram, record, all);
    Ok(several("judge", records, told, one))
}

/// Judges one record under one diagram; of an illegal one all reasons where they are asked for.
fn judge(diagram: &Loaded, record: &Path, all: bool) -> Result<Outcome, Trouble> {
    let record = load(record)?;
    let judged = proved::judge(diagram, &record)?;
    let members = vec![
        ("command", Json::text("judge")),
        ("diagram", diagram.json_name()),
        ("record", record.json_name()),
        ("result", Json::text("legal")),
        ("reason", Json::Null),
        ("reasons", Json::Null),
    ];
    let (site, by) = (record.name(), diagram.name());
    if judged.rule == 0 {
        let text = format!("Legal: {by} allows {site}.\n");
        return Ok(Outcome::answer(FINE, text, members));
    }
    let (diagram, record) = (proved::diagram_of(diagram)?, proved::record_of(&record)?);
    let forbidden = Forbidden::by(&diagram, &record);
    let reason = Reason::proved(&diagram, &record, &judged);
    let others = all.then(|| Reason::others(&diagram, &record, &judged));
    let verdict = format!("Illegal: {by} forbids {site}.");
    let why = match &others {
        None => reason.text(&forbidden, TOLD),
        Some(others) => all_text(&forbidden, &reason, others),
    };
    let mut outcome = Outcome::answer(FOUND, format!("{verdict}\n{why}"), members);
    outcome.line = Some(format!("{verdict} {}\n", reason.line()));
    outcome.json.set("result", Json::text("illegal"));
    outcome.json.set("reason", reason.json(&forbidden));
    if let Some(others) = others {
        let list = std::iter::once(&reason).chain(&others);
        let reasons = Json::list(list, |reason| reason.json(&forbidden));
        outcome.json.set("reasons", reasons);
    }
    Ok(outcome)
}

/// Every rule that is broken with each place, the library's own word first.
fn all_text(forbidden: &Forbidden, reason: &Reason, others: &[Reason]) -> String {
    let mut text = reason.text(forbidden, usize::MAX);
    if !others.is_empty() {
        text += "Also broken, by this program's own reading:\n";
    }
    for other in others {
        text += &other.text(forbidden, usize::MAX);
    }
    text
}
