//! `show FILE`: a diagram as diagram text, a record as site text.

use std::path::Path;

use crate::diagram_text::diagram_text;
use crate::disk::load;
use crate::file_json::{diagram_json, record_json};
use crate::json::Json;
use crate::kinds::{accepted_kind, FileIs};
use crate::object_diagram::object_diagram;
use crate::outcome::{Outcome, FINE};
use crate::proved::{named_diagram_of, named_record_of};
use crate::site::NamedRecord;
use crate::text::NamedDiagram;
use crate::trouble::Trouble;
use crate::unwritable::unwritable;

/// Shows one file as what its start says it is.
pub fn run(path: &Path) -> Result<Outcome, Trouble> {
    let file = load(path)?;
    let mut remarks = Vec::new();
    let is = accepted_kind(&file)?;
    let (kind, text, content) = match is {
        FileIs::DiagramFile | FileIs::DiagramText => {
            let NamedDiagram { name, diagram } = named_diagram_of(&file)?;
            remarks = unwritable(&diagram);
            let text = diagram_text(&name, &diagram);
            ("diagram", text, diagram_json(&diagram))
        }
        FileIs::RecordFile | FileIs::SiteText => {
            let NamedRecord { name, record } = named_record_of(&file)?;
            let text = object_diagram(&name, &record);
            ("record", text, record_json(&record))
        }
    };
    let edition = is.edition(&file.bytes).map(|edition| edition.number);
    let members = vec![
        ("command", Json::text("show")),
        ("file", file.json_name()),
        ("kind", Json::text(kind)),
        ("edition", Json::or_null(edition, Json::Number)),
        ("result", Json::text("shown")),
        ("diagram", Json::Null),
        ("record", Json::Null),
        ("remarks", Json::Null),
    ];
    let mut outcome = Outcome::answer(FINE, text, members);
    outcome.json.set(kind, content);
    if kind == "diagram" {
        let remarks = Json::list(&remarks, |r| Json::text(r.as_str()));
        outcome.json.set("remarks", remarks);
    }
    let remark = |remark: &String| format!("corfynnog: Remark: {remark}\n");
    outcome.complaint = remarks.iter().map(remark).collect();
    Ok(outcome)
}
