//! `check FILE...`: is this an acceptable diagram file, diagram text, record file or site text?

use std::path::{Path, PathBuf};

use super::several::{several, Told};
use crate::disk::load;
use crate::json::Json;
use crate::kinds::{accepted_kind, FileIs};
use crate::names::counts_in_words;
use crate::outcome::{Outcome, FINE};
use crate::proved::{diagram_of, record_of};
use crate::trouble::Trouble;

/// Counts of what a file holds: one, several, and how many.
type Counts = Vec<(&'static str, &'static str, usize)>;

/// Checks one file, or several.
pub fn run(files: &[PathBuf]) -> Result<Outcome, Trouble> {
    match files {
        [file] => check(file),
        _ => Ok(several("check", files, Told::InLines, check)),
    }
}

/// Checks one file as what its start says it is.
fn check(path: &Path) -> Result<Outcome, Trouble> {
    let file = load(path)?;
    let is = accepted_kind(&file)?;
    let counts = match is {
        FileIs::DiagramFile | FileIs::DiagramText => {
            let diagram = diagram_of(&file)?;
            let counts: Counts = vec![
                ("value type", "value types", diagram.value_types.len()),
                ("type", "types", diagram.types.len()),
                ("attribute", "attributes", diagram.attributes.len()),
                ("association", "associations", diagram.associations.len()),
            ];
            counts
        }
        FileIs::RecordFile | FileIs::SiteText => record_of(&file)?.counts().to_vec(),
    };
    let edition = is.edition(&file.bytes).map(|edition| edition.number);
    let of_edition = edition.map(|number| format!(" of edition {number}"));
    let text = format!(
        "Accepted: {} is a {}{} with {}.\n",
        file.name(),
        is.words(),
        of_edition.unwrap_or_default(),
        counts_in_words(&counts)
    );
    let members = vec![
        ("command", Json::text("check")),
        ("file", file.json_name()),
        ("kind", Json::text(is.holds().name)),
        ("form", Json::text(is.form())),
        ("edition", Json::or_null(edition, Json::Number)),
        ("result", Json::text("accepted")),
    ];
    Ok(Outcome::answer(FINE, text, members))
}
