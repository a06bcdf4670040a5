//! `convert FILE --out FILE`: the diagram of a file as a file of the other edition.

use std::path::Path;

use crate::disk::load;
use crate::edition::Edition;
use crate::json::Json;
use crate::out_file::{OutFile, Written};
use crate::outcome::{Outcome, FINE};
use crate::proved;
use crate::trouble::Trouble;

/// Writes a diagram file in the edition that it does not have.
pub fn run(file: &Path, out: &Path) -> Result<Outcome, Trouble> {
    let out = OutFile::ready(out, &[file])?;
    let file = load(file)?;
    let converted = proved::convert(&file)?;
    let (from, to) = (edition_of(&file.bytes)?, edition_of(&converted)?);
    let written = out.write(&converted)?;
    let text = format!(
        "Converted: {}, a diagram file of edition {to} ({} bytes); {} is of edition {from}.\n",
        out.name(),
        converted.len(),
        file.name()
    );
    let members = vec![
        ("command", Json::text("convert")),
        ("file", file.json_name()),
        ("edition", Json::Number(from)),
        ("result", Json::text("converted")),
        ("written", out.json_name()),
        ("written_edition", Json::Number(to)),
        ("bytes", Json::Number(converted.len())),
    ];
    let mut outcome = Outcome::answer(FINE, text, members);
    if let Written::ForOutput(bytes) = written {
        outcome.file = Some(bytes);
    }
    Ok(outcome)
}

/// The number of an accepted diagram file's edition.
fn edition_of(file: &[u8]) -> Result<usize, Trouble> {
    let edition = Edition::of_file(file).ok_or(Trouble::Unexpected)?;
    Ok(edition.number)
}
