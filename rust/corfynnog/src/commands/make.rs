//! `make SITE --out FILE`: the record file of a site that is written as text.

use std::path::Path;

use crate::disk::load;
use crate::json::Json;
use crate::names::counts_in_words;
use crate::out_file::{OutFile, Written};
use crate::outcome::{Outcome, FINE};
use crate::proved::{check_record, record_of};
use crate::records::record_bytes;
use crate::trouble::Trouble;

/// Writes the record file of a record in either form.
pub fn run(site: &Path, out: &Path) -> Result<Outcome, Trouble> {
    let out = OutFile::ready(out, &[site])?;
    let site = load(site)?;
    check_record(&site)?;
    let (file, record) = (record_bytes(&site)?, record_of(&site)?);
    let written = out.write(&file)?;
    let text = format!(
        "Made: {}, a record file with {} ({} bytes).\n",
        out.name(),
        counts_in_words(&record.counts()),
        file.len()
    );
    let members = vec![
        ("command", Json::text("make")),
        ("site", site.json_name()),
        ("result", Json::text("made")),
        ("written", out.json_name()),
        ("bytes", Json::Number(file.len())),
    ];
    let mut outcome = Outcome::answer(FINE, text, members);
    if let Written::ForOutput(bytes) = written {
        outcome.file = Some(bytes);
    }
    Ok(outcome)
}
