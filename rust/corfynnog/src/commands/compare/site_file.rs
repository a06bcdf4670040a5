//! The record file of the site that a comparison finds.

use crate::out_file::{OutFile, Written};
use crate::outcome::{Outcome, TROUBLE};

/// Writes the site's file; the answer is told where that fails too.
pub fn write(out: &OutFile, site: &[u8], outcome: &mut Outcome) {
    let bytes = site.len();
    match out.write(site) {
        Ok(Written::InFile) => outcome.json.set("written", out.json_name()),
        Ok(Written::ForOutput(site)) => outcome.file = Some(site),
        Err(trouble) => {
            outcome.status = TROUBLE;
            outcome.complaint += &trouble.outcome(None).complaint;
            return;
        }
    }
    outcome.text += &format!(
        "\nThe site as a record file: {} ({bytes} bytes)\n",
        out.name()
    );
}

/// There is no site to write: says so where a file of that name stands from before.
pub fn leave(out: &OutFile, outcome: &mut Outcome) {
    if out.is_output() {
        outcome.file = Some(Vec::new());
    }
    if out.is_there() {
        let words = format!(
            "{} was not written; the file of that name is from before.\n",
            out.name()
        );
        match outcome.text.is_empty() {
            true => outcome.complaint += &format!("  {words}"),
            false => outcome.text += &words,
        }
    }
}

#[cfg(test)]
mod tests {
    use std::fs;

    use super::*;

    #[test]
    fn a_file_from_before_beside_a_complaint() {
        let name = format!("corfynnog_site_{}", std::process::id());
        let file = std::env::temp_dir().join(name);
        fs::write(&file, b"before").expect("a file for the test");
        let Ok(out) = OutFile::ready(&file, &[]) else {
            panic!("a file that can be written");
        };
        let mut outcome = Outcome::trouble("corfynnog: Not settled.\n".into(), Vec::new());
        leave(&out, &mut outcome);
        let words = " was not written; the file of that name is from before.\n";
        assert!(outcome.complaint.ends_with(words), "{}", outcome.complaint);
        assert_eq!(outcome.text, "");
        fs::remove_file(file).expect("the end of the test");
    }
}
