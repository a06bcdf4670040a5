//! Several files in one run: an answer on each, in the order given, and the worst exit status.

use std::path::{Path, PathBuf};

use crate::json::Json;
use crate::outcome::{Outcome, FINE};
use crate::trouble::Trouble;

/// How the answers stand among each other.
#[derive(Clone, Copy, Debug, PartialEq, Eq)]
pub enum Told {
    /// A line each.
    InLines,
    /// As each would be told alone, with a blank line between two.
    InFull,
}

/// The answers on all files, those without an answer told among them.
pub fn several(
    command: &'static str,
    files: &[PathBuf],
    told: Told,
    one: impl Fn(&Path) -> Result<Outcome, Trouble>,
) -> Outcome {
    let (mut status, mut texts, mut objects) = (FINE, Vec::new(), Vec::new());
    for file in files {
        let (outcome, line) = match one(file) {
            Ok(outcome) => {
                let line = outcome.line.clone();
                (outcome, line)
            }
            Err(trouble) => (trouble.outcome(Some(command)), Some(trouble.line(file))),
        };
        status = status.max(outcome.status);
        texts.push(match (line, told) {
            (Some(line), Told::InLines) => line,
            (Some(line), Told::InFull) if outcome.text.is_empty() => line,
            _ => outcome.text,
        });
        objects.push(outcome.json);
    }
    let between = match told {
        Told::InLines => "",
        Told::InFull => "\n",
    };
    Outcome {
        json: Json::Lines(objects),
        ..Outcome::answer(status, texts.join(between), Vec::new())
    }
}
