//! Why a run gives no answer, in words: a file that cannot be read, a refusal, a misuse.

use std::ffi::{OsStr, OsString};
use std::path::{Path, PathBuf};

use crate::early_end::NO_MEMORY;
use crate::file_trouble::RefusedFile;
use crate::json::Json;
use crate::outcome::Outcome;
use crate::shown::shown;
use crate::text_trouble::RefusedText;
use crate::words::refusal_in_words;
use crate::wrong_kind::WrongKind;

/// A run without an answer.
pub enum Trouble {
    /// A command that is not understood, or cannot be run as it is given; one sentence.
    Misused(String),
    /// A file that could not be read, with the reason.
    Unreadable { path: PathBuf, why: String },
    /// A file that cannot be written.
    Unwritable(Unwritable),
    /// The library refused a file; the fault where it could be found.
    Refused(Box<RefusedFile>),
    /// The library refused a diagram text, or a text is no site; the fault where it was found.
    RefusedText(Box<RefusedText>),
    /// The library refused a file that is of another kind than the one wanted, or of none.
    WrongKind(Box<WrongKind>),
    /// The library refused the bound, as it is written.
    BoundRefused { bound: OsString, refusal: u8 },
    /// There is no memory for the search.
    NoMemory,
    /// A reply that cannot come.
    Unexpected,
}

/// A file that cannot be written: why, and what to do.
pub struct Unwritable {
    pub path: PathBuf,
    pub why: String,
    pub to_do: &'static str,
}

impl Trouble {
    /// The outcome of a run that ends so.
    pub fn outcome(&self, command: Option<&'static str>) -> Outcome {
        let (complaint, mut members) = self.told(command);
        members.insert(0, ("command", Json::or_null(command, Json::text)));
        Outcome::trouble(format!("corfynnog: {complaint}\n"), members)
    }

    /// The trouble in words and for scripts.
    fn told(&self, command: Option<&str>) -> Words {
        match self {
            Trouble::Misused(sentence) => misused(sentence, command),
            Trouble::Unreadable { path, why } => unreadable(path, why),
            Trouble::Unwritable(file) => unwritable(file),
            Trouble::Refused(file) => (file.words(), file.members()),
            Trouble::RefusedText(text) => (text.words(), text.members()),
            Trouble::WrongKind(file) => (file.words(), file.members()),
            Trouble::BoundRefused { bound, refusal } => bound_refused(bound, *refusal),
            Trouble::NoMemory => no_memory(),
            Trouble::Unexpected => unexpected(),
        }
    }

    /// The trouble with one file among several, in one line.
    pub fn line(&self, file: &Path) -> String {
        match self {
            Trouble::Unreadable { path, why } => format!("Unreadable: {}: {why}.\n", shown(path)),
            Trouble::Refused(file) => format!("Refused: {}\n", file.line()),
            Trouble::RefusedText(text) => format!("Refused: {}\n", text.line()),
            Trouble::WrongKind(file) => format!("Refused: {}\n", file.line()),
            _ => format!("No answer: {}: {}\n", shown(file), self.told(None).0),
        }
    }
}

type Words = (String, Vec<(&'static str, Json)>);

/// A command line that is not understood, and where to read more.
fn misused(sentence: &str, command: Option<&str>) -> Words {
    let help = match command {
        Some(command) => format!("corfynnog {command} --help"),
        None => "corfynnog --help".to_string(),
    };
    let text = format!("{sentence} Run '{help}' for help.");
    let members = vec![
        ("result", Json::text("misused")),
        ("text", Json::text(sentence)),
    ];
    (text, members)
}

/// A file that cannot be read or is too long to be one.
fn unreadable(path: &Path, why: &str) -> Words {
    let text = format!(
        "Cannot read {}: {why}. Check the file's name and rights; run 'corfynnog --help' for help.",
        shown(path)
    );
    let members = vec![
        ("result", Json::text("unreadable")),
        ("file", Json::name(path)),
        ("text", Json::text(why)),
    ];
    (text, members)
}

/// A file that cannot be written.
fn unwritable(file: &Unwritable) -> Words {
    let text = format!(
        "Cannot write {}: {}. {}",
        shown(&file.path),
        file.why,
        file.to_do
    );
    let members = vec![
        ("result", Json::text("unwritable")),
        ("file", Json::name(&file.path)),
        ("text", Json::text(file.why.as_str())),
    ];
    (text, members)
}

/// A bound that the library refused.
fn bound_refused(bound: &OsStr, refusal: u8) -> Words {
    let words = refusal_in_words(refusal);
    let text = format!(
        "The bound '{}' is refused (refusal {refusal}).\n  rule:  {}\n  to do: {}",
        shown(bound),
        words.rule,
        words.to_do
    );
    let members = refusal_members(vec![
        ("refusal", Json::Number(refusal.into())),
        ("bound", Json::name(bound)),
        ("text", Json::text("the bound is no digit from 0 to 8")),
        ("rule", Json::text(words.rule)),
        ("to_do", Json::text(words.to_do)),
    ]);
    (text, members)
}

/// The members of every refusal, null but for these.
pub fn refusal_members(own: Vec<(&'static str, Json)>) -> Vec<(&'static str, Json)> {
    let names = [
        "refusal",
        "file",
        "kind",
        "form",
        "field",
        "tag",
        "field_name",
        "field_start",
        "line",
        "column",
        "byte",
        "bound",
        "looks_like",
        "text",
        "rule",
        "to_do",
    ];
    let known = |name| own.iter().find(|(own, _)| *own == name);
    let value = |name| known(name).map_or(Json::Null, |(_, value)| value.clone());
    let mut members = vec![("result", Json::text("refused"))];
    members.extend(names.map(|name| (name, value(name))));
    members
}

/// No memory, or no thread, to run the library with.
fn no_memory() -> Words {
    let members = vec![
        ("result", Json::text("no memory")),
        ("text", Json::text(NO_MEMORY)),
    ];
    (NO_MEMORY.to_string(), members)
}

/// A reply that this program has no place for.
fn unexpected() -> Words {
    let text = "The comparer gave a reply that this program cannot explain. \
                Please report the files and the command; run 'corfynnog --help' for help.";
    let members = vec![
        ("result", Json::text("unexpected")),
        ("text", Json::text(text)),
    ];
    (text.to_string(), members)
}
