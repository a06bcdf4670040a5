//! The refusal of a file that is of another kind than the one wanted, or of none.

use std::path::PathBuf;

use crate::disk::Loaded;
use crate::fields::{FileKind, DIAGRAM, RECORD};
use crate::json::Json;
use crate::kinds::FileIs;
use crate::shown::shown;
use crate::text::encoding;
use crate::trouble::refusal_members;

/// What is wanted in the place of a file.
#[derive(Clone, Copy, Debug, PartialEq, Eq)]
pub enum Wanted {
    /// As a file or as text.
    Diagram,
    /// Not as text.
    DiagramFile,
    /// As a file or as text.
    Record,
}

impl Wanted {
    /// What it is to hold.
    fn kind(self) -> &'static FileKind {
        match self {
            Wanted::Diagram | Wanted::DiagramFile => &DIAGRAM,
            Wanted::Record => &RECORD,
        }
    }

    /// A file that starts so is of the kind that is wanted.
    fn is_met_by(self, is: FileIs) -> bool {
        match self {
            Wanted::DiagramFile => is == FileIs::DiagramFile,
            Wanted::Diagram | Wanted::Record => is.holds().name == self.kind().name,
        }
    }

    /// It in words.
    fn words(self) -> &'static str {
        match self {
            Wanted::Diagram => "diagram",
            Wanted::DiagramFile => "diagram file",
            Wanted::Record => "record",
        }
    }

    /// How it starts.
    fn rule(self) -> &'static str {
        match self {
            Wanted::Diagram => {
                "a diagram is a diagram text, which starts with classdiagram NAME {, \
                 or a diagram file, which starts with the byte 0x10"
            }
            Wanted::DiagramFile => {
                "only a diagram file has an edition; it starts with the byte 0x10"
            }
            Wanted::Record => {
                "a record is a record file, which starts with the byte 0x60, \
                 or a site text, which starts with objectdiagram NAME {"
            }
        }
    }
}

/// A file that the library refused, and that does not even start as what is wanted.
pub struct WrongKind {
    path: PathBuf,
    wanted: Wanted,
    refusal: u8,
    /// The kind that it starts as.
    looks_like: Option<FileIs>,
    what: String,
    to_do: &'static str,
}

impl WrongKind {
    /// None where the file starts as what is wanted. What starts as no kind is tried as diagram
    /// text, so that as a diagram it is of the right kind.
    pub fn of(file: &Loaded, wanted: Wanted, refusal: u8) -> Option<WrongKind> {
        let looks_like = FileIs::by_start(&file.bytes);
        let (what, to_do) = match looks_like {
            Some(is) if wanted.is_met_by(is) => return None,
            Some(is) => other_kind(is, wanted),
            None if wanted == Wanted::Diagram => return None,
            None if has_field(&file.bytes, wanted.kind()) => return None,
            None => no_kind(&file.bytes, wanted),
        };
        Some(WrongKind {
            path: file.path.clone(),
            wanted,
            refusal,
            looks_like,
            what,
            to_do,
        })
    }

    /// Which file is refused, and its refusal.
    fn verdict(&self) -> String {
        let (file, wanted) = (shown(&self.path), self.wanted.words());
        let refusal = self.refusal;
        format!("{file} is not an acceptable {wanted} (refusal {refusal})")
    }

    /// Which file, and what it looks like.
    pub fn line(&self) -> String {
        format!("{}: {}.", self.verdict(), self.what)
    }

    /// Which file, what it looks like, what was wanted, and what to do.
    pub fn words(&self) -> String {
        format!(
            "{}.\n  fault: {}\n  rule:  {}\n  to do: {}",
            self.verdict(),
            self.what,
            self.wanted.rule(),
            self.to_do
        )
    }

    /// The refusal for scripts.
    pub fn members(&self) -> Vec<(&'static str, Json)> {
        let looks_like = self.looks_like.map(FileIs::words);
        refusal_members(vec![
            ("refusal", Json::Number(self.refusal.into())),
            ("file", Json::name(&self.path)),
            ("kind", Json::text(self.wanted.kind().name)),
            ("looks_like", Json::or_null(looks_like, Json::text)),
            ("text", Json::text(self.what.as_str())),
            ("rule", Json::text(self.wanted.rule())),
            ("to_do", Json::text(self.to_do)),
        ])
    }
}

/// The file has a field of that kind in front, though not the one that comes first. No field is so
/// long that its length starts with a letter, so that a text that starts with `c`, 0x63, has none.
fn has_field(file: &[u8], kind: &FileKind) -> bool {
    matches!(file, [tag, 0, ..] if kind.rule_of(*tag).is_some())
}

/// What and what to do: a diagram where a record is wanted, the other way about, or a text where
/// only a file will do.
fn other_kind(is: FileIs, wanted: Wanted) -> (String, &'static str) {
    let what = format!(
        "this looks like a {}, but a {} is wanted here",
        is.words(),
        wanted.words()
    );
    let to_do = match (wanted, is) {
        (Wanted::DiagramFile, FileIs::DiagramText) => {
            "give a diagram file; a text has no edition, \
             and this program writes no diagram file of it"
        }
        (Wanted::DiagramFile, _) => CHECK_NAME,
        (Wanted::Diagram | Wanted::Record, _) => {
            "check the order of the arguments and the files' names"
        }
    };
    (what, to_do)
}

/// What to do about a file that cannot be told more closely.
const CHECK_NAME: &str = "check the file's name";

/// What and what to do: the file starts as nothing that this program reads. It may still be meant
/// as a diagram text, which 'check' tells more of.
fn no_kind(file: &[u8], wanted: Wanted) -> (String, &'static str) {
    let (name, tag) = (wanted.kind().name, wanted.kind().first_tag());
    let Some(first) = file.first() else {
        return ("the file is empty".to_string(), CHECK_NAME);
    };
    let what = format!("a {name} file starts with tag 0x{tag:02X}, this one with 0x{first:02X}");
    let to_do = match wanted {
        Wanted::DiagramFile => "give a diagram file; 'corfynnog check' tells what this one is",
        Wanted::Diagram | Wanted::Record => encoding(file).unwrap_or(CHECK_NAME),
    };
    (what, to_do)
}
