//! Which kind of file this is, told by its start.

use crate::disk::Loaded;
use crate::edition::Edition;
use crate::fields::{FileKind, DIAGRAM, RECORD};
use crate::proved;
use crate::text::first_word;
use crate::trouble::Trouble;

/// The kinds of file.
#[derive(Clone, Copy, Debug, PartialEq, Eq)]
pub enum FileIs {
    DiagramFile,
    DiagramText,
    RecordFile,
    SiteText,
}

impl FileIs {
    /// The kind that a file starts as: a file by its first byte, a text by its first word. No
    /// accepted text starts as a file.
    pub fn by_start(file: &[u8]) -> Option<FileIs> {
        match file.first() {
            Some(&first) if first == DIAGRAM.first_tag() => return Some(FileIs::DiagramFile),
            Some(&first) if first == RECORD.first_tag() => return Some(FileIs::RecordFile),
            _ => (),
        }
        match first_word(file)? {
            "classdiagram" => Some(FileIs::DiagramText),
            "objectdiagram" => Some(FileIs::SiteText),
            _ => None,
        }
    }

    /// The kind that a file is taken for where any kind will do.
    pub fn of(file: &[u8]) -> FileIs {
        FileIs::by_start(file).unwrap_or(FileIs::DiagramText)
    }

    /// The kind in words.
    pub fn words(self) -> &'static str {
        match self {
            FileIs::DiagramFile => "diagram file",
            FileIs::DiagramText => "diagram text",
            FileIs::RecordFile => "record file",
            FileIs::SiteText => "site text",
        }
    }

    /// The edition of an accepted file; diagram files alone have one.
    pub fn edition(self, file: &[u8]) -> Option<Edition> {
        match self {
            FileIs::DiagramFile => Edition::of_file(file),
            _ => None,
        }
    }

    /// What it holds, a diagram or a record.
    pub fn holds(self) -> &'static FileKind {
        match self {
            FileIs::DiagramFile | FileIs::DiagramText => &DIAGRAM,
            FileIs::RecordFile | FileIs::SiteText => &RECORD,
        }
    }

    /// Its form, for scripts.
    pub fn form(self) -> &'static str {
        match self {
            FileIs::DiagramFile | FileIs::RecordFile => "file",
            FileIs::DiagramText | FileIs::SiteText => "text",
        }
    }
}

/// A diagram is text unless it starts as a diagram file.
pub fn is_text(diagram: &[u8]) -> bool {
    FileIs::of(diagram) != FileIs::DiagramFile
}

/// A record is a record file unless it starts as a site text.
pub fn is_site_text(record: &[u8]) -> bool {
    FileIs::of(record) == FileIs::SiteText
}

/// The kind of a file that the library accepts as such, else why not.
pub fn accepted_kind(file: &Loaded) -> Result<FileIs, Trouble> {
    let kind = FileIs::of(&file.bytes);
    match kind {
        FileIs::RecordFile | FileIs::SiteText => proved::check_record(file)?,
        FileIs::DiagramFile | FileIs::DiagramText => proved::check_diagram(file)?,
    }
    Ok(kind)
}
