//! Where a file's first fault lies, what it is in words, and what to do about it.

use crate::fields::Field;

/// The field that a fault lies in.
#[derive(Clone, Copy, Debug, PartialEq, Eq)]
pub struct FieldPlace {
    /// Counted from 1.
    pub number: usize,
    pub tag: u8,
    /// The byte of the file that the field starts at, counted from 0.
    pub start: usize,
}

/// The first fault of a file by this program's own reading.
#[derive(Clone, Debug, PartialEq, Eq)]
pub struct Fault {
    pub refusal: u8,
    /// None for an empty file and for objects that are missing at the end.
    pub field: Option<FieldPlace>,
    /// The byte of the file, counted from 0.
    pub byte: usize,
    pub what: String,
    pub to_do: String,
}

impl Fault {
    /// A fault inside a field.
    pub fn within(
        field: &Field,
        refusal: u8,
        byte: usize,
        what: impl Into<String>,
        to_do: impl Into<String>,
    ) -> Fault {
        let place = FieldPlace {
            number: field.number,
            tag: field.tag,
            start: field.start,
        };
        Fault {
            field: Some(place),
            ..Fault::of_file(refusal, byte, what, to_do)
        }
    }

    /// A fault of the file as a whole.
    pub fn of_file(
        refusal: u8,
        byte: usize,
        what: impl Into<String>,
        to_do: impl Into<String>,
    ) -> Fault {
        Fault {
            refusal,
            field: None,
            byte,
            what: what.into(),
            to_do: to_do.into(),
        }
    }
}
