//! The files of the folder `examples/shelf_and_card`, which are part of the program.

use boundary::Call;

/// A diagram in both forms.
#[derive(Debug, PartialEq, Eq)]
pub struct Diagram {
    pub name: &'static str,
    file: &'static [u8],
    text: &'static [u8],
}

/// A record file.
#[derive(Debug, PartialEq, Eq)]
pub struct Record {
    pub name: &'static str,
    pub file: &'static [u8],
}

/// The form in which diagrams are loaded.
#[derive(Clone, Copy)]
pub enum Form {
    File,
    Text,
}

/// The bytes of a file of the folder.
macro_rules! bytes_of {
    ($name:literal, $suffix:literal) => {
        include_bytes!(concat!(
            env!("CARGO_MANIFEST_DIR"),
            "/../../examples/shelf_and_card/",
            $name,
            $suffix
        ))
    };
}

/// The diagrams of these names.
macro_rules! diagrams {
    ($($name:literal),*) => {
        &[$(Diagram {
            name: $name,
            file: bytes_of!($name, ".diagram"),
            text: bytes_of!($name, ".cd"),
        }),*]
    };
}

/// The records of these names.
macro_rules! records {
    ($($name:literal),*) => {
        &[$(Record {
            name: $name,
            file: bytes_of!($name, ".record"),
        }),*]
    };
}

/// The table of cases.
pub const TABLE: &str = include_str!(concat!(
    env!("CARGO_MANIFEST_DIR"),
    "/../../examples/shelf_and_card/cases.txt"
));

const DIAGRAMS: &[Diagram] = diagrams![
    "p",
    "p_edition_2",
    "q",
    "s",
    "e",
    "z",
    "line_port_1",
    "line_port_3",
    "line_port_4",
    "associations_16",
    "associations_17",
    "name_16",
    "name_17",
    "lines_4000",
    "lines_4001"
];

const RECORDS: &[Record] = records![
    "shelf_3",
    "shelf_5",
    "card",
    "empty",
    "main",
    "wrong_way",
    "one_way"
];

impl Diagram {
    /// The diagram of that name.
    pub fn named(name: &str) -> Result<&'static Diagram, String> {
        let found = DIAGRAMS.iter().find(|diagram| diagram.name == name);
        found.ok_or_else(|| format!("there is no diagram {name}"))
    }

    /// The call that loads it.
    pub fn load(&self, place: u8, form: Form) -> Call<'static> {
        let (file, text) = (self.file, self.text);
        match form {
            Form::File => Call::Load { place, file },
            Form::Text => Call::LoadText { place, text },
        }
    }
}

impl Record {
    /// The record of that name.
    pub fn named(name: &str) -> Result<&'static Record, String> {
        let found = RECORDS.iter().find(|record| record.name == name);
        found.ok_or_else(|| format!("there is no record {name}"))
    }

    /// The name of the record with these bytes.
    pub fn name_of(file: &[u8]) -> Option<&'static str> {
        let found = RECORDS.iter().find(|record| record.file == file);
        found.map(|record| record.name)
    }
}

#[cfg(test)]
mod tests {
    use super::*;

    #[test]
    fn the_bytes_that_document_01_gives() {
        assert_eq!(
            Diagram::named("e").map(|e| e.file),
            Ok(&[0x10, 0, 1, 1][..])
        );
        assert_eq!(
            Record::named("empty").map(|r| r.file),
            Ok(&[0x60, 0, 1, 0][..])
        );
        let card = b"\x60\x00\x01\x01\x61\x00\x05\x04\x43\x61\x72\x64";
        assert_eq!(Record::named("card").map(|r| r.file), Ok(&card[..]));
    }
}
