//! The worked texts: the refusal of each, or the diagram of its file.

use generators::worked_texts::{accepted, counted, refused, Reply};

use crate::diagram_file::read_diagram;

use super::read_text;

/// The refusal of a text, 0 for none.
fn refusal(text: &[u8]) -> u8 {
    read_text(text)
        .err()
        .map_or(0, |fault| fault.rule.refusal())
}

#[test]
fn accepted_texts_declare_the_diagrams_of_their_files() {
    for (name, text, file) in accepted() {
        assert_eq!(refusal(text), 0, "{name}");
        let read = read_text(text).map(|read| read.diagram);
        assert_eq!(read.ok(), read_diagram(file).ok(), "{name}");
    }
}

#[test]
fn refused_texts_have_their_numbers() {
    for (name, text, number) in refused() {
        assert_eq!(refusal(text), number, "{name}");
    }
}

#[test]
fn counts_and_sizes() {
    for (name, text, reply) in counted() {
        let number = match reply {
            Reply::FileOf(_) => 0,
            Reply::Refused(number) => number,
        };
        assert_eq!(refusal(&text), number, "{name}");
    }
}
