//! The worked texts: the refusal of each, or the file of the diagram that it declares.

mod common;

use brute::{read_diagram, read_text, write_diagram, Edition};
use common::edition_of;
use generators::worked_texts::{accepted, counted, refused, Reply};

#[test]
fn there_are_all_cases() {
    assert_eq!(
        (accepted().len(), refused().len(), counted().len()),
        (47, 111, 30)
    );
}

#[test]
fn accepted_texts_declare_the_diagrams_of_their_files() {
    for (name, text, file) in accepted() {
        let diagram = read_text(text);
        assert!(diagram.is_ok(), "{name}: {diagram:?}");
        assert_eq!(diagram, read_diagram(file), "{name}");
        let again = write_diagram(edition_of(file), &diagram.unwrap());
        assert_eq!(again, file, "{name}");
    }
}

#[test]
fn refused_texts_have_their_numbers() {
    for (name, text, number) in refused() {
        assert_eq!(read_text(text).err(), Some(number), "{name}");
    }
}

#[test]
fn counts_and_sizes() {
    for (name, text, reply) in counted() {
        let read = match read_text(&text) {
            Ok(diagram) => Reply::FileOf(write_diagram(Edition::One, &diagram).len()),
            Err(number) => Reply::Refused(number),
        };
        assert_eq!(read, reply, "{name}");
    }
}
