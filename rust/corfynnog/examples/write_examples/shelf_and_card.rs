//! The diagrams and records of the folder `shelf_and_card`: those of document 01's section "Shelf and
//! card", a line and a port with an arrow one way, and files of edition 2.

use super::builder::{DiagramFile, BOTH, CLASS, MANY, NO_ARROWHEAD, RIGHT, SINGLETON};
use super::record_builder::RecordFile;

/// The folder's name.
pub const FOLDER: &str = "shelf_and_card";

/// A file's name without its suffix, and its bytes.
pub type Named = (&'static str, Vec<u8>);

/// The diagrams; those whose names end with 17 or 4001 are refused.
pub fn diagrams() -> Vec<Named> {
    vec![
        ("p", shelf_and_card(1, (1, 1), (0, 4))),
        ("p_edition_2", shelf_and_card(2, (1, 1), (0, 4))),
        ("q", shelf_and_card(1, (1, 1), (0, 2))),
        ("s", shelf_and_card(1, (0, 1), (0, 4))),
        ("e", DiagramFile::new().bytes()),
        ("z", one_type(SINGLETON, "Main")),
        ("line_port_1", line_and_port(RIGHT)),
        ("line_port_3", line_and_port(BOTH)),
        ("line_port_4", line_and_port(NO_ARROWHEAD)),
        ("associations_16", associations(16)),
        ("associations_17", associations(17)),
        ("name_16", one_type(CLASS, "Card_of_16_bytes")),
        ("name_17", one_type(CLASS, "Cards_of_17_bytes")),
        ("lines_4000", group_of_lines(4000)),
        ("lines_4001", group_of_lines(4001)),
    ]
}

/// The records.
pub fn records() -> Vec<Named> {
    vec![
        ("shelf_3", shelf_with(3)),
        ("shelf_5", shelf_with(5)),
        ("card", RecordFile::of(&["Card"]).bytes()),
        ("empty", RecordFile::of(&[]).bytes()),
        ("main", RecordFile::of(&["Main"]).bytes()),
        ("wrong_way", one_link(["Shelf", "Card"], 1, "cards", 0)),
        ("one_way", one_link(["Line", "Port"], 0, "port", 1)),
    ]
}

/// Shelves with cards, as a file of that edition; so many shelves a card, so many cards a shelf.
fn shelf_and_card(edition: u8, shelves: (u16, u16), cards: (u16, u16)) -> Vec<u8> {
    DiagramFile::of_edition(edition)
        .of_kind(CLASS, "Shelf", &[])
        .of_kind(CLASS, "Card", &[])
        .composition(
            ("Shelf", shelves.0, shelves.1, "shelf"),
            ("Card", cards.0, cards.1, "cards"),
        )
        .bytes()
}

/// Groups of up to so many lines, as a file of edition 2.
fn group_of_lines(most: u16) -> Vec<u8> {
    DiagramFile::of_edition(2)
        .of_kind(CLASS, "Group", &[])
        .of_kind(CLASS, "Line", &[])
        .parts(("Group", "group"), ("Line", 0, most, "lines"))
        .bytes()
}

/// Lines with ports, at most one each way.
fn line_and_port(arrow: u8) -> Vec<u8> {
    DiagramFile::new()
        .of_kind(CLASS, "Line", &[])
        .of_kind(CLASS, "Port", &[])
        .association(("Line", 0, 1, "line"), arrow, ("Port", 0, 1, "port"))
        .bytes()
}

/// A diagram with one type.
fn one_type(kind: u8, name: &'static str) -> Vec<u8> {
    DiagramFile::new().of_kind(kind, name, &[]).bytes()
}

/// Roles of so many associations.
const ROLES: [&str; 17] = [
    "cards_1", "cards_2", "cards_3", "cards_4", "cards_5", "cards_6", "cards_7", "cards_8",
    "cards_9", "cards_10", "cards_11", "cards_12", "cards_13", "cards_14", "cards_15", "cards_16",
    "cards_17",
];

/// The first so many of 17 associations between shelves and cards.
fn associations(number: usize) -> Vec<u8> {
    let mut file = DiagramFile::new()
        .of_kind(CLASS, "Shelf", &[])
        .of_kind(CLASS, "Card", &[]);
    for role in &ROLES[..number] {
        file = file.association(("Shelf", 0, MANY, "shelf"), BOTH, ("Card", 0, MANY, role));
    }
    file.bytes()
}

/// A shelf with so many linked cards.
fn shelf_with(cards: u8) -> Vec<u8> {
    let mut types = vec!["Shelf"];
    types.extend((0..cards).map(|_| "Card"));
    let mut file = RecordFile::of(&types);
    for card in 1..=cards {
        file = file.link(0, "cards", card);
    }
    file.bytes()
}

/// Two objects and a link.
fn one_link(types: [&str; 2], from: u8, role: &str, to: u8) -> Vec<u8> {
    RecordFile::of(&types).link(from, role, to).bytes()
}
