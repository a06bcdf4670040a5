//! Files and coded calls that several tests use.
#![allow(dead_code)]

use brute::Edition;

pub const EMPTY_DIAGRAM: &[u8] = b"\x10\x00\x01\x01";
pub const EMPTY_DIAGRAM_2: &[u8] = b"\x10\x00\x01\x02";
pub const MAIN_DIAGRAM: &[u8] = b"\x10\x00\x01\x01\x30\x00\x07\x03\x04Main\x00";
pub const EMPTY_RECORD: &[u8] = b"\x60\x00\x01\x00";
pub const CARD_RECORD: &[u8] = b"\x60\x00\x01\x01\x61\x00\x05\x04Card";
pub const MAIN_RECORD: &[u8] = b"\x60\x00\x01\x01\x61\x00\x05\x04Main";

/// Classes Shelf and Card; composition Shelf [low..1] shelf → cards [0..up] Card.
pub fn shelf_diagram(low: u8, up: u8) -> Vec<u8> {
    let types = b"\x10\x00\x01\x01\x30\x00\x08\x00\x05Shelf\x00\x30\x00\x07\x00\x04Card\x00";
    let mut file = types.to_vec();
    file.extend(b"\x50\x00\x14\x01\x01\x00");
    file.extend([low, 1]);
    file.extend(b"\x05shelf\x01\x00");
    file.push(up);
    file.extend(b"\x05cards");
    file
}

/// P of the worked cases.
pub fn four_cards() -> Vec<u8> {
    shelf_diagram(1, 4)
}

/// P in edition 2.
pub const FOUR_CARDS_2: &[u8] =
    b"\x10\x00\x01\x02\x30\x00\x08\x00\x05Shelf\x00\x30\x00\x07\x00\x04Card\x00\
      \x50\x00\x18\x01\x01\x00\x00\x01\x00\x01\x05shelf\x01\x00\x00\x00\x04\x05cards";

/// Q of the worked cases.
pub fn two_cards() -> Vec<u8> {
    shelf_diagram(1, 2)
}

/// S of the worked cases.
pub fn loose_cards() -> Vec<u8> {
    shelf_diagram(0, 4)
}

/// A Shelf with three linked Cards.
pub fn three_cards_record() -> Vec<u8> {
    let mut file = b"\x60\x00\x01\x04\x61\x00\x06\x05Shelf".to_vec();
    for _ in 1..=3 {
        file.extend(b"\x61\x00\x05\x04Card");
    }
    for card in 1..=3 {
        file.extend(b"\x63\x00\x08\x00\x05cards");
        file.push(card);
    }
    file
}

/// The edition of a diagram file that is accepted.
pub fn edition_of(file: &[u8]) -> Edition {
    Edition::of_file(file).expect("an accepted file has an edition")
}

/// A call with a file or a text behind its first bytes.
fn with_file(first: &[u8], file: &[u8]) -> Vec<u8> {
    let mut call = first.to_vec();
    call.extend((file.len() as u32).to_be_bytes());
    call.extend(file);
    call
}

pub fn load(place: u8, file: &[u8]) -> Vec<u8> {
    with_file(&[1, place], file)
}

pub fn clear(place: u8) -> Vec<u8> {
    vec![2, place]
}

pub fn judge(place: u8, file: &[u8]) -> Vec<u8> {
    with_file(&[3, place], file)
}

pub fn compile(place: u8) -> Vec<u8> {
    vec![4, place]
}

pub fn evaluate(place: u8, file: &[u8]) -> Vec<u8> {
    with_file(&[5, place], file)
}

pub fn compare(bound: u8) -> Vec<u8> {
    vec![6, bound]
}

pub fn hand_out(room: u32) -> Vec<u8> {
    let mut call = vec![7];
    call.extend(room.to_be_bytes());
    call
}

pub fn load_text(place: u8, text: &[u8]) -> Vec<u8> {
    with_file(&[8, place], text)
}

pub fn convert(file: &[u8], room: u32) -> Vec<u8> {
    let mut call = with_file(&[9], file);
    call.extend(room.to_be_bytes());
    call
}
