//! The files of the worked example: shelves and cards.

use generators::hex::bytes;

/// Shelf and Card, a composition Shelf [1] shelf → cards [0..4] Card.
pub fn p() -> Vec<u8> {
    shelf_and_card("01 01", "00 04")
}

/// P in edition 2.
pub fn p_in_edition_2() -> Vec<u8> {
    bytes(
        "10 00 01 02  30 00 08 00 05 53 68 65 6C 66 00  30 00 07 00 04 43 61 72 64 00
         50 00 18 01 01 00 00 01 00 01 05 73 68 65 6C 66 01 00 00 00 04 05 63 61 72 64 73",
    )
}

/// As P, with at most two cards.
pub fn q() -> Vec<u8> {
    shelf_and_card("01 01", "00 02")
}

/// As P, where a card may be without a shelf.
pub fn s() -> Vec<u8> {
    shelf_and_card("00 01", "00 04")
}

/// The diagram without types.
pub fn e() -> Vec<u8> {
    bytes("10 00 01 01")
}

/// One singleton class, Main.
pub fn z() -> Vec<u8> {
    bytes("10 00 01 01  30 00 07 03 04 4D 61 69 6E 00")
}

/// A Shelf with three linked Cards.
pub fn shelf3() -> Vec<u8> {
    bytes(
        "60 00 01 04  61 00 06 05 53 68 65 6C 66  61 00 05 04 43 61 72 64
         61 00 05 04 43 61 72 64  61 00 05 04 43 61 72 64
         63 00 08 00 05 63 61 72 64 73 01  63 00 08 00 05 63 61 72 64 73 02
         63 00 08 00 05 63 61 72 64 73 03",
    )
}

/// One Card.
pub fn card() -> Vec<u8> {
    bytes("60 00 01 01  61 00 05 04 43 61 72 64")
}

/// One Main.
pub fn main_record() -> Vec<u8> {
    bytes("60 00 01 01  61 00 05 04 4D 61 69 6E")
}

/// No object.
pub fn empty() -> Vec<u8> {
    bytes("60 00 01 00")
}

/// Shelf and Card with the limits of either end as bytes.
fn shelf_and_card(shelf: &str, cards: &str) -> Vec<u8> {
    bytes(&format!(
        "10 00 01 01  30 00 08 00 05 53 68 65 6C 66 00  30 00 07 00 04 43 61 72 64 00
         50 00 14 01 01 00 {shelf} 05 73 68 65 6C 66 01 {cards} 05 63 61 72 64 73"
    ))
}
