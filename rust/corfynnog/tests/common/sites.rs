//! Shelves and cards: small diagrams and records with known answers.

use super::Folder;
use generators::hex::bytes;

/// A folder with the diagrams and records that most tests take.
pub fn folder(test: &str) -> Folder {
    let folder = Folder::of(test);
    folder.put("p.diagram", &p());
    folder.put("q.diagram", &q());
    folder.put("s.diagram", &s());
    folder.put("e.diagram", &e());
    folder.put("z.diagram", &z());
    folder.put("shelf3.record", &shelf_with(3));
    folder.put("card.record", &card());
    folder.put("empty.record", &empty_site());
    folder
}

/// Classes Shelf and Card, and the composition between them with the limits in these bytes.
fn shelf_and_card(edition: u8, left: &[u8], right: &[u8]) -> Vec<u8> {
    let mut file = vec![0x10, 0, 1, edition];
    file.extend(b"\x30\x00\x08\x00\x05Shelf\x00\x30\x00\x07\x00\x04Card\x00");
    let length = 16 + left.len() + right.len();
    file.extend([0x50, 0, length as u8, 1, 1, 0]);
    file.extend(left);
    file.extend(b"\x05shelf\x01");
    file.extend(right);
    file.extend(b"\x05cards");
    file
}

/// The same as a file of edition 2, with these limits.
pub fn wide(left: (u16, u16), right: (u16, u16)) -> Vec<u8> {
    let bytes = |(low, up): (u16, u16)| [low, up].map(u16::to_be_bytes).concat();
    shelf_and_card(2, &bytes(left), &bytes(right))
}

/// Every card on one shelf, at most four cards a shelf.
pub fn p() -> Vec<u8> {
    shelf_and_card(1, &[1, 1], &[0, 4])
}

/// As P, with at most two cards a shelf.
pub fn q() -> Vec<u8> {
    shelf_and_card(1, &[1, 1], &[0, 2])
}

/// As P, but a card may do without a shelf.
pub fn s() -> Vec<u8> {
    shelf_and_card(1, &[0, 1], &[0, 4])
}

/// No types.
pub fn e() -> Vec<u8> {
    bytes("10 00 01 01")
}

/// One singleton class, Main.
pub fn z() -> Vec<u8> {
    bytes("10 00 01 01 30 00 07 03 04 4D 61 69 6E 00")
}

/// Line and Port, an association with that arrow between them, at most one each way.
pub fn line_and_port(arrow: u8) -> Vec<u8> {
    let mut file =
        b"\x10\x00\x01\x01\x30\x00\x07\x00\x04Line\x00\x30\x00\x07\x00\x04Port\x00".to_vec();
    file.extend([0x50, 0, 0x12, 0, arrow]);
    file.extend(b"\x00\x00\x01\x04line\x01\x00\x01\x04port");
    file
}

/// A Line with a port link to a Port, and none back.
pub fn one_way() -> Vec<u8> {
    b"\x60\x00\x01\x02\x61\x00\x05\x04Line\x61\x00\x05\x04Port\x63\x00\x07\x00\x04port\x01".to_vec()
}

/// A Shelf and so many Cards, all linked.
pub fn shelf_with(cards: u8) -> Vec<u8> {
    let mut file = vec![0x60, 0, 1, cards + 1];
    file.extend(b"\x61\x00\x06\x05Shelf");
    for _ in 0..cards {
        file.extend(b"\x61\x00\x05\x04Card");
    }
    for card in 1..=cards {
        file.extend(b"\x63\x00\x08\x00\x05cards");
        file.push(card);
    }
    file
}

/// One Card.
pub fn card() -> Vec<u8> {
    b"\x60\x00\x01\x01\x61\x00\x05\x04Card".to_vec()
}

/// Nothing at all.
pub fn empty_site() -> Vec<u8> {
    bytes("60 00 01 00")
}

/// A shelf that stands on a card.
pub fn wrong_way() -> Vec<u8> {
    b"\x60\x00\x01\x02\x61\x00\x06\x05Shelf\x61\x00\x05\x04Card\x63\x00\x08\x01\x05cards\x00"
        .to_vec()
}
