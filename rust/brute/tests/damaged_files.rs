//! Files with bytes changed, cut out or put in: the readers take any bytes, and an accepted file is
//! the writing of what was read.

mod common;

use brute::{read_diagram, read_record, write_diagram, write_record, Link, Record, Value};
use common::*;
use generators::Random;

/// Changes, drops or adds a byte, one to three times; mostly by small steps, which stay closer
/// to what is accepted.
fn damaged(random: &mut Random, file: &[u8]) -> Vec<u8> {
    let mut file = file.to_vec();
    for _ in 0..=random.below(3) {
        let at = random.below(file.len());
        match random.below(6) {
            0 => file.truncate(at.max(1)),
            1 => file.insert(at, random.below(256) as u8),
            2 => file[at] = random.below(256) as u8,
            3 => file[at] = file[at].wrapping_sub(1),
            _ => file[at] = file[at].wrapping_add(1),
        }
    }
    file
}

/// Two objects with values and links.
fn record() -> Record {
    let value = |object, attribute: &[u8], constant: &[u8]| Value {
        object,
        attribute: attribute.to_vec(),
        value_type: b"Colour".to_vec(),
        constant: constant.to_vec(),
    };
    let link = |from, role: &[u8], to| Link {
        from,
        role: role.to_vec(),
        to,
    };
    Record {
        objects: vec![b"Line".to_vec(), b"Port".to_vec()],
        values: vec![value(0, b"lamp", b"red"), value(1, b"lamp", b"")],
        links: vec![link(0, b"port", 1), link(1, b"line", 0)],
    }
}

#[test]
fn a_record_written_and_read_is_itself() {
    assert_eq!(read_record(&write_record(&record())), Ok(record()));
    let read = read_record(&three_cards_record()).expect("a record file");
    assert_eq!(write_record(&read), three_cards_record());
}

#[test]
fn damaged_record_files() {
    let mut random = Random::new(1);
    let whole = write_record(&record());
    let mut seen = [0; 7];
    for _ in 0..50_000 {
        let file = damaged(&mut random, &whole);
        match read_record(&file) {
            Ok(read) => {
                assert_eq!(write_record(&read), file);
                seen[0] += 1;
            }
            Err(refusal) => seen[usize::from(refusal)] += 1,
        }
    }
    assert!(seen.iter().all(|&number| number > 0), "{seen:?}");
}

#[test]
fn damaged_diagram_files() {
    expect_every_reply(1, b"\x50\x00\x0C\x01\x01\x01\x01\x01\x01l\x02\x00\xFF\x01r");
    expect_every_reply(
        2,
        b"\x50\x00\x10\x01\x01\x01\x00\x01\x01\x00\x01l\x02\x00\x00\xFF\xFF\x01r",
    );
}

/// A file of an edition with this association, damaged often, gets every reply that it can get.
fn expect_every_reply(edition: u8, association: &[u8]) {
    let mut random = Random::new(2);
    let mut whole = vec![0x10, 0, 1, edition];
    whole.extend(b"\x20\x00\x07\x01C\x02\x01r\x01g");
    whole.extend(b"\x30\x00\x04\x02\x01I\x00\x30\x00\x05\x00\x01J\x01\x00");
    whole.extend(b"\x30\x00\x05\x02\x01K\x01\x00\x40\x00\x04\x01\x01a\x00");
    whole.extend(association);
    let mut seen = [0; 9];
    for _ in 0..50_000 {
        let file = damaged(&mut random, &whole);
        match read_diagram(&file) {
            Ok(read) => {
                assert_eq!(write_diagram(edition_of(&file), &read), file);
                seen[0] += 1;
            }
            Err(refusal) => seen[usize::from(refusal)] += 1,
        }
    }
    // A file of this size comes near no limit on the number of fields, which 4 asks for.
    let refusals = [0, 1, 2, 3, 5, 6, 7, 8];
    assert!(
        refusals.iter().all(|&refusal| seen[refusal] > 0),
        "{seen:?}"
    );
}
