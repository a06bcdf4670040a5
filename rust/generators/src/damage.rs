//! Damaged files: cut, changed, reordered, lengthened.

use crate::fields::{file, Field};
use crate::random::Random;

/// The file cut at every place, the whole file left out.
pub fn cuts(whole: &[u8]) -> Vec<Vec<u8>> {
    (0..whole.len()).map(|end| whole[..end].to_vec()).collect()
}

/// A file with one to three kinds of damage.
pub fn damaged(random: &mut Random, fields: &[Field]) -> Vec<u8> {
    let mut fields = fields.to_vec();
    for _ in 0..random.below(3) {
        damage_fields(random, &mut fields);
    }
    let mut bytes = file(&fields);
    for _ in 0..random.below(2) {
        damage_bytes(random, &mut bytes);
    }
    bytes
}

/// Damage that leaves the file a row of whole fields.
fn damage_fields(random: &mut Random, fields: &mut Vec<Field>) {
    if fields.is_empty() {
        return;
    }
    let at = random.below(fields.len());
    let other = random.below(fields.len());
    match random.below(9) {
        0 => {
            fields.remove(at);
        }
        1 => fields.insert(at, fields[at].clone()),
        2 => fields.insert(other, fields[at].clone()),
        3 => fields.swap(at, other),
        4 => fields[at].tag = any_tag(random),
        5 => fields[at].content.push(random.byte()),
        6 => {
            fields[at].content.pop();
        }
        _ => damage_content(random, &mut fields[at].content),
    }
}

/// Changes, adds or drops one byte of a content.
fn damage_content(random: &mut Random, content: &mut Vec<u8>) {
    if content.is_empty() {
        return;
    }
    let at = random.below(content.len());
    match random.below(6) {
        0 => content.insert(at, any_byte(random)),
        1 => {
            content.remove(at);
        }
        2 => content[at] ^= 1 << random.below(8),
        3 => content[at] = content[random.below(content.len())],
        4 => content[at] = content[at].wrapping_add(1),
        _ => content[at] = any_byte(random),
    }
}

/// Damage that may break the row of fields itself.
fn damage_bytes(random: &mut Random, bytes: &mut Vec<u8>) {
    if bytes.is_empty() {
        return;
    }
    let at = random.below(bytes.len());
    match random.below(7) {
        0 => bytes.truncate(at),
        1 => bytes[at] ^= 1 << random.below(8),
        2 => bytes[at] = any_byte(random),
        3 => {
            bytes.remove(at);
        }
        4 => bytes.insert(at, any_byte(random)),
        5 => {
            for _ in 0..random.between(1, 5) {
                bytes.push(any_byte(random));
            }
        }
        _ => change_a_length(random, bytes),
    }
}

/// Changes the length in front of one of the contents.
fn change_a_length(random: &mut Random, bytes: &mut [u8]) {
    let mut starts = Vec::new();
    let mut at = 0;
    while at + 3 <= bytes.len() {
        starts.push(at);
        at += 3 + usize::from(bytes[at + 1]) * 256 + usize::from(bytes[at + 2]);
    }
    if starts.is_empty() {
        return;
    }
    let start = *random.pick(&starts);
    match random.below(4) {
        0 => bytes[start + 1] = any_byte(random),
        1 => bytes[start + 2] = bytes[start + 2].wrapping_add(1),
        2 => bytes[start + 2] = bytes[start + 2].wrapping_sub(1),
        _ => bytes.swap(start + 1, start + 2),
    }
}

/// A tag of either kind of file, or one of neither.
fn any_tag(random: &mut Random) -> u8 {
    *random.pick(&[
        0x10, 0x20, 0x30, 0x40, 0x50, 0x60, 0x61, 0x62, 0x63, 0x00, 0x11, 0x51, 0x64, 0xFF,
    ])
}

/// A byte that stands at some limit, or any.
fn any_byte(random: &mut Random) -> u8 {
    if random.chance(1, 3) {
        return random.byte();
    }
    *random.pick(&[
        0, 1, 2, 3, 4, 5, 8, 9, 12, 13, 15, 16, 17, 24, 25, 32, 33, 47, 48, 64, 65, 95, 96, 100,
        101, 160, 161, 254, 255,
    ])
}
