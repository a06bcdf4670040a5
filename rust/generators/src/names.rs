//! Names to choose from: few, so that they meet, and some the beginning of others, so that their order counts.

use crate::random::Random;

pub const TYPES: [&str; 6] = ["A", "B", "C", "D", "AB", "a"];
pub const VALUE_TYPES: [&str; 4] = ["V", "W", "VW", "A"];
pub const CONSTANTS: [&str; 5] = ["r", "g", "rg", "R", "_"];
pub const ATTRIBUTES: [&str; 5] = ["x", "xy", "y", "Z", "r"];
pub const ROLES: [&str; 6] = ["r", "rs", "s", "_", "Q", "x"];
pub const FOREIGN: [&str; 3] = ["Nobody", "zz", "0"];

/// One of the names.
pub fn one_of(random: &mut Random, names: &[&str]) -> Vec<u8> {
    random.pick(names).as_bytes().to_vec()
}

/// One of the names that is not yet taken, or a numbered one where all are.
pub fn fresh(random: &mut Random, names: &[&str], taken: &[&[u8]]) -> Vec<u8> {
    let free: Vec<&&str> = names
        .iter()
        .filter(|name| !taken.contains(&name.as_bytes()))
        .collect();
    if free.is_empty() {
        let mut others = (0..).map(|number| numbered(b"N", number));
        let untaken = |name: &Vec<u8>| !taken.contains(&name.as_slice());
        return others.find(untaken).unwrap_or_default();
    }
    random.pick(&free).as_bytes().to_vec()
}

/// A name with a number behind it.
pub fn numbered(front: &[u8], number: usize) -> Vec<u8> {
    let mut name = front.to_vec();
    name.extend_from_slice(format!("{number:04}").as_bytes());
    name
}

/// A name of this length, whether or not a reader allows it.
pub fn of_length(letter: u8, length: usize) -> Vec<u8> {
    vec![letter; length]
}
