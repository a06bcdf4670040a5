//! Refusal 5: a name twice where names differ.

use std::collections::HashMap;
use std::hash::Hash;

use super::checks::earliest;
use super::declarations::{Declarations, Name};
use super::fault::{TextFault, TextRule};
use super::place::place_of;
use super::spelling::quoted;

/// The first name that stands there a second time.
pub fn twice(text: &[u8], all: &Declarations) -> Option<TextFault> {
    let types = second(
        text,
        "class or interface",
        all.types.iter().map(|t| &t.name),
    );
    let enumerations = second(
        text,
        "enumeration",
        all.enumerations.iter().map(|e| &e.name),
    );
    let constants = all.enumerations.iter().find_map(|e| {
        let what = format!("constant of {}", quoted(e.name.text));
        second(text, &what, e.constants.iter())
    });
    let parents = all.types.iter().find_map(|t| {
        let what = format!("parent of {}", quoted(t.name.text));
        second(text, &what, t.parents())
    });
    earliest([types, enumerations, constants, parents])
}

/// The first of these names that is an earlier one again.
pub fn second<'n, 'a: 'n>(
    text: &[u8],
    what: &str,
    names: impl Iterator<Item = &'n Name<'a>>,
) -> Option<TextFault> {
    let (name, places) = repeated(names.map(|name| (name.text, name.at)))?;
    let what = format!("{} stands here a second time as {what}", quoted(name));
    Some(again(text, places, &what))
}

/// The first of these that is an earlier one again, with the places of both.
pub fn repeated<K: Copy + Eq + Hash>(
    items: impl Iterator<Item = (K, usize)>,
) -> Option<(K, [usize; 2])> {
    let mut places: HashMap<K, usize> = HashMap::new();
    for (key, at) in items {
        if let Some(first) = places.insert(key, at) {
            return Some((key, [first, at]));
        }
    }
    None
}

/// The fault at the second of two places, which tells the first.
pub fn again(text: &[u8], [first, at]: [usize; 2], what: &str) -> TextFault {
    let first = place_of(text, first);
    let what = format!(
        "{what}; the first is at line {}, column {}",
        first.line, first.column
    );
    TextFault::of(TextRule::Different, at, what)
}
