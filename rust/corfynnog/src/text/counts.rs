//! Refusal 4: more of a kind than allowed.

use std::collections::HashSet;

use super::checks::earliest;
use super::declarations::Declarations;
use super::fault::{TextFault, TextRule};
use super::spelling::quoted;

/// The first declaration, constant or parent that is one too many.
pub fn too_many(all: &Declarations) -> Option<TextFault> {
    let types = all.types.iter().map(|t| t.name.at);
    let attributes = all.attributes().map(|a| a.name.at);
    let associations = all.associations.iter().map(|a| a.left.of.at);
    let constants = all.enumerations.iter().find_map(|e| {
        let whose = format!("the enumeration {} has", quoted(e.name.text));
        over(&whose, "constants", 8, e.constants.iter().map(|c| c.at))
    });
    let parents = all.types.iter().find_map(|t| {
        let whose = format!("{} has", quoted(t.name.text));
        over(&whose, "parents", 4, t.parents().map(|p| p.at))
    });
    earliest([
        over(TEXT, "types", 24, types),
        over(TEXT, "attributes", 32, attributes),
        over(TEXT, "associations", 16, associations),
        over(TEXT, VALUE_TYPES, 12, value_types(all).into_iter()),
        constants,
        parents,
    ])
}

pub const TEXT: &str = "the text has";

const VALUE_TYPES: &str = "value types (enumerations and further types of attributes)";

/// The places of the value types: enumerations, then other attribute types at their first use.
fn value_types(all: &Declarations) -> Vec<usize> {
    let mut known: HashSet<&str> = all.enumerations.iter().map(|e| e.name.text).collect();
    let mut places: Vec<usize> = all.enumerations.iter().map(|e| e.name.at).collect();
    for attribute in all.attributes() {
        if known.insert(attribute.value_type.text) {
            places.push(attribute.value_type.at);
        }
    }
    places
}

/// The first of these that is one too many.
pub fn over(
    whose: &str,
    what: &str,
    most: usize,
    mut places: impl Iterator<Item = usize>,
) -> Option<TextFault> {
    let at = places.by_ref().nth(most)?;
    let count = most + 1 + places.count();
    let what = format!(
        "{whose} {count} {what}, at most {most} are allowed; this is number {}",
        most + 1
    );
    Some(TextFault::of(TextRule::Count, at, what))
}
