//! The checks of a text that belongs to the grammar, each over the whole text: 24, 4, 5, 8.

use super::parts::{Parts, TypePart};
use crate::bytes::all_differ;
use crate::diagram::{Form, Kind};
use crate::refusal::{require, COMPOSITION_BACKWARDS, NOT_DECLARED, NOT_DIFFERENT, TOO_MANY};
use std::collections::{HashMap, HashSet};

/// Tries the parts for 24, 4, 5 and 8. From 5 on there are few of each.
pub fn check(parts: &Parts) -> Result<(), u8> {
    require(all_declared(parts), NOT_DECLARED)?;
    require(all_counts_fit(parts), TOO_MANY)?;
    require(all_names_differ(parts), NOT_DIFFERENT)?;
    require(all_wholes_left(parts), COMPOSITION_BACKWARDS)
}

/// A name, and whether an interface or a class is meant.
type Sought<'t> = (&'t [u8], bool);

/// "24 for an association end that is no declared type, or a parent not declared before as the
/// kind its keyword calls for"
fn all_declared(parts: &Parts) -> bool {
    let first = first_declarations(parts);
    let is_declared = |name| {
        [false, true]
            .iter()
            .any(|&i| first.contains_key(&(name, i)))
    };
    let mut types = parts.types.iter().enumerate();
    types.all(|(at, of)| parents_stand_before(&first, at, of))
        && parts.ends().all(|end| is_declared(end.type_name))
}

/// The index of the first class and of the first interface of each name.
fn first_declarations<'t>(parts: &Parts<'t>) -> HashMap<Sought<'t>, usize> {
    let mut first = HashMap::new();
    for (at, of) in parts.types.iter().enumerate() {
        let is_interface = of.kind == Kind::Interface;
        first.entry((of.name, is_interface)).or_insert(at);
    }
    first
}

/// Whether each parent of the type at this index stands before it.
fn parents_stand_before(first: &HashMap<Sought, usize>, at: usize, of: &TypePart) -> bool {
    of.parents.iter().all(|parent| {
        let declared = first.get(&(parent.name, parent.is_interface));
        declared.is_some_and(|&declared| declared < at)
    })
}

/// "4 for any count over 01's limits": what is written counts, alike or not, but for plain types.
fn all_counts_fit(parts: &Parts) -> bool {
    parts.enumerations.len() + number_of_plain_types(parts) <= 12
        && parts.types.len() <= 24
        && parts.attributes().count() <= 32
        && parts.associations.len() <= 16
        && parts.enumerations.iter().all(|e| e.constants.len() <= 8)
        && parts.types.iter().all(|of| of.parents.len() <= 4)
}

/// How many names are attribute types and no enumerations.
fn number_of_plain_types(parts: &Parts) -> usize {
    let enumerations: HashSet<&[u8]> = parts.enumerations.iter().map(|e| e.name).collect();
    let used: HashSet<&[u8]> = parts.attributes().map(|a| a.value_type).collect();
    used.difference(&enumerations).count()
}

/// "5 (a parent named twice too)"
fn all_names_differ(parts: &Parts) -> bool {
    let types: Vec<&[u8]> = parts.types.iter().map(|of| of.name).collect();
    let enumerations: Vec<&[u8]> = parts.enumerations.iter().map(|e| e.name).collect();
    let parents_differ = |of: &TypePart| {
        let names: Vec<&[u8]> = of.parents.iter().map(|parent| parent.name).collect();
        all_differ(&names)
    };
    all_differ(&types)
        && all_differ(&enumerations)
        && parts.enumerations.iter().all(|e| all_differ(&e.constants))
        && parts.types.iter().all(parents_differ)
}

/// Whether no composition has arrow 2.
fn all_wholes_left(parts: &Parts) -> bool {
    let mut associations = parts.associations.iter();
    associations.all(|a| a.form == Form::Association || a.arrow != 2)
}
