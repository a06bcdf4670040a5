//! Value types that get what old has in them.

use super::change::Change;
use super::offers::Loosening;
use crate::diagram::{Diagram, ValueType};

/// The most constants that a value type has.
const MOST_CONSTANTS: usize = 8;

/// The index of old's value type in the copy once these changes are made; it is added where it is
/// missing, and gets old's constants.
pub fn with_old_constants(
    old: &Diagram,
    copy: &Diagram,
    name: &str,
    changes: &mut Loosening,
) -> Option<usize> {
    let is_it = |of: &&ValueType| of.name == name;
    let wanted = old.value_types.iter().find(is_it)?;
    let Some(index) = copy.value_types.iter().position(|of| is_it(&of)) else {
        return Some(added(copy, wanted, changes));
    };
    let by = ValueType {
        name: name.to_string(),
        constants: united(&copy.value_types[index].constants, &wanted.constants),
    };
    let change = Change::ReplaceValueType(index, by.clone());
    if by != copy.value_types[index] && !changes.contains(&change) {
        changes.push(change);
    }
    Some(index)
}

/// The index of a value type that is added, once.
fn added(copy: &Diagram, wanted: &ValueType, changes: &mut Loosening) -> usize {
    let all = changes.iter().filter_map(|change| match change {
        Change::AddValueType(of) => Some(of),
        _ => None,
    });
    let all: Vec<&ValueType> = all.collect();
    let (count, earlier) = (all.len(), all.iter().position(|of| *of == wanted));
    if earlier.is_none() {
        changes.push(Change::AddValueType(wanted.clone()));
    }
    copy.value_types.len() + earlier.unwrap_or(count)
}

/// The constants of both; old's alone where one is plain. Where both are too many, the last of those
/// that old lacks go.
fn united(own: &[String], old: &[String]) -> Vec<String> {
    if own.is_empty() || old.is_empty() {
        return old.to_vec();
    }
    let missing = old.iter().filter(|constant| !own.contains(constant));
    let mut both: Vec<String> = own.iter().chain(missing).cloned().collect();
    while both.len() > MOST_CONSTANTS {
        match both.iter().rposition(|constant| !old.contains(constant)) {
            Some(at) => both.remove(at),
            None => break,
        };
    }
    both
}
