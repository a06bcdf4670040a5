//! What a diagram file can hold and text cannot.
//!
//! Value types are no trouble: all are written as enumerations in their order, plain ones without
//! constants, so that the text numbers them alike.

use crate::diagram::{Association, Diagram, Kind};
use crate::text::{is_name, lowered};

/// A sentence for each reason why the text of a diagram, read again, is not the same diagram.
pub fn unwritable(diagram: &Diagram) -> Vec<String> {
    let reasons = [interface_attributes(diagram), quoted_words(diagram)];
    let mut remarks: Vec<String> = reasons.into_iter().flatten().collect();
    if remarks.is_empty() {
        remarks.extend(other_order(diagram));
    }
    remarks
}

/// Attributes of interfaces: the body that they are shown in is outside the grammar.
fn interface_attributes(diagram: &Diagram) -> Option<String> {
    let of_interface = diagram.attributes.iter().filter_map(|attribute| {
        let owner = &diagram.types[attribute.owner];
        (owner.kind == Kind::Interface).then(|| format!("{}.{}", owner.name, attribute.name))
    });
    let found: Vec<String> = of_interface.collect();
    (!found.is_empty()).then(|| {
        format!(
            "As text this diagram is refused (23), since in a text interfaces have no attributes: {}.",
            found.join(", ")
        )
    })
}

/// Words of the grammar as names.
fn quoted_words(diagram: &Diagram) -> Option<String> {
    let value_types = diagram.value_types.iter();
    let mut found: Vec<&str> = value_types
        .flat_map(|v| std::iter::once(&v.name).chain(&v.constants))
        .chain(diagram.types.iter().map(|t| &t.name))
        .chain(diagram.attributes.iter().map(|a| &a.name))
        .map(String::as_str)
        .collect();
    let associations = diagram.associations.iter();
    found.extend(associations.flat_map(|a| written_roles(diagram, a)));
    found.retain(|name| !is_name(name));
    found.sort_unstable();
    found.dedup();
    (!found.is_empty()).then(|| {
        format!(
            "As text this diagram is refused (23), since these names are words of the grammar: {}.",
            found.join(", ")
        )
    })
}

/// The roles that are not left out.
fn written_roles<'a>(
    diagram: &'a Diagram,
    association: &'a Association,
) -> impl Iterator<Item = &'a str> {
    [&association.left, &association.right]
        .into_iter()
        .filter(|end| !is_left_out(&diagram.types[end.of].name, &end.role))
        .map(|end| end.role.as_str())
}

/// A role that is no name of a text, but the one that is meant where none is written.
pub fn is_left_out(type_name: &str, role: &str) -> bool {
    !is_name(role) && role == lowered(type_name)
}

/// Attributes that do not stand class by class.
fn other_order(diagram: &Diagram) -> Option<String> {
    let by_class = diagram
        .attributes
        .is_sorted_by_key(|attribute| attribute.owner);
    (!by_class).then(|| {
        "In the file the attributes stand in another order; the text has them class by class. \
         No verdict depends on it."
            .to_string()
    })
}
