//! Changes of a diagram as data: parts that are added, replaced or taken out.

use super::line_changes::{Line, LineChange};
use super::order::in_order;
use crate::diagram::{Association, Attribute, Diagram, Kind, Type, ValueType};
use crate::diagram_text::{type_head, value_type_text};
use crate::names::association_text;
use crate::parts::owned_attribute;

/// One part that changes. A part that is added gets the index behind the last one; indices of other
/// parts are those before the change.
#[derive(Clone, Debug, PartialEq, Eq)]
pub enum Change {
    AddValueType(ValueType),
    ReplaceValueType(usize, ValueType),
    AddType(Type),
    ReplaceType(usize, Type),
    AddAttribute(Attribute),
    ReplaceAttribute(usize, Attribute),
    RemoveAttribute(usize),
    AddAssociation(Association),
    /// By any number of associations, none where it is taken out.
    ReplaceAssociation(usize, Vec<Association>),
}

/// A diagram with changes made, and the lines that changed.
#[derive(Clone, Debug, PartialEq)]
pub struct Changed {
    pub diagram: Diagram,
    pub lines: Vec<LineChange>,
}

/// The diagram with all these changes made together; none where a type would be its own ancestor.
pub fn changed(before: &Diagram, changes: &[Change]) -> Option<Changed> {
    let after = Diagram {
        value_types: value_types(before, changes),
        types: types(before, changes),
        attributes: attributes(before, changes),
        associations: associations(before, changes),
    };
    Some(Changed {
        lines: lines(before, &after, changes),
        diagram: in_order(&after)?,
    })
}

/// The value types after the changes.
fn value_types(before: &Diagram, changes: &[Change]) -> Vec<ValueType> {
    let mut result = before.value_types.clone();
    for change in changes {
        match change {
            Change::AddValueType(added) => result.push(added.clone()),
            Change::ReplaceValueType(index, by) => result[*index] = by.clone(),
            _ => {}
        }
    }
    result
}

/// The types after the changes. Interfaces below others than interfaces become abstract classes.
fn types(before: &Diagram, changes: &[Change]) -> Vec<Type> {
    let mut result = before.types.clone();
    for change in changes {
        match change {
            Change::AddType(added) => result.push(added.clone()),
            Change::ReplaceType(index, by) => result[*index] = by.clone(),
            _ => {}
        }
    }
    let is_wrong = |types: &[Type], of: &Type| {
        let mut parents = of.parents.iter();
        of.kind == Kind::Interface && parents.any(|&p| types[p].kind != Kind::Interface)
    };
    while let Some(at) = result.iter().position(|of| is_wrong(&result, of)) {
        result[at].kind = Kind::AbstractClass;
    }
    result
}

/// The attributes after the changes.
fn attributes(before: &Diagram, changes: &[Change]) -> Vec<Attribute> {
    let mut result: Vec<Option<Attribute>> = before.attributes.iter().cloned().map(Some).collect();
    for change in changes {
        match change {
            Change::AddAttribute(added) => result.push(Some(added.clone())),
            Change::ReplaceAttribute(index, by) => result[*index] = Some(by.clone()),
            Change::RemoveAttribute(index) => result[*index] = None,
            _ => {}
        }
    }
    result.into_iter().flatten().collect()
}

/// The associations after the changes.
fn associations(before: &Diagram, changes: &[Change]) -> Vec<Association> {
    let one = |association: &Association| vec![association.clone()];
    let mut result: Vec<Vec<Association>> = before.associations.iter().map(one).collect();
    for change in changes {
        match change {
            Change::AddAssociation(added) => result.push(one(added)),
            Change::ReplaceAssociation(index, by) => result[*index] = by.clone(),
            _ => {}
        }
    }
    result.concat()
}

/// The lines that change: types that are added, types that are written otherwise, the rest. Where a
/// type becomes a class its children are written otherwise too.
fn lines(before: &Diagram, after: &Diagram, changes: &[Change]) -> Vec<LineChange> {
    let (known, more) = after.types.split_at(before.types.len());
    let added_types = more
        .iter()
        .map(|of| LineChange::added(type_line(after, of)));
    let mut lines: Vec<LineChange> = added_types.collect();
    for (earlier, of) in before.types.iter().zip(known) {
        let (earlier, of) = (type_line(before, earlier), type_line(after, of));
        if earlier != of {
            lines.push(LineChange::becomes(earlier, vec![of]));
        }
    }
    lines.extend(changes.iter().filter_map(|c| c.line(before, after)));
    lines
}

impl Change {
    /// The line that changes, but for types.
    fn line(&self, before: &Diagram, after: &Diagram) -> Option<LineChange> {
        let value_type = |of: &ValueType| Line::of(value_type_text(of));
        let attribute = |index: usize| attribute_line(before, &before.attributes[index]);
        let association = |of: &Association| association_line(after, of);
        Some(match self {
            Change::AddType(_) | Change::ReplaceType(..) => return None,
            Change::AddValueType(of) => LineChange::added(value_type(of)),
            Change::ReplaceValueType(index, by) => {
                let earlier = value_type(&before.value_types[*index]);
                LineChange::becomes(earlier, vec![value_type(by)])
            }
            Change::AddAttribute(of) => LineChange::added(attribute_line(after, of)),
            Change::ReplaceAttribute(index, by) => {
                LineChange::becomes(attribute(*index), vec![attribute_line(after, by)])
            }
            Change::RemoveAttribute(index) => LineChange::becomes(attribute(*index), Vec::new()),
            Change::AddAssociation(of) => LineChange::added(association(of)),
            Change::ReplaceAssociation(index, by) => {
                let earlier = association_line(before, &before.associations[*index]);
                LineChange::becomes(earlier, by.iter().map(association).collect())
            }
        })
    }
}

/// A type's line; the order of its parents does not matter.
fn type_line(diagram: &Diagram, of: &Type) -> Line {
    let parent = |&parent: &usize| {
        let Type { kind, name, .. } = &diagram.types[parent];
        match kind {
            Kind::Interface => format!("interface {name}"),
            _ => format!("class {name}"),
        }
    };
    let mut parents: Vec<String> = of.parents.iter().map(parent).collect();
    parents.sort();
    Line {
        key: format!("{} {}: {}", of.kind.words(), of.name, parents.join(", ")),
        text: type_head(diagram, of),
        largest_limit: 0,
    }
}

/// An attribute's line; what kind of type its owner is does not matter.
fn attribute_line(diagram: &Diagram, of: &Attribute) -> Line {
    let owner = &diagram.types[of.owner].name;
    let value_type = &diagram.value_types[of.value_type].name;
    Line {
        key: format!("{value_type} {}; in {owner}", of.name),
        text: owned_attribute(diagram, of),
        largest_limit: 0,
    }
}

/// An association's line.
fn association_line(diagram: &Diagram, of: &Association) -> Line {
    Line {
        largest_limit: of.largest_limit(),
        ..Line::of(association_text(diagram, of))
    }
}

/// The keys of all lines of a diagram, in alphabetical order.
#[cfg(test)]
pub fn keys(diagram: &Diagram) -> Vec<String> {
    let types = diagram.types.iter();
    let types = types.map(|of| type_line(diagram, of).key);
    let value_types = diagram.value_types.iter().map(value_type_text);
    let attributes = diagram.attributes.iter();
    let attributes = attributes.map(|of| attribute_line(diagram, of).key);
    let associations = diagram.associations.iter();
    let associations = associations.map(|of| association_text(diagram, of));
    let all = types.chain(value_types).chain(attributes);
    let mut keys: Vec<String> = all.chain(associations).collect();
    keys.sort();
    keys
}
