//! The diagram of a text without faults.

use crate::diagram::{Association, Attribute, Diagram, End, Type, ValueType};

use super::declarations::{self, lowered, Declarations};

/// Types, attributes and associations by appearance; enumerations, then plain types by first use.
pub fn diagram(all: &Declarations) -> Diagram {
    let value_types = value_types(all);
    let names: Vec<&str> = all.types.iter().map(|t| t.name.text).collect();
    let type_of = |name: &str| index_of(&names, name);
    let types = all.types.iter().map(|t| type_def(t, &names));
    let attributes = all.types.iter().enumerate().flat_map(|(owner, t)| {
        let value_types = &value_types;
        t.attributes.iter().map(move |a| Attribute {
            owner,
            name: a.name.text.to_string(),
            value_type: value_type_of(value_types, a.value_type.text),
        })
    });
    let end = |end: &declarations::End| End {
        of: type_of(end.of.text),
        limits: end.limits,
        role: match end.role {
            Some(role) => role.text.to_string(),
            None => lowered(end.of.text),
        },
    };
    let associations = all.associations.iter().map(|a| Association {
        composition: a.composition,
        arrow: a.arrow,
        left: end(&a.left),
        right: end(&a.right),
    });
    Diagram {
        types: types.collect(),
        attributes: attributes.collect(),
        associations: associations.collect(),
        value_types,
    }
}

/// A type with its parents' indices, rising.
fn type_def(declared: &declarations::Type, names: &[&str]) -> Type {
    let parents = declared.parents().map(|p| index_of(names, p.text));
    let mut parents: Vec<usize> = parents.collect();
    parents.sort_unstable();
    Type {
        kind: declared.kind,
        name: declared.name.text.to_string(),
        parents,
    }
}

/// The enumerations, then every other attribute type at its first use.
fn value_types(all: &Declarations) -> Vec<ValueType> {
    let enumeration = |e: &declarations::Enumeration| ValueType {
        name: e.name.text.to_string(),
        constants: e.constants.iter().map(|c| c.text.to_string()).collect(),
    };
    let mut found: Vec<ValueType> = all.enumerations.iter().map(enumeration).collect();
    for attribute in all.attributes() {
        let name = attribute.value_type.text;
        if !found.iter().any(|v| v.name == name) {
            found.push(ValueType {
                name: name.to_string(),
                constants: Vec::new(),
            });
        }
    }
    found
}

/// The place of a name that is there.
fn index_of(names: &[&str], name: &str) -> usize {
    let found = names.iter().position(|known| *known == name);
    found.unwrap_or_default()
}

/// The index of a value type that is there.
fn value_type_of(value_types: &[ValueType], name: &str) -> usize {
    let found = value_types.iter().position(|v| v.name == name);
    found.unwrap_or_default()
}
