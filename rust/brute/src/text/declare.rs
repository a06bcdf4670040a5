//! The diagram that a text declares, once no check refuses it.

use super::parts::{AssociationPart, EndPart, Parts, TypePart};
use crate::diagram::{Association, Attribute, Diagram, End, Type, ValueType};
use crate::Name;

/// The diagram of these parts: "enumerations first, then plain types by first use; the rest by
/// appearance".
pub fn declare(parts: &Parts) -> Diagram {
    Diagram {
        value_types: value_types(parts),
        types: parts
            .types
            .iter()
            .map(|of| declared_type(parts, of))
            .collect(),
        attributes: parts.types.iter().flat_map(attributes).collect(),
        associations: parts.associations.iter().map(association).collect(),
    }
}

/// The enumerations, then the other attribute types.
fn value_types(parts: &Parts) -> Vec<ValueType> {
    let mut value_types: Vec<ValueType> = Vec::new();
    for enumeration in &parts.enumerations {
        let constants = enumeration.constants.iter().map(|name| name.to_vec());
        value_types.push(ValueType {
            name: enumeration.name.to_vec(),
            constants: constants.collect(),
        });
    }
    for attribute in parts.attributes() {
        if !value_types
            .iter()
            .any(|known| known.name == attribute.value_type)
        {
            value_types.push(ValueType {
                name: attribute.value_type.to_vec(),
                constants: Vec::new(),
            });
        }
    }
    value_types
}

/// A type; whatever the order on its line, its parents come in that of their declarations.
fn declared_type(parts: &Parts, of: &TypePart) -> Type {
    let is_parent = |name| of.parents.iter().any(|parent| parent.name == name);
    let declared = parts.types.iter().map(|of| of.name);
    let parents = declared.filter(|&name| is_parent(name));
    Type {
        kind: of.kind,
        name: of.name.to_vec(),
        parents: parents.map(<[u8]>::to_vec).collect(),
    }
}

/// The attributes of a type.
fn attributes<'a>(of: &'a TypePart) -> impl Iterator<Item = Attribute> + 'a {
    of.attributes.iter().map(|attribute| Attribute {
        owner: of.name.to_vec(),
        name: attribute.name.to_vec(),
        value_type: attribute.value_type.to_vec(),
    })
}

/// An association.
fn association(part: &AssociationPart) -> Association {
    Association {
        form: part.form,
        arrow: part.arrow,
        left: end(&part.left),
        right: end(&part.right),
    }
}

/// An end, its role made from the type's name where it is left out.
fn end(part: &EndPart) -> End {
    let role = part.role.map(<[u8]>::to_vec);
    End {
        type_name: part.type_name.to_vec(),
        limits: part.limits,
        role: role.unwrap_or_else(|| lowered(part.type_name)),
    }
}

/// "the type's name, its first byte lowered if that is a capital"
fn lowered(name: &[u8]) -> Name {
    let mut role = name.to_vec();
    role[0] = role[0].to_ascii_lowercase();
    role
}
