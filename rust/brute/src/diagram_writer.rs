//! The writer of diagram files.

use crate::bytes::{put_field, put_name};
use crate::diagram::{Association, Attribute, Diagram, End, Form, Kind, Limits, Type, ValueType};
use crate::edition::Edition;

/// The diagram's file of an edition. All its names must name something, as they do in a diagram
/// that was read; and the edition must hold it, as edition 2 holds every diagram that was read.
pub fn write_diagram(edition: Edition, diagram: &Diagram) -> Vec<u8> {
    assert!(edition.holds(diagram), "{edition:?} has other limits");
    let mut file = Vec::new();
    put_field(&mut file, 0x10, &[edition.byte()]);
    for value_type in &diagram.value_types {
        put_field(&mut file, 0x20, &value_type_content(value_type));
    }
    for of in &diagram.types {
        put_field(&mut file, 0x30, &type_content(diagram, of));
    }
    for attribute in &diagram.attributes {
        put_field(&mut file, 0x40, &attribute_content(diagram, attribute));
    }
    for association in &diagram.associations {
        let content = association_content(edition, diagram, association);
        put_field(&mut file, 0x50, &content);
    }
    file
}

/// A count as the byte that stands for it.
fn count(number: usize) -> u8 {
    u8::try_from(number).expect("a diagram's counts are far below 256")
}

/// The index of the first entry for which the test holds.
fn index<T>(row: &[T], test: impl Fn(&T) -> bool) -> u8 {
    count(row.iter().position(test).expect("a name names something"))
}

/// The index of a type.
fn type_index(diagram: &Diagram, name: &[u8]) -> u8 {
    index(&diagram.types, |of| of.name == name)
}

/// Name and constants.
fn value_type_content(value_type: &ValueType) -> Vec<u8> {
    let mut content = Vec::new();
    put_name(&mut content, &value_type.name);
    content.push(count(value_type.constants.len()));
    for constant in &value_type.constants {
        put_name(&mut content, constant);
    }
    content
}

/// Kind, name and parents.
fn type_content(diagram: &Diagram, of: &Type) -> Vec<u8> {
    let mut content = vec![match of.kind {
        Kind::Class => 0,
        Kind::AbstractClass => 1,
        Kind::Interface => 2,
        Kind::SingletonClass => 3,
    }];
    put_name(&mut content, &of.name);
    content.push(count(of.parents.len()));
    content.extend(of.parents.iter().map(|name| type_index(diagram, name)));
    content
}

/// Owner, name and value type.
fn attribute_content(diagram: &Diagram, attribute: &Attribute) -> Vec<u8> {
    let mut content = vec![type_index(diagram, &attribute.owner)];
    put_name(&mut content, &attribute.name);
    content.push(index(&diagram.value_types, |value_type| {
        value_type.name == attribute.value_type
    }));
    content
}

/// Form, arrow and both ends.
fn association_content(edition: Edition, diagram: &Diagram, association: &Association) -> Vec<u8> {
    let form = match association.form {
        Form::Association => 0,
        Form::Composition => 1,
    };
    let mut content = vec![form, association.arrow];
    put_end(&mut content, edition, diagram, &association.left);
    put_end(&mut content, edition, diagram, &association.right);
    content
}

/// Type, limits and role.
fn put_end(content: &mut Vec<u8>, edition: Edition, diagram: &Diagram, end: &End) {
    let Limits { low, up } = end.limits;
    content.push(type_index(diagram, &end.type_name));
    for limit in [low, edition.number_of(up)] {
        match edition {
            Edition::One => content.push(u8::try_from(limit).expect("edition 1 has small limits")),
            Edition::Two => content.extend(limit.to_be_bytes()),
        }
    }
    put_name(content, &end.role);
}
