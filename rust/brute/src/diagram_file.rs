//! The reader of diagram files.

use crate::bytes::{all_differ, each_field, strictly_rising, Content};
use crate::diagram::{Association, Attribute, Diagram, End, Form, Kind, Limits, Type, ValueType};
use crate::edition::Edition;
use crate::refusal::{
    require, COMPOSITION_BACKWARDS, INTERFACE_BELOW_CLASS, NAMES_NOTHING, NOT_DIFFERENT,
    OFF_LAYOUT, TOO_MANY,
};
use crate::Name;

/// Reads a diagram file, or gives its refusal.
pub fn read_diagram(file: &[u8]) -> Result<Diagram, u8> {
    let mut diagram = Diagram::default();
    let mut edition = None;
    each_field(
        file,
        &[0x10, 0x20, 0x30, 0x40, 0x50],
        |tag, content| match tag {
            0x10 => take_edition(&mut edition, content),
            0x20 => take_value_type(&mut diagram, content),
            0x30 => take_type(&mut diagram, content),
            0x40 => take_attribute(&mut diagram, content),
            _ => {
                let edition = edition.expect("the edition comes first");
                take_association(&mut diagram, edition, content)
            }
        },
    )?;
    Ok(diagram)
}

/// Tries the edition for 3.
fn take_edition(edition: &mut Option<Edition>, mut content: Content) -> Result<(), u8> {
    *edition = Some(Edition::of_byte(content.byte()?).ok_or(OFF_LAYOUT)?);
    content.end()
}

/// Tries a value type for 4, 3 and 5.
fn take_value_type(diagram: &mut Diagram, mut content: Content) -> Result<(), u8> {
    require(diagram.value_types.len() < 12, TOO_MANY)?;
    let name = content.name()?;
    let count = content.byte_within(0..=8)?;
    let constants: Result<Vec<Name>, u8> = (0..count).map(|_| content.name()).collect();
    let constants = constants?;
    content.end()?;
    let free = diagram.value_type_named(&name).is_none();
    require(free && all_differ(&constants), NOT_DIFFERENT)?;
    diagram.value_types.push(ValueType { name, constants });
    Ok(())
}

/// Tries a type for 4, 3, 5, 6 and 7.
fn take_type(diagram: &mut Diagram, mut content: Content) -> Result<(), u8> {
    require(diagram.types.len() < 24, TOO_MANY)?;
    let kind = kind_of(content.byte()?)?;
    let name = content.name()?;
    let count = content.byte_within(0..=4)?;
    let parents: Result<Vec<u8>, u8> = (0..count).map(|_| content.byte()).collect();
    let parents = parents?;
    content.end()?;
    let free = diagram.type_named(&name).is_none();
    require(free && strictly_rising(&parents), NOT_DIFFERENT)?;
    let mut parent_names = Vec::new();
    for &parent in &parents {
        parent_names.push(type_at(diagram, parent)?.name.clone());
    }
    let all_interfaces = parents
        .iter()
        .all(|&p| diagram.types[usize::from(p)].kind == Kind::Interface);
    require(
        kind != Kind::Interface || all_interfaces,
        INTERFACE_BELOW_CLASS,
    )?;
    diagram.types.push(Type {
        kind,
        name,
        parents: parent_names,
    });
    Ok(())
}

/// The kind that a byte stands for.
fn kind_of(byte: u8) -> Result<Kind, u8> {
    match byte {
        0 => Ok(Kind::Class),
        1 => Ok(Kind::AbstractClass),
        2 => Ok(Kind::Interface),
        3 => Ok(Kind::SingletonClass),
        _ => Err(OFF_LAYOUT),
    }
}

/// Finds a type by its index; while types are read, only those before are there to be named.
fn type_at(diagram: &Diagram, index: u8) -> Result<&Type, u8> {
    diagram.types.get(usize::from(index)).ok_or(NAMES_NOTHING)
}

/// Tries an attribute for 4, 3 and 6.
fn take_attribute(diagram: &mut Diagram, mut content: Content) -> Result<(), u8> {
    require(diagram.attributes.len() < 32, TOO_MANY)?;
    let owner = content.byte()?;
    let name = content.name()?;
    let value_type = content.byte()?;
    content.end()?;
    let owner = type_at(diagram, owner)?.name.clone();
    let value_type = diagram.value_types.get(usize::from(value_type));
    let value_type = value_type.ok_or(NAMES_NOTHING)?.name.clone();
    diagram.attributes.push(Attribute {
        owner,
        name,
        value_type,
    });
    Ok(())
}

/// An end as it stands in the file, its type still an index.
struct EndFields {
    index: u8,
    limits: Limits,
    role: Name,
}

/// Takes an end off a content; its type is looked up once the whole content is tried for 3.
fn take_end(edition: Edition, content: &mut Content) -> Result<EndFields, u8> {
    let index = content.byte()?;
    let low = take_limit(edition, content)?;
    let up = take_limit(edition, content)?;
    Ok(EndFields {
        index,
        limits: edition.limits(low, up).ok_or(OFF_LAYOUT)?,
        role: content.name()?,
    })
}

/// Takes the number of a limit off a content.
fn take_limit(edition: Edition, content: &mut Content) -> Result<u16, u8> {
    match edition {
        Edition::One => content.byte().map(u16::from),
        Edition::Two => content.two_bytes(),
    }
}

/// The end with the name of its type.
fn named_end(diagram: &Diagram, end: EndFields) -> Result<End, u8> {
    Ok(End {
        type_name: type_at(diagram, end.index)?.name.clone(),
        limits: end.limits,
        role: end.role,
    })
}

/// Tries an association for 4, 3, 6 and 8.
fn take_association(
    diagram: &mut Diagram,
    edition: Edition,
    mut content: Content,
) -> Result<(), u8> {
    require(diagram.associations.len() < 16, TOO_MANY)?;
    let form = match content.byte_within(0..=1)? {
        0 => Form::Association,
        _ => Form::Composition,
    };
    let arrow = content.byte_within(1..=4)?;
    let left = take_end(edition, &mut content)?;
    let right = take_end(edition, &mut content)?;
    content.end()?;
    let left = named_end(diagram, left)?;
    let right = named_end(diagram, right)?;
    require(
        form == Form::Association || arrow != 2,
        COMPOSITION_BACKWARDS,
    )?;
    diagram.associations.push(Association {
        form,
        arrow,
        left,
        right,
    });
    Ok(())
}
