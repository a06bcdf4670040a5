//! A diagram file taken apart, or its first fault.

mod association;
mod large_limits;

use crate::content::{Content, FoundName, Number};
use crate::diagram::{Attribute, Diagram, Kind, Type, ValueType};
use crate::edition::{Edition, EDITION_1};
use crate::fault::Fault;
use crate::fields::{Field, Fields, DIAGRAM};
use crate::names::numbers_below;
use association::association;
pub use large_limits::first_large_limit;

/// What to do about numbers out of their range.
const EDITIONS: &str = "write 1 where each limit has one byte, 2 where each has two";
const KINDS: &str =
    "write 0 for a class, 1 for an abstract class, 2 for an interface, 3 for a singleton class";
const TOO_MANY_CONSTANTS: &str =
    "take constants out until 8 are left, and correct their number and the field's length";
const TOO_MANY_PARENTS: &str =
    "take parents out until 4 are left, and correct their number and the field's length";

/// What to do about what stands twice in one field.
const DOUBLED_CONSTANT: &str = "rename the second one, or take it out and correct the number of constants and the field's length";
const DOUBLED_PARENT: &str =
    "take the second one out, and correct the number of parents and the field's length";

/// The diagram in a file; each field is tried for 3, 5, 6, 7 and 8 in this order.
pub fn read_diagram(file: &[u8]) -> Result<Diagram, Fault> {
    let mut fields = Fields::of(file, &DIAGRAM);
    let mut edition = EDITION_1;
    let mut diagram = Diagram::default();
    while let Some(field) = fields.next()? {
        match field.tag {
            0x10 => edition = edition_of(field)?,
            0x20 => diagram.value_types.push(value_type(field, &diagram)?),
            0x30 => diagram.types.push(type_of(field, &diagram)?),
            0x40 => diagram.attributes.push(attribute(field, &diagram)?),
            _ => diagram
                .associations
                .push(association(field, edition, &diagram)?),
        }
    }
    Ok(diagram)
}

/// 0x10: the edition, one of the two.
fn edition_of(field: Field) -> Result<Edition, Fault> {
    let mut content = Content::of(field);
    let number = content.number("edition")?;
    let Some(edition) = Edition::of(number.value) else {
        let what = format!(
            "the edition is {}, but there are only edition 1 and edition 2",
            number.value
        );
        return Err(content.fault(3, number.byte, what, EDITIONS));
    };
    content.end()?;
    Ok(edition)
}

/// 0x20: a name and its constants.
fn value_type(field: Field, diagram: &Diagram) -> Result<ValueType, Fault> {
    let mut content = Content::of(field);
    let name = content.name("value type's name")?;
    let count = content.number_in("number of constants", 0..=8, TOO_MANY_CONSTANTS)?;
    let mut constants: Vec<FoundName> = Vec::new();
    for _ in 0..count {
        constants.push(content.name("constant's name")?);
    }
    content.end()?;
    if diagram.value_types.iter().any(|v| v.name == name.text) {
        let what = format!("a second value type with the name {}", name.text);
        return Err(content.fault(5, name.byte, what, "rename one of the two value types"));
    }
    for (i, constant) in constants.iter().enumerate() {
        if constants[..i].iter().any(|c| c.text == constant.text) {
            let what = format!(
                "the constant {} stands twice in {}",
                constant.text, name.text
            );
            return Err(content.fault(5, constant.byte, what, DOUBLED_CONSTANT));
        }
    }
    Ok(ValueType {
        name: name.text,
        constants: constants.into_iter().map(|c| c.text).collect(),
    })
}

/// 0x30: kind, name and parents.
fn type_of(field: Field, diagram: &Diagram) -> Result<Type, Fault> {
    let mut content = Content::of(field);
    let kind = Kind::of(content.number_in("kind", 0..=3, KINDS)?);
    let name = content.name("type's name")?;
    let count = content.number_in("number of parents", 0..=4, TOO_MANY_PARENTS)?;
    let mut parents: Vec<Number> = Vec::new();
    for _ in 0..count {
        parents.push(content.number("parent's index")?);
    }
    content.end()?;
    if diagram.type_named(&name.text).is_some() {
        let what = format!("a second type with the name {}", name.text);
        return Err(content.fault(5, name.byte, what, "rename one of the two types"));
    }
    try_parents(&content, kind, &name.text, &parents, diagram)?;
    Ok(Type {
        kind,
        name: name.text,
        parents: parents.iter().map(|parent| parent.value).collect(),
    })
}

/// Parents rise (5), stand before their child (6), and are interfaces where the child is (7).
fn try_parents(
    content: &Content,
    kind: Kind,
    name: &str,
    parents: &[Number],
    diagram: &Diagram,
) -> Result<(), Fault> {
    try_rising(content, name, parents)?;
    let own = diagram.types.len();
    if let Some(late) = parents.iter().find(|parent| parent.value >= own) {
        let what = format!(
            "{name} is type {own} and has parent {}, but a parent stands before its child",
            late.value
        );
        return Err(content.fault(6, late.byte, what, parent_advice(own)));
    }
    let other_kind = |parent: &&Number| diagram.types[parent.value].kind != Kind::Interface;
    if let (Kind::Interface, Some(parent)) = (kind, parents.iter().find(other_kind)) {
        let found = &diagram.types[parent.value];
        let what = format!(
            "the interface {name} has the parent {}, which is of kind {}",
            found.name,
            found.kind.words()
        );
        let to_do = format!("make {} an interface, or {name} a class", found.name);
        return Err(content.fault(7, parent.byte, what, to_do));
    }
    Ok(())
}

/// Parents are strictly rising.
fn try_rising(content: &Content, name: &str, parents: &[Number]) -> Result<(), Fault> {
    let Some(pair) = parents.windows(2).find(|p| p[0].value >= p[1].value) else {
        return Ok(());
    };
    let (first, second) = (pair[0].value, pair[1].value);
    let (what, to_do) = match first == second {
        true => (
            format!("the parent {first} stands twice among the parents of {name}"),
            DOUBLED_PARENT,
        ),
        false => (
            format!("the parents of {name} are not strictly rising: {second} comes after {first}"),
            "sort the parents by their indices",
        ),
    };
    Err(content.fault(5, pair[1].byte, what, to_do))
}

/// What to do about a parent of the type of that index that does not stand before it.
fn parent_advice(own: usize) -> String {
    match own {
        0 => "take the parent out: no type stands before this one".to_string(),
        _ => format!(
            "write {}, or put the parent's field in front of this one",
            numbers_below(own)
        ),
    }
}

/// 0x40: owner, name and value type.
fn attribute(field: Field, diagram: &Diagram) -> Result<Attribute, Fault> {
    let mut content = Content::of(field);
    let owner = content.number("owner's index")?;
    let name = content.name("attribute's name")?;
    let value_type = content.number("value type's index")?;
    content.end()?;
    try_index(field, owner, "type", diagram.types.len())?;
    try_index(field, value_type, "value type", diagram.value_types.len())?;
    Ok(Attribute {
        owner: owner.value,
        name: name.text,
        value_type: value_type.value,
    })
}

/// An index names one of so many.
fn try_index(field: Field, index: Number, what: &str, count: usize) -> Result<(), Fault> {
    if index.value < count {
        return Ok(());
    }
    let to_do = match count {
        0 => format!("declare the {what} in front of this field"),
        _ => format!(
            "write {}, or declare the missing {what}",
            numbers_below(count)
        ),
    };
    let what = format!(
        "there is no {what} {}; the file declares {count} of them, counted from 0",
        index.value
    );
    Err(Fault::within(&field, 6, index.byte, what, to_do))
}
