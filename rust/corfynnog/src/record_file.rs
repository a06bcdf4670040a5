//! A record file taken apart, or its first fault.

use std::cmp::Ordering;

use crate::content::{Content, Number};
use crate::fault::Fault;
use crate::fields::{Field, Fields, RECORD};
use crate::names::numbers_below;
use crate::record::{Link, Record, Value};

/// The record in a file; each field is tried for 3, 5 and 6 in this order, missing objects at the end.
pub fn read_record(file: &[u8]) -> Result<Record, Fault> {
    let mut fields = Fields::of(file, &RECORD);
    let mut record = Record::default();
    let mut objects = 0;
    while let Some(field) = fields.next()? {
        match field.tag {
            0x60 => {
                objects = object_count(field)?;
                fields.objects = Some(objects);
            }
            0x61 => record.types.push(object(field)?),
            0x62 => record
                .values
                .push(value(field, objects, record.values.last())?),
            _ => record
                .links
                .push(link(field, objects, record.links.last())?),
        }
    }
    let found = record.types.len();
    if found < objects {
        return Err(missing_objects(file.len(), objects, found));
    }
    Ok(record)
}

/// Fewer objects than the object count says, found at the end of the file.
fn missing_objects(end: usize, objects: usize, found: usize) -> Fault {
    let follow = match found {
        0 => "no object follows".to_string(),
        1 => "only 1 object follows".to_string(),
        _ => format!("only {found} objects follow"),
    };
    let missing = match objects - found {
        1 => "1 object is missing: add it".to_string(),
        more => format!("{more} objects are missing: add them"),
    };
    Fault::of_file(
        4,
        end,
        format!("the object count is {objects}, but {follow}"),
        format!("{missing}, or correct the object count to {found}"),
    )
}

/// 0x60: the object count.
fn object_count(field: Field) -> Result<usize, Fault> {
    let mut content = Content::of(field);
    let to_do = "take objects out until 8 are left, and correct the object count";
    let count = content.number_in("object count", 0..=8, to_do)?;
    content.end()?;
    Ok(count)
}

/// 0x61: a type name.
fn object(field: Field) -> Result<String, Fault> {
    let mut content = Content::of(field);
    let name = content.name("type's name")?;
    content.end()?;
    Ok(name.text)
}

/// 0x62: object, attribute, value type and constant.
fn value(field: Field, objects: usize, last: Option<&Value>) -> Result<Value, Fault> {
    let mut content = Content::of(field);
    let object = content.number("object's number")?;
    let attribute = content.name("attribute's name")?.text;
    let value_type = content.name("value type's name")?.text;
    let constant = content.name_or_none("constant's name")?.text;
    content.end()?;
    let order = last.map(|last| (last.object, &last.attribute).cmp(&(object.value, &attribute)));
    let second = format!("a second value of object {} for {attribute}", object.value);
    let falling = (
        "the values are not strictly rising by object and attribute",
        "sort the values by object, then by the bytes of the attribute's name",
    );
    try_order(&content, object.byte, order, second, falling)?;
    try_object(&content, object, objects)?;
    Ok(Value {
        object: object.value,
        attribute,
        value_type,
        constant,
    })
}

/// 0x63: from, role and to.
fn link(field: Field, objects: usize, last: Option<&Link>) -> Result<Link, Fault> {
    let mut content = Content::of(field);
    let from = content.number("number of the link's first object")?;
    let role = content.name("role name")?.text;
    let to = content.number("number of the link's second object")?;
    content.end()?;
    let key = (from.value, &role, to.value);
    let order = last.map(|last| (last.from, &last.role, last.to).cmp(&key));
    let second = format!(
        "a second link of role {role} from object {} to object {}",
        from.value, to.value
    );
    let falling = (
        "the links are not strictly rising by object, role and target",
        "sort the links by object, then by the bytes of the role, then by target",
    );
    try_order(&content, from.byte, order, second, falling)?;
    try_object(&content, from, objects)?;
    try_object(&content, to, objects)?;
    Ok(Link {
        from: from.value,
        role,
        to: to.value,
    })
}

/// Refusal 5: an entry that stands twice, or falls; the words for both, the second with what to do.
fn try_order(
    content: &Content,
    byte: usize,
    order: Option<Ordering>,
    second: String,
    falling: (&str, &str),
) -> Result<(), Fault> {
    match order {
        None | Some(Ordering::Less) => Ok(()),
        Some(Ordering::Equal) => Err(content.fault(5, byte, second, "take the second one out")),
        Some(Ordering::Greater) => Err(content.fault(5, byte, falling.0, falling.1)),
    }
}

/// An object number is below the object count.
fn try_object(content: &Content, number: Number, objects: usize) -> Result<(), Fault> {
    if number.value < objects {
        return Ok(());
    }
    let what = format!(
        "there is no object {}; the object count is {objects}, and objects are counted from 0",
        number.value
    );
    let to_do = match objects {
        0 => "take this field out, or add objects and correct the object count".to_string(),
        _ => format!(
            "write {}, or add objects and correct the object count",
            numbers_below(objects)
        ),
    };
    Err(content.fault(6, number.byte, what, to_do))
}
