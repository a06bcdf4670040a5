//! The reader and the writer of record files.

use crate::bytes::{each_field, put_field, put_name, Content};
use crate::record::{Link, Record, Value};
use crate::refusal::{require, NAMES_NOTHING, NOT_DIFFERENT, TOO_MANY};

/// Reads a record file, or gives its refusal.
pub fn read_record(file: &[u8]) -> Result<Record, u8> {
    let mut record = Record::default();
    let mut count = 0;
    each_field(file, &[0x60, 0x61, 0x62, 0x63], |tag, content| match tag {
        0x60 => take_count(&mut count, content),
        0x61 => take_object(&mut record, count, content),
        0x62 => take_value(&mut record, count, content),
        _ => take_link(&mut record, count, content),
    })?;
    require(record.objects.len() == count, TOO_MANY)?;
    Ok(record)
}

/// Tries the object count for 3.
fn take_count(count: &mut usize, mut content: Content) -> Result<(), u8> {
    *count = usize::from(content.byte_within(0..=8)?);
    content.end()
}

/// Tries an object for 4 and 3.
fn take_object(record: &mut Record, count: usize, mut content: Content) -> Result<(), u8> {
    require(record.objects.len() < count, TOO_MANY)?;
    let type_name = content.name()?;
    content.end()?;
    record.objects.push(type_name);
    Ok(())
}

/// Tries a value for 4, 3, 5 and 6.
fn take_value(record: &mut Record, count: usize, mut content: Content) -> Result<(), u8> {
    require(record.values.len() < 256, TOO_MANY)?;
    let value = Value {
        object: usize::from(content.byte()?),
        attribute: content.name()?,
        value_type: content.name()?,
        constant: content.name_or_none()?,
    };
    content.end()?;
    if let Some(before) = record.values.last() {
        let rising = (before.object, &before.attribute) < (value.object, &value.attribute);
        require(rising, NOT_DIFFERENT)?;
    }
    require(value.object < count, NAMES_NOTHING)?;
    record.values.push(value);
    Ok(())
}

/// Tries a link for 4, 3, 5 and 6.
fn take_link(record: &mut Record, count: usize, mut content: Content) -> Result<(), u8> {
    require(record.links.len() < 2048, TOO_MANY)?;
    let link = Link {
        from: usize::from(content.byte()?),
        role: content.name()?,
        to: usize::from(content.byte()?),
    };
    content.end()?;
    if let Some(before) = record.links.last() {
        require(*before < link, NOT_DIFFERENT)?;
    }
    require(link.from < count && link.to < count, NAMES_NOTHING)?;
    record.links.push(link);
    Ok(())
}

/// Writes a record as a file, its values and links in the order that they have.
pub fn write_record(r: &Record) -> Vec<u8> {
    let mut file = Vec::new();
    put_field(&mut file, 0x60, &[number(r.objects.len())]);
    for type_name in &r.objects {
        let mut content = Vec::new();
        put_name(&mut content, type_name);
        put_field(&mut file, 0x61, &content);
    }
    for value in &r.values {
        let mut content = vec![number(value.object)];
        put_name(&mut content, &value.attribute);
        put_name(&mut content, &value.value_type);
        put_name(&mut content, &value.constant);
        put_field(&mut file, 0x62, &content);
    }
    for link in &r.links {
        let mut content = vec![number(link.from)];
        put_name(&mut content, &link.role);
        content.push(number(link.to));
        put_field(&mut file, 0x63, &content);
    }
    file
}

/// A count or an object number as its byte.
fn number(n: usize) -> u8 {
    u8::try_from(n).expect("a record has at most 8 objects")
}
