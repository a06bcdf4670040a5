//! The record file of a record.

use crate::field_writer::{byte, field, name};
use crate::record::{Link, Record, Value};

/// The bytes of the file; objects, values and links as they stand.
pub fn record_file(record: &Record) -> Vec<u8> {
    let mut file = field(0x60, &[byte(record.types.len())]);
    let objects = record.types.iter().map(|of| field(0x61, &name(of)));
    let parts = objects
        .chain(record.values.iter().map(value))
        .chain(record.links.iter().map(link));
    file.extend(parts.flatten());
    file
}

/// 0x62: object, attribute, value type and constant.
fn value(of: &Value) -> Vec<u8> {
    let names = [&of.attribute, &of.value_type, &of.constant];
    let mut content = vec![byte(of.object)];
    content.extend(names.iter().flat_map(|text| name(text)));
    field(0x62, &content)
}

/// 0x63: from, role and to.
fn link(of: &Link) -> Vec<u8> {
    let mut content = vec![byte(of.from)];
    content.extend(name(&of.role));
    content.push(byte(of.to));
    field(0x63, &content)
}
