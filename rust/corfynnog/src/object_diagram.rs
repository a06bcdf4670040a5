//! A record as an object diagram: the objects with their values, then the links.

use crate::record::{Record, Value};

/// The whole record.
pub fn object_diagram(name: &str, record: &Record) -> String {
    let mut lines = vec![format!("objectdiagram {name} {{")];
    for object in 0..record.types.len() {
        lines.push(object_line(record, object));
    }
    for link in &record.links {
        let (from, to) = (record.object_name(link.from), record.object_name(link.to));
        lines.push(format!("  link {from} -> ({}) {to};", link.role));
    }
    lines.push("}\n".to_string());
    lines.join("\n")
}

/// `Card0:Card { Colour paint = red; }`
fn object_line(record: &Record, object: usize) -> String {
    let values = record.values.iter().filter(|v| v.object == object);
    let values: Vec<String> = values.map(value_text).collect();
    let body = match values.is_empty() {
        true => "{}".to_string(),
        false => format!("{{ {} }}", values.join(" ")),
    };
    let (name, of) = (record.object_name(object), &record.types[object]);
    format!("  {name}:{of} {body}")
}

/// `Colour paint = red;`, and for the unnamed value `Date start = some_type_Date;`
fn value_text(value: &Value) -> String {
    let (of, attribute) = (&value.value_type, &value.attribute);
    let unnamed = unnamed(of);
    let constant = match value.constant.as_str() {
        "" => unnamed,
        // Without the quotation marks it would be read as the unnamed value.
        constant if constant == unnamed => format!("\"{constant}\""),
        constant => constant.to_string(),
    };
    format!("{of} {attribute} = {constant};")
}

/// What the unnamed value of a value type is written as.
pub fn unnamed(value_type: &str) -> String {
    format!("some_type_{value_type}")
}
