//! Rules 3 and 4: attributes and their values.

use super::Breach;
use crate::diagram::{Diagram, ValueType};
use crate::lists::{distinct, listed};
use crate::parts::Part;
use crate::record::{Record, Value};

/// Rule 3: declared values that are missing, then values that nobody declares.
pub fn not_as_declared(diagram: &Diagram, record: &Record) -> Vec<Breach> {
    let mut found = missing(diagram, record);
    found.extend(undeclared(diagram, record));
    found
}

/// Attributes that an object has no value for, each once, with all that declare it.
fn missing(diagram: &Diagram, record: &Record) -> Vec<Breach> {
    let mut found: Vec<Breach> = Vec::new();
    for (object, type_name) in record.types.iter().enumerate() {
        let mut seen: Vec<&str> = Vec::new();
        for attribute in diagram.attributes.iter().map(|a| a.name.as_str()) {
            let declared = diagram.declarations(type_name, attribute);
            let there = record.value(object, attribute).is_some();
            if declared.is_empty() || there || seen.contains(&attribute) {
                continue;
            }
            seen.push(attribute);
            let who = who_declares(diagram, &declared);
            let why = format!("has no value for the attribute {attribute}, which {who}");
            let parts = declared.into_iter().map(Part::Attribute).collect();
            found.push(breach(record, object, attribute, &why, parts));
        }
    }
    found
}

/// Values of attributes that neither the object's type nor an ancestor declares.
fn undeclared(diagram: &Diagram, record: &Record) -> Vec<Breach> {
    let mut found = Vec::new();
    for value in &record.values {
        let (attribute, type_name) = (&value.attribute, &record.types[value.object]);
        if diagram.declarations(type_name, attribute).is_empty() {
            let why = format!(
                "has a value for the attribute {attribute}, which neither {type_name} nor an ancestor declares"
            );
            found.push(breach(record, value.object, attribute, &why, Vec::new()));
        }
    }
    found
}

/// Rule 4: values outside the value type of a declaration.
pub fn not_of_the_value_type(diagram: &Diagram, record: &Record) -> Vec<Breach> {
    let mut found = Vec::new();
    for value in &record.values {
        let attribute = &value.attribute;
        let declared = diagram.declarations(&record.types[value.object], attribute);
        let Some(why) = why_none(diagram, value, &declared) else {
            continue;
        };
        let why = format!("has the attribute {attribute}, which {why}");
        let value_types = declared.iter().map(|&i| diagram.attributes[i].value_type);
        let parts = declared.iter().map(|&i| Part::Attribute(i));
        let parts = distinct(parts.chain(value_types.map(Part::ValueType)));
        found.push(breach(record, value.object, attribute, &why, parts));
    }
    found
}

/// Why a value does not meet all declarations of its attribute. Declarations with different value
/// types are met by no value.
fn why_none(diagram: &Diagram, value: &Value, declared: &[usize]) -> Option<String> {
    let mut groups: Vec<(usize, Vec<usize>)> = Vec::new();
    for &index in declared {
        let value_type = diagram.attributes[index].value_type;
        match groups.iter_mut().find(|(of, _)| *of == value_type) {
            Some((_, group)) => group.push(index),
            None => groups.push((value_type, vec![index])),
        }
    }
    let as_type = |(of, group): &(usize, Vec<usize>)| {
        let who = who_declares(diagram, group);
        format!("{who} as {}", diagram.value_types[*of].name)
    };
    let who: Vec<String> = groups.iter().map(as_type).collect();
    match &groups[..] {
        [] => None,
        [(of, _)] => {
            let fault = fault_of(value, &diagram.value_types[*of])?;
            Some(format!("{}, but {fault}", who[0]))
        }
        [_, _] => Some(format!("{}; no value meets both", listed(&who))),
        _ => Some(format!("{}; no value meets all of them", listed(&who))),
    }
}

/// `Card declares` or `Card and Unit declare`
fn who_declares(diagram: &Diagram, declared: &[usize]) -> String {
    let owners = declared.iter().map(|&i| diagram.attributes[i].owner);
    let name = |&owner: &usize| diagram.types[owner].name.as_str();
    let names: Vec<&str> = distinct(owners).iter().map(name).collect();
    match names.len() {
        1 => format!("{} declares", names[0]),
        _ => format!("{} declare", listed(&names)),
    }
}

/// Why a value is none of a value type.
fn fault_of(value: &Value, value_type: &ValueType) -> Option<String> {
    let (constant, name) = (&value.constant, &value_type.name);
    if value.value_type != *name {
        return Some(format!("its value is of type {}", value.value_type));
    }
    match (constant.is_empty(), value_type.constants.is_empty()) {
        (true, true) => None,
        (true, false) => Some(format!("its value is unnamed, and {name} has constants")),
        (false, true) => Some(format!(
            "its value is the constant {constant}, and {name} has none"
        )),
        (false, false) if value_type.constants.contains(constant) => None,
        (false, false) => Some(format!("{name} has no constant {constant}")),
    }
}

/// A breach of one object and attribute.
fn breach(
    record: &Record,
    object: usize,
    attribute: &str,
    why: &str,
    declared: Vec<Part>,
) -> Breach {
    Breach {
        sentence: format!("{} {why}.", record.object_name(object)),
        objects: vec![object],
        type_name: Some(record.types[object].clone()),
        attribute: Some(attribute.to_string()),
        declared,
        ..Breach::default()
    }
}
