//! Rules 1 and 2: the types of objects, and singleton classes.

use super::{object_names, Breach};
use crate::diagram::{Diagram, Kind};
use crate::parts::Part;
use crate::record::Record;

/// Rule 1: objects whose type is unknown, abstract or an interface.
pub fn not_a_class(diagram: &Diagram, record: &Record) -> Vec<Breach> {
    let mut found = Vec::new();
    for (object, type_name) in record.types.iter().enumerate() {
        let name = record.object_name(object);
        let known = diagram.type_named(type_name);
        let why = match known {
            None => "which the diagram does not have".to_string(),
            Some(index) => match diagram.types[index].kind {
                Kind::Class | Kind::Singleton => continue,
                Kind::AbstractClass => "which is abstract there".to_string(),
                Kind::Interface => "which is an interface there".to_string(),
            },
        };
        found.push(Breach {
            sentence: format!("{name} is of type {type_name}, {why}."),
            objects: vec![object],
            type_name: Some(type_name.clone()),
            declared: known.map(Part::Type).into_iter().collect(),
            ..Breach::default()
        });
    }
    found
}

/// Rule 2: singleton classes with no object or with several.
pub fn not_single(diagram: &Diagram, record: &Record) -> Vec<Breach> {
    let mut found = Vec::new();
    for (index, singleton) in diagram.types.iter().enumerate() {
        if singleton.kind != Kind::Singleton {
            continue;
        }
        let all = record.types.iter().enumerate();
        let own = all.filter(|(_, type_name)| **type_name == singleton.name);
        let objects: Vec<usize> = own.map(|(object, _)| object).collect();
        let name = &singleton.name;
        let sentence = match objects.len() {
            1 => continue,
            0 => format!("No object is of the singleton class {name}."),
            count => format!(
                "{count} objects are of the singleton class {name}: {}.",
                object_names(record, &objects)
            ),
        };
        found.push(Breach {
            sentence,
            objects,
            type_name: Some(name.clone()),
            declared: vec![Part::Type(index)],
            ..Breach::default()
        });
    }
    found
}
