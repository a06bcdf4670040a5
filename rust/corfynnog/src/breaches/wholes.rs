//! Rule 9: parts and their wholes.

use super::Breach;
use crate::diagram::Diagram;
use crate::lists::{distinct, listed};
use crate::parts::Part;
use crate::record::Record;

/// A whole of a part, and the composition by which it is one.
struct Whole {
    object: usize,
    composition: usize,
}

/// Objects that are part of more than one whole.
pub fn several_wholes(diagram: &Diagram, record: &Record) -> Vec<Breach> {
    let mut found = Vec::new();
    for part in 0..record.types.len() {
        let wholes = wholes_of(diagram, record, part);
        let objects = distinct(wholes.iter().map(|whole| whole.object));
        if objects.len() < 2 {
            continue;
        }
        let by = |&object: &usize| by_roles(diagram, record, object, &wholes);
        let names: Vec<String> = objects.iter().map(by).collect();
        let (name, count) = (record.object_name(part), objects.len());
        let compositions = distinct(wholes.iter().map(|whole| whole.composition));
        found.push(Breach {
            sentence: format!("{name} is part of {count} wholes: {}.", names.join(", ")),
            objects: [vec![part], objects].concat(),
            declared: compositions.into_iter().map(Part::Association).collect(),
            ..Breach::default()
        });
    }
    found
}

/// `Shelf0 by role cards`
fn by_roles(diagram: &Diagram, record: &Record, object: usize, wholes: &[Whole]) -> String {
    let own = wholes.iter().filter(|whole| whole.object == object);
    let role = |whole: &Whole| diagram.associations[whole.composition].right.role.as_str();
    let roles = distinct(own.map(role));
    let word = match roles.len() {
        1 => "role",
        _ => "roles",
    };
    let name = record.object_name(object);
    format!("{name} by {word} {}", listed(&roles))
}

/// The wholes of an object, by number: compositions with such ends and a link from the one to the
/// other.
fn wholes_of(diagram: &Diagram, record: &Record, part: usize) -> Vec<Whole> {
    let mut found = Vec::new();
    for object in 0..record.types.len() {
        for (composition, association) in diagram.associations.iter().enumerate() {
            let way = association.way(0);
            if association.composition
                && diagram.is_instance(&record.types[object], way.from)
                && diagram.is_instance(&record.types[part], way.to)
                && record.has_link(object, way.role, part)
            {
                found.push(Whole {
                    object,
                    composition,
                });
            }
        }
    }
    found
}
