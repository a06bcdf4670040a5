//! Rules 5 to 8: links and the limits of associations.

use super::{instances, Breach};
use crate::diagram::{Diagram, Way};
use crate::lists::{distinct, listed};
use crate::names::{count_of, limits_in_words};
use crate::parts::Part;
use crate::record::{Link, Record};

/// Rule 5: links that no association carries.
pub fn not_carried(diagram: &Diagram, record: &Record) -> Vec<Breach> {
    let is_stray = |link: &&Link| {
        let (from, to) = (&record.types[link.from], &record.types[link.to]);
        diagram.carriers(from, &link.role, to).is_empty()
    };
    let stray = record.links.iter().filter(is_stray);
    let words = |link: &Link| {
        let (from, to) = (record.object_name(link.from), record.object_name(link.to));
        let (role, why) = (&link.role, why_not_carried(diagram, record, link));
        let associations = diagram.ways(role).into_iter().map(|way| way.association);
        let parts = distinct(associations).into_iter().map(Part::Association);
        Breach {
            sentence: format!("{from} has a link of role {role} to {to}, but {why}."),
            objects: vec![link.from, link.to],
            role: Some(role.clone()),
            declared: parts.collect(),
            ..Breach::default()
        }
    };
    stray.map(words).collect()
}

/// What a role does join, where it does not join the objects of a link.
fn why_not_carried(diagram: &Diagram, record: &Record, link: &Link) -> String {
    let (role, name) = (&link.role, |of: usize| &diagram.types[of].name);
    let leads = diagram.carried_ways(role).into_iter().map(|of| {
        let way = diagram.way(of);
        format!("from {} to {}", name(way.from), name(way.to))
    });
    let leads = distinct(leads);
    if diagram.ways(role).is_empty() {
        return format!("no association of this diagram has the role {role}");
    }
    if leads.is_empty() {
        return format!("{role} is only the role at the start of a one-way association");
    }
    let (start, end) = (&record.types[link.from], &record.types[link.to]);
    format!(
        "no association carries {role} from {start} to {end}; {role} leads {}",
        listed(&leads)
    )
}

/// Rule 6: targets of another type, or too few or too many.
pub fn wrong_targets(diagram: &Diagram, record: &Record) -> Vec<Breach> {
    let mut found = Vec::new();
    for (index, association) in diagram.associations.iter().enumerate() {
        for side in [0, 1].into_iter().filter(|&side| association.carries(side)) {
            let way = association.way(side);
            for object in instances(diagram, record, way.from) {
                let breaches = targets_of(diagram, record, &way, object);
                found.extend(breaches.into_iter().map(|breach| Breach {
                    association: Some(index),
                    side: Some(side),
                    declared: vec![Part::Association(index)],
                    ..breach
                }));
            }
        }
    }
    found
}

/// What is wrong with one object's targets along one way.
fn targets_of(diagram: &Diagram, record: &Record, way: &Way, object: usize) -> Vec<Breach> {
    let (name, role) = (record.object_name(object), way.role);
    let targets: Vec<usize> = record.targets(object, role).collect();
    let breach = |sentence: String, target: Option<usize>| Breach {
        sentence,
        objects: [Some(object), target].into_iter().flatten().collect(),
        role: Some(role.to_string()),
        ..Breach::default()
    };
    let mut found = Vec::new();
    for &target in &targets {
        if !diagram.is_instance(&record.types[target], way.to) {
            let other = record.object_name(target);
            let end = &diagram.types[way.to].name;
            let sentence =
                format!("{name} has a link of role {role} to {other}, which is no {end}.");
            found.push(breach(sentence, Some(target)));
        }
    }
    if !way.targets.allow(targets.len()) {
        let links = match targets.len() {
            0 => "no link".to_string(),
            count => count_of(count, "link", "links"),
        };
        let asked = limits_in_words(way.targets);
        found.push(breach(
            format!("{name} has {links} of role {role}; allowed: {asked}."),
            None,
        ));
    }
    found
}

/// Rule 7: objects that are the target of too few or too many.
pub fn wrong_sources(diagram: &Diagram, record: &Record) -> Vec<Breach> {
    let mut found = Vec::new();
    for (index, association) in diagram.associations.iter().enumerate() {
        let Some(side) = association.counted_side() else {
            continue;
        };
        let way = association.way(side);
        for object in instances(diagram, record, way.to) {
            let sources = instances(diagram, record, way.from);
            let count = sources
                .filter(|&o| record.has_link(o, way.role, object))
                .count();
            if way.sources.allow(count) {
                continue;
            }
            let (name, start) = (record.object_name(object), &diagram.types[way.from].name);
            let from = match count {
                0 | 1 => count_of(count, start, start),
                _ => format!("{count} {start} objects"),
            };
            let asked = limits_in_words(way.sources);
            found.push(Breach {
                sentence: format!(
                    "{name} is the target of {from} by role {}; allowed: {asked}.",
                    way.role
                ),
                objects: vec![object],
                association: Some(index),
                side: Some(side),
                role: Some(way.role.to_string()),
                declared: vec![Part::Association(index)],
                ..Breach::default()
            });
        }
    }
    found
}

/// Rule 8: links of a two-way association without their counterpart. Where both ends have one type
/// and one role, a link is met from either end and told once.
pub fn not_mirrored(diagram: &Diagram, record: &Record) -> Vec<Breach> {
    let mut found = Vec::new();
    for (index, association) in diagram.associations.iter().enumerate() {
        if !association.arrow.mirrors() {
            continue;
        }
        let (there, back) = (association.way(0), association.way(1));
        for left in instances(diagram, record, there.from) {
            for right in instances(diagram, record, there.to) {
                let forth = record.has_link(left, there.role, right);
                let counter = record.has_link(right, back.role, left);
                let (from, role, to, other) = match (forth, counter) {
                    (true, false) => (left, there.role, right, back.role),
                    (false, true) => (right, back.role, left, there.role),
                    _ => continue,
                };
                found.push(Breach {
                    sentence: one_sided(record, from, role, to, other),
                    objects: vec![from, to],
                    association: Some(index),
                    role: Some(role.to_string()),
                    declared: vec![Part::Association(index)],
                    ..Breach::default()
                });
            }
        }
    }
    distinct(found)
}

/// A link that is there and its counterpart that is not.
fn one_sided(record: &Record, from: usize, role: &str, to: usize, counter: &str) -> String {
    let (from, to) = (record.object_name(from), record.object_name(to));
    format!(
        "{from} has a link of role {role} to {to}, but {to} has none of role {counter} to {from}."
    )
}
