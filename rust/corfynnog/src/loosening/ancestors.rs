//! Types that are put below others, or taken from below them, as they stand in old.

use super::change::Change;
use super::offers::Loosening;
use crate::diagram::{Diagram, Kind, Type};

/// The most parents that a type has.
pub const MOST_PARENTS: usize = 4;

/// A type that is missing is added as in old, below its nearest ancestors that are there, and the
/// types that old has below it are put there, unless that would put them below others too.
pub fn with_type(old: &Diagram, diagram: &Diagram, name: &str) -> Loosening {
    let (None, Some(index)) = (diagram.type_named(name), old.type_named(name)) else {
        return Vec::new();
    };
    let parents = nearest(old, diagram, &old.types[index].parents);
    let added = Type {
        parents: parents.clone(),
        ..old.types[index].clone()
    };
    let at = diagram.types.len();
    let mut changes = vec![Change::AddType(added)];
    for child in children(old, diagram, index) {
        let of = &diagram.types[child];
        let free = of.parents.len() < MOST_PARENTS;
        let is_below = |&parent: &usize| diagram.reaches(child, parent);
        let fits = of.kind != Kind::Interface || old.types[index].kind == Kind::Interface;
        if free && fits && parents.iter().all(is_below) {
            changes.push(with_parents(
                diagram,
                child,
                &[&of.parents[..], &[at]].concat(),
            ));
        }
    }
    changes
}

/// The nearest types that are there, from these types of old on upwards.
fn nearest(old: &Diagram, diagram: &Diagram, from: &[usize]) -> Vec<usize> {
    let mut found: Vec<usize> = Vec::new();
    let mut open = from.to_vec();
    while let Some(of) = open.pop() {
        match diagram.type_named(&old.types[of].name) {
            Some(index) => found.push(index),
            None => open.extend(&old.types[of].parents),
        }
    }
    found.sort_unstable();
    found.dedup();
    found.truncate(MOST_PARENTS);
    found
}

/// The types that are there and stand next below a type of old in old.
fn children(old: &Diagram, diagram: &Diagram, of: usize) -> Vec<usize> {
    let known = |index: &usize| diagram.type_named(&old.types[*index].name).is_some();
    let below = (0..old.types.len()).filter(|&index| index != of && old.reaches(index, of));
    let below: Vec<usize> = below.filter(known).collect();
    let is_next = |index: &&usize| {
        let between = |&other: &usize| other != **index && old.reaches(**index, other);
        !below.iter().any(between)
    };
    let next = below.iter().filter(is_next);
    let there = next.filter_map(|&index| diagram.type_named(&old.types[index].name));
    there.collect()
}

/// A type is put below another one, by the steps that old's way up has and the diagram lacks.
pub fn related(old: &Diagram, diagram: &Diagram, own: &str, end: &str) -> Loosening {
    let way = way_up(old, diagram, own, end);
    let missing = way
        .windows(2)
        .filter(|pair| !diagram.reaches(pair[0], pair[1]));
    let change = |pair: &[usize]| {
        let parents = [&diagram.types[pair[0]].parents[..], &[pair[1]]].concat();
        with_parents(diagram, pair[0], &parents)
    };
    missing.map(change).collect()
}

/// A way from one type of old up to another, by those types on it that the diagram has; empty where
/// the one is not below the other in old.
fn way_up(old: &Diagram, diagram: &Diagram, own: &str, end: &str) -> Vec<usize> {
    let (Some(mut at), Some(end)) = (old.type_named(own), old.type_named(end)) else {
        return Vec::new();
    };
    let mut way = vec![at];
    while at != end {
        let mut parents = old.types[at].parents.iter();
        match parents.find(|&&parent| old.reaches(parent, end)) {
            Some(&parent) => at = parent,
            None => return Vec::new(),
        }
        way.push(at);
    }
    let there = way.into_iter();
    there
        .filter_map(|of| diagram.type_named(&old.types[of].name))
        .collect()
}

/// A type is taken from below another one: of each way up the first step that old does not have
/// goes, and what old has above it stays above.
pub fn unrelated(old: &Diagram, diagram: &Diagram, own: &str, end: &str) -> Loosening {
    let (Some(own), Some(end)) = (diagram.type_named(own), diagram.type_named(end)) else {
        return Vec::new();
    };
    let mut changes = Vec::new();
    let mut open = vec![own];
    while let Some(of) = open.pop() {
        let mut parents: Vec<usize> = Vec::new();
        for &parent in &diagram.types[of].parents {
            match (
                diagram.reaches(parent, end),
                is_below(old, diagram, of, parent),
            ) {
                (true, true) => open.push(parent),
                (true, false) => {
                    parents.extend(kept_above(old, diagram, of, parent));
                    continue;
                }
                (false, _) => {}
            }
            parents.push(parent);
        }
        let change = with_parents(diagram, of, &parents);
        if !changes.contains(&change) {
            changes.push(change);
        }
    }
    changes
}

/// In old the type is below the other one.
fn is_below(old: &Diagram, diagram: &Diagram, of: usize, other: usize) -> bool {
    let index = |of: usize| old.type_named(&diagram.types[of].name);
    match (index(of), index(other)) {
        (Some(of), Some(other)) => old.reaches(of, other),
        _ => false,
    }
}

/// The nearest types above one that old has above the other.
fn kept_above(old: &Diagram, diagram: &Diagram, of: usize, above: usize) -> Vec<usize> {
    let parents = diagram.types[above].parents.iter();
    let kept = parents.flat_map(|&parent| match is_below(old, diagram, of, parent) {
        true => vec![parent],
        false => kept_above(old, diagram, of, parent),
    });
    kept.collect()
}

/// A type gets these parents.
fn with_parents(diagram: &Diagram, of: usize, parents: &[usize]) -> Change {
    let mut parents = parents.to_vec();
    parents.sort_unstable();
    parents.dedup();
    let by = Type {
        parents,
        ..diagram.types[of].clone()
    };
    Change::ReplaceType(of, by)
}
