//! The last resort: types, attributes and roles as they are in old.

use super::change::Change;
use super::ends::open_way;
use super::lines::replace_lines;
use super::mirrors::without_side;
use super::offers::{Loosening, Offers};
use super::value_types::with_old_constants;
use crate::counterparts::Seen;
use crate::diagram::{Attribute, Diagram, Type};

/// What a breach is about is made as in old: an association, the types of the objects with all above
/// them, the attribute or role, or that with the types, or with all types.
pub fn make_as_in_old(seen: &Seen, offers: &mut Offers) {
    let old = seen.old;
    let own = seen.breach.objects.iter();
    let own: Vec<&str> = own.map(|&o| seen.record.types[o].as_str()).collect();
    let all: Vec<&str> = old.types.iter().map(|of| of.name.as_str()).collect();
    let types = |copy: &Diagram| Some(ancestry(old, copy, &own));
    let all_types = |copy: &Diagram| Some(ancestry(old, copy, &all));
    match (seen.breach.rule, &seen.breach.attribute, &seen.breach.role) {
        (3 | 4, Some(name), _) => {
            let attribute = |copy: &Diagram| Some(attribute(old, copy, &own, name));
            let all_attributes = |copy: &Diagram| Some(attribute_of_all(old, copy, name));
            offers.add_steps(&[&types]);
            offers.add_steps(&[&types, &attribute]);
            offers.add_steps(&[&all_types, &all_attributes]);
        }
        (8, _, _) => replace_lines(seen, offers),
        (5 | 6, _, Some(name)) => {
            replace_lines(seen, offers);
            let role = |copy: &Diagram| Some(role_as_in_old(old, copy, name));
            offers.add_steps(&[&role]);
            offers.add_steps(&[&types]);
            offers.add_steps(&[&types, &role]);
            offers.add_steps(&[&all_types, &role]);
        }
        _ => {}
    }
}

/// These types and all above them have old's parents; those that are missing are added.
fn ancestry(old: &Diagram, copy: &Diagram, names: &[&str]) -> Loosening {
    let wanted: Vec<usize> = names.iter().filter_map(|n| old.type_named(n)).collect();
    let above = |of: &usize| wanted.iter().any(|&own| old.reaches(own, *of));
    let above: Vec<usize> = (0..old.types.len()).filter(above).collect();
    let mut types = copy.types.clone();
    for &index in &above {
        let of = &old.types[index];
        if copy.type_named(&of.name).is_none() {
            types.push(of.clone());
        }
    }
    let place = |types: &[Type], name: &str| types.iter().position(|of| of.name == *name);
    for &index in &above {
        let of = &old.types[index];
        let parents = of.parents.iter();
        let parents = parents.filter_map(|&parent| place(&types, &old.types[parent].name));
        let mut parents: Vec<usize> = parents.collect();
        parents.sort_unstable();
        if let Some(at) = place(&types, &of.name) {
            types[at].parents = parents;
        }
    }
    let change = |(index, by): (usize, Type)| match copy.types.get(index) {
        None => Some(Change::AddType(by)),
        Some(own) => (*own != by).then_some(Change::ReplaceType(index, by)),
    };
    types.into_iter().enumerate().filter_map(change).collect()
}

/// These types and all above them declare an attribute as in old.
fn attribute(old: &Diagram, copy: &Diagram, names: &[&str], attribute: &str) -> Loosening {
    let own: Vec<usize> = names.iter().filter_map(|n| copy.type_named(n)).collect();
    let is_above = |of: usize| own.iter().any(|&own| copy.reaches(own, of));
    redeclared(old, copy, attribute, is_above)
}

/// All types declare an attribute as in old.
fn attribute_of_all(old: &Diagram, copy: &Diagram, attribute: &str) -> Loosening {
    redeclared(old, copy, attribute, |_| true)
}

/// Some types declare an attribute as in old.
fn redeclared(
    old: &Diagram,
    copy: &Diagram,
    attribute: &str,
    is_meant: impl Fn(usize) -> bool,
) -> Loosening {
    let named = |diagram: &Diagram, of: &Attribute| {
        let owner = diagram.types[of.owner].name.clone();
        (owner, diagram.value_types[of.value_type].name.clone())
    };
    let all = |diagram: &Diagram| {
        let all = diagram.attributes.iter().filter(|of| of.name == attribute);
        all.map(|of| named(diagram, of)).collect::<Vec<_>>()
    };
    let (in_old, in_copy) = (all(old), all(copy));
    let mut changes: Loosening = Vec::new();
    for (index, of) in copy.attributes.iter().enumerate() {
        let concerned = of.name == attribute && is_meant(of.owner);
        if concerned && !in_old.contains(&named(copy, of)) {
            changes.push(Change::RemoveAttribute(index));
        }
    }
    for (owner, value_type) in in_old {
        let at = copy.type_named(&owner).filter(|&at| is_meant(at));
        let missing = !in_copy.contains(&(owner, value_type.clone()));
        let (Some(owner), true) = (at, missing) else {
            continue;
        };
        if let Some(of) = with_old_constants(old, copy, &value_type, &mut changes) {
            changes.push(Change::AddAttribute(Attribute {
                owner,
                name: attribute.to_string(),
                value_type: of,
            }));
        }
    }
    changes
}

/// No association carries the role but old's, for any number.
fn role_as_in_old(old: &Diagram, copy: &Diagram, role: &str) -> Loosening {
    let mut changes: Loosening = Vec::new();
    for (index, association) in copy.associations.iter().enumerate() {
        let is_role = |side: u8| association.carries(side) && association.way(side).role == role;
        let left = match (is_role(0), is_role(1)) {
            (true, true) => Vec::new(),
            (true, false) => without_side(association, 0),
            (false, true) => without_side(association, 1),
            (false, false) => continue,
        };
        changes.push(Change::ReplaceAssociation(index, left));
    }
    for of in old.carried_ways(role) {
        let way = old.way(of);
        let place = |end: usize| copy.type_named(&old.types[end].name);
        if let (Some(from), Some(to)) = (place(way.from), place(way.to)) {
            changes.push(Change::AddAssociation(open_way(old, of, from, to)));
        }
    }
    changes
}
