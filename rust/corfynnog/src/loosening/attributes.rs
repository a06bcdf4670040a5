//! Rules 3 and 4: attributes that are declared where old asks for them, with old's value types.

use super::ancestors::{related, unrelated};
use super::change::Change;
use super::offers::{Loosening, Offers};
use super::value_types::with_old_constants;
use super::wanted::{fits, place, wanted, Wanted};
use crate::counterparts::Seen;
use crate::diagram::{Attribute, Diagram};
use crate::parts::Part;
use crate::record::Value;

/// Rule 3: what asks for a value that the object lacks is taken out, what nobody declares is added.
pub fn declare_as_needed(seen: &Seen, offers: &mut Offers) {
    if let Some(value) = value(seen) {
        declare(seen, value, offers);
        return;
    }
    let declared = declared(seen);
    move_or_part(seen, &declared, offers);
    let remove = |&index: &usize| Change::RemoveAttribute(index);
    offers.add(declared.iter().map(remove).collect());
}

/// Rule 4: the value type of the declarations becomes that of the value, with old's constants; or the
/// declarations go where old has them.
pub fn allow_value(seen: &Seen, offers: &mut Offers) {
    let (copy, Some(value)) = (seen.new, value(seen)) else {
        return;
    };
    let name = &value.value_type;
    let value_type = |index: usize| &copy.value_types[copy.attributes[index].value_type];
    let mut other = declared(seen);
    other.retain(|&index| value_type(index).name != *name);
    let mut changes = Vec::new();
    let Some(wanted) = with_old_constants(seen.old, copy, name, &mut changes) else {
        return;
    };
    changes.extend(other.iter().map(|&index| {
        let by = Attribute {
            value_type: wanted,
            ..copy.attributes[index].clone()
        };
        Change::ReplaceAttribute(index, by)
    }));
    let fit = |&index: &usize| {
        let owner = copy.attributes[index].owner;
        fits(seen.old, copy, owner, &value.attribute, name)
    };
    if !other.iter().all(fit) {
        move_or_part(seen, &other, offers);
    }
    offers.add(changes);
}

/// Declarations go where old has them, or the object's type goes from below their owners: first that
/// where old has the same declarations, or where some type would have no place for its own.
fn move_or_part(seen: &Seen, declared: &[usize], offers: &mut Offers) {
    let (moved, all_placed) = moved(seen, declared);
    let (old, copy) = (seen.old, seen.new);
    let is_in_old = |&index: &usize| {
        let mut all = old.attributes.iter();
        all.any(|of| named(old, of) == named(copy, &copy.attributes[index]))
    };
    if all_placed && !declared.iter().all(is_in_old) {
        offers.add(moved.clone());
    }
    part_from_owners(seen, declared, offers);
    offers.add(moved);
}

/// An attribute by its owner's, its own and its value type's name.
fn named<'a>(diagram: &'a Diagram, of: &'a Attribute) -> [&'a str; 3] {
    let (owner, value_type) = (
        &diagram.types[of.owner],
        &diagram.value_types[of.value_type],
    );
    [&owner.name, &of.name, &value_type.name]
}

/// A type gets the attributes that old declares for it, but for those that would ask others for what
/// old does not.
pub fn with_attributes(old: &Diagram, diagram: &Diagram, name: &str) -> Loosening {
    let mut changes = Vec::new();
    let (Some(in_old), Some(owner)) = (old.type_named(name), diagram.type_named(name)) else {
        return changes;
    };
    for of in old.attributes.iter().filter(|of| of.owner == in_old) {
        let value_type = &old.value_types[of.value_type].name;
        if !fits(old, diagram, owner, &of.name, value_type) {
            continue;
        }
        if let Some(index) = with_old_constants(old, diagram, value_type, &mut changes) {
            changes.push(addition(owner, &of.name, index));
        }
    }
    changes
}

/// The value that the breach is about.
fn value<'a>(seen: &Seen<'a>) -> Option<&'a Value> {
    let object = *seen.breach.objects.first()?;
    seen.record.value(object, seen.breach.attribute.as_deref()?)
}

/// The declarations that the breach is about.
fn declared(seen: &Seen) -> Vec<usize> {
    let indices = seen.breach.declared.iter().filter_map(|part| match part {
        Part::Attribute(index) => Some(*index),
        _ => None,
    });
    indices.collect()
}

/// The object's type is put below one that declares the attribute, as in old; or the attribute is
/// declared where old has it, or else for the object's type alone.
fn declare(seen: &Seen, value: &Value, offers: &mut Offers) {
    let (old, copy) = (seen.old, seen.new);
    let (type_name, attribute) = (&seen.record.types[value.object], &value.attribute);
    let Some(own) = copy.type_named(type_name) else {
        return;
    };
    for of in copy.attributes.iter().filter(|of| of.name == *attribute) {
        let same = copy.value_types[of.value_type].name == value.value_type;
        if same {
            let owner = &copy.types[of.owner].name;
            offers.add(related(old, copy, type_name, owner));
        }
    }
    let best = place(old, copy, own, attribute, &value.value_type);
    for owner in [best.unwrap_or(own), own] {
        let mut changes = Vec::new();
        let of = with_old_constants(old, copy, &value.value_type, &mut changes);
        changes.extend(of.map(|of| addition(owner, attribute, of)));
        offers.add(changes);
    }
}

/// The object's type is no longer below the types that declare the attribute, as in old.
fn part_from_owners(seen: &Seen, declared: &[usize], offers: &mut Offers) {
    let (old, copy) = (seen.old, seen.new);
    let Some(own) = &seen.breach.type_name else {
        return;
    };
    let owner = |&index: &usize| copy.types[copy.attributes[index].owner].name.as_str();
    let owners: Vec<&str> = declared.iter().map(owner).collect();
    let above = |name: &&str| {
        old.type_named(name)
            .is_some_and(|of| old.is_instance(own, of))
    };
    if owners.iter().any(above) {
        return;
    }
    let parted = |owner: &str| unrelated(old, copy, own, owner);
    for owner in &owners {
        offers.add(parted(owner));
    }
    offers.add(owners.iter().flat_map(|owner| parted(owner)).collect());
}

/// Declarations are taken out, and declared anew for those types that lose a value that old asks for;
/// whether each of them has a place that asks others for nothing else.
fn moved(seen: &Seen, removed: &[usize]) -> (Loosening, bool) {
    let (old, copy) = (seen.old, seen.new);
    let remove = |&index: &usize| Change::RemoveAttribute(index);
    let mut changes: Loosening = removed.iter().map(remove).collect();
    let mut all_placed = true;
    let mut left = without(copy, removed);
    let Some(name) = removed.first().map(|&i| copy.attributes[i].name.as_str()) else {
        return (changes, false);
    };
    for of in 0..copy.types.len() {
        let type_name = &copy.types[of].name;
        let mut owners = removed.iter().map(|&i| copy.attributes[i].owner);
        let lost = owners.any(|owner| copy.reaches(of, owner));
        let Wanted::Value(value_type) = wanted(old, type_name, name) else {
            continue;
        };
        if !lost || !left.declarations(type_name, name).is_empty() {
            continue;
        }
        let Some(owner) = place(old, copy, of, name, value_type) else {
            all_placed = false;
            continue;
        };
        if let Some(of) = with_old_constants(old, copy, value_type, &mut changes) {
            changes.push(addition(owner, name, of));
            left.attributes.push(attribute(owner, name, of));
        }
    }
    (changes, all_placed)
}

/// The diagram without some attributes.
fn without(diagram: &Diagram, removed: &[usize]) -> Diagram {
    let all = diagram.attributes.iter().enumerate();
    let left = all.filter(|(index, _)| !removed.contains(index));
    Diagram {
        attributes: left.map(|(_, attribute)| attribute.clone()).collect(),
        ..diagram.clone()
    }
}

/// An attribute.
fn attribute(owner: usize, name: &str, value_type: usize) -> Attribute {
    Attribute {
        owner,
        name: name.to_string(),
        value_type,
    }
}

/// An attribute that is added.
fn addition(owner: usize, name: &str, value_type: usize) -> Change {
    Change::AddAttribute(attribute(owner, name, value_type))
}
