//! Rules 1 and 2: types that become classes.

use super::ancestors::with_type;
use super::attributes::with_attributes;
use super::change::Change;
use super::offers::{Loosening, Offers};
use crate::counterparts::Seen;
use crate::diagram::{Diagram, Kind, Type};
use crate::fields::DIAGRAM;

/// The tag of a type in a diagram file.
const TYPE: u8 = 0x30;

/// Rule 1: an unknown type is added as it is in old, or takes the place of another one where there is
/// no room for more; a type that is no class becomes one.
pub fn allow_type(seen: &Seen, offers: &mut Offers) {
    let Some(name) = &seen.breach.type_name else {
        return;
    };
    let full = DIAGRAM.rule_of(TYPE).map(|rule| rule.most);
    match seen.new.type_named(name) {
        None => {
            offers.add_steps(&[
                &|diagram: &Diagram| Some(with_type(seen.old, diagram, name)),
                &|diagram: &Diagram| Some(with_attributes(seen.old, diagram, name)),
            ]);
            if full == Some(seen.new.types.len()) {
                rename(seen, name, offers);
            }
        }
        Some(index) => offers.add(as_class(seen.new, index)),
    }
}

/// A type that old does not have becomes the unknown one, the most similar first.
fn rename(seen: &Seen, name: &str, offers: &mut Offers) {
    let (old, copy) = (seen.old, seen.new);
    let Some(wanted) = old.type_named(name) else {
        return;
    };
    let free = |index: &usize| old.type_named(&copy.types[*index].name).is_none();
    let mut free: Vec<usize> = (0..copy.types.len()).filter(free).collect();
    let uses = names_at(old, wanted);
    let shared = |index: &usize| {
        let own = names_at(copy, *index);
        uses.iter().filter(|name| own.contains(name)).count()
    };
    free.sort_by_key(|index| std::cmp::Reverse(shared(index)));
    for index in free {
        let by = Type {
            kind: old.types[wanted].kind,
            name: name.to_string(),
            parents: copy.types[index].parents.clone(),
        };
        offers.add(vec![Change::ReplaceType(index, by)]);
    }
}

/// The names of a type's own attributes, and the roles of associations at it.
fn names_at(diagram: &Diagram, of: usize) -> Vec<&str> {
    let attributes = diagram.attributes.iter().filter(|a| a.owner == of);
    let ends = diagram.associations.iter();
    let roles = ends.filter(|a| a.left.of == of || a.right.of == of);
    let roles = roles.flat_map(|a| [a.left.role.as_str(), a.right.role.as_str()]);
    attributes.map(|a| a.name.as_str()).chain(roles).collect()
}

/// Rule 2: a singleton class becomes a class.
pub fn allow_any_number(seen: &Seen, offers: &mut Offers) {
    let name = seen.breach.type_name.as_deref();
    if let Some(index) = name.and_then(|name| seen.new.type_named(name)) {
        offers.add(as_class(seen.new, index));
    }
}

/// A type becomes a class.
fn as_class(diagram: &Diagram, index: usize) -> Loosening {
    let by = Type {
        kind: Kind::Class,
        ..diagram.types[index].clone()
    };
    vec![Change::ReplaceType(index, by)]
}
