//! What old asks of an attribute, by type.

use crate::diagram::{Diagram, Kind};
use crate::lists::distinct;

/// What old asks of the objects of a type for one attribute.
#[derive(Clone, Copy, Debug, PartialEq, Eq)]
pub enum Wanted<'a> {
    /// No value.
    Nothing,
    /// A value of that value type.
    Value(&'a str),
    /// Old allows no such object.
    NoObject,
}

/// What old asks of the objects of a type.
pub fn wanted<'a>(old: &'a Diagram, type_name: &str, attribute: &str) -> Wanted<'a> {
    let kind = old.type_named(type_name).map(|index| old.types[index].kind);
    if !matches!(kind, Some(Kind::Class | Kind::Singleton)) {
        return Wanted::NoObject;
    }
    let declared = old.declarations(type_name, attribute);
    let value_types = distinct(declared.iter().map(|&i| old.attributes[i].value_type));
    match value_types[..] {
        [] => Wanted::Nothing,
        [one] => Wanted::Value(&old.value_types[one].name),
        _ => Wanted::NoObject,
    }
}

/// A declaration at this type of the copy asks no object for what old does not ask of it.
pub fn fits(
    old: &Diagram,
    copy: &Diagram,
    owner: usize,
    attribute: &str,
    value_type: &str,
) -> bool {
    let mut below = (0..copy.types.len()).filter(|&of| copy.reaches(of, owner));
    below.all(|of| match wanted(old, &copy.types[of].name, attribute) {
        Wanted::Value(asked) => asked == value_type,
        Wanted::Nothing => false,
        Wanted::NoObject => true,
    })
}

/// Where a type's attribute is best declared: at old's owner, where that is a class above the type in
/// the copy too, or at the type itself; none where either asks others for what old does not.
pub fn place(
    old: &Diagram,
    copy: &Diagram,
    of: usize,
    attribute: &str,
    value_type: &str,
) -> Option<usize> {
    let declared = old.declarations(&copy.types[of].name, attribute);
    let owners = declared.iter().filter_map(|&index| {
        let owner = &old.types[old.attributes[index].owner];
        copy.type_named(&owner.name)
    });
    let is_class = |&owner: &usize| copy.types[owner].kind != Kind::Interface;
    let above = owners.filter(|&owner| copy.reaches(of, owner));
    let mut places = above.filter(is_class).chain([of]);
    places.find(|&owner| fits(old, copy, owner, attribute, value_type))
}
