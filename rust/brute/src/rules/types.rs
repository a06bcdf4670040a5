//! Rules 1 and 2, on types.

use crate::diagram::Kind;
use crate::objects::Objects;

/// "Each object's type is a class or singleton class of the diagram."
pub fn rule_1(objects: &Objects) -> bool {
    objects.all().all(|object| rule_1_at(objects, object))
}

/// Rule 1 for one object.
pub fn rule_1_at(objects: &Objects, object: usize) -> bool {
    let found = objects.diagram.type_named(objects.type_name(object));
    found.is_some_and(|t| matches!(t.kind, Kind::Class | Kind::SingletonClass))
}

/// "Each singleton class is the type itself, not an ancestor, of exactly one object."
pub fn rule_2(objects: &Objects) -> bool {
    singleton_counts(objects).all(|count| count == 1)
}

/// For each singleton class, of how many objects it is the type itself.
pub fn singleton_counts<'o>(objects: &'o Objects) -> impl Iterator<Item = usize> + 'o {
    let types = objects.diagram.types.iter();
    let singletons = types.filter(|t| t.kind == Kind::SingletonClass);
    singletons.map(|s| {
        let of_this = |&o: &usize| objects.type_name(o) == s.name;
        objects.all().filter(of_this).count()
    })
}
