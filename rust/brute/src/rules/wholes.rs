//! Rule 9, on wholes.

use super::links::has_link;
use crate::diagram::Form;
use crate::objects::Objects;
use crate::record::Link;

/// "Over all compositions, an object is the r2 target of at most one different whole; a link
/// counts if its ends are instances of that composition's ends."
pub fn rule_9(objects: &Objects, links: &[Link]) -> bool {
    objects
        .all()
        .all(|object| whole_count(objects, links, object) <= 1)
}

/// How many different wholes an object has over all compositions.
pub fn whole_count(objects: &Objects, links: &[Link], part: usize) -> usize {
    let is_whole = |&whole: &usize| {
        let associations = objects.diagram.associations.iter();
        let mut compositions = associations.filter(|a| a.form == Form::Composition);
        compositions.any(|c| {
            objects.is_instance(whole, &c.left.type_name)
                && objects.is_instance(part, &c.right.type_name)
                && has_link(links, whole, &c.right.role, part)
        })
    };
    objects.all().filter(is_whole).count()
}
