//! Groups of roles that no rule of either diagram looks at together.

use crate::diagram::{Diagram, Form};
use crate::Name;

/// Parts the roles. Rules 5, 6 and 7 look at one role at a time; rule 8 at the two roles of an
/// association with arrow 3 or 4; rule 9 at the r2 roles of all compositions.
pub fn role_groups(roles: &[Name], diagrams: [&Diagram; 2]) -> Vec<Vec<Name>> {
    let mut groups: Vec<Vec<Name>> = roles.iter().map(|role| vec![role.clone()]).collect();
    for diagram in diagrams {
        for association in diagram.associations.iter().filter(|a| a.is_mirrored()) {
            join(&mut groups, &association.left.role, &association.right.role);
        }
        let associations = diagram.associations.iter();
        let compositions = associations.filter(|a| a.form == Form::Composition);
        let wholes: Vec<&Name> = compositions.map(|a| &a.right.role).collect();
        for pair in wholes.windows(2) {
            join(&mut groups, pair[0], pair[1]);
        }
    }
    groups
}

/// Makes one group of the groups of two roles.
fn join(groups: &mut Vec<Vec<Name>>, one: &Name, other: &Name) {
    let (with, without): (Vec<_>, Vec<_>) = groups
        .drain(..)
        .partition(|group| group.contains(one) || group.contains(other));
    *groups = without;
    groups.push(with.concat());
}
