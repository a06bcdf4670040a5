//! Which types an object of a type counts as, and which links its type asks for.

use crate::plan::{Association, DiagramPlan, End};

/// One direction in which an association carries links.
pub struct Carried<'a> {
    pub from: &'a End,
    pub to: &'a End,
    pub association: &'a Association,
}

/// Whether an object of type `of` is an instance of `wanted`, in a plan whose parents stand before
/// their types.
pub fn is_instance(plan: &DiagramPlan, of: usize, wanted: usize) -> bool {
    reached(plan, of)[wanted]
}

/// Of each type, whether an object of type `of` is an instance of it, in a plan whose parents stand
/// before their types: from that one down, each is met after all that lead to it.
pub fn reached(plan: &DiagramPlan, of: usize) -> Vec<bool> {
    let mut reached = vec![false; plan.types.len()];
    reached[of] = true;
    for at in (0..=of).rev() {
        if reached[at] {
            for parent in &plan.types[at].parents {
                reached[usize::from(*parent)] = true;
            }
        }
    }
    reached
}

/// Whether objects may have this type: a class or a singleton class.
pub fn is_concrete(plan: &DiagramPlan, of: usize) -> bool {
    matches!(plan.types[of].kind, 0 | 3)
}

/// Every direction in which the diagram's associations carry links.
pub fn carried(plan: &DiagramPlan) -> Vec<Carried<'_>> {
    let mut all = Vec::new();
    for association in &plan.associations {
        let (left, right) = (&association.left, &association.right);
        if association.arrow != 2 {
            all.push(Carried {
                from: left,
                to: right,
                association,
            });
        }
        if association.arrow != 1 {
            all.push(Carried {
                from: right,
                to: left,
                association,
            });
        }
    }
    all
}

/// The attribute names that an object of this type has, each once.
pub fn attribute_names(plan: &DiagramPlan, of: usize) -> Vec<&[u8]> {
    let mut names: Vec<&[u8]> = plan
        .attributes
        .iter()
        .filter(|attribute| is_instance(plan, of, usize::from(attribute.owner)))
        .map(|attribute| attribute.name.as_slice())
        .collect();
    names.sort();
    names.dedup();
    names
}

/// The value types that the declarations of this attribute ask for, each once.
pub fn value_types_of(plan: &DiagramPlan, of: usize, name: &[u8]) -> Vec<usize> {
    let mut found: Vec<usize> = plan
        .attributes
        .iter()
        .filter(|a| a.name == name && is_instance(plan, of, usize::from(a.owner)))
        .map(|a| usize::from(a.value_type))
        .collect();
    found.sort();
    found.dedup();
    found
}

/// The roles that an object of this type may have links of, each once.
pub fn roles_of<'a>(plan: &'a DiagramPlan, of: usize) -> Vec<&'a [u8]> {
    let mut roles: Vec<&'a [u8]> = carried(plan)
        .iter()
        .filter(|c| is_instance(plan, of, usize::from(c.from.of)))
        .map(|c| c.to.role.as_slice())
        .collect();
    roles.sort();
    roles.dedup();
    roles
}

/// The objects that a link of this role from an object of type `of` may go to, and how many of them.
pub fn targets(
    plan: &DiagramPlan,
    of: usize,
    role: &[u8],
    objects: &[usize],
) -> (Vec<usize>, usize, usize) {
    let (mut low, mut up) = (0, objects.len());
    let mut allowed: Vec<usize> = (0..objects.len()).collect();
    for c in carried(plan) {
        if c.to.role != role || !is_instance(plan, of, usize::from(c.from.of)) {
            continue;
        }
        allowed.retain(|at| is_instance(plan, objects[*at], usize::from(c.to.of)));
        low = low.max(usize::from(c.to.low));
        up = up.min(usize::from(c.to.up));
    }
    (allowed, low, up)
}
