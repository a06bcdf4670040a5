//! Rules 5 to 8, on links.

use crate::diagram::{Association, Diagram, Limits, Side};
use crate::objects::Objects;
use crate::record::Link;

/// The sides of a diagram's associations that are carried.
pub fn carried_sides(d: &Diagram) -> impl Iterator<Item = (&Association, Side)> {
    let sides = |a| [(a, Side::R2), (a, Side::R1)];
    let all = d.associations.iter().flat_map(sides);
    all.filter(|(a, side)| a.carries(*side))
}

/// The sides whose sources rule 7 counts: r2 of arrow 1 and r1 of arrow 2.
pub fn counted_sides(d: &Diagram) -> impl Iterator<Item = (&Association, Side)> {
    d.associations.iter().filter_map(|a| match a.arrow {
        1 => Some((a, Side::R2)),
        2 => Some((a, Side::R1)),
        _ => None,
    })
}

/// "Each link's role is carried by some association in that direction with both objects
/// instances of its ends."
pub fn rule_5(objects: &Objects, links: &[Link]) -> bool {
    links.iter().all(|link| rule_5_at(objects, link))
}

/// Rule 5 for one link.
pub fn rule_5_at(objects: &Objects, link: &Link) -> bool {
    carried_sides(objects.diagram).any(|(a, side)| {
        a.target(side).role == link.role
            && objects.is_instance(link.from, &a.source(side).type_name)
            && objects.is_instance(link.to, &a.target(side).type_name)
    })
}

/// "If r2 is carried: each instance of L has only instances of R as r2 targets, and l2 to u2 of
/// them. If r1 is carried: likewise R, r1, L, l1, u1."
pub fn rule_6(objects: &Objects, links: &[Link]) -> bool {
    carried_sides(objects.diagram)
        .all(|(a, side)| targets_fit(objects, links, a, side, a.target(side).limits))
}

/// The statement of rule 6 for one side of an association, with the limits given.
pub fn targets_fit(
    objects: &Objects,
    links: &[Link],
    association: &Association,
    side: Side,
    limits: Limits,
) -> bool {
    let mut sources = objects.instances(&association.source(side).type_name);
    sources.all(|object| row_fits(objects, links, association, side, limits, object))
}

/// The same for one instance of the source end.
pub fn row_fits(
    objects: &Objects,
    links: &[Link],
    association: &Association,
    side: Side,
    limits: Limits,
    object: usize,
) -> bool {
    let end = association.target(side);
    let of_role = |link: &&Link| link.from == object && link.role == end.role;
    let targets: Vec<usize> = links.iter().filter(of_role).map(|link| link.to).collect();
    let inside = |&target: &usize| objects.is_instance(target, &end.type_name);
    targets.iter().all(inside) && limits.admits(targets.len())
}

/// "Arrow 1: each instance of R is the r2 target of l1 to u1 instances of L. Arrow 2: each
/// instance of L is the r1 target of l2 to u2 instances of R."
pub fn rule_7(objects: &Objects, links: &[Link]) -> bool {
    counted_sides(objects.diagram)
        .all(|(a, side)| sources_fit(objects, links, a, side, a.source(side).limits))
}

/// The statement of rule 7 for one side of an association, with the limits given.
pub fn sources_fit(
    objects: &Objects,
    links: &[Link],
    association: &Association,
    side: Side,
    limits: Limits,
) -> bool {
    let mut targets = objects.instances(&association.target(side).type_name);
    targets.all(|target| limits.admits(source_count(objects, links, association, side, target)))
}

/// How many instances of the source end have this object as a target.
pub fn source_count(
    objects: &Objects,
    links: &[Link],
    association: &Association,
    side: Side,
    target: usize,
) -> usize {
    let role = &association.target(side).role;
    let sources = objects.instances(&association.source(side).type_name);
    sources
        .filter(|&source| has_link(links, source, role, target))
        .count()
}

/// "Arrow 3: for o in L and p in R, o has the r2 link to p exactly when p has the r1 link to o."
/// Arrow 4 likewise.
pub fn rule_8(objects: &Objects, links: &[Link]) -> bool {
    let associations = objects.diagram.associations.iter();
    let mut mirrored = associations.filter(|a| a.is_mirrored());
    mirrored.all(|a| mirrors(objects, links, a))
}

/// The statement of rule 8 for one association.
pub fn mirrors(objects: &Objects, links: &[Link], association: &Association) -> bool {
    let (left, right) = (&association.left, &association.right);
    objects.instances(&left.type_name).all(|o| {
        let mut parts = objects.instances(&right.type_name);
        parts.all(|p| has_link(links, o, &right.role, p) == has_link(links, p, &left.role, o))
    })
}

/// Tells whether a link is there.
pub fn has_link(links: &[Link], from: usize, role: &[u8], to: usize) -> bool {
    links
        .iter()
        .any(|link| link.from == from && link.to == to && link.role == role)
}
