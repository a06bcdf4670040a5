//! Rules 5 and 6: links that are carried, and targets of another type.

use super::ancestors::{related, with_type};
use super::change::Change;
use super::mirrors::without_side;
use super::offers::{Loosening, Offers};
use crate::counterparts::Seen;
use crate::diagram::{Arrow, Association, Diagram, End, Limits, Way};
use crate::ways::WayOf;

/// A link by the type names of its objects.
struct Ends<'a> {
    from: &'a str,
    to: &'a str,
}

/// Rule 5: the objects' types are put below the ends of an association of the role, as in old; an
/// association of the role gets a wider end; or old's association is taken over, for any number.
pub fn carry_link(seen: &Seen, offers: &mut Offers) {
    let (copy, Some(ends), Some(role)) = (seen.new, ends(seen), &seen.breach.role) else {
        return;
    };
    for of in copy.carried_ways(role) {
        put_below(seen, of, &ends, offers);
    }
    for of in copy.carried_ways(role) {
        if copy.is_instance(ends.from, copy.way(of).from) {
            let old_ends = old_names(seen, |way| way.to);
            wider_end(seen, of, ends.to, &old_ends, offers);
        }
    }
    for of in copy.carried_ways(role) {
        if copy.is_instance(ends.to, copy.way(of).to) {
            let back = WayOf {
                side: 1 - of.side,
                ..of
            };
            let old_starts = old_names(seen, |way| way.from);
            wider_end(seen, back, ends.from, &old_starts, offers);
        }
    }
    for of in seen.ways() {
        take_over(seen.old, of, &ends, offers);
    }
    for of in seen.ways() {
        let added = between_objects(seen.old, of, copy, &ends);
        offers.add(added.map(Change::AddAssociation).into_iter().collect());
    }
}

/// Rule 6: the target's type is put below the association's end, as in old; the end becomes wider; or
/// the association is taken out, since another one carries the link.
pub fn allow_target(seen: &Seen, offers: &mut Offers) {
    let (Some(index), Some(side), Some(ends)) =
        (seen.breach.association, seen.breach.side, ends(seen))
    else {
        return;
    };
    let of = WayOf {
        association: index,
        side,
    };
    put_below(seen, of, &ends, offers);
    let old_ends = old_names(seen, |way| way.to);
    wider_end(seen, of, ends.to, &old_ends, offers);
    let left = without_side(&seen.new.associations[index], side);
    offers.add(vec![Change::ReplaceAssociation(index, left)]);
}

/// The type names of the two objects of the breach.
fn ends<'a>(seen: &'a Seen) -> Option<Ends<'a>> {
    let [from, to] = seen.breach.objects[..] else {
        return None;
    };
    let types = &seen.record.types;
    Some(Ends {
        from: &types[from],
        to: &types[to],
    })
}

/// Where old has the objects' types below the ends of a way of the copy, they are put there.
fn put_below(seen: &Seen, of: WayOf, ends: &Ends, offers: &mut Offers) {
    let (old, way) = (seen.old, seen.new.way(of));
    let name = |end: usize| seen.new.types[end].name.as_str();
    let (start, end) = (name(way.from), name(way.to));
    let is_below = |own: &str, end: &str| {
        let end = old.type_named(end);
        end.is_some_and(|end| old.is_instance(own, end))
    };
    if is_below(ends.from, start) && is_below(ends.to, end) {
        offers.add_steps(&[
            &|diagram: &Diagram| Some(related(old, diagram, ends.from, start)),
            &|diagram: &Diagram| Some(related(old, diagram, ends.to, end)),
        ]);
    }
}

/// The end of a way becomes a type that objects of this type name are instances of too: one of old's
/// names, where both are below it, else the nearest that both are below, else one of old's names with
/// both put below it.
fn wider_end(seen: &Seen, of: WayOf, own: &str, old_names: &[&str], offers: &mut Offers) {
    let (old, copy) = (seen.old, seen.new);
    let Some(index) = copy.type_named(own) else {
        return;
    };
    let present = copy.way(of).to;
    let wider = common_ancestors(copy, present, index);
    let is_old = |&to: &usize| old_names.contains(&copy.types[to].name.as_str());
    let (first, rest): (Vec<usize>, Vec<usize>) = wider.into_iter().partition(is_old);
    for to in first.into_iter().chain(rest) {
        offers.add(with_end(copy, of, to));
    }
    let present = &copy.types[present].name;
    for end in old_names {
        offers.add_steps(&[
            &|diagram: &Diagram| Some(with_type(old, diagram, end)),
            &|diagram: &Diagram| Some(related(old, diagram, own, end)),
            &|diagram: &Diagram| Some(related(old, diagram, present, end)),
            &|diagram: &Diagram| {
                let to = diagram.type_named(end)?;
                let wider = diagram.is_instance(present, to);
                wider.then(|| with_end(diagram, of, to))
            },
        ]);
    }
}

/// The names of the types at one end of old's ways for the link.
fn old_names<'a>(seen: &'a Seen, end: fn(&Way) -> usize) -> Vec<&'a str> {
    let ways = seen.ways().into_iter();
    let ends = ways.map(|of| end(&seen.old.way(of)));
    ends.map(|end| seen.old.types[end].name.as_str()).collect()
}

/// The end of a way becomes another type.
fn with_end(diagram: &Diagram, of: WayOf, to: usize) -> Loosening {
    let mut by = diagram.associations[of.association].clone();
    match of.side {
        0 => by.right.of = to,
        _ => by.left.of = to,
    }
    vec![Change::ReplaceAssociation(of.association, vec![by])]
}

/// The types that both are or are below, the nearest first.
fn common_ancestors(diagram: &Diagram, one: usize, other: usize) -> Vec<usize> {
    let is_common = |&of: &usize| diagram.reaches(one, of) && diagram.reaches(other, of);
    (0..diagram.types.len()).rev().filter(is_common).collect()
}

/// Old's way is taken over between its own types, and the objects' types are put below these.
fn take_over(old: &Diagram, of: WayOf, ends: &Ends, offers: &mut Offers) {
    let way = old.way(of);
    let (start, end) = (&old.types[way.from].name, &old.types[way.to].name);
    offers.add_steps(&[
        &|diagram: &Diagram| Some(with_type(old, diagram, start)),
        &|diagram: &Diagram| Some(with_type(old, diagram, end)),
        &|diagram: &Diagram| Some(related(old, diagram, ends.from, start)),
        &|diagram: &Diagram| Some(related(old, diagram, ends.to, end)),
        &|diagram: &Diagram| {
            let (from, to) = (diagram.type_named(start)?, diagram.type_named(end)?);
            let added = open_way(old, of, from, to);
            Some(vec![Change::AddAssociation(added)])
        },
    ]);
}

/// Old's way between its own types where they are above the objects' in the copy, else between the
/// objects' types.
fn between_objects(old: &Diagram, of: WayOf, copy: &Diagram, ends: &Ends) -> Option<Association> {
    let way = old.way(of);
    let there = |end: usize, own: &str| {
        let own = copy.type_named(own)?;
        let end = copy.type_named(&old.types[end].name);
        Some(end.filter(|&end| copy.reaches(own, end)).unwrap_or(own))
    };
    let (from, to) = (there(way.from, ends.from)?, there(way.to, ends.to)?);
    Some(open_way(old, of, from, to))
}

/// A way of old as a one-way association between two types, for any number.
pub fn open_way(old: &Diagram, of: WayOf, from: usize, to: usize) -> Association {
    let back = old.associations[of.association].way(1 - of.side).role;
    let end = |index: usize, role: &str| End {
        of: index,
        limits: Limits { low: 0, up: None },
        role: role.to_string(),
    };
    Association {
        composition: false,
        arrow: Arrow::Right,
        left: end(from, back),
        right: end(to, old.way(of).role),
    }
}
