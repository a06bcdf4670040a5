//! Associations that become old's, line for line, so that there are no more of them than before.

use super::change::Change;
use super::offers::Offers;
use crate::counterparts::Seen;
use crate::diagram::{Association, Diagram, End, Limits};
use crate::lists::distinct;

/// An association becomes the one of old that carries the link: first the one between the same types
/// and with the same roles, then those that old does not have, the most similar first.
pub fn replace_lines(seen: &Seen, offers: &mut Offers) {
    let (old, copy) = (seen.old, seen.new);
    for index in distinct(seen.ways().into_iter().map(|of| of.association)) {
        let wanted = &old.associations[index];
        let alike = |own: &Association| similarity(old, wanted, copy, own);
        let is_in_old = |own: &Association| {
            let mut all = old.associations.iter();
            all.any(|other| similarity(old, other, copy, own) == ALL_ALIKE)
        };
        let own = copy.associations.iter().enumerate();
        let own = own.filter(|(_, own)| alike(own) == ALL_ALIKE || !is_in_old(own));
        let mut places: Vec<(usize, usize)> = own.map(|(at, own)| (alike(own), at)).collect();
        places.retain(|(alike, _)| *alike > 0);
        places.sort_by_key(|(alike, at)| (ALL_ALIKE - alike, *at));
        for (_, at) in places {
            let by = in_place_of(old, wanted, copy, &copy.associations[at]);
            let change = by.map(|by| Change::ReplaceAssociation(at, vec![by]));
            offers.add(change.into_iter().collect());
        }
    }
}

/// The similarity of two associations between types of the same names and with the same roles.
const ALL_ALIKE: usize = 4;

/// How many names of types and roles two associations share, end by end.
fn similarity(old: &Diagram, of_old: &Association, copy: &Diagram, own: &Association) -> usize {
    let ends = [(&of_old.left, &own.left), (&of_old.right, &own.right)];
    let shared = ends.map(|(of_old, own)| {
        let same_type = old.types[of_old.of].name == copy.types[own.of].name;
        usize::from(same_type) + usize::from(of_old.role == own.role)
    });
    shared.iter().sum()
}

/// Old's association in the place of one of the copy's, where the copy has its types. Limits at an
/// end that both have are those of both; it is a composition where both are.
fn in_place_of(
    old: &Diagram,
    wanted: &Association,
    copy: &Diagram,
    own: &Association,
) -> Option<Association> {
    let end = |wanted: &End, own: &End| {
        let of = copy.type_named(&old.types[wanted.of].name)?;
        let limits = match of == own.of {
            true => united(wanted.limits, own.limits),
            false => wanted.limits,
        };
        let role = wanted.role.clone();
        Some(End { of, limits, role })
    };
    Some(Association {
        composition: wanted.composition && own.composition,
        arrow: wanted.arrow,
        left: end(&wanted.left, &own.left)?,
        right: end(&wanted.right, &own.right)?,
    })
}

/// Limits that allow what one of the two allows.
fn united(one: Limits, other: Limits) -> Limits {
    Limits {
        low: one.low.min(other.low),
        up: one.up.zip(other.up).map(|(one, other)| one.max(other)),
    }
}
