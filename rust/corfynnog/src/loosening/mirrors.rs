//! Rule 8: a two-way association, `<->` or `--`, that is parted, so that its links need not come in
//! pairs.

use super::change::Change;
use super::offers::Offers;
use crate::counterparts::Seen;
use crate::diagram::{Arrow, Association, End, Limits};

/// The association becomes two one-way ones, or, where old does not carry the role back, the one that
/// carries the link.
pub fn take_mirror_away(seen: &Seen, offers: &mut Offers) {
    let (Some(index), Some(role)) = (seen.breach.association, &seen.breach.role) else {
        return;
    };
    let association = &seen.new.associations[index];
    let both = vec![one_way(association, 0), one_way(association, 1)];
    offers.add(vec![Change::ReplaceAssociation(index, both)]);
    let side = u8::from(association.way(0).role != *role);
    let back = association.way(1 - side).role;
    if seen.old.carried_ways(back).is_empty() {
        let one = vec![one_way(association, side)];
        offers.add(vec![Change::ReplaceAssociation(index, one)]);
    }
}

/// The one-way association of a side: its targets keep their limits, any number of sources will do.
pub fn one_way(association: &Association, side: u8) -> Association {
    let any = |end: &End| End {
        limits: Limits { low: 0, up: None },
        ..end.clone()
    };
    let (left, right) = (&association.left, &association.right);
    match side {
        0 => Association {
            composition: association.composition,
            arrow: Arrow::Right,
            left: any(left),
            right: right.clone(),
        },
        _ => Association {
            composition: false,
            arrow: Arrow::Left,
            left: left.clone(),
            right: any(right),
        },
    }
}

/// What is left of an association without the links of one side.
pub fn without_side(association: &Association, side: u8) -> Vec<Association> {
    match association.carries(1 - side) {
        true => vec![one_way(association, 1 - side)],
        false => Vec::new(),
    }
}
