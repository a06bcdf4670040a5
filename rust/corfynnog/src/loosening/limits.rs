//! Rules 6 and 7: limits that are opened.

use super::change::Change;
use super::offers::Offers;
use crate::counterparts::Seen;
use crate::diagram::{Association, Limits};

/// The limits that an object breaks are opened as far as old's go there, or else altogether. Rule 6
/// counts an object's targets, rule 7 the objects that it is the target of.
pub fn open_limits(seen: &Seen, offers: &mut Offers) {
    let (Some(index), Some(side)) = (seen.breach.association, seen.breach.side) else {
        return;
    };
    let (association, Some(count)) = (&seen.new.associations[index], count(seen, index, side))
    else {
        return;
    };
    let of_sources = seen.breach.rule == 7;
    let old = seen.ways().into_iter().filter_map(|of| {
        let carried = seen.old.associations[of.association].carries(of.side);
        let way = seen.old.way(of);
        let limits = match of_sources {
            true => way.sources,
            false => way.targets,
        };
        carried.then_some(limits)
    });
    let old: Vec<Limits> = old.collect();
    for reach in [&old[..], &[]] {
        let mut by = association.clone();
        let limits = counted_limits(&mut by, side, of_sources);
        *limits = opened(*limits, count, reach);
        offers.add(vec![Change::ReplaceAssociation(index, vec![by])]);
    }
}

/// How many targets or sources the object has.
fn count(seen: &Seen, index: usize, side: u8) -> Option<usize> {
    let (way, object) = (
        seen.new.associations[index].way(side),
        *seen.breach.objects.first()?,
    );
    if seen.breach.rule == 6 {
        return Some(seen.record.targets(object, way.role).count());
    }
    let is_source = |&from: &usize| {
        let of = &seen.record.types[from];
        seen.new.is_instance(of, way.from) && seen.record.has_link(from, way.role, object)
    };
    Some((0..seen.record.types.len()).filter(is_source).count())
}

/// The limits at the end that a side's targets or sources stand at.
fn counted_limits(association: &mut Association, side: u8, of_sources: bool) -> &mut Limits {
    match (side == 0) == of_sources {
        true => &mut association.left.limits,
        false => &mut association.right.limits,
    }
}

/// Limits that allow the count too: as far as these ones, or without a limit where there are none.
fn opened(limits: Limits, count: usize, reach: &[Limits]) -> Limits {
    let mut result = limits;
    if count < limits.low {
        let least = reach.iter().map(|limits| limits.low).min();
        result.low = least.unwrap_or(0).min(count);
    }
    if limits.up.is_some_and(|up| up < count) {
        let ups: Option<Vec<usize>> = reach.iter().map(|limits| limits.up).collect();
        let most = ups.and_then(|ups| ups.into_iter().max());
        result.up = most.map(|most| most.max(count));
    }
    result
}

#[cfg(test)]
mod tests {
    use super::*;

    /// Limits with an upper one.
    fn limits(low: usize, up: usize) -> Limits {
        Limits { low, up: Some(up) }
    }

    #[test]
    fn as_far_as_needed() {
        let none = Limits { low: 0, up: None };
        let cases: [(Limits, usize, &[Limits], Limits); 6] = [
            (limits(2, 3), 1, &[limits(0, 1)], limits(0, 3)),
            (limits(2, 3), 0, &[limits(1, 1)], limits(0, 3)),
            (limits(2, 3), 0, &[], limits(0, 3)),
            (limits(2, 3), 4, &[limits(0, 8)], limits(2, 8)),
            (limits(2, 3), 5, &[limits(0, 4)], limits(2, 5)),
            (limits(0, 3), 4, &[limits(0, 4), none], none),
        ];
        for (own, count, old, expected) in cases {
            assert_eq!(opened(own, count, old), expected, "{own:?} {count} {old:?}");
        }
        assert_eq!(opened(limits(0, 3), 4, &[]), none);
    }
}
