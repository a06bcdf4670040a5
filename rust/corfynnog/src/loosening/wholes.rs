//! Rule 9: compositions that become associations.

use super::change::Change;
use super::offers::Offers;
use crate::counterparts::Seen;
use crate::diagram::Association;
use crate::parts::Part;

/// One of the compositions becomes an association, first those that are none in old, or else all.
pub fn make_associations(seen: &Seen, offers: &mut Offers) {
    let compositions = seen.breach.declared.iter().filter_map(|part| match part {
        Part::Association(index) => Some(*index),
        _ => None,
    });
    let (front, back): (Vec<usize>, Vec<usize>) =
        compositions.partition(|&index| !is_composition_in_old(seen, index));
    let change = |index: &usize| {
        let by = Association {
            composition: false,
            ..seen.new.associations[*index].clone()
        };
        Change::ReplaceAssociation(*index, vec![by])
    };
    let all = [front.clone(), back].concat();
    for index in &all {
        offers.add(vec![change(index)]);
    }
    offers.add(front.iter().map(change).collect());
    offers.add(all.iter().map(change).collect());
}

/// Some link of the composition's role to the part is one of a composition in old.
fn is_composition_in_old(seen: &Seen, index: usize) -> bool {
    let role = &seen.new.associations[index].right.role;
    let types = &seen.record.types;
    let [part, wholes @ ..] = &seen.breach.objects[..] else {
        return false;
    };
    let own = |whole: &&usize| seen.record.has_link(**whole, role, *part);
    let mut wholes = wholes.iter().filter(own);
    wholes.any(|&whole| {
        let carriers = seen.old.carriers(&types[whole], role, &types[*part]);
        let mut old = carriers
            .iter()
            .map(|of| &seen.old.associations[of.association]);
        old.any(|association| association.composition)
    })
}
