//! Diagram files with a fault in their edition, or with an association that is not of the edition.

use crate::editions::in_edition;
use crate::faults::faulty;
use crate::fields::{file, Field};
use crate::plan::DiagramPlan;
use crate::random::Random;

/// Bytes that are no edition.
const NO_EDITIONS: [u8; 6] = [0, 3, 4, 127, 128, 255];

/// The file of the plan with a fault of this kind, now and then with other faults too.
pub fn with_edition_fault(random: &mut Random, plan: &DiagramPlan) -> Vec<u8> {
    let plan = match random.chance(1, 3) && !plan.types.is_empty() {
        true => faulty(random, plan),
        false => plan.clone(),
    };
    let mut fields = plan.fields();
    match random.below(8) {
        0 | 1 => fields[0].content = vec![*random.pick(&NO_EDITIONS)],
        2 => fields[0].content = vec![3 - plan.edition],
        3 => change_length(random, &plan, &mut fields[0]),
        4 => second_edition(random, &plan, &mut fields),
        5 => association_of_the_other(random, &plan, &mut fields),
        _ => {
            if let Some(at) = some_association(random, &plan, &fields) {
                change_length(random, &plan, &mut fields[at]);
            }
        }
    }
    file(&fields)
}

/// Makes a content longer or shorter, mostly by one byte.
fn change_length(random: &mut Random, plan: &DiagramPlan, field: &mut Field) {
    match random.below(6) {
        0 | 1 => field.content.push(plan.edition),
        2 | 3 => {
            field.content.pop();
        }
        4 => field.content.insert(0, 0),
        _ => field.content.extend([0; 4]),
    }
}

/// Adds a second edition, often the other one, behind the first or at the end; now and then cut.
fn second_edition(random: &mut Random, plan: &DiagramPlan, fields: &mut Vec<Field>) {
    let edition = *random.pick(&[1, 2, 3 - plan.edition]);
    let content: &[u8] = match random.chance(1, 4) {
        true => &[],
        false => &[edition],
    };
    let at = *random.pick(&[1, fields.len()]);
    fields.insert(at, Field::new(0x10, content));
}

/// Lays one association out as the other edition does, if that has the diagram's limits.
fn association_of_the_other(random: &mut Random, plan: &DiagramPlan, fields: &mut [Field]) {
    let Some(other) = in_edition(3 - plan.edition, plan) else {
        return;
    };
    if let Some(at) = some_association(random, plan, fields) {
        fields[at] = other.fields().swap_remove(at);
    }
}

/// The place of one of the associations among the fields; they stand at the end.
fn some_association(random: &mut Random, plan: &DiagramPlan, fields: &[Field]) -> Option<usize> {
    let count = plan.associations.len();
    (count > 0).then(|| fields.len() - 1 - random.below(count))
}
