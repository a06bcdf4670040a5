//! Diagrams that break one of the format's demands, or several at once.

use crate::diagrams::{add_association, add_attribute, add_type, add_value_type};
use crate::editions::NO_UPPER_LIMIT;
use crate::plan::{Association, DiagramPlan, End};
use crate::random::Random;

type Fault = fn(&mut Random, &mut DiagramPlan);

const FAULTS: [Fault; 12] = [
    too_many,
    double_type_name,
    double_value_type_name,
    double_constant,
    falling_parents,
    parent_not_below,
    missing_type,
    missing_value_type,
    interface_below_class,
    composition_with_arrow_2,
    bad_limits,
    bad_name,
];

/// Names of a wrong length or with a byte that is not allowed.
const BAD_NAMES: [&[u8]; 5] = [b"", b"-", b"a b", b"abcdefghijklmnopq", b"\xC4"];

/// The plan with one to three faults, often in the same field, so that their order counts.
pub fn faulty(random: &mut Random, plan: &DiagramPlan) -> DiagramPlan {
    let mut result = plan.clone();
    for _ in 0..random.between(1, 3) {
        random.pick(&FAULTS)(random, &mut result);
    }
    result
}

/// Adds parts of one kind until there is one more than allowed.
fn too_many(random: &mut Random, plan: &mut DiagramPlan) {
    let (add, limit): (Fault, usize) = match random.below(4) {
        0 => (add_value_type, 13 - plan.value_types.len().min(13)),
        1 => (add_type, 25 - plan.types.len().min(25)),
        2 => (add_attribute, 33 - plan.attributes.len().min(33)),
        _ => (add_association, 17 - plan.associations.len().min(17)),
    };
    for _ in 0..limit {
        add(random, plan);
    }
}

/// Gives two types one name.
fn double_type_name(random: &mut Random, plan: &mut DiagramPlan) {
    let (one, other) = two_below(random, plan.types.len());
    plan.types[one].name = plan.types[other].name.clone();
}

/// Gives two value types one name.
fn double_value_type_name(random: &mut Random, plan: &mut DiagramPlan) {
    if !plan.value_types.is_empty() {
        let (one, other) = two_below(random, plan.value_types.len());
        plan.value_types[one].name = plan.value_types[other].name.clone();
    }
}

/// Gives a value type one constant twice, not side by side.
fn double_constant(random: &mut Random, plan: &mut DiagramPlan) {
    if !plan.value_types.is_empty() {
        let at = random.below(plan.value_types.len());
        plan.value_types[at].constants = vec![b"c".to_vec(), b"d".to_vec(), b"c".to_vec()];
    }
}

/// Gives a type parents that do not rise, some of which name nothing either.
fn falling_parents(random: &mut Random, plan: &mut DiagramPlan) {
    let at = random.below(plan.types.len());
    let own = at as u8;
    plan.types[at].parents = match random.below(3) {
        0 => vec![own.saturating_sub(1), own.saturating_sub(2)],
        1 => vec![0, 0],
        _ => vec![200, 3],
    };
}

/// Gives a type a last parent that is not below it.
fn parent_not_below(random: &mut Random, plan: &mut DiagramPlan) {
    let at = random.below(plan.types.len());
    let beyond = *random.pick(&[at as u8, at as u8 + 1, 24, 255]);
    plan.types[at].parents.push(beyond);
}

/// Lets an attribute or an end name a type that is not there.
fn missing_type(random: &mut Random, plan: &mut DiagramPlan) {
    let beyond = *random.pick(&[plan.types.len() as u8, 24, 255]);
    if random.chance(1, 2) && !plan.attributes.is_empty() {
        let at = random.below(plan.attributes.len());
        plan.attributes[at].owner = beyond;
    } else if let Some(end) = some_end(random, plan) {
        end.of = beyond;
    }
}

/// Lets an attribute name a value type that is not there.
fn missing_value_type(random: &mut Random, plan: &mut DiagramPlan) {
    if !plan.attributes.is_empty() {
        let at = random.below(plan.attributes.len());
        plan.attributes[at].value_type = plan.value_types.len() as u8;
    }
}

/// Makes a type an interface below whatever type stands before it.
fn interface_below_class(random: &mut Random, plan: &mut DiagramPlan) {
    let at = random.below(plan.types.len());
    if at > 0 {
        plan.types[at].kind = 2;
        plan.types[at].parents = vec![random.below(at) as u8];
    }
}

/// Turns an association into a composition drawn from the part.
fn composition_with_arrow_2(random: &mut Random, plan: &mut DiagramPlan) {
    if let Some(association) = some_association(random, plan) {
        (association.form, association.arrow) = (1, 2);
    }
}

/// Limits of edition 1 that are out of range or in the wrong order.
const BAD_LIMITS_1: [(u16, u16); 7] = [
    (101, NO_UPPER_LIMIT),
    (255, NO_UPPER_LIMIT),
    (0, 101),
    (0, 254),
    (2, 1),
    (1, 0),
    (100, 99),
];

/// The same of edition 2; some would be in range or in order with their bytes exchanged.
const BAD_LIMITS_2: [(u16, u16); 10] = [
    (4_001, NO_UPPER_LIMIT),
    (65_535, NO_UPPER_LIMIT),
    (0, 4_001),
    (0, 65_534),
    (4_001, 4_001),
    (2, 1),
    (255, 254),
    (256, 1),
    (256, 255),
    (4_000, 3_999),
];

/// Gives an end limits that its edition does not have.
fn bad_limits(random: &mut Random, plan: &mut DiagramPlan) {
    let (low, up) = match plan.edition {
        1 => *random.pick(&BAD_LIMITS_1),
        _ => *random.pick(&BAD_LIMITS_2),
    };
    if let Some(end) = some_end(random, plan) {
        (end.low, end.up) = (low, up);
    }
}

/// Puts a bad name where a name stands.
fn bad_name(random: &mut Random, plan: &mut DiagramPlan) {
    let bad = *random.pick(&BAD_NAMES);
    match random.below(4) {
        0 if !plan.value_types.is_empty() => plan.value_types[0].name = bad.to_vec(),
        1 if !plan.attributes.is_empty() => plan.attributes[0].name = bad.to_vec(),
        2 => plan.types[0].name = bad.to_vec(),
        _ => {
            if let Some(end) = some_end(random, plan) {
                end.role = bad.to_vec();
            }
        }
    }
}

/// Two indices below `end`, different where that is possible.
fn two_below(random: &mut Random, end: usize) -> (usize, usize) {
    let one = random.below(end);
    (one, (one + 1 + random.below(end.max(2) - 1)) % end)
}

/// One of the associations, the last one more often, since its faults meet with those of counts.
fn some_association<'a>(
    random: &mut Random,
    plan: &'a mut DiagramPlan,
) -> Option<&'a mut Association> {
    let count = plan.associations.len();
    if count == 0 {
        return None;
    }
    let at = if random.chance(1, 2) {
        count - 1
    } else {
        random.below(count)
    };
    Some(&mut plan.associations[at])
}

/// One end of one of the associations.
fn some_end<'a>(random: &mut Random, plan: &'a mut DiagramPlan) -> Option<&'a mut End> {
    let right = random.chance(1, 2);
    some_association(random, plan).map(|a| if right { &mut a.right } else { &mut a.left })
}
