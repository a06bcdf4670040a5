//! A diagram in an order in which a text can declare it, without what a text cannot say.

use crate::plan::{DiagramPlan, ValueType};
use crate::random::Random;

/// The same diagram as a text may declare it: each type behind its parents, attributes by owner,
/// plain types that are not declared behind the others. Attributes of interfaces are left out.
/// Beside it the number of value types that are to be declared; the others are only used.
pub fn arranged(random: &mut Random, plan: &DiagramPlan) -> (DiagramPlan, usize) {
    let mut result = plan.clone();
    put_types(random, &mut result);
    group_attributes(random, &mut result);
    let declared = put_value_types(random, &mut result);
    random.shuffle(&mut result.associations);
    (result, declared)
}

/// Moves the types into another order in which parents stand before their children.
fn put_types(random: &mut Random, plan: &mut DiagramPlan) {
    let mut left: Vec<usize> = (0..plan.types.len()).collect();
    random.shuffle(&mut left);
    let mut order: Vec<usize> = Vec::new();
    while !left.is_empty() {
        let stands = |parent: &u8| order.contains(&usize::from(*parent));
        let ready = |of: &usize| plan.types[*of].parents.iter().all(stands);
        let next = left.iter().position(ready).expect("parents are below");
        order.push(left.remove(next));
    }
    let moved = |of: u8| {
        let at = order.iter().position(|old| *old == usize::from(of));
        at.expect("every type has a place") as u8
    };
    plan.types = order.iter().map(|of| plan.types[*of].clone()).collect();
    plan.renumber_types(moved);
}

/// Puts the attributes of one owner side by side, in any order.
fn group_attributes(random: &mut Random, plan: &mut DiagramPlan) {
    let types = &plan.types;
    plan.attributes
        .retain(|attribute| types[usize::from(attribute.owner)].kind != 2);
    random.shuffle(&mut plan.attributes);
    plan.attributes.sort_by_key(|attribute| attribute.owner);
}

/// Puts the value types that are to be declared in front, the others behind by their first use,
/// and gives the number of the former.
fn put_value_types(random: &mut Random, plan: &mut DiagramPlan) -> usize {
    let mut order: Vec<usize> = (0..plan.value_types.len()).collect();
    random.shuffle(&mut order);
    let first_use = |of: &usize| {
        let mut attributes = plan.attributes.iter();
        attributes.position(|attribute| usize::from(attribute.value_type) == *of)
    };
    let only_used: Vec<usize> = order
        .iter()
        .copied()
        .filter(|of| {
            let plain = plan.value_types[*of].constants.is_empty();
            plain && first_use(of).is_some() && random.chance(2, 3)
        })
        .collect();
    order.sort_by_key(|of| match only_used.contains(of) {
        true => first_use(of).map_or(0, |at| at + 1),
        false => 0,
    });
    let value_types: Vec<ValueType> = order
        .iter()
        .map(|of| plan.value_types[*of].clone())
        .collect();
    plan.value_types = value_types;
    for attribute in &mut plan.attributes {
        let at = order
            .iter()
            .position(|of| *of == usize::from(attribute.value_type));
        attribute.value_type = at.expect("every value type has a place") as u8;
    }
    order.len() - only_used.len()
}
