//! How large a search is: the number of records that single spots leave open.

use crate::instances::{attribute_names, is_concrete, roles_of, targets, value_types_of};
use crate::plan::DiagramPlan;

/// The most fillings of old that the independent search looks through in a moment. Tests draw a pair
/// again where there are more.
const SEARCHED_SOON: u64 = 30_000;

/// Whether the independent search compares this old diagram up to this bound in a moment.
pub fn searched_soon(old: &DiagramPlan, bound: usize) -> bool {
    fillings(old, bound, SEARCHED_SOON) < SEARCHED_SOON
}

/// The number of records with up to `objects` objects whose types, values and links fit spot by
/// spot, and no more than `most`: what a search without foresight has to look through.
pub fn fillings(plan: &DiagramPlan, objects: usize, most: u64) -> u64 {
    let mut sum: u64 = 0;
    for count in 0..=objects {
        each_row(plan, &mut Vec::new(), count, &mut |row| {
            sum = sum.saturating_add(of_row(plan, row)).min(most);
            sum < most
        });
    }
    sum
}

/// Hands on each row of types of this length until the receiver has enough.
fn each_row(
    plan: &DiagramPlan,
    row: &mut Vec<usize>,
    count: usize,
    receive: &mut impl FnMut(&[usize]) -> bool,
) -> bool {
    if row.len() == count {
        return receive(row);
    }
    for of in 0..plan.types.len() {
        if may_follow(plan, row, of) {
            row.push(of);
            let more = each_row(plan, row, count, receive);
            row.pop();
            if !more {
                return false;
            }
        }
    }
    true
}

/// Whether an object of this type may come next. A search has no choice to test where there is only
/// one type, and so may go on with it whatever its kind.
fn may_follow(plan: &DiagramPlan, row: &[usize], of: usize) -> bool {
    let second = plan.types[of].kind == 3 && row.contains(&of);
    plan.types.len() == 1 || (is_concrete(plan, of) && !second)
}

/// The number of fillings of values and links for a row of types.
fn of_row(plan: &DiagramPlan, row: &[usize]) -> u64 {
    let mut product: u64 = 1;
    for of in row {
        for name in attribute_names(plan, *of) {
            let wanted = value_types_of(plan, *of, name);
            let agree = wanted.len() == 1;
            let constants = plan.value_types[wanted[0]].constants.len() as u64;
            product = product.saturating_mul(if agree { constants.max(1) } else { 0 });
        }
    }
    if product == 0 {
        return 1;
    }
    for of in row {
        for role in roles_of(plan, *of) {
            let (allowed, low, up) = targets(plan, *of, role, row);
            product = product.saturating_mul(subsets(allowed.len(), low, up).max(1));
        }
    }
    product
}

/// The number of subsets of `size` things with `low` to `up` members.
fn subsets(size: usize, low: usize, up: usize) -> u64 {
    (0u32..1 << size)
        .filter(|set| (low..=up).contains(&(set.count_ones() as usize)))
        .count() as u64
}
