//! Small edits of a diagram: what may change from one release to the next.

use crate::diagrams::{add_association, add_attribute, add_type, add_value_type, limits};
use crate::editions::{in_any_edition, largest, NO_UPPER_LIMIT};
use crate::names::{fresh, one_of, ATTRIBUTES, CONSTANTS, ROLES, TYPES, VALUE_TYPES};
use crate::plan::{Association, DiagramPlan, End};
use crate::random::Random;

type Edit = fn(&mut Random, &mut DiagramPlan);

const EDITS: [Edit; 24] = [
    change_limits,
    change_limits,
    nudge_limit,
    nudge_limit,
    change_kind,
    change_kind,
    change_arrow,
    change_form,
    change_role,
    share_role,
    swap_ends,
    move_end,
    change_parents,
    change_parents,
    change_constants,
    rename_something,
    move_attribute,
    disagree_on_attribute,
    disagree_on_role,
    exchange_types,
    add_type,
    add_something,
    drop_type,
    drop_something,
];

const LINK_EDITS: [Edit; 4] = [change_arrow, change_form, share_role, disagree_on_role];

/// A diagram that differs from this one by one or a few edits and is accepted too, now and then in
/// the other edition.
pub fn edited(random: &mut Random, plan: &DiagramPlan) -> DiagramPlan {
    edited_by(random, plan, &EDITS)
}

/// The same with edits of associations' arrows, forms and roles only.
pub fn redrawn(random: &mut Random, plan: &DiagramPlan) -> DiagramPlan {
    edited_by(random, plan, &LINK_EDITS)
}

/// Tries edits of the list until one or a few changed something and kept the format.
fn edited_by(random: &mut Random, plan: &DiagramPlan, list: &[Edit]) -> DiagramPlan {
    let edits = *random.pick(&[1, 1, 1, 2, 3]);
    let mut result = in_any_edition(random, plan);
    let mut done = 0;
    for _ in 0..40 {
        let mut next = result.clone();
        random.pick(list)(random, &mut next);
        if next != result && keeps_the_format(&next) {
            result = next;
            done += 1;
        }
        if done == edits {
            break;
        }
    }
    result
}

/// Whether the plan keeps what edits may break: the number of types, parents of interfaces, arrows
/// of compositions.
fn keeps_the_format(plan: &DiagramPlan) -> bool {
    let interfaces = plan.types.iter().filter(|t| t.kind == 2).all(|t| {
        let mut parents = t.parents.iter();
        parents.all(|parent| plan.types[usize::from(*parent)].kind == 2)
    });
    let compositions = plan
        .associations
        .iter()
        .all(|a| a.form == 0 || a.arrow != 2);
    plan.types.len() <= 24 && interfaces && compositions
}

/// One of the diagram's associations, if it has any.
fn association<'a>(random: &mut Random, plan: &'a mut DiagramPlan) -> Option<&'a mut Association> {
    let count = plan.associations.len();
    if count == 0 {
        return None;
    }
    Some(&mut plan.associations[random.below(count)])
}

/// One end of one of the associations, if there are any.
fn some_end<'a>(random: &mut Random, plan: &'a mut DiagramPlan) -> Option<&'a mut End> {
    let right = random.chance(1, 2);
    association(random, plan).map(|a| if right { &mut a.right } else { &mut a.left })
}

/// Gives one end other limits.
fn change_limits(random: &mut Random, plan: &mut DiagramPlan) {
    let (low, up) = limits(random, plan.edition);
    if let Some(end) = some_end(random, plan) {
        (end.low, end.up) = (low, up);
    }
}

/// Moves one limit by one, the smallest change there is.
fn nudge_limit(random: &mut Random, plan: &mut DiagramPlan) {
    let (upper, raise) = (random.chance(1, 2), random.chance(1, 2));
    let largest = largest(plan.edition);
    if let Some(end) = some_end(random, plan) {
        match (upper, raise) {
            (true, true) if end.up < largest => end.up += 1,
            (true, false) if end.up > end.low && end.up != NO_UPPER_LIMIT => end.up -= 1,
            (false, true) if end.low < end.up && end.low < largest => end.low += 1,
            (false, false) if end.low > 0 => end.low -= 1,
            _ => {}
        }
    }
}

/// Gives a type any kind.
fn change_kind(random: &mut Random, plan: &mut DiagramPlan) {
    let at = random.below(plan.types.len());
    plan.types[at].kind = random.below(4) as u8;
}

/// Gives an association any arrow.
fn change_arrow(random: &mut Random, plan: &mut DiagramPlan) {
    let arrow = random.between(1, 4) as u8;
    if let Some(a) = association(random, plan) {
        a.arrow = arrow;
    }
}

/// Makes an association a composition, or the other way round.
fn change_form(random: &mut Random, plan: &mut DiagramPlan) {
    if let Some(a) = association(random, plan) {
        a.form = 1 - a.form;
    }
}

/// Gives an end any role of the pool.
fn change_role(random: &mut Random, plan: &mut DiagramPlan) {
    let role = one_of(random, &ROLES);
    if let Some(end) = some_end(random, plan) {
        end.role = role;
    }
}

/// Gives an end the role of another, so that two associations speak of the same links.
fn share_role(random: &mut Random, plan: &mut DiagramPlan) {
    let Some(role) = some_end(random, plan).map(|end| end.role.clone()) else {
        return;
    };
    if let Some(end) = some_end(random, plan) {
        end.role = role;
    }
}

/// Draws an association from the other side; without a composition the meaning stays.
fn swap_ends(random: &mut Random, plan: &mut DiagramPlan) {
    if let Some(a) = association(random, plan) {
        std::mem::swap(&mut a.left, &mut a.right);
        a.arrow = match a.arrow {
            1 => 2,
            2 => 1,
            other => other,
        };
    }
}

/// Moves an end to any type.
fn move_end(random: &mut Random, plan: &mut DiagramPlan) {
    let of = random.below(plan.types.len()) as u8;
    if let Some(end) = some_end(random, plan) {
        end.of = of;
    }
}

/// Adds or takes away one parent.
fn change_parents(random: &mut Random, plan: &mut DiagramPlan) {
    let at = random.below(plan.types.len());
    if at == 0 {
        return;
    }
    let parent = random.below(at) as u8;
    let parents = &mut plan.types[at].parents;
    match parents.iter().position(|p| *p == parent) {
        Some(place) => {
            parents.remove(place);
        }
        None if parents.len() < 4 => {
            parents.push(parent);
            parents.sort();
        }
        None => {}
    }
}

/// Adds or takes away one constant of a value type.
fn change_constants(random: &mut Random, plan: &mut DiagramPlan) {
    if plan.value_types.is_empty() {
        return;
    }
    let at = random.below(plan.value_types.len());
    let constants = &mut plan.value_types[at].constants;
    if !constants.is_empty() && random.chance(1, 2) {
        constants.remove(random.below(constants.len()));
    } else if constants.len() < 8 {
        let taken: Vec<&[u8]> = constants.iter().map(Vec::as_slice).collect();
        let name = fresh(random, &CONSTANTS, &taken);
        constants.insert(random.below(constants.len() + 1), name);
    }
}

/// Gives a type, a value type or an attribute another name.
fn rename_something(random: &mut Random, plan: &mut DiagramPlan) {
    let which = random.below(3);
    if which == 0 {
        let taken: Vec<&[u8]> = plan.types.iter().map(|t| t.name.as_slice()).collect();
        let name = fresh(random, &TYPES, &taken);
        let at = random.below(plan.types.len());
        plan.types[at].name = name;
    } else if which == 1 && !plan.value_types.is_empty() {
        let taken: Vec<&[u8]> = plan.value_types.iter().map(|v| v.name.as_slice()).collect();
        let name = fresh(random, &VALUE_TYPES, &taken);
        let at = random.below(plan.value_types.len());
        plan.value_types[at].name = name;
    } else if !plan.attributes.is_empty() {
        let at = random.below(plan.attributes.len());
        plan.attributes[at].name = one_of(random, &ATTRIBUTES);
    }
}

/// Gives an attribute another owner or another value type.
fn move_attribute(random: &mut Random, plan: &mut DiagramPlan) {
    if plan.attributes.is_empty() {
        return;
    }
    let at = random.below(plan.attributes.len());
    if random.chance(1, 2) {
        plan.attributes[at].owner = random.below(plan.types.len()) as u8;
    } else {
        plan.attributes[at].value_type = random.below(plan.value_types.len()) as u8;
    }
}

/// Declares an attribute once more, for any owner and value type.
fn disagree_on_attribute(random: &mut Random, plan: &mut DiagramPlan) {
    if plan.attributes.is_empty() || plan.attributes.len() >= 32 {
        return;
    }
    let mut again = plan.attributes[random.below(plan.attributes.len())].clone();
    again.owner = random.below(plan.types.len()) as u8;
    again.value_type = random.below(plan.value_types.len()) as u8;
    plan.attributes.push(again);
}

/// Declares an association once more, with another type or other limits at one end.
fn disagree_on_role(random: &mut Random, plan: &mut DiagramPlan) {
    if plan.associations.len() >= 16 {
        return;
    }
    let Some(mut again) = association(random, plan).map(|a| a.clone()) else {
        return;
    };
    let (right, edition) = (random.chance(1, 2), plan.edition);
    let end = if right {
        &mut again.right
    } else {
        &mut again.left
    };
    if random.chance(1, 2) {
        end.of = random.below(plan.types.len()) as u8;
    } else {
        (end.low, end.up) = limits(random, edition);
    }
    plan.associations.push(again);
}

/// Exchanges two neighbouring types that do not inherit from each other; the meaning stays.
fn exchange_types(random: &mut Random, plan: &mut DiagramPlan) {
    if plan.types.len() < 2 {
        return;
    }
    let at = random.below(plan.types.len() - 1);
    if plan.types[at + 1].parents.contains(&(at as u8)) {
        return;
    }
    plan.types.swap(at, at + 1);
    let (one, other) = (at as u8, at as u8 + 1);
    plan.renumber_types(|index| {
        if index == one {
            other
        } else if index == other {
            one
        } else {
            index
        }
    });
}

/// Adds a value type, an attribute or an association.
fn add_something(random: &mut Random, plan: &mut DiagramPlan) {
    match random.below(3) {
        0 if plan.value_types.len() < 12 => add_value_type(random, plan),
        1 if plan.attributes.len() < 32 => add_attribute(random, plan),
        _ if plan.associations.len() < 16 => add_association(random, plan),
        _ => {}
    }
}

/// Drops a type and all that speaks of it.
fn drop_type(random: &mut Random, plan: &mut DiagramPlan) {
    if plan.types.len() < 2 {
        return;
    }
    let gone = random.below(plan.types.len());
    let lost = gone as u8;
    plan.types.remove(gone);
    plan.types
        .iter_mut()
        .for_each(|t| t.parents.retain(|p| *p != lost));
    plan.attributes.retain(|a| a.owner != lost);
    plan.associations
        .retain(|a| a.left.of != lost && a.right.of != lost);
    plan.renumber_types(|index| if index > lost { index - 1 } else { index });
}

/// Drops an attribute or an association.
fn drop_something(random: &mut Random, plan: &mut DiagramPlan) {
    let attribute = random.chance(1, 2) || plan.associations.is_empty();
    if attribute && !plan.attributes.is_empty() {
        plan.attributes.remove(random.below(plan.attributes.len()));
    } else if !plan.associations.is_empty() {
        plan.associations
            .remove(random.below(plan.associations.len()));
    }
}
