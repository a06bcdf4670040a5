//! Records that mostly keep a diagram's rules, and records that break one.

use crate::instances::{attribute_names, carried, is_concrete, is_instance, roles_of, targets};
use crate::instances::{value_types_of, Carried};
use crate::names::{one_of, ATTRIBUTES, CONSTANTS, FOREIGN, ROLES, TYPES, VALUE_TYPES};
use crate::plan::{DiagramPlan, Link, RecordPlan, Value};
use crate::random::Random;

/// A record of at most `most` objects that follows what the rules ask for, as far as that goes
/// step by step, and in one case of two is then changed a little.
pub fn record(random: &mut Random, plan: &DiagramPlan, most: usize) -> RecordPlan {
    let types = types(random, plan, most);
    let mut record = RecordPlan::default();
    for of in &types {
        record.objects.push(plan.types[*of].name.clone());
    }
    add_values(random, plan, &types, &mut record);
    add_links(random, plan, &types, &mut record);
    mend_columns(random, plan, &types, &mut record);
    if random.chance(4, 5) {
        mirror(random, plan, &types, &mut record);
    }
    if random.chance(1, 2) {
        for _ in 0..random.between(1, 3) {
            change(random, &mut record);
        }
    }
    record.arrange();
    record
}

/// A row of types: each singleton once, and some classes.
fn types(random: &mut Random, plan: &DiagramPlan, most: usize) -> Vec<usize> {
    let concrete = |kind: u8| move |at: &usize| plan.types[*at].kind == kind;
    let mut row: Vec<usize> = (0..plan.types.len()).filter(concrete(3)).collect();
    let classes: Vec<usize> = (0..plan.types.len()).filter(concrete(0)).collect();
    let wanted = random.between(0, most);
    while row.len() < wanted && !classes.is_empty() {
        row.push(*random.pick(&classes));
    }
    row.truncate(most);
    random.shuffle(&mut row);
    row.retain(|of| is_concrete(plan, *of));
    row
}

/// Gives each object a value of the first declared value type for each of its attributes.
fn add_values(random: &mut Random, plan: &DiagramPlan, types: &[usize], record: &mut RecordPlan) {
    for (object, of) in types.iter().enumerate() {
        for name in attribute_names(plan, *of) {
            let declared = value_types_of(plan, *of, name);
            let value_type = &plan.value_types[*random.pick(&declared)];
            let constant = match value_type.constants.is_empty() {
                true => Vec::new(),
                false => random.pick(&value_type.constants).clone(),
            };
            record.values.push(Value {
                object: object as u8,
                attribute: name.to_vec(),
                value_type: value_type.name.clone(),
                constant,
            });
        }
    }
}

/// Gives each object as many links of each role as its limits ask for, to objects that may be targets.
fn add_links(random: &mut Random, plan: &DiagramPlan, types: &[usize], record: &mut RecordPlan) {
    for (from, of) in types.iter().enumerate() {
        for role in roles_of(plan, *of) {
            let (mut allowed, low, up) = targets(plan, *of, role, types);
            let low = low.min(allowed.len());
            let up = up.min(allowed.len()).min(low + 2).max(low);
            random.shuffle(&mut allowed);
            for to in &allowed[..random.between(low, up)] {
                push_link(record, from, role, *to);
            }
        }
    }
}

/// Adds links to targets that too few objects point at (arrows with one head).
fn mend_columns(random: &mut Random, plan: &DiagramPlan, types: &[usize], record: &mut RecordPlan) {
    for c in carried(plan).iter().filter(|c| c.association.arrow <= 2) {
        for (to, of) in types.iter().enumerate() {
            if !is_instance(plan, *of, usize::from(c.to.of)) {
                continue;
            }
            let mut sources = instances(plan, types, c);
            random.shuffle(&mut sources);
            let has = |from: &usize| record.links.contains(&link(*from, &c.to.role, to));
            let present: Vec<usize> = sources.iter().copied().filter(has).collect();
            let missing = usize::from(c.from.low).saturating_sub(present.len());
            sources.retain(|from| !present.contains(from));
            for from in sources.iter().take(missing) {
                push_link(record, *from, &c.to.role, to);
            }
            let surplus = present.len().saturating_sub(usize::from(c.from.up));
            for from in &present[..surplus] {
                record.links.retain(|l| *l != link(*from, &c.to.role, to));
            }
        }
    }
}

/// The objects that are instances of the end that the links come from.
fn instances(plan: &DiagramPlan, types: &[usize], c: &Carried) -> Vec<usize> {
    (0..types.len())
        .filter(|at| is_instance(plan, types[*at], usize::from(c.from.of)))
        .collect()
}

/// Gives each link of a mirrored association its link back, or takes the link away.
fn mirror(random: &mut Random, plan: &DiagramPlan, types: &[usize], record: &mut RecordPlan) {
    for c in carried(plan).iter().filter(|c| c.association.is_mirrored()) {
        let add = random.chance(1, 2);
        let links: Vec<Link> = record
            .links
            .iter()
            .filter(|l| l.role == c.to.role)
            .cloned()
            .collect();
        for l in links {
            let (from, to) = (usize::from(l.from), usize::from(l.to));
            let ends = is_instance(plan, types[from], usize::from(c.from.of))
                && is_instance(plan, types[to], usize::from(c.to.of));
            let back = link(to, &c.from.role, from);
            if !ends || record.links.contains(&back) {
                continue;
            }
            if add {
                record.links.push(back);
            } else {
                record.links.retain(|other| *other != l);
            }
        }
    }
}

/// The link between two objects by their indices.
fn link(from: usize, role: &[u8], to: usize) -> Link {
    Link {
        from: from as u8,
        role: role.to_vec(),
        to: to as u8,
    }
}

/// Adds that link.
fn push_link(record: &mut RecordPlan, from: usize, role: &[u8], to: usize) {
    record.links.push(link(from, role, to));
}

/// Changes one thing of a record: a type, a value or a link, also to names that nobody knows.
fn change(random: &mut Random, record: &mut RecordPlan) {
    let objects = record.objects.len();
    if objects == 0 {
        return;
    }
    match random.below(8) {
        0 => {
            let at = random.below(objects);
            record.objects[at] = any_name(random, &TYPES);
        }
        1 if !record.values.is_empty() => {
            record.values.remove(random.below(record.values.len()));
        }
        2 | 3 if !record.values.is_empty() => change_value(random, record),
        4 => record.values.push(Value {
            object: random.below(objects) as u8,
            attribute: any_name(random, &ATTRIBUTES),
            value_type: any_name(random, &VALUE_TYPES),
            constant: any_constant(random),
        }),
        5 if !record.links.is_empty() => {
            record.links.remove(random.below(record.links.len()));
        }
        6 if !record.links.is_empty() => {
            let at = random.below(record.links.len());
            record.links[at].to = random.below(objects) as u8;
        }
        _ => {
            let (from, to) = (random.below(objects), random.below(objects));
            push_link(record, from, &any_name(random, &ROLES), to);
        }
    }
}

/// Gives a value another constant or another value type.
fn change_value(random: &mut Random, record: &mut RecordPlan) {
    let at = random.below(record.values.len());
    if random.chance(1, 2) {
        record.values[at].constant = any_constant(random);
    } else {
        record.values[at].value_type = any_name(random, &VALUE_TYPES);
    }
}

/// A name of the pool or one that no diagram has.
fn any_name(random: &mut Random, pool: &[&str]) -> Vec<u8> {
    if random.chance(1, 6) {
        return one_of(random, &FOREIGN);
    }
    one_of(random, pool)
}

/// A constant or the unnamed value.
fn any_constant(random: &mut Random) -> Vec<u8> {
    if random.chance(1, 3) {
        return Vec::new();
    }
    any_name(random, &CONSTANTS)
}
