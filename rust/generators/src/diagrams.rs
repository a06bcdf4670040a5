//! Diagrams that a reader accepts, small and of every kind.

use crate::editions::{largest, NO_UPPER_LIMIT};
use crate::names::{fresh, one_of, ATTRIBUTES, CONSTANTS, ROLES, TYPES, VALUE_TYPES};
use crate::plan::{Association, Attribute, DiagramPlan, End, Type, ValueType};
use crate::random::Random;

/// How many parts a diagram has at most.
#[derive(Clone, Copy)]
pub struct Size {
    pub value_types: usize,
    pub types: usize,
    pub attributes: usize,
    pub associations: usize,
}

/// A size at which records can be tried one by one.
pub const SMALL: Size = Size {
    value_types: 2,
    types: 4,
    attributes: 3,
    associations: 3,
};

/// A size at which a search by brute force ends.
pub const TINY: Size = Size {
    value_types: 2,
    types: 3,
    attributes: 2,
    associations: 2,
};

/// As many parts as the format allows.
pub const LARGE: Size = Size {
    value_types: 12,
    types: 24,
    attributes: 32,
    associations: 16,
};

/// Few types and many links, where the rules on links are all that differs.
pub const LINKED: Size = Size {
    value_types: 0,
    types: 2,
    attributes: 0,
    associations: 3,
};

/// Many types and few links: more names than objects.
pub const WIDE: Size = Size {
    value_types: 3,
    types: 8,
    attributes: 6,
    associations: 4,
};

/// A diagram of either edition and of at most this size that keeps every demand of the file format.
pub fn diagram(random: &mut Random, size: Size) -> DiagramPlan {
    let mut plan = DiagramPlan {
        edition: *random.pick(&[1, 2]),
        ..DiagramPlan::default()
    };
    for _ in 0..random.between(0, size.value_types) {
        add_value_type(random, &mut plan);
    }
    for _ in 0..random.between(1, size.types) {
        add_type(random, &mut plan);
    }
    for _ in 0..random.between(0, size.attributes) {
        add_attribute(random, &mut plan);
    }
    for _ in 0..random.between(0, size.associations) {
        add_association(random, &mut plan);
    }
    plan
}

/// The same diagram made easy to satisfy: classes only, and hardly any lower limit, so that what
/// is left to differ are links.
pub fn loosened(random: &mut Random, plan: &DiagramPlan) -> DiagramPlan {
    let mut result = plan.clone();
    for t in &mut result.types {
        t.kind = 0;
    }
    for a in &mut result.associations {
        for end in [&mut a.left, &mut a.right] {
            end.low = u16::from(end.up > 0 && random.chance(1, 6));
        }
    }
    result
}

/// Adds a value type, plain or with a few constants.
pub fn add_value_type(random: &mut Random, plan: &mut DiagramPlan) {
    let taken: Vec<&[u8]> = plan.value_types.iter().map(|v| v.name.as_slice()).collect();
    let name = fresh(random, &VALUE_TYPES, &taken);
    let mut constants: Vec<Vec<u8>> = Vec::new();
    for _ in 0..random.below(3) {
        let taken: Vec<&[u8]> = constants.iter().map(Vec::as_slice).collect();
        constants.push(fresh(random, &CONSTANTS, &taken));
    }
    plan.value_types.push(ValueType { name, constants });
}

/// Adds a type of any kind, below some of the types that stand before it.
pub fn add_type(random: &mut Random, plan: &mut DiagramPlan) {
    let kind = *random.pick(&[0, 0, 0, 0, 1, 2, 3]);
    let taken: Vec<&[u8]> = plan.types.iter().map(|t| t.name.as_slice()).collect();
    let name = fresh(random, &TYPES, &taken);
    let mut parents = Vec::new();
    for at in 0..plan.types.len() {
        let allowed = kind != 2 || plan.types[at].kind == 2;
        if allowed && parents.len() < 4 && random.chance(1, 4) {
            parents.push(at as u8);
        }
    }
    plan.types.push(Type {
        kind,
        name,
        parents,
    });
}

/// Adds an attribute, often of a name that another owner has too.
pub fn add_attribute(random: &mut Random, plan: &mut DiagramPlan) {
    if plan.types.is_empty() || plan.value_types.is_empty() {
        return;
    }
    plan.attributes.push(Attribute {
        owner: random.below(plan.types.len()) as u8,
        name: one_of(random, &ATTRIBUTES),
        value_type: random.below(plan.value_types.len()) as u8,
    });
}

/// Adds an association of any form and arrow.
pub fn add_association(random: &mut Random, plan: &mut DiagramPlan) {
    if plan.types.is_empty() {
        return;
    }
    let form = u8::from(random.chance(1, 3));
    let arrow = *random.pick(if form == 1 { &[1, 3, 4] } else { &[1, 2, 3, 4] });
    let left = end(random, plan);
    let right = end(random, plan);
    plan.associations.push(Association {
        form,
        arrow,
        left,
        right,
    });
}

/// An end at any type, with limits that are mostly small.
fn end(random: &mut Random, plan: &DiagramPlan) -> End {
    let (low, up) = limits(random, plan.edition);
    End {
        of: random.below(plan.types.len()) as u8,
        low,
        up,
        role: one_of(random, &ROLES),
    }
}

/// Limits that a file of this edition may hold, mostly ones that few objects can meet.
pub fn limits(random: &mut Random, edition: u8) -> (u16, u16) {
    let low = *random.pick(&[0, 0, 0, 0, 1, 1, 2, 3]);
    let up = match random.below(8) {
        0 | 1 => NO_UPPER_LIMIT,
        2 => low,
        3 => large_limit(random, edition),
        _ => low + random.below(3) as u16,
    };
    if random.chance(1, 60) {
        let low = large_limit(random, edition);
        return (low, *random.pick(&[low, largest(edition), NO_UPPER_LIMIT]));
    }
    (low, up)
}

/// A large limit of this edition; some of edition 2 would be small if they were cut to a byte.
fn large_limit(random: &mut Random, edition: u8) -> u16 {
    *random.pick(match edition {
        1 => &[100],
        _ => &[100, 101, 255, 256, 257, 258, 4_000],
    })
}
