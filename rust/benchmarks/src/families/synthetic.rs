//! Made-up diagrams with 5 to 24 types and as many associations, 16 at most, and small edits: of
//! any kind, an upper limit lowered, and an upper limit raised.

use super::pair;
use crate::inputs::Pair;
use generators::editions::NO_UPPER_LIMIT;
use generators::edits::edited;
use generators::names::numbered;
use generators::upper_limits::tightened;
use generators::{Association, DiagramPlan, End, Random, Type};

/// Numbers of types.
const TYPES: [usize; 5] = [5, 10, 15, 20, 24];

/// Limits of an end: few that demand something, so that there are legal sites.
const LIMITS: [(u16, u16); 10] = [
    (0, 1),
    (0, 1),
    (0, 2),
    (0, 3),
    (0, 4),
    (0, NO_UPPER_LIMIT),
    (0, NO_UPPER_LIMIT),
    (1, 1),
    (1, 2),
    (1, NO_UPPER_LIMIT),
];

/// All sizes.
pub fn pairs() -> Vec<Pair> {
    let mut pairs = Vec::new();
    for types in TYPES {
        let mut random = Random::new(types as u64);
        let [one, two, three] = [(); 3].map(|()| made_up(&mut random, types));
        let any = edited(&mut random, &one);
        let lower = tightened(&mut random, &two);
        let higher = tightened(&mut random, &three);
        let size = format!("{types} types, {} associations", types.min(16));
        pairs.push(pair(&format!("{size}, edited"), &one, &any));
        pairs.push(pair(&format!("{size}, limit lowered"), &two, &lower));
        pairs.push(pair(&format!("{size}, limit raised"), &higher, &three));
    }
    pairs
}

/// A diagram with so many types, and roles that all differ.
fn made_up(random: &mut Random, types: usize) -> DiagramPlan {
    let mut plan = DiagramPlan::default();
    for at in 0..types {
        let parents = match at > 0 && random.chance(1, 2) {
            true => vec![random.below(at) as u8],
            false => Vec::new(),
        };
        plan.types.push(Type {
            kind: *random.pick(&[0, 0, 0, 0, 0, 0, 0, 1]),
            name: numbered(b"T", at),
            parents,
        });
    }
    for at in 0..types.min(16) {
        let form = u8::from(random.chance(1, 3));
        plan.associations.push(Association {
            form,
            arrow: *random.pick(&[1, 3, 4]),
            left: end(random, types, numbered(b"l", at)),
            right: end(random, types, numbered(b"r", at)),
        });
    }
    plan
}

/// An end at any type.
fn end(random: &mut Random, types: usize, role: Vec<u8>) -> End {
    let (low, up) = *random.pick(&LIMITS);
    End {
        of: random.below(types) as u8,
        low,
        up,
        role,
    }
}
