//! The two editions of a diagram file, which differ in the limits of an association alone.

use crate::plan::{DiagramPlan, End};
use crate::random::Random;

/// How a plan of either edition says that there is no upper limit.
pub const NO_UPPER_LIMIT: u16 = 65_535;

/// The same in a file of edition 1.
const NO_UPPER_LIMIT_1: u8 = 255;

/// The largest finite limit of an edition.
pub fn largest(edition: u8) -> u16 {
    match edition {
        1 => 100,
        _ => 4_000,
    }
}

/// Adds a limit to a content, in two bytes from edition 2 on.
pub fn put_limit(content: &mut Vec<u8>, edition: u8, limit: u16) {
    match (edition, limit) {
        (2.., _) => content.extend_from_slice(&limit.to_be_bytes()),
        (_, NO_UPPER_LIMIT) => content.push(NO_UPPER_LIMIT_1),
        _ => content.push(u8::try_from(limit).expect("a limit of edition 1 is a byte")),
    }
}

/// Whether an end of an edition may have these limits.
fn may_have(edition: u8, end: &End) -> bool {
    let largest = largest(edition);
    let up_fits = end.low <= end.up && end.up <= largest || end.up == NO_UPPER_LIMIT;
    end.low <= largest && up_fits
}

/// The same diagram in an edition, if that has its limits.
pub fn in_edition(edition: u8, plan: &DiagramPlan) -> Option<DiagramPlan> {
    let mut ends = plan.associations.iter().flat_map(|a| [&a.left, &a.right]);
    let fits = ends.all(|end| may_have(edition, end));
    fits.then(|| DiagramPlan {
        edition,
        ..plan.clone()
    })
}

/// The same diagram, now and then in the other edition, if that has its limits.
pub fn in_any_edition(random: &mut Random, plan: &DiagramPlan) -> DiagramPlan {
    let edition = match random.chance(1, 3) {
        true => 3 - plan.edition,
        false => plan.edition,
    };
    in_edition(edition, plan).unwrap_or_else(|| plan.clone())
}
