//! Pairs of diagrams that differ only in ↔ against no arrowhead.

use crate::diagrams::{diagram, Size};
use crate::plan::{Association, DiagramPlan};
use crate::random::Random;

/// A diagram of at most this size that has an arrow 3 or 4, and one that differs from it in such
/// arrows only.
pub fn headed_pair(random: &mut Random, size: Size) -> (DiagramPlan, DiagramPlan) {
    loop {
        let plan = diagram(random, size);
        let other = reheaded(random, &plan);
        if other != plan {
            return (plan, other);
        }
    }
}

/// The diagram with arrow 3 for 4 and 4 for 3 at some of its associations, at one at least where
/// it has any of these arrows.
pub fn reheaded(random: &mut Random, plan: &DiagramPlan) -> DiagramPlan {
    let mut result = plan.clone();
    let associations = result.associations.iter_mut();
    let mut mirrored: Vec<&mut Association> = associations.filter(|a| a.is_mirrored()).collect();
    random.shuffle(&mut mirrored);
    for (place, a) in mirrored.into_iter().enumerate() {
        if place == 0 || random.chance(1, 2) {
            a.arrow = 7 - a.arrow;
        }
    }
    result
}
