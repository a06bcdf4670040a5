//! Upper limits that only many objects pass, and such a limit lowered by one.

use crate::plan::{DiagramPlan, End};
use crate::random::Random;

/// The diagram with upper limits of 3 to 8 at some of its ends.
pub fn widened(random: &mut Random, plan: &DiagramPlan) -> DiagramPlan {
    let mut result = plan.clone();
    for end in ends(&mut result) {
        if random.chance(1, 2) {
            end.up = end.low.max(random.between(3, 8) as u16);
        }
    }
    result
}

/// The diagram with one upper limit of at most 8 lowered by one, where there is such a limit.
pub fn tightened(random: &mut Random, plan: &DiagramPlan) -> DiagramPlan {
    let mut result = plan.clone();
    let all = ends(&mut result);
    let mut fitting: Vec<&mut End> = all.filter(|e| e.low < e.up && e.up <= 8).collect();
    let count = fitting.len();
    if count > 0 {
        fitting[random.below(count)].up -= 1;
    }
    result
}

/// The ends of all associations.
fn ends(plan: &mut DiagramPlan) -> impl Iterator<Item = &mut End> {
    let associations = plan.associations.iter_mut();
    associations.flat_map(|a| [&mut a.left, &mut a.right])
}
