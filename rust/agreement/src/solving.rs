//! Does the solver cadical find the same difference as the product, and as brute force?

use crate::product;
use brute::{compare_within, read_diagram};
use generators::diagrams::{diagram, loosened, Size, SMALL, TINY};
use generators::edits::{edited, redrawn};
use generators::heads::reheaded;
use generators::hex::hex;
use generators::upper_limits::{tightened, widened};
use generators::{CallPlan, DiagramPlan, Random};
use sat::Found;
use std::time::{Duration, Instant};

/// Objects up to which the solver looks.
const BOUND: usize = 8;

/// Objects up to which brute force looks, and nodes that it may visit.
const BRUTE_BOUND: usize = 3;
const BRUTE_BUDGET: u64 = 400_000;

/// The solver's time for a pair.
const LIMIT: Duration = Duration::from_secs(20);

/// Larger bounds are left out where the growth of the product's time so far says that the next one
/// would take this long.
const TOO_LONG: Duration = Duration::from_secs(5);

/// Sizes of pairs.
const SIZES: [Size; 4] = [
    TINY,
    SMALL,
    Size {
        value_types: 0,
        types: 3,
        attributes: 0,
        associations: 4,
    },
    Size {
        value_types: 3,
        types: 12,
        attributes: 8,
        associations: 8,
    },
];

/// How many pairs had a difference, by its object count, or none; at how many the solver ran out
/// of time, so that they were compared up to the bound before; how many brute force answered too;
/// at how many the product's larger bounds were left out.
#[derive(Default, Debug)]
pub struct Tally {
    pub differences: [usize; BOUND + 1],
    pub no_difference: usize,
    pub timed_out: usize,
    pub by_brute_force: usize,
    pub left_out: usize,
}

/// Compares the pair of a seed in all three ways.
pub fn solver_agrees(seed: u64, tally: &mut Tally) {
    let (old_plan, new_plan) = pair(seed);
    let (old_file, new_file) = (old_plan.file(), new_plan.file());
    let shown = format!(
        "seed {seed}\nold: {}\nnew: {}",
        hex(&old_file),
        hex(&new_file)
    );
    let old = read_diagram(&old_file).expect("generated diagrams are accepted");
    let new = read_diagram(&new_file).expect("edited diagrams are accepted");
    let steps = sat::steps(&old, &new, BOUND, LIMIT);
    let last = steps.len() - 1;
    let (least, known) = match steps[last].found {
        Found::Difference(_) => (Some(last), BOUND),
        Found::NoDifference => (None, BOUND),
        Found::TimedOut => (None, last.saturating_sub(1)),
    };
    match (least, known) {
        (Some(count), _) => tally.differences[count] += 1,
        (None, BOUND) => tally.no_difference += 1,
        (None, _) => tally.timed_out += 1,
    }
    let bound = known.min(BRUTE_BOUND);
    if let Ok(found) = compare_within(&old, &new, bound, BRUTE_BUDGET) {
        let count = found.map(|record| record.objects.len());
        let expected = least.filter(|count| *count <= bound);
        assert_eq!(count, expected, "brute force, bound {bound}\n{shown}");
        tally.by_brute_force += 1;
    }
    let mut before = Duration::ZERO;
    for bound in 0..=known {
        let begun = Instant::now();
        let reply = compared([&old_file, &new_file], bound);
        let expected = least.filter(|count| *count <= bound);
        assert_eq!(reply, expected, "the product, bound {bound}\n{shown}");
        let time = begun.elapsed();
        if bound < known && expected_next(before, time) > TOO_LONG {
            tally.left_out += 1;
            break;
        }
        before = time;
    }
}

/// The time that the next bound will take if it grows as it did from the bound before to this one.
fn expected_next(before: Duration, time: Duration) -> Duration {
    let growth = time.as_secs_f64() / before.as_secs_f64().max(0.001);
    time.mul_f64(growth.max(1.0))
}

/// A diagram and a small edit of it or its heads exchanged, in either order.
fn pair(seed: u64) -> (DiagramPlan, DiagramPlan) {
    let mut random = Random::new(seed);
    let size = *random.pick(&SIZES);
    let mut one = diagram(&mut random, size);
    if random.chance(1, 2) {
        one = loosened(&mut random, &one);
    }
    if random.chance(1, 2) {
        one = widened(&mut random, &one);
    }
    let other = match random.below(7) {
        0 => reheaded(&mut random, &one),
        1 | 2 => redrawn(&mut random, &one),
        3 | 4 => tightened(&mut random, &one),
        _ => edited(&mut random, &one),
    };
    match random.chance(1, 2) {
        true => (one, other),
        false => (other, one),
    }
}

/// The object count of the product's difference, if it finds one.
fn compared([old, new]: [&Vec<u8>; 2], bound: usize) -> Option<usize> {
    let load = |place, file: &Vec<u8>| CallPlan::Load {
        place,
        file: file.clone(),
    };
    let bound = bound as u8;
    let calls = [load(0, old), load(1, new), CallPlan::Compare { bound }];
    let reply = product::replies(&calls).pop().expect("a reply to compare");
    assert_eq!(reply[0], 0, "compare is not refused");
    (reply[1] == 1).then(|| usize::from(reply[2]))
}
