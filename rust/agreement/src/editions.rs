//! Does the product say the same of a diagram, whichever edition its file has?

use crate::alike::{self, not_told_apart, Tally};
use crate::questions::records;
use generators::diagrams::{diagram, loosened, Size, LARGE, LINKED, SMALL, TINY, WIDE};
use generators::editions::in_edition;
use generators::edits::edited;
use generators::fillings::searched_soon;
use generators::hex::hex;
use generators::{CallPlan, DiagramPlan, Random};

/// Sizes of diagrams.
const SIZES: [Size; 5] = [TINY, SMALL, LINKED, WIDE, LARGE];

/// The files of a diagram, of edition 1 and of edition 2, where edition 1 has its limits.
fn of_both_editions(plan: &DiagramPlan) -> Option<[Vec<u8>; 2]> {
    let narrow = in_edition(1, plan)?;
    let wide = in_edition(2, plan)?;
    Some([narrow.file(), wide.file()])
}

/// The product does not tell the two files of the diagram of a seed apart.
pub fn editions_do_not_matter(seed: u64, tally: &mut Tally) {
    let mut random = Random::new(seed);
    loop {
        let size = *random.pick(&SIZES);
        let mut plan = diagram(&mut random, size);
        if random.chance(1, 2) {
            plan = loosened(&mut random, &plan);
        }
        if let Some(files) = of_both_editions(&plan) {
            let records = records(&mut random, &plan, 12);
            return not_told_apart(seed, &files, &records, tally);
        }
    }
}

/// Two diagrams compared from files of every two editions: the reply is the same, and so is the
/// record handed out. Gives whether there was a difference.
pub fn compared_alike(seed: u64) -> bool {
    let mut random = Random::new(seed);
    loop {
        let plan = diagram(&mut random, TINY);
        let other = edited(&mut random, &plan);
        let (Some(old), Some(new)) = (of_both_editions(&plan), of_both_editions(&other)) else {
            continue;
        };
        let bound = (0..=3).rev().find(|bound| searched_soon(&plan, *bound));
        let load = |place, files: &[Vec<u8>; 2], edition: usize| CallPlan::Load {
            place,
            file: files[edition - 1].clone(),
        };
        let editions = [[1, 1], [1, 2], [2, 1], [2, 2]];
        let loads = editions.map(|[one, two]| [load(0, &old, one), load(1, &new, two)]);
        let shown = format!("seed {seed}\nold: {}\nnew: {}", hex(&old[1]), hex(&new[1]));
        return alike::compared_alike(&loads, bound.unwrap_or(0), &shown);
    }
}
