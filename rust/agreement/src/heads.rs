//! Does the product say the same of two diagrams that differ only in ↔ against no arrowhead?

use crate::alike::{not_told_apart, Tally};
use crate::questions::records;
use generators::diagrams::{loosened, Size, LARGE, LINKED, SMALL, TINY, WIDE};
use generators::heads::{headed_pair, reheaded};
use generators::Random;

/// Sizes of pairs.
const SIZES: [Size; 5] = [TINY, SMALL, LINKED, WIDE, LARGE];

/// The product does not tell the pair of a seed apart.
pub fn heads_do_not_matter(seed: u64, tally: &mut Tally) {
    let mut random = Random::new(seed);
    let size = *random.pick(&SIZES);
    let (mut one, mut other) = headed_pair(&mut random, size);
    if random.chance(1, 2) {
        one = loosened(&mut random, &one);
        other = reheaded(&mut random, &one);
    }
    let records = records(&mut random, &one, 12);
    not_told_apart(seed, &[one.file(), other.file()], &records, tally);
}
