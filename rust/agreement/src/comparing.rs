//! Do both comparers find the same difference between two releases?

use crate::product;
use brute::{compare_within, judge, read_diagram, read_record, Diagram};
use generators::diagrams::{diagram, loosened, Size, LARGE, LINKED, SMALL, TINY, WIDE};
use generators::edits::{edited, redrawn};
use generators::fillings::searched_soon;
use generators::heads::reheaded;
use generators::hex::hex;
use generators::{CallPlan, DiagramPlan, Random};

/// Objects up to which pairs are compared, but for the largest.
const BOUND: usize = 3;

/// Nodes that the independent search may visit for a pair.
const BUDGET: u64 = 400_000;

/// A size of pairs, and the bound up to which pairs of that size are compared.
type SizeAndBound = (Size, usize);

/// Pairs of every size; the largest are compared with one object at most.
const SIZES: [SizeAndBound; 6] = [
    (TINY, BOUND),
    (SMALL, BOUND),
    (LINKED, BOUND),
    (LINKED, BOUND),
    (WIDE, BOUND),
    (LARGE, 1),
];

/// Small pairs, with one object more.
const FOUR_OBJECTS: [SizeAndBound; 2] = [(TINY, 4), (LINKED, 4)];

/// How many pairs had a difference (by its object count, and by the rule that new breaks), had
/// none, or were left out.
#[derive(Default, Debug)]
pub struct Tally {
    pub differences: [usize; BOUND + 1],
    /// Differences of one object more.
    pub of_four: usize,
    pub rules: [usize; 10],
    pub no_difference: usize,
    pub skipped: usize,
}

/// Compares the pair of a seed at every bound up to that of its size.
pub fn comparing_agrees(seed: u64, tally: &mut Tally) {
    agrees(seed, &SIZES, tally);
}

/// Compares a small pair at every bound up to 4.
pub fn four_objects_agree(seed: u64, tally: &mut Tally) {
    agrees(seed, &FOUR_OBJECTS, tally);
}

/// Compares the pair of a seed, of one of these sizes, at every bound.
fn agrees(seed: u64, sizes: &[SizeAndBound], tally: &mut Tally) {
    let (old, new, most) = pair(seed, sizes);
    let (old_file, new_file) = (old.file(), new.file());
    let old = read_diagram(&old_file).expect("generated diagrams are accepted");
    let new = read_diagram(&new_file).expect("edited diagrams are accepted");
    let Ok(found) = compare_within(&old, &new, most, BUDGET) else {
        tally.skipped += 1;
        return;
    };
    let least = found.as_ref().map(|record| record.objects.len());
    match &found {
        Some(record) => {
            match tally.differences.get_mut(record.objects.len()) {
                Some(times) => *times += 1,
                None => tally.of_four += 1,
            }
            tally.rules[usize::from(judge(&new, record))] += 1;
        }
        None => tally.no_difference += 1,
    }
    let shown = format!(
        "seed {seed}\nold: {}\nnew: {}",
        hex(&old_file),
        hex(&new_file)
    );
    let mut calls = vec![load(0, old_file), load(1, new_file)];
    for bound in 0..=most as u8 {
        calls.push(CallPlan::Compare { bound });
        calls.push(CallPlan::HandOut { room: 60_000 });
    }
    let replies = product::replies(&calls);
    for (bound, reply) in replies[2..].chunks(2).enumerate() {
        let expected = least.filter(|count| *count <= bound);
        same_reply(&shown, bound, expected, &reply[0]);
        handed_out(&shown, bound, expected, &reply[1], (&old, &new));
    }
}

/// A diagram and a small edit of it or its heads exchanged, in either order, that can be searched up
/// to the bound beside them.
fn pair(seed: u64, sizes: &[SizeAndBound]) -> (DiagramPlan, DiagramPlan, usize) {
    let mut random = Random::new(seed);
    loop {
        let (size, bound) = *random.pick(sizes);
        let mut one = diagram(&mut random, size);
        if random.chance(1, 2) {
            one = loosened(&mut random, &one);
        }
        let other = match random.below(9) {
            0 => reheaded(&mut random, &one),
            1..=3 => redrawn(&mut random, &one),
            _ => edited(&mut random, &one),
        };
        let (old, new) = match random.chance(1, 2) {
            true => (one, other),
            false => (other, one),
        };
        if searched_soon(&old, bound) {
            return (old, new, bound);
        }
    }
}

/// A load, in short.
fn load(place: u8, file: Vec<u8>) -> CallPlan {
    CallPlan::Load { place, file }
}

/// The reply to compare must be the independent one.
fn same_reply(shown: &str, bound: usize, expected: Option<usize>, got: &[u8]) {
    let wanted = match expected {
        None => vec![0, 0],
        Some(count) => vec![0, 1, count as u8],
    };
    assert_eq!(
        got, wanted,
        "bound {bound}: the product's reply (left) is not the independent one (right)\n{shown}"
    );
}

/// What is handed out must be a record of that many objects, legal for old and illegal for new.
fn handed_out(
    shown: &str,
    bound: usize,
    expected: Option<usize>,
    got: &[u8],
    (old, new): (&Diagram, &Diagram),
) {
    let length = u32::from_be_bytes([got[1], got[2], got[3], got[4]]) as usize;
    let Some(count) = expected else {
        assert_eq!(
            got[0], 22,
            "bound {bound}: a witness without a difference\n{shown}"
        );
        return;
    };
    assert_eq!(
        got[0], 0,
        "bound {bound}: no witness after a difference\n{shown}"
    );
    let (file, rest) = got[5..].split_at(length);
    let shown = format!("bound {bound}, witness {}\n{shown}", hex(file));
    assert!(
        rest.iter().all(|byte| *byte == 0),
        "bytes behind it changed\n{shown}"
    );
    let record = read_record(file);
    let record = record.unwrap_or_else(|refusal| panic!("read back: refusal {refusal}\n{shown}"));
    assert_eq!(record.objects.len(), count, "another object count\n{shown}");
    assert_eq!(judge(old, &record), 0, "illegal for old\n{shown}");
    assert_ne!(judge(new, &record), 0, "legal for new\n{shown}");
}
