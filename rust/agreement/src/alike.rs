//! Does the product say the same, whichever of two files a diagram comes from?

use crate::product;
use crate::questions::{answers, questions};
use brute::read_diagram;
use generators::hex::hex;
use generators::CallPlan;

/// The largest bound.
const BOUND: u8 = 8;

/// How often each rule was the lowest broken (index 0: legal).
#[derive(Default, Debug)]
pub struct Tally {
    pub rules: [usize; 10],
}

/// Two files have one compiled list, one judgement and evaluation of each record, which are the
/// independent ones, and no difference in either direction at any bound.
pub fn not_told_apart(seed: u64, files: &[Vec<u8>; 2], records: &[Vec<u8>], tally: &mut Tally) {
    let [one, other] = files.each_ref().map(|file| hex(file));
    let shown = format!("seed {seed}\none: {one}\nother: {other}");
    said_alike(files, records, &shown, tally);
    for [old, new] in [[0, 1], [1, 0]] {
        never_different(&files[old], &files[new], &shown);
    }
}

/// Compiles both diagrams, judges and evaluates every record under both.
fn said_alike(files: &[Vec<u8>; 2], records: &[Vec<u8>], shown: &str, tally: &mut Tally) {
    let one = read_diagram(&files[0]).expect("generated diagrams are accepted");
    let expected = answers(&one, records);
    for judged in expected[1..].iter().step_by(2) {
        tally.rules[usize::from(judged[1])] += 1;
    }
    for file in files {
        let calls = [vec![load(0, file)], questions(0, records)].concat();
        let replies = product::replies(&calls);
        assert_eq!(replies[0], [0], "{shown}");
        for (got, wanted) in replies[1..].iter().zip(&expected) {
            assert_eq!(got, wanted, "{shown}");
        }
    }
}

/// Compares the two at every bound.
fn never_different(old: &[u8], new: &[u8], shown: &str) {
    let mut calls = vec![load(0, old), load(1, new)];
    calls.extend((0..=BOUND).map(|bound| CallPlan::Compare { bound }));
    let replies = product::replies(&calls);
    for (bound, reply) in replies[2..].iter().enumerate() {
        assert_eq!(*reply, [0, 0], "bound {bound}: a difference\n{shown}");
    }
}

/// A load, in short.
fn load(place: u8, file: &[u8]) -> CallPlan {
    CallPlan::Load {
        place,
        file: file.to_vec(),
    }
}

/// Whichever of these pairs of loads fills the places, the reply to compare and the record handed
/// out are the same. Gives whether there was a difference.
pub fn compared_alike(loads: &[[CallPlan; 2]], bound: usize, shown: &str) -> bool {
    let asked = |pair: &[CallPlan; 2]| {
        let mut calls = pair.to_vec();
        calls.push(CallPlan::Compare { bound: bound as u8 });
        calls.push(CallPlan::HandOut { room: 60_000 });
        product::replies(&calls)
    };
    let first = asked(&loads[0]);
    for pair in &loads[1..] {
        assert!(asked(pair) == first, "other replies\n{shown}");
    }
    first[2].len() == 3
}
