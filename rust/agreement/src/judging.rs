//! Are records judged and evaluated, and diagrams compiled, alike?

use crate::product;
use crate::questions::{answers, questions, records};
use brute::{read_diagram, Entry};
use generators::diagrams::{diagram, Size, SMALL};
use generators::edits::edited;
use generators::hex::hex;
use generators::{CallPlan, DiagramPlan, Random};

/// How often each rule was the lowest broken (index 0: legal), and how often evaluate found a
/// predicate that does not hold.
#[derive(Default, Debug)]
pub struct Tally {
    pub rules: [usize; 10],
    pub false_predicates: usize,
    pub all_hold: usize,
    pub kinds: [usize; 7],
}

const LARGE: Size = Size {
    value_types: 6,
    types: 24,
    attributes: 32,
    associations: 16,
};

/// Judges the records of a seed under a diagram and under a small edit of it.
pub fn judging_agrees(seed: u64, tally: &mut Tally) {
    let mut random = Random::new(seed);
    let size = if random.chance(1, 10) { LARGE } else { SMALL };
    let plan = diagram(&mut random, size);
    let other = edited(&mut random, &plan);
    let records = records(&mut random, &plan, 30);
    under(seed, &plan, &records, tally);
    under(seed, &other, &records, tally);
}

/// Compiles the diagram, judges and evaluates every record, and compares each reply.
fn under(seed: u64, plan: &DiagramPlan, records: &[Vec<u8>], tally: &mut Tally) {
    let place = seed as u8 % 2;
    let file = plan.file();
    let diagram = read_diagram(&file).expect("generated diagrams are accepted");
    let load = CallPlan::Load { place, file };
    let calls = [vec![load], questions(place, records)].concat();
    let answers = answers(&diagram, records);
    count(tally, &answers);
    let expected = [vec![vec![0]], answers].concat();
    for ((call, got), wanted) in calls.iter().zip(product::replies(&calls)).zip(&expected) {
        assert_eq!(got, *wanted, "{}", message(seed, plan, call));
    }
}

/// What to say about a reply that is not the independent one.
fn message(seed: u64, plan: &DiagramPlan, call: &CallPlan) -> String {
    let (name, record) = match call {
        CallPlan::Judge { file, .. } => ("judge", hex(file)),
        CallPlan::Evaluate { file, .. } => ("evaluate", hex(file)),
        CallPlan::Compile { .. } => ("compile", String::new()),
        _ => ("load", String::new()),
    };
    format!(
        "seed {seed}: the product's reply to {name} (left) is not the independent one (right)\n\
         diagram: {}\nrecord: {record}",
        hex(&plan.file())
    )
}

/// Counts what the answers show: the kinds of the list, and of each record the rule and whether a
/// predicate does not hold.
fn count(tally: &mut Tally, answers: &[Vec<u8>]) {
    let (compiled, judged) = (&answers[0], &answers[1..]);
    let number = compiled[1];
    for entry in compiled[2..]
        .chunks(size_of::<Entry>())
        .take(usize::from(number))
    {
        tally.kinds[usize::from(entry[0])] += 1;
    }
    for pair in judged.chunks(2) {
        let (rule, first) = (pair[0][1], pair[1][1]);
        tally.rules[usize::from(rule)] += 1;
        if first < number {
            tally.false_predicates += 1;
        } else {
            tally.all_hold += 1;
        }
    }
}
