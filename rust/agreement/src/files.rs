//! Are the same files accepted, and refused for the same reason?

use crate::product;
use brute::{read_diagram, read_record};
use generators::damage::{cuts, damaged};
use generators::diagrams::{diagram, LARGE, SMALL};
use generators::edition_faults::with_edition_fault;
use generators::faults::faulty;
use generators::fields::{file, Field};
use generators::hex::hex;
use generators::records::record;
use generators::{CallPlan, DiagramPlan, Random};

/// How often each reply came: index 0 counts accepted files, the others refusals by number.
pub type Tally = [usize; 11];

/// The diagram files of a seed: one diagram whole, cut, damaged, and with faults of its edition.
pub fn diagram_files(seed: u64) -> Vec<Vec<u8>> {
    let mut random = Random::new(seed);
    let size = if random.chance(1, 8) { LARGE } else { SMALL };
    let plan = diagram(&mut random, size);
    let mut files = variants(&mut random, &plan.fields());
    for _ in 0..20 {
        files.push(faulty(&mut random, &plan).file());
    }
    for _ in 0..10 {
        files.push(with_edition_fault(&mut random, &plan));
    }
    files
}

/// The record files of a seed: one record whole, cut and damaged.
pub fn record_files(seed: u64) -> Vec<Vec<u8>> {
    let mut random = Random::new(seed);
    let plan = diagram(&mut random, SMALL);
    let fields = record(&mut random, &plan, 8).fields();
    variants(&mut random, &fields)
}

/// The whole file first, then a cut at every place now and then, then many kinds of damage.
fn variants(random: &mut Random, fields: &[Field]) -> Vec<Vec<u8>> {
    let whole = file(fields);
    let mut files = vec![whole.clone()];
    if random.chance(1, 8) {
        files.extend(cuts(&whole));
    }
    for _ in 0..40 {
        files.push(damaged(random, fields));
    }
    files
}

/// Loads each file in the product and reads it independently; both must say the same.
pub fn diagrams_agree(seed: u64, files: &[Vec<u8>], tally: &mut Tally) {
    let load = |(at, file): (usize, &Vec<u8>)| CallPlan::Load {
        place: at as u8 % 2,
        file: file.clone(),
    };
    let calls: Vec<CallPlan> = files.iter().enumerate().map(load).collect();
    for (file, reply) in files.iter().zip(product::replies(&calls)) {
        let expected = read_diagram(file).err().unwrap_or(0);
        same("diagram", seed, file, expected, reply[0], tally);
    }
}

/// Judges each file in the product under the empty diagram and reads it independently.
pub fn records_agree(seed: u64, files: &[Vec<u8>], tally: &mut Tally) {
    let mut calls = vec![CallPlan::Load {
        place: 1,
        file: DiagramPlan::default().file(),
    }];
    for (at, file) in files.iter().enumerate() {
        let (place, file) = (1, file.clone());
        calls.push(match at % 2 {
            0 => CallPlan::Judge { place, file },
            _ => CallPlan::Evaluate { place, file },
        });
    }
    let replies = product::replies(&calls);
    for (file, reply) in files.iter().zip(&replies[1..]) {
        let expected = read_record(file).err().unwrap_or(0);
        same("record", seed, file, expected, reply[0], tally);
    }
}

/// Compares the two verdicts on a file and counts them.
fn same(kind: &str, seed: u64, file: &[u8], expected: u8, got: u8, tally: &mut Tally) {
    assert_eq!(
        got,
        expected,
        "seed {seed}: the product's refusal of a {kind} file (left; 0 is accepted) is not the \
         independent reader's (right)\n{}",
        hex(file)
    );
    tally[usize::from(got)] += 1;
}
