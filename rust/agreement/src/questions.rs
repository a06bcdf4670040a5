//! What is asked about a diagram in a place, and the independent replies.

use brute::{compile, evaluate, judge, read_record, Diagram, Entry};
use generators::records::record;
use generators::{CallPlan, DiagramPlan, Random};

/// So many record files made up for a diagram, with up to 8 objects.
pub fn records(random: &mut Random, plan: &DiagramPlan, number: usize) -> Vec<Vec<u8>> {
    let one = |_| {
        let most = random.between(0, 8);
        record(random, plan, most).file()
    };
    (0..number).map(one).collect()
}

/// Compile, and judge and evaluate of each record.
pub fn questions(place: u8, records: &[Vec<u8>]) -> Vec<CallPlan> {
    let mut calls = vec![CallPlan::Compile { place }];
    for file in records {
        let (judged, evaluated) = (file.clone(), file.clone());
        calls.push(CallPlan::Judge {
            place,
            file: judged,
        });
        calls.push(CallPlan::Evaluate {
            place,
            file: evaluated,
        });
    }
    calls
}

/// The independent replies to these questions; compile's is the number, the list, and zeros up to
/// 64 entries.
pub fn answers(diagram: &Diagram, records: &[Vec<u8>]) -> Vec<Vec<u8>> {
    let list = compile(diagram);
    let mut compiled = vec![0, list.len() as u8];
    compiled.extend(list.concat());
    compiled.resize(2 + 64 * size_of::<Entry>(), 0);
    let mut replies = vec![compiled];
    for file in records {
        let record = read_record(file).expect("generated records are accepted");
        replies.push(vec![0, judge(diagram, &record)]);
        replies.push(vec![0, evaluate(diagram, &record)]);
    }
    replies
}
