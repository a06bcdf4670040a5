//! Judging records.

use crate::inputs::shelf_and_card;
use crate::{table, timing};
use boundary::{encode, replay, Call};
use generators::diagrams::{diagram, SMALL};
use generators::records::record;
use generators::{Link, Random, RecordPlan};
use std::hint::black_box;

/// Judges in one list, so that what comes once for a list is spread.
const CALLS: usize = 1_000;

/// Prints the times for records with and without links.
pub fn report() {
    table::heading("Judging a record file (judge)");
    let p = shelf_and_card(4);
    records("P, one Shelf and no links", &p, &[shelf(0)]);
    records("P, one Shelf and four linked Cards", &p, &[shelf(4)]);
    let mut random = Random::new(1);
    let plan = diagram(&mut random, SMALL);
    let mixed: Vec<Vec<u8>> = (0..50)
        .map(|_| record(&mut random, &plan, 8).file())
        .collect();
    records("a generated diagram, mixed records", &plan.file(), &mixed);
}

/// A Shelf with so many linked Cards.
fn shelf(cards: u8) -> Vec<u8> {
    let mut plan = RecordPlan {
        objects: vec![b"Shelf".to_vec()],
        ..RecordPlan::default()
    };
    for card in 1..=cards {
        plan.objects.push(b"Card".to_vec());
        plan.links.push(Link {
            from: 0,
            role: b"cards".to_vec(),
            to: card,
        });
    }
    plan.file()
}

/// Prints the times for some records under one diagram, file read and judged.
fn records(name: &str, diagram: &[u8], files: &[Vec<u8>]) {
    let place = 0;
    let mut calls = vec![Call::Load {
        place,
        file: diagram,
    }];
    let judged = files.iter().cycle().take(CALLS);
    calls.extend(judged.clone().map(|file| Call::Judge { place, file }));
    let coded = encode(&calls);
    let mut replies = vec![0; boundary::room_for(&calls)];
    let product = timing::for_each_call(CALLS, || {
        replay(&coded, &mut replies);
    });
    let held = brute::read_diagram(diagram).expect("the diagram is accepted");
    let independent = timing::for_each_call(CALLS, || {
        for file in judged.clone() {
            let record = brute::read_record(black_box(file));
            black_box(record.map(|record| brute::judge(&held, &record))).ok();
        }
    });
    table::line(name, product, Some(independent));
}
