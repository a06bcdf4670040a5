//! The converter between the editions: worked cases, and made-up files of both editions.

mod common;

use brute::{convert, read_diagram, Bench, Diagram, Edition};
use common::{edition_of, four_cards, FOUR_CARDS_2};
use generators::damage::damaged;
use generators::diagrams::{diagram, LARGE, SMALL};
use generators::edition_faults::with_edition_fault;
use generators::editions::{in_any_edition, in_edition};
use generators::hex::hex;
use generators::limits::{diagram_files, full};
use generators::worked_conversions::conversions;
use generators::{DiagramPlan, Random};

/// What the buffers hold before.
const FILL: u8 = 0xEE;

/// The smallest buffer that is never refused for its size.
const ENOUGH: usize = 4_096;

/// What a conversion writes into so much room, or its refusal; all other bytes must stay.
fn converted(file: &[u8], room: usize) -> Result<Vec<u8>, u8> {
    let mut buffer = vec![FILL; room];
    let reply = convert(file, &mut buffer);
    let written = reply.map(|length| buffer[..length].to_vec());
    let behind = written.as_ref().map_or(0, Vec::len);
    assert!(
        buffer[behind..].iter().all(|byte| *byte == FILL),
        "{}",
        hex(file)
    );
    written
}

/// The same by a call of the list.
fn converted_by_call(file: &[u8], room: usize) -> Result<Vec<u8>, u8> {
    let call = common::convert(file, u32::try_from(room).expect("a small room"));
    let mut replies = vec![FILL; 5 + room];
    assert_eq!(brute::replay(&call, &mut replies), 5 + room);
    let (head, buffer) = replies.split_at(5);
    let length = u32::from_be_bytes(head[1..].try_into().unwrap()) as usize;
    assert!(
        buffer[length..].iter().all(|byte| *byte == FILL),
        "{}",
        hex(file)
    );
    match head[0] {
        0 => Ok(buffer[..length].to_vec()),
        refusal => {
            assert_eq!(length, 0);
            Err(refusal)
        }
    }
}

/// Whether a finite limit of the diagram is above 100.
fn has_large_limit(diagram: &Diagram) -> bool {
    let ends = diagram
        .associations
        .iter()
        .flat_map(|a| [&a.left, &a.right]);
    let mut limits = ends.flat_map(|end| [Some(end.limits.low), end.limits.up]);
    limits.any(|limit| limit.is_some_and(|number| number > 100))
}

/// The refusal of a file with room enough: the file's own, or 25; 0 where there is none.
fn refusal(file: &[u8]) -> u8 {
    match read_diagram(file) {
        Err(refusal) => refusal,
        Ok(read) if edition_of(file) == Edition::Two && has_large_limit(&read) => 25,
        Ok(_) => 0,
    }
}

/// Converts an accepted file to this one and back.
fn convert_both_ways(file: &[u8], other: &[u8]) {
    assert_eq!(converted(file, ENOUGH), Ok(other.to_vec()), "{}", hex(file));
    assert_eq!(
        converted(other, ENOUGH),
        Ok(file.to_vec()),
        "{}",
        hex(other)
    );
}

#[test]
fn worked_conversions() {
    for (name, file, room, reply) in conversions() {
        let reply = reply.map(<[u8]>::to_vec);
        let room = room as usize;
        assert_eq!(converted(file, room), reply, "{name}");
        assert_eq!(converted_by_call(file, room), reply, "{name}");
    }
}

#[test]
fn a_bench_converts_whatever_it_holds() {
    let mut bench = Bench::default();
    for place in [0, 1] {
        let mut buffer = [FILL; ENOUGH];
        assert_eq!(
            bench.convert(&four_cards(), &mut buffer),
            Ok(FOUR_CARDS_2.len())
        );
        assert_eq!(&buffer[..FOUR_CARDS_2.len()], FOUR_CARDS_2);
        bench.load(place, &four_cards()).expect("it is accepted");
    }
}

/// The plan's files of both editions, edition 1 where that has its limits.
fn of_both_editions(plan: &DiagramPlan) -> (Option<Vec<u8>>, Vec<u8>) {
    let file = |edition| in_edition(edition, plan).map(|plan| plan.file());
    (file(1), file(2).expect("edition 2 has all limits"))
}

#[test]
fn made_up_files_become_those_of_the_other_edition() {
    let (mut both, mut only_in_two) = (0, 0);
    for seed in 0..1_000 {
        let mut random = Random::new(seed);
        let size = *random.pick(&[SMALL, LARGE]);
        let plan = diagram(&mut random, size);
        match of_both_editions(&plan) {
            (Some(narrow), wide) => {
                convert_both_ways(&narrow, &wide);
                both += usize::from(!plan.associations.is_empty());
            }
            (None, wide) => {
                assert_eq!(converted(&wide, ENOUGH), Err(25), "seed {seed}");
                only_in_two += 1;
            }
        }
    }
    assert!(both >= 300 && only_in_two >= 100, "{both}, {only_in_two}");
}

#[test]
fn the_largest_files_fit() {
    let [narrow, wide] = [1, 2].map(|edition| full(edition).file());
    convert_both_ways(&narrow, &wide);
    for file in [narrow, wide] {
        assert_eq!(converted(&file, ENOUGH - 1), Err(20));
    }
}

#[test]
fn files_at_the_limits_and_damaged_files_are_refused_or_come_back() {
    let mut files = diagram_files();
    for seed in 0..1_500 {
        let mut random = Random::new(seed);
        let plan = diagram(&mut random, SMALL);
        let plan = in_any_edition(&mut random, &plan);
        files.push(with_edition_fault(&mut random, &plan));
        files.push(damaged(&mut random, &plan.fields()));
    }
    let mut seen = [0; 26];
    for file in files {
        let number = refusal(&file);
        seen[usize::from(number)] += 1;
        let expected = if number == 0 { 20 } else { number };
        assert_eq!(
            converted(&file, ENOUGH - 1),
            Err(expected),
            "{}",
            hex(&file)
        );
        match converted(&file, ENOUGH) {
            Ok(written) => {
                assert_eq!(number, 0, "{}", hex(&file));
                assert_eq!(read_diagram(&written), read_diagram(&file));
                assert_ne!(edition_of(&written), edition_of(&file));
                convert_both_ways(&written, &file);
            }
            Err(refusal) => assert_eq!(refusal, number, "{}", hex(&file)),
        }
    }
    for number in [0, 1, 2, 3, 4, 6, 25] {
        assert!(seen[number] >= 20, "{number} is too rare: {seen:?}");
    }
}
