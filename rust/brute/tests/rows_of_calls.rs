//! Rows of calls from the fresh bench, through the coded form, with the reply to each call.

mod common;

use brute::{read_diagram, read_record};
use common::*;
use generators::worked_conversions::UP_101;

/// What the buffers hold before the calls.
const FILL: u8 = 0xA5;

/// The reply that a call has to get.
enum Reply {
    Done,
    Refused(u8),
    /// What judge or evaluate says.
    Number(u8),
    /// How many compiled records there are.
    Records(u8),
    NoDifference,
    Difference(u8),
    /// A refused hand out or conversion, with a buffer of so many bytes.
    Kept(u8, usize),
    /// A hand out or conversion that writes these bytes into so many.
    Written(&'static [u8], usize),
    /// A hand out into so many of a record of 70 bytes that four cards allow and two forbid.
    FourObjects(usize),
}

use Reply::*;

impl Reply {
    /// How many bytes the coded reply has.
    fn size(&self) -> usize {
        match self {
            Done | Refused(_) => 1,
            Number(_) | NoDifference => 2,
            Difference(_) => 3,
            Records(_) => 450,
            Kept(_, room) | Written(_, room) | FourObjects(room) => 5 + room,
        }
    }

    /// Checks the coded reply, every byte of a lent buffer included.
    fn check(&self, bytes: &[u8]) {
        match *self {
            Done => assert_eq!(bytes, [0]),
            Refused(refusal) => assert_eq!(bytes, [refusal]),
            Number(number) => assert_eq!(bytes, [0, number]),
            Records(number) => check_list(number, bytes),
            NoDifference => assert_eq!(bytes, [0, 0]),
            Difference(count) => assert_eq!(bytes, [0, 1, count]),
            Kept(refusal, _) => {
                assert_eq!(bytes[..5], [refusal, 0, 0, 0, 0]);
                assert!(bytes[5..].iter().all(|&byte| byte == FILL));
            }
            Written(file, _) => assert_eq!(written(bytes), file),
            FourObjects(_) => check_four_objects(written(bytes)),
        }
    }
}

fn check_list(number: u8, bytes: &[u8]) {
    assert_eq!(bytes[..2], [0, number]);
    let (entries, past) = bytes[2..].split_at(usize::from(number) * 7);
    assert!(entries.chunks(7).all(|entry| entry[0] != 0));
    assert!(past.iter().all(|&byte| byte == 0));
}

/// The file that an accepted hand out or conversion wrote, the bytes behind it being as they were.
fn written(bytes: &[u8]) -> &[u8] {
    assert_eq!(bytes[0], 0);
    let length = u32::from_be_bytes(bytes[1..5].try_into().unwrap());
    let (file, rest) = bytes[5..].split_at(length as usize);
    assert!(rest.iter().all(|&byte| byte == FILL));
    file
}

/// Which of the smallest witnesses it is, is free.
fn check_four_objects(file: &[u8]) {
    assert_eq!(file.len(), 70);
    let record = read_record(file).expect("a record file");
    assert_eq!(record.objects.len(), 4);
    let (old, new) = (read_diagram(&four_cards()), read_diagram(&two_cards()));
    assert_eq!(brute::judge(&old.unwrap(), &record), 0);
    assert_eq!(brute::judge(&new.unwrap(), &record), 6);
}

/// Runs a row from the fresh bench and checks each reply; then that nothing was written behind.
fn run(row: Vec<(Vec<u8>, Reply)>) {
    let calls: Vec<u8> = row.iter().flat_map(|(call, _)| call.clone()).collect();
    let size: usize = row.iter().map(|(_, reply)| reply.size()).sum();
    let mut replies = vec![FILL; size + 10];
    assert_eq!(brute::replay(&calls, &mut replies), size);
    let mut rest = &replies[..];
    for (_, reply) in &row {
        let (bytes, behind) = rest.split_at(reply.size());
        reply.check(bytes);
        rest = behind;
    }
    assert_eq!(rest, [FILL; 10]);
}

/// Runs a row behind a difference between four cards and two.
fn run_after_difference(row: Vec<(Vec<u8>, Reply)>) {
    let mut whole = vec![
        (load(0, &four_cards()), Done),
        (load(1, &two_cards()), Done),
        (compare(4), Difference(4)),
        (hand_out(60_000), FourObjects(60_000)),
    ];
    whole.extend(row);
    run(whole);
}

#[test]
fn fresh_bench() {
    run(vec![
        (hand_out(0), Kept(22, 0)),
        (hand_out(10), Kept(22, 10)),
        (hand_out(60_000), Kept(22, 60_000)),
        (clear(0), Done),
        (clear(1), Done),
        (clear(2), Refused(10)),
        (compile(0), Refused(21)),
        (compile(2), Refused(10)),
        (judge(0, b""), Refused(21)),
        (judge(2, b""), Refused(10)),
        (evaluate(1, CARD_RECORD), Refused(21)),
        (evaluate(255, CARD_RECORD), Refused(10)),
        (compare(8), Refused(21)),
        (compare(9), Refused(9)),
        (load(2, EMPTY_DIAGRAM), Refused(10)),
        (load(2, b""), Refused(10)),
        (load(0, b""), Refused(2)),
    ]);
}

#[test]
fn one_place_after_the_other() {
    run(vec![
        (load(0, &four_cards()), Done),
        (compare(8), Refused(21)),
        (compare(9), Refused(9)),
        (judge(0, &three_cards_record()), Number(0)),
        (judge(1, &three_cards_record()), Refused(21)),
        (load(1, &two_cards()), Done),
        (judge(1, &three_cards_record()), Number(6)),
        (compare(3), NoDifference),
        (hand_out(60_000), Kept(22, 60_000)),
    ]);
}

#[test]
fn new_place_alone() {
    run(vec![
        (load(1, &four_cards()), Done),
        (compare(0), Refused(21)),
        (compile(0), Refused(21)),
        (compile(1), Records(3)),
        (evaluate(1, EMPTY_RECORD), Number(3)),
    ]);
}

#[test]
fn buffers_of_a_hand_out() {
    run_after_difference(vec![
        (hand_out(0), Kept(20, 0)),
        (hand_out(59_999), Kept(20, 59_999)),
        (hand_out(60_000), FourObjects(60_000)),
        (hand_out(60_001), FourObjects(60_001)),
    ]);
}

#[test]
fn refused_and_asking_calls_keep_the_witness() {
    run_after_difference(vec![
        (load(0, b"\x10\x00\x01"), Refused(1)),
        (load(2, &four_cards()), Refused(10)),
        (clear(2), Refused(10)),
        (compare(9), Refused(9)),
        (judge(0, b"\x60\x00\x01\x09"), Refused(3)),
        (compile(0), Records(3)),
        (evaluate(1, &three_cards_record()), Number(0)),
        (hand_out(60_000), FourObjects(60_000)),
    ]);
}

#[test]
fn no_difference_drops_the_witness() {
    run_after_difference(vec![
        (compare(3), NoDifference),
        (hand_out(60_000), Kept(22, 60_000)),
    ]);
}

#[test]
fn clear_drops_the_witness() {
    run_after_difference(vec![
        (clear(1), Done),
        (hand_out(60_000), Kept(22, 60_000)),
        (compare(4), Refused(21)),
        (judge(0, &three_cards_record()), Number(0)),
    ]);
}

#[test]
fn load_of_the_same_file_drops_the_witness() {
    run_after_difference(vec![
        (load(1, &two_cards()), Done),
        (hand_out(60_000), Kept(22, 60_000)),
        (compare(4), Difference(4)),
    ]);
}

#[test]
fn compare_asks_again_after_a_load() {
    run_after_difference(vec![
        (load(0, &two_cards()), Done),
        (load(1, &four_cards()), Done),
        (compare(4), NoDifference),
    ]);
}

#[test]
fn fewest_objects() {
    run(vec![
        (load(0, EMPTY_DIAGRAM), Done),
        (load(1, MAIN_DIAGRAM), Done),
        (compare(0), Difference(0)),
        (hand_out(60_000), Written(EMPTY_RECORD, 60_000)),
        (load(0, MAIN_DIAGRAM), Done),
        (load(1, EMPTY_DIAGRAM), Done),
        (compare(0), NoDifference),
        (compare(1), Difference(1)),
        (hand_out(60_000), Written(MAIN_RECORD, 60_000)),
        (compare(8), Difference(1)),
    ]);
    run(vec![
        (load(0, &loose_cards()), Done),
        (load(1, &four_cards()), Done),
        (compare(8), Difference(1)),
        (hand_out(60_000), Written(CARD_RECORD, 60_000)),
    ]);
}

#[test]
fn editions_are_mixed() {
    run_after_difference(vec![
        (load(0, FOUR_CARDS_2), Done),
        (compare(4), Difference(4)),
        (hand_out(60_000), FourObjects(60_000)),
        (load(1, &four_cards()), Done),
        (compare(4), NoDifference),
        (load(0, &four_cards()), Done),
        (load(1, FOUR_CARDS_2), Done),
        (compare(4), NoDifference),
        (load(0, &two_cards()), Done),
        (compare(4), NoDifference),
    ]);
}

#[test]
fn conversions_keep_the_witness() {
    run(vec![
        (
            convert(EMPTY_DIAGRAM, 4_096),
            Written(EMPTY_DIAGRAM_2, 4_096),
        ),
        (load(0, &four_cards()), Done),
        (load(1, &two_cards()), Done),
        (compare(4), Difference(4)),
        (convert(&four_cards(), 4_096), Written(FOUR_CARDS_2, 4_096)),
        (convert(b"\x10\x00\x01", 4_096), Kept(1, 4_096)),
        (convert(UP_101, 10), Kept(25, 10)),
        (hand_out(60_000), FourObjects(60_000)),
    ]);
}

#[test]
fn a_converted_file_is_no_difference() {
    run(vec![
        (convert(&four_cards(), 4_096), Written(FOUR_CARDS_2, 4_096)),
        (load(0, FOUR_CARDS_2), Done),
        (load(1, &four_cards()), Done),
        (compare(8), NoDifference),
        (load(0, &four_cards()), Done),
        (load(1, FOUR_CARDS_2), Done),
        (compare(8), NoDifference),
    ]);
}

#[test]
fn refused_load_keeps_the_place() {
    run(vec![
        (load(0, &four_cards()), Done),
        (load(0, b"\x10\x00\x01\x03"), Refused(3)),
        (judge(0, &three_cards_record()), Number(0)),
    ]);
}

#[test]
fn no_witness_comes_before_a_small_buffer() {
    run(vec![(hand_out(10), Kept(22, 10))]);
}
