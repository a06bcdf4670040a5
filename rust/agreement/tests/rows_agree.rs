//! Rows of calls: the product's reply bytes are the independent bench's.

use agreement::rows::{on_both_sides, replies_agree, rows_agree, Tally};
use generators::calls::{coded, room};
use generators::hex::bytes;
use generators::worked_conversions::UP_101;
use generators::CallPlan;

#[test]
fn rows_of_calls_agree() {
    let mut tally = Tally::default();
    for seed in 0..4_000 {
        rows_agree(seed, &mut tally);
    }
    println!("{tally:?}");
    for status in [0, 1, 2, 3, 9, 10, 20, 21, 22, 23, 24, 25] {
        assert!(
            tally.statuses[status] >= 30,
            "status {status} is too rare: {tally:?}"
        );
    }
    assert!(tally.witnesses >= 100, "{tally:?}");
    assert!(tally.converted >= 300, "{tally:?}");
    assert!(tally.stopped >= 100, "{tally:?}");
}

/// Every kind of call, accepted and refused, with replies that take little room; the witness is the
/// only one there is.
fn short_row() -> Vec<CallPlan> {
    let singleton = bytes("10 00 01 01 30 00 07 03 04 4D 61 69 6E 00");
    let empty = bytes("10 00 01 01");
    let record = bytes("60 00 01 01 61 00 05 04 4D 61 69 6E");
    let load = |place, file: &[u8]| CallPlan::Load {
        place,
        file: file.to_vec(),
    };
    let load_text = |place, text: &[u8]| CallPlan::LoadText {
        place,
        text: text.to_vec(),
    };
    let convert = |file: &[u8], room| CallPlan::Convert {
        file: file.to_vec(),
        room,
    };
    let file = record;
    vec![
        CallPlan::HandOut { room: 3 },
        load_text(1, b"classdiagram d {}"),
        load_text(0, b"classdiagram"),
        CallPlan::Clear { place: 1 },
        load(0, &singleton),
        CallPlan::Compile { place: 0 },
        CallPlan::Compile { place: 1 },
        load(1, &empty),
        CallPlan::Judge {
            place: 1,
            file: file.clone(),
        },
        CallPlan::Compare { bound: 0 },
        CallPlan::Compare { bound: 1 },
        CallPlan::HandOut { room: 10 },
        convert(&singleton, 3),
        convert(UP_101, 2),
        convert(&file, 0),
        CallPlan::Evaluate { place: 0, file },
        CallPlan::Compare { bound: 9 },
        CallPlan::Clear { place: 2 },
        CallPlan::Clear { place: 1 },
        CallPlan::HandOut { room: 0 },
    ]
}

/// The row must give the same replies in this much room, and in the list as it is cut.
fn same_replies(calls: &[CallPlan], list: &[u8], space: usize) -> usize {
    let shown = format!("{} bytes of calls, room {space}", list.len());
    let before = (0..space).map(|at| at as u8).collect();
    let both = on_both_sides(list, before, &shown);
    replies_agree(calls, &both, &shown, &mut Tally::default())
}

/// The numbers of replies rise from none to all of the calls, and none is passed over.
fn rise_one_by_one(numbers: impl Iterator<Item = usize>, calls: &[CallPlan]) {
    let mut numbers: Vec<usize> = numbers.collect();
    assert!(numbers.is_sorted());
    numbers.dedup();
    assert_eq!(numbers, (0..=calls.len()).collect::<Vec<_>>());
}

#[test]
fn room_runs_out_at_every_place() {
    let calls = short_row();
    let replies = |space| same_replies(&calls, &coded(&calls), space);
    rise_one_by_one((0..=room(&calls)).map(replies), &calls);
}

#[test]
fn calls_are_cut_off_at_every_place() {
    let calls = short_row();
    let list = coded(&calls);
    let replies = |end| same_replies(&calls, &list[..end], room(&calls));
    rise_one_by_one((0..=list.len()).map(replies), &calls);
}

/// The first calls of the row and this one: its reply comes in as much room as it takes, and not in
/// one byte less.
fn fits_or_does_not(first: usize, last: CallPlan) {
    let mut calls = short_row();
    calls.truncate(first);
    calls.push(last);
    let list = coded(&calls);
    let whole = (0..=room(&calls)).rev();
    let exact = whole
        .take_while(|space| same_replies(&calls, &list, *space) == calls.len())
        .last();
    let exact = exact.expect("all replies fit into the room for the longest");
    assert_eq!(same_replies(&calls, &list, exact - 1), first);
}

#[test]
fn a_hand_out_fits_or_does_not() {
    fits_or_does_not(11, CallPlan::HandOut { room: 60_000 });
}

#[test]
fn a_conversion_fits_or_does_not() {
    for (file, room) in [("10 00 01 01", 4_096), ("10 00 01 02", 4_095)] {
        let file = bytes(file);
        fits_or_does_not(14, CallPlan::Convert { file, room });
    }
}
