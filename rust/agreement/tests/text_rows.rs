//! Rows of calls with loads of texts, from the fresh bench, on either side.

use agreement::words::said;
use agreement::worked_files::{empty, p, q, shelf3};
use boundary::{decode, encode, room_for, Call, Reply};

/// The function that runs a coded list of calls.
type Side = fn(&[u8], &mut [u8]) -> usize;

const ROWS: [fn(Side); 9] = [
    refusals_on_a_fresh_bench,
    a_load_drops_the_witness,
    refusals_change_nothing,
    text_and_file_are_one_diagram,
    a_role_left_out_may_be_a_keyword,
    names_of_digits,
    an_enumeration_behind_its_use,
    parents_in_any_order,
    lines_with_and_without_arrowheads,
];

#[test]
fn on_the_independent_bench() {
    for row in ROWS {
        row(brute::replay);
    }
}

#[test]
fn on_the_product() {
    for row in ROWS {
        row(boundary::replay);
    }
}

const HAND_OUT: Call = Call::HandOut { room: 60_000 };
const NO_TYPES: &[u8] = b"classdiagram d {}";
const CUT_OFF: &[u8] = b"classdiagram d {class A;";
const UNKNOWN_END: &[u8] = b"classdiagram d {class A; association A -> B;}";
const TWICE: &[u8] = b"classdiagram d {class A; class A;}";
const BACKWARDS: &[u8] = b"classdiagram d {class A; composition A <- A;}";
const Z: &[u8] = b"classdiagram Z { <<singleton>> class Main; }";

/// Shelf and Card, with so many cards at most.
fn shelf_and_card(most: u8) -> Vec<u8> {
    let declarations = "class Shelf; class Card; composition [1] Shelf (shelf) -> (cards) Card";
    format!("classdiagram P {{ {declarations} [0..{most}]; }}").into_bytes()
}

fn load(place: u8, file: &[u8]) -> Call<'_> {
    Call::Load { place, file }
}

fn load_text(place: u8, text: &[u8]) -> Call<'_> {
    Call::LoadText { place, text }
}

fn judge(place: u8, file: &[u8]) -> Call<'_> {
    Call::Judge { place, file }
}

fn compare(bound: u8) -> Call<'static> {
    Call::Compare { bound }
}

/// Runs a row, compares each reply with its words, and gives the replies.
fn row(side: Side, steps: &[(Call, &str)]) -> Vec<Reply> {
    let calls: Vec<Call> = steps.iter().map(|(call, _)| *call).collect();
    let mut bytes = vec![0; room_for(&calls)];
    let written = side(&encode(&calls), &mut bytes);
    let replies = decode(&calls, &bytes[..written]);
    assert_eq!(replies.len(), steps.len());
    for (at, ((call, words), reply)) in steps.iter().zip(&replies).enumerate() {
        assert_eq!(said(reply), *words, "step {at}, {call:?}");
    }
    replies
}

fn refusals_on_a_fresh_bench(side: Side) {
    let (p, empty) = (shelf_and_card(4), empty());
    row(
        side,
        &[
            (load_text(2, &p), "10"),
            (load_text(2, b""), "10"),
            (load_text(0, b""), "23"),
            (load_text(1, UNKNOWN_END), "24"),
            (load_text(0, NO_TYPES), "0"),
            (Call::Compile { place: 0 }, "0"),
            (judge(1, &empty), "21"),
        ],
    );
}

fn a_load_drops_the_witness(side: Side) {
    let (old, new, file) = (shelf_and_card(4), shelf_and_card(2), q());
    row(
        side,
        &[
            (load_text(0, &old), "0"),
            (load(1, &file), "0"),
            (compare(3), "no difference"),
            (compare(4), "difference 4"),
            (HAND_OUT, "70 bytes"),
            (load_text(1, &new), "0"),
            (HAND_OUT, "refused 22"),
            (compare(4), "difference 4"),
        ],
    );
}

fn refusals_change_nothing(side: Side) {
    let (old, file, shelf3) = (shelf_and_card(4), q(), shelf3());
    let classes: String = (0..25).map(|at| format!("class C{at}; ")).collect();
    let too_many = format!("classdiagram d {{{classes}}}");
    let replies = row(
        side,
        &[
            (load_text(0, &old), "0"),
            (load(1, &file), "0"),
            (compare(4), "difference 4"),
            (HAND_OUT, "70 bytes"),
            (load_text(1, CUT_OFF), "23"),
            (load_text(0, UNKNOWN_END), "24"),
            (load_text(0, too_many.as_bytes()), "4"),
            (load_text(1, TWICE), "5"),
            (load_text(1, BACKWARDS), "8"),
            (load_text(2, &old), "10"),
            (HAND_OUT, "70 bytes"),
            (judge(0, &shelf3), "0"),
            (judge(1, &shelf3), "6"),
        ],
    );
    assert_eq!(replies[3], replies[10]);
}

fn text_and_file_are_one_diagram(side: Side) {
    let (file, text, empty) = (p(), shelf_and_card(4), empty());
    let compiled = "3 1 0 0 0 0 0 4 3 0 0 0 1 0 1 6 0 0 0 0 0 0";
    let mut steps = vec![(load(0, &file), "0"), (load_text(1, &text), "0")];
    steps.extend((0..=4).map(|bound| (compare(bound), "no difference")));
    steps.extend([0, 1].map(|place| (Call::Compile { place }, compiled)));
    steps.extend([
        (load_text(0, Z), "0"),
        (judge(0, &empty), "2"),
        (judge(1, &empty), "0"),
    ]);
    row(side, &steps);
}

fn a_role_left_out_may_be_a_keyword(side: Side) {
    let text = b"classdiagram d {class Class; association Class -> Class;}";
    let record = b"\x60\x00\x01\x01\x61\x00\x06\x05Class\x63\x00\x08\x00\x05class\x00";
    row(side, &[(load_text(0, text), "0"), (judge(0, record), "0")]);
}

fn names_of_digits(side: Side) {
    let text = b"classdiagram 1 { class 2 { 3 4; } association [5] 2 (6) -> (7) 2 [8..9]; }";
    let record = b"\x60\x00\x01\x01\x61\x00\x02\x012\x62\x00\x06\x00\x014\x013\x00";
    row(side, &[(load_text(0, text), "0"), (judge(0, record), "6")]);
}

fn an_enumeration_behind_its_use(side: Side) {
    let text = b"classdiagram d {class A { P p; Col c; } enum Col {r, g;}}";
    let record = b"\x60\x00\x01\x01\x61\x00\x02\x01A\x62\x00\x09\x00\x01c\x03Col\x01g\
        \x62\x00\x06\x00\x01p\x01P\x00";
    row(side, &[(load_text(0, text), "0"), (judge(0, record), "0")]);
}

fn parents_in_any_order(side: Side) {
    let classes = b"classdiagram d {class A; class B; class C extends B, A;}";
    let singleton = b"classdiagram d {abstract class A; <<singleton>> class S; \
        class C extends S, A;}";
    let record = b"\x60\x00\x01\x01\x61\x00\x02\x01C";
    row(
        side,
        &[
            (load_text(0, classes), "0"),
            (judge(0, record), "0"),
            (load_text(0, singleton), "0"),
            (judge(0, record), "2"),
        ],
    );
}

fn lines_with_and_without_arrowheads(side: Side) {
    let line_and_port = |arrow: &str| {
        let ends = ["[0..1] Line (line)", "(port) Port [0..1]"].join(arrow);
        format!("classdiagram d {{class Line; class Port; association {ends};}}").into_bytes()
    };
    let (headless, headed) = (line_and_port(" -- "), line_and_port(" <-> "));
    let file = b"\x60\x00\x01\x02\x61\x00\x05\x04Line\x61\x00\x05\x04Port\
        \x63\x00\x07\x00\x04port\x01";
    let compiled = "3 1 0 0 0 0 0 1 1 0 1 0 0 0 1 5 0 0 0 0 0 0";
    for [old, new] in [[&headless, &headed], [&headed, &headless]] {
        let mut steps = vec![(load_text(0, old), "0"), (load_text(1, new), "0")];
        for place in [0, 1] {
            steps.push((judge(place, file), "8"));
            steps.push((Call::Evaluate { place, file }, "2"));
            steps.push((Call::Compile { place }, compiled));
        }
        steps.extend((0..=8).map(|bound| (compare(bound), "no difference")));
        steps.push((compare(9), "9"));
        row(side, &steps);
    }
}
