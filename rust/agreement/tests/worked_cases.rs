//! The worked cases through the product: the table of `crates/cases`, and rows of calls.

use agreement::table::{cases, Case};
use agreement::words::said;
use agreement::worked_files::{card, e, empty, main_record, p, p_in_edition_2, q, s, shelf3, z};
use boundary::{decode, encode, replay, run, Call, Reply};
use brute::{judge, read_diagram, read_record};
use generators::worked_conversions::{conversions, UP_101};

const BUFFER: Call = Call::HandOut { room: 60_000 };

/// What P becomes.
const P_COMPILED: &str = "3 1 0 0 0 0 0 4 3 0 0 0 1 0 1 6 0 0 0 0 0 0";

/// A load, in short.
fn load(place: u8, file: &[u8]) -> Call<'_> {
    Call::Load { place, file }
}

/// A judge, in short.
fn judging(place: u8, file: &[u8]) -> Call<'_> {
    Call::Judge { place, file }
}

#[test]
fn diagram_files() {
    let cases = cases("D");
    assert!(cases.len() >= 138);
    for case in cases {
        let replies = run(&[load(0, &case.files[0])]);
        assert_eq!(said(&replies[0]), case.answers[0], "{}", case.name);
    }
}

#[test]
fn record_files() {
    let cases = cases("R");
    assert!(cases.len() >= 35);
    for case in cases {
        let (file, place) = (case.files[0].as_slice(), 0);
        let replies = run(&[
            load(0, &e()),
            judging(0, file),
            Call::Evaluate { place, file },
        ]);
        let refusals: Vec<u8> = replies.iter().map(|r| r.refusal().unwrap_or(0)).collect();
        let expected: u8 = case.answers[0].parse().expect("a number");
        assert_eq!(refusals, [0, expected, expected], "{}", case.name);
    }
}

#[test]
fn records_judged_and_evaluated() {
    let cases = cases("J");
    assert!(cases.len() >= 118);
    for case in cases {
        let (file, place) = (case.files[1].as_slice(), 1);
        let diagram = load(1, &case.files[0]);
        let replies = run(&[diagram, judging(1, file), Call::Evaluate { place, file }]);
        let words: Vec<String> = replies[1..].iter().map(said).collect();
        assert_eq!(words, case.answers, "{}", case.name);
    }
}

#[test]
fn compiled_lists() {
    let cases = cases("C");
    assert!(cases.len() >= 22);
    for case in cases {
        let replies = run(&[load(1, &case.files[0]), Call::Compile { place: 1 }]);
        assert_eq!(said(&replies[1]), case.answers[0], "{}", case.name);
    }
}

#[test]
fn diagrams_compared() {
    let cases = cases("FW");
    assert!(cases.len() >= 96);
    for case in cases {
        compared(&case);
    }
}

/// Compares the pair; a witness must be one by the independent judge, and where the table has its
/// bytes there is no other.
fn compared(case: &Case) {
    let [bound, old, new] = &case.files[..] else {
        panic!("{}: a bound and two diagrams", case.name);
    };
    let bound = bound[0];
    let replies = run(&[load(0, old), load(1, new), Call::Compare { bound }, BUFFER]);
    let answer = case.answers[0].as_str();
    let reply = answer.split(',').next().expect("a reply");
    assert_eq!(said(&replies[2]), reply, "{}", case.name);
    let (Reply::Difference(count), Reply::Written { file, rest }) = (&replies[2], &replies[3])
    else {
        assert_eq!(replies[3].refusal(), Some(22), "{}", case.name);
        return;
    };
    if let Some((_, bytes)) = answer.split_once(": ") {
        assert_eq!(*file, generators::hex::bytes(bytes), "{}", case.name);
    }
    assert!(rest.iter().all(|byte| *byte == 0), "{}", case.name);
    let record = read_record(file).expect("a witness is a record file");
    assert_eq!(record.objects.len(), usize::from(*count), "{}", case.name);
    let legal = |file: &[u8]| judge(&read_diagram(file).expect("a diagram"), &record) == 0;
    assert!(legal(old) && !legal(new), "{}", case.name);
}

/// A convert, in short.
fn convert(file: &[u8], room: u32) -> Call<'_> {
    Call::Convert { file, room }
}

/// The replies to some calls, as they are coded, where the room for them held these bytes before.
fn replies_over(fill: u8, calls: &[u8], room: usize) -> Vec<u8> {
    let mut replies = vec![fill; room];
    assert_eq!(replay(calls, &mut replies), room);
    replies
}

#[test]
fn files_converted_to_the_other_edition() {
    for (name, file, room, expected) in conversions() {
        let calls = [convert(file, room)];
        let room = room as usize;
        let replies = decode(&calls, &replies_over(0xEE, &encode(&calls), 5 + room));
        let expected = match expected {
            Ok(written) => Reply::Written {
                file: written.to_vec(),
                rest: vec![0xEE; room - written.len()],
            },
            Err(refusal) => Reply::NotWritten {
                refusal,
                buffer: vec![0xEE; room],
            },
        };
        assert_eq!(replies, [expected], "{name}");
    }
}

/// Runs a row and compares each reply with its words.
fn row(steps: &[(Call, &str)]) {
    let calls: Vec<Call> = steps.iter().map(|(call, _)| *call).collect();
    let replies = run(&calls);
    assert_eq!(replies.len(), steps.len());
    for (at, ((call, words), reply)) in steps.iter().zip(&replies).enumerate() {
        assert_eq!(said(reply), *words, "step {at}, {call:?}");
    }
}

/// Two diagrams, a difference of four objects, and its record handed out.
fn difference<'a>(old: &'a [u8], new: &'a [u8]) -> Vec<(Call<'a>, &'static str)> {
    vec![
        (load(0, old), "0"),
        (load(1, new), "0"),
        (Call::Compare { bound: 4 }, "difference 4"),
        (Call::HandOut { room: 0 }, "refused 20"),
        (Call::HandOut { room: 59_999 }, "refused 20"),
        (BUFFER, "70 bytes"),
        (Call::HandOut { room: 60_001 }, "70 bytes"),
    ]
}

#[test]
fn row_1_a_fresh_bench() {
    let (e, card) = (e(), card());
    row(&[
        (Call::HandOut { room: 0 }, "refused 22"),
        (BUFFER, "refused 22"),
        (Call::Clear { place: 0 }, "0"),
        (Call::Clear { place: 1 }, "0"),
        (Call::Clear { place: 2 }, "10"),
        (Call::Compile { place: 0 }, "21"),
        (Call::Compile { place: 2 }, "10"),
        (judging(0, &[]), "21"),
        (judging(2, &[]), "10"),
        (
            Call::Evaluate {
                place: 1,
                file: &card,
            },
            "21",
        ),
        (Call::Compare { bound: 8 }, "21"),
        (Call::Compare { bound: 9 }, "9"),
        (load(2, &e), "10"),
        (load(2, &[]), "10"),
        (load(0, &[]), "2"),
    ]);
}

#[test]
fn row_2_one_place_is_empty() {
    let (p, q, shelf3) = (p(), q(), shelf3());
    row(&[
        (load(0, &p), "0"),
        (Call::Compare { bound: 8 }, "21"),
        (Call::Compare { bound: 9 }, "9"),
        (judging(0, &shelf3), "0"),
        (judging(1, &shelf3), "21"),
        (load(1, &q), "0"),
        (judging(1, &shelf3), "6"),
        (Call::Compare { bound: 3 }, "no difference"),
        (BUFFER, "refused 22"),
    ]);
}

#[test]
fn row_3_every_buffer() {
    let (p, q) = (p(), q());
    row(&difference(&p, &q));
    let calls: Vec<Call> = difference(&p, &q).iter().map(|(call, _)| *call).collect();
    let replies = run(&calls);
    let (Reply::Written { file: one, .. }, Reply::Written { file: other, .. }) =
        (&replies[5], &replies[6])
    else {
        panic!("both hand outs are accepted");
    };
    assert_eq!(one, other);
}

#[test]
fn row_4_refusals_keep_the_witness() {
    let (p, q, shelf3) = (p(), q(), shelf3());
    let mut steps = difference(&p, &q);
    steps.extend([
        (load(0, &[0x10, 0, 1]), "1"),
        (load(2, &p), "10"),
        (Call::Clear { place: 2 }, "10"),
        (Call::Compare { bound: 9 }, "9"),
        (judging(0, &[0x60, 0, 1, 9]), "3"),
        (Call::Compile { place: 0 }, P_COMPILED),
        (
            Call::Evaluate {
                place: 1,
                file: &shelf3,
            },
            "0",
        ),
        (BUFFER, "70 bytes"),
    ]);
    row(&steps);
}

#[test]
fn rows_5_to_7_the_witness_is_dropped() {
    let (p, q) = (p(), q());
    let mut smaller = difference(&p, &q);
    smaller.extend([
        (Call::Compare { bound: 3 }, "no difference"),
        (BUFFER, "refused 22"),
    ]);
    row(&smaller);
    let mut cleared = difference(&p, &q);
    cleared.extend([
        (Call::Clear { place: 1 }, "0"),
        (BUFFER, "refused 22"),
        (Call::Compare { bound: 4 }, "21"),
    ]);
    row(&cleared);
    let mut loaded = difference(&p, &q);
    loaded.extend([
        (load(1, &q), "0"),
        (BUFFER, "refused 22"),
        (Call::Compare { bound: 4 }, "difference 4"),
    ]);
    row(&loaded);
}

#[test]
fn row_8_no_reply_outlives_a_load() {
    let (p, q) = (p(), q());
    let mut steps = difference(&p, &q);
    steps.extend([
        (load(0, &q), "0"),
        (load(1, &p), "0"),
        (Call::Compare { bound: 4 }, "no difference"),
    ]);
    row(&steps);
}

#[test]
fn rows_9_and_10_the_only_witness() {
    let (e, z, s, p) = (e(), z(), s(), p());
    let compare = |bound| Call::Compare { bound };
    let calls = [
        (load(0, &e), "0"),
        (load(1, &z), "0"),
        (compare(0), "difference 0"),
        (BUFFER, "4 bytes"),
        (load(0, &z), "0"),
        (load(1, &e), "0"),
        (compare(0), "no difference"),
        (compare(1), "difference 1"),
        (BUFFER, "12 bytes"),
        (compare(8), "difference 1"),
        (load(0, &s), "0"),
        (load(1, &p), "0"),
        (compare(8), "difference 1"),
        (BUFFER, "12 bytes"),
    ];
    row(&calls);
    let calls: Vec<Call> = calls.iter().map(|(call, _)| *call).collect();
    let handed_out: Vec<Vec<u8>> = run(&calls)
        .into_iter()
        .filter_map(|reply| match reply {
            Reply::Written { file, .. } => Some(file),
            _ => None,
        })
        .collect();
    assert_eq!(handed_out, [empty(), main_record(), card()]);
}

#[test]
fn rows_11_and_12_refusals_change_nothing() {
    let (p, shelf3) = (p(), shelf3());
    row(&[
        (load(0, &p), "0"),
        (load(0, &[0x10, 0, 1, 3]), "3"),
        (judging(0, &shelf3), "0"),
        (Call::HandOut { room: 10 }, "refused 22"),
    ]);
}

#[test]
fn row_13_the_editions_are_mixed() {
    let (one, two, q) = (p(), p_in_edition_2(), q());
    for [old, new] in [[&one, &two], [&two, &one]] {
        let mut steps = vec![(load(0, old), "0"), (load(1, new), "0")];
        steps.extend((0..=8).map(|bound| (Call::Compare { bound }, "no difference")));
        row(&steps);
    }
    let mut steps = difference(&two, &q);
    steps.push((load(1, &one), "0"));
    steps.extend([0, 1].map(|place| (Call::Compile { place }, P_COMPILED)));
    row(&steps);
}

#[test]
fn row_14_a_conversion_keeps_the_witness() {
    let (e, p, q) = (e(), p(), q());
    row(&[
        (convert(&e, 4_096), "4 bytes"),
        (load(0, &p), "0"),
        (load(1, &q), "0"),
        (Call::Compare { bound: 4 }, "difference 4"),
        (convert(&p, 4_096), "52 bytes"),
        (convert(&[0x10, 0, 1], 4_096), "refused 1"),
        (convert(UP_101, 10), "refused 25"),
        (BUFFER, "70 bytes"),
    ]);
}

#[test]
fn row_15_a_conversion_byte_for_byte() {
    let mut call = [9, 0, 0, 0, 4, 0x10, 0, 1, 1, 0, 0, 0x10, 0];
    let written = replies_over(0xEE, &call, 4_101);
    assert_eq!(written[..9], [0, 0, 0, 0, 4, 0x10, 0, 1, 2]);
    assert_eq!(written[9..], [0xEE; 4_092]);
    call[11..].copy_from_slice(&[0x0F, 0xFF]);
    let refused = replies_over(0xEE, &call, 4_100);
    assert_eq!(refused[..5], [20, 0, 0, 0, 0]);
    assert_eq!(refused[5..], [0xEE; 4_095]);
}

#[test]
fn row_16_a_converted_file_is_the_same_diagram() {
    let p = p();
    let [Reply::Written { file, .. }] = &run(&[convert(&p, 4_096)])[..] else {
        panic!("the file is converted");
    };
    assert_eq!(*file, p_in_edition_2());
    let same = (Call::Compare { bound: 8 }, "no difference");
    row(&[
        (load(0, file), "0"),
        (load(1, &p), "0"),
        same,
        (load(0, &p), "0"),
        (load(1, file), "0"),
        same,
    ]);
}
