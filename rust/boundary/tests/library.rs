//! The real library, called through this crate.

use boundary::{encode, replay, run, try_run, Call, Reply, CONVERT_ROOM, HAND_OUT_ROOM};

/// A Card may do without a Shelf.
const OLD: &[u8] = b"\x10\x00\x01\x01\x30\x00\x08\x00\x05Shelf\x00\x30\x00\x07\x00\x04Card\x00\
    \x50\x00\x14\x01\x01\x00\x00\x01\x05shelf\x01\x00\x04\x05cards";

/// A Card stands on exactly one Shelf.
const NEW: &[u8] = b"\x10\x00\x01\x01\x30\x00\x08\x00\x05Shelf\x00\x30\x00\x07\x00\x04Card\x00\
    \x50\x00\x14\x01\x01\x00\x01\x01\x05shelf\x01\x00\x04\x05cards";

/// NEW in edition 2.
const NEW_2: &[u8] = b"\x10\x00\x01\x02\x30\x00\x08\x00\x05Shelf\x00\x30\x00\x07\x00\x04Card\x00\
    \x50\x00\x18\x01\x01\x00\x00\x01\x00\x01\x05shelf\x01\x00\x00\x00\x04\x05cards";

/// NEW_2 with up to 101 cards a shelf, which edition 1 cannot say.
const WIDE: &[u8] = b"\x10\x00\x01\x02\x30\x00\x08\x00\x05Shelf\x00\x30\x00\x07\x00\x04Card\x00\
    \x50\x00\x18\x01\x01\x00\x00\x01\x00\x01\x05shelf\x01\x00\x00\x00\x65\x05cards";

/// One Card, the only least difference between the two.
const CARD: &[u8] = b"\x60\x00\x01\x01\x61\x00\x05\x04Card";

/// What the latter becomes: 0 to 4 cards a shelf, 1 shelf a card, at most one whole a card.
const PREDICATES: [[u8; 7]; 3] = [
    [1, 0, 0, 0, 0, 0, 4],
    [3, 0, 0, 0, 1, 0, 1],
    [6, 0, 0, 0, 0, 0, 0],
];

#[test]
fn a_row_of_all_calls() {
    let calls = [
        Call::Load {
            place: 0,
            file: OLD,
        },
        Call::Load {
            place: 1,
            file: NEW,
        },
        Call::Compare { bound: 0 },
        Call::Compare { bound: 8 },
        Call::HandOut {
            room: HAND_OUT_ROOM,
        },
        Call::Judge {
            place: 0,
            file: CARD,
        },
        Call::Judge {
            place: 1,
            file: CARD,
        },
        Call::Compile { place: 1 },
        Call::Evaluate {
            place: 1,
            file: CARD,
        },
        Call::Clear { place: 1 },
        Call::HandOut { room: 2 },
    ];
    let expected = [
        Reply::Done,
        Reply::Done,
        Reply::NoDifference,
        Reply::Difference(1),
        Reply::Written {
            file: CARD.to_vec(),
            rest: vec![0; HAND_OUT_ROOM as usize - CARD.len()],
        },
        Reply::Rule(0),
        Reply::Rule(7),
        Reply::Records(PREDICATES.to_vec()),
        Reply::FirstFalse(1),
        Reply::Done,
        Reply::NotWritten {
            refusal: 22,
            buffer: vec![0, 0],
        },
    ];
    assert_eq!(run(&calls), expected);
    assert_eq!(try_run(&calls), Ok(expected.to_vec()));
}

#[test]
fn a_text_is_loaded_as_the_file_of_its_diagram() {
    let new = b"classdiagram New { class Shelf; class Card;
        composition [1] Shelf -> (cards) Card [0..4]; }";
    let load_text = |place, text| Call::LoadText { place, text };
    let calls = [
        Call::Load {
            place: 0,
            file: OLD,
        },
        load_text(1, new),
        Call::Compile { place: 1 },
        Call::Compare { bound: 8 },
        load_text(1, b"classdiagram New { class Shelf }"),
        load_text(1, b"classdiagram New { association Shelf -> Shelf; }"),
        load_text(2, new),
        Call::Judge {
            place: 1,
            file: CARD,
        },
    ];
    let expected = [
        Reply::Done,
        Reply::Done,
        Reply::Records(PREDICATES.to_vec()),
        Reply::Difference(1),
        Reply::Refused(23),
        Reply::Refused(24),
        Reply::Refused(10),
        Reply::Rule(7),
    ];
    assert_eq!(run(&calls), expected);
}

#[test]
fn an_edition_2_file_has_wide_limits() {
    let file = b"\x10\x00\x01\x02\x30\x00\x08\x00\x05Shelf\x00\x30\x00\x07\x00\x04Card\x00\
        \x50\x00\x18\x01\x01\x00\x00\x01\x00\x01\x05shelf\x01\x01\x00\x0F\xA0\x05cards";
    let calls = [
        Call::Load { place: 0, file },
        Call::Compile { place: 0 },
        Call::Judge {
            place: 0,
            file: CARD,
        },
    ];
    let expected = [
        Reply::Done,
        Reply::Records(vec![
            [1, 0, 0, 1, 0, 15, 160],
            [3, 0, 0, 0, 1, 0, 1],
            [6, 0, 0, 0, 0, 0, 0],
        ]),
        Reply::Rule(7),
    ];
    assert_eq!(run(&calls), expected);
}

#[test]
fn a_file_is_converted_to_the_other_edition_and_back() {
    let written = |file: &[u8], room: u32| Reply::Written {
        file: file.to_vec(),
        rest: vec![0; room as usize - file.len()],
    };
    let not_written = |refusal, room: u32| Reply::NotWritten {
        refusal,
        buffer: vec![0; room as usize],
    };
    let cases = [
        (NEW, CONVERT_ROOM, written(NEW_2, CONVERT_ROOM)),
        (NEW_2, CONVERT_ROOM + 1, written(NEW, CONVERT_ROOM + 1)),
        (WIDE, 2, not_written(25, 2)),
        (NEW, CONVERT_ROOM - 1, not_written(20, CONVERT_ROOM - 1)),
        (&NEW[..3], 0, not_written(1, 0)),
    ];
    let calls = cases
        .each_ref()
        .map(|&(file, room, _)| Call::Convert { file, room });
    let replies = run(&calls);
    assert_eq!(replies.len(), cases.len());
    for (at, (reply, (_, _, expected))) in replies.iter().zip(&cases).enumerate() {
        // A whole buffer would be shown by assert_eq.
        assert!(reply == expected, "call {at}: {:?}", reply.refusal());
    }
}

#[test]
fn bytes_behind_the_replies_stay() {
    let calls = encode(&[Call::Clear { place: 0 }, Call::Clear { place: 2 }]);
    let mut replies = [0xEE; 4];
    assert_eq!(replay(&calls, &mut replies), 2);
    assert_eq!(replies, [0, 10, 0xEE, 0xEE]);
    assert_eq!(replay(&calls, &mut []), 0);
    assert_eq!(replay(&[], &mut replies), 0);
}
