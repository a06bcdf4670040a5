//! Calls and their coding: a code byte and its operands, a length as four bytes, high byte first.

/// One call of the bench.
#[derive(Clone, Copy, Debug, PartialEq, Eq)]
pub enum Call<'a> {
    Load { place: u8, file: &'a [u8] },
    Clear { place: u8 },
    Judge { place: u8, file: &'a [u8] },
    Compile { place: u8 },
    Evaluate { place: u8, file: &'a [u8] },
    Compare { bound: u8 },
    HandOut { room: u32 },
    LoadText { place: u8, text: &'a [u8] },
    Convert { file: &'a [u8], room: u32 },
}

/// Entries of a compiled list as compile replies it, those past the number included.
pub(crate) const LIST_ENTRIES: usize = 64;

/// Bytes of one entry of a compiled list.
pub(crate) const ENTRY_BYTES: usize = 7;

/// Bytes in front of the lent buffer in a reply of hand out or convert: the status and the length
/// written.
pub(crate) const LENT_HEAD: usize = 5;

/// The calls as the library reads them.
///
/// Panics where a file or a text has 4 GiB or more, since its length has no coding.
pub fn encode(calls: &[Call]) -> Vec<u8> {
    let mut coded = Vec::new();
    for call in calls {
        encode_one(call, &mut coded);
    }
    coded
}

/// Appends one call's code and operands.
fn encode_one(call: &Call, coded: &mut Vec<u8>) {
    match *call {
        Call::Load { place, file } => with_place_and_file(1, place, file, coded),
        Call::Clear { place } => coded.extend([2, place]),
        Call::Judge { place, file } => with_place_and_file(3, place, file, coded),
        Call::Compile { place } => coded.extend([4, place]),
        Call::Evaluate { place, file } => with_place_and_file(5, place, file, coded),
        Call::Compare { bound } => coded.extend([6, bound]),
        Call::HandOut { room } => {
            coded.push(7);
            coded.extend(room.to_be_bytes());
        }
        Call::LoadText { place, text } => with_place_and_file(8, place, text, coded),
        Call::Convert { file, room } => {
            coded.push(9);
            put_file(file, coded);
            coded.extend(room.to_be_bytes());
        }
    }
}

/// Appends a call that names a place and carries a file or a text.
fn with_place_and_file(code: u8, place: u8, file: &[u8], coded: &mut Vec<u8>) {
    coded.extend([code, place]);
    put_file(file, coded);
}

/// Appends a file or a text behind its length.
fn put_file(file: &[u8], coded: &mut Vec<u8>) {
    let length = u32::try_from(file.len()).expect("a file or text of a call is shorter than 4 GiB");
    coded.extend(length.to_be_bytes());
    coded.extend(file);
}

/// Room that is enough for the replies to these calls, whichever they are.
pub fn room_for(calls: &[Call]) -> usize {
    calls.iter().map(room_for_one).sum()
}

/// The longest reply that a call may have.
fn room_for_one(call: &Call) -> usize {
    match *call {
        Call::Load { .. } | Call::LoadText { .. } | Call::Clear { .. } => 1,
        Call::Judge { .. } | Call::Evaluate { .. } => 2,
        Call::Compile { .. } => 2 + LIST_ENTRIES * ENTRY_BYTES,
        Call::Compare { .. } => 3,
        Call::HandOut { room } | Call::Convert { room, .. } => LENT_HEAD + room as usize,
    }
}

#[cfg(test)]
mod tests {
    use super::*;

    #[test]
    fn each_call_has_its_code_and_operands() {
        let cases: [(Call, &[u8]); 9] = [
            (
                Call::Load {
                    place: 1,
                    file: &[0x10, 0, 1, 1],
                },
                &[1, 1, 0, 0, 0, 4, 0x10, 0, 1, 1],
            ),
            (Call::Clear { place: 200 }, &[2, 200]),
            (
                Call::Judge {
                    place: 0,
                    file: &[],
                },
                &[3, 0, 0, 0, 0, 0],
            ),
            (Call::Compile { place: 2 }, &[4, 2]),
            (
                Call::Evaluate {
                    place: 1,
                    file: &[9],
                },
                &[5, 1, 0, 0, 0, 1, 9],
            ),
            (Call::Compare { bound: 8 }, &[6, 8]),
            (Call::HandOut { room: 60_000 }, &[7, 0, 0, 0xEA, 0x60]),
            (
                Call::LoadText {
                    place: 1,
                    text: b"{}",
                },
                &[8, 1, 0, 0, 0, 2, b'{', b'}'],
            ),
            (
                Call::Convert {
                    file: &[0x10, 0, 1, 1],
                    room: 4_096,
                },
                &[9, 0, 0, 0, 4, 0x10, 0, 1, 1, 0, 0, 0x10, 0],
            ),
        ];
        for (call, coded) in cases {
            assert_eq!(encode(&[call]), coded, "{call:?}");
        }
    }

    #[test]
    fn a_length_has_its_high_byte_first() {
        let file = vec![0xAA; 0x01_02_03];
        let coded = encode(&[Call::Load {
            place: 0,
            file: &file,
        }]);
        assert_eq!(coded[..6], [1, 0, 0, 1, 2, 3]);
        assert_eq!(coded[6..], file[..]);
    }

    #[test]
    fn calls_follow_each_other() {
        let calls = [
            Call::Clear { place: 0 },
            Call::Compare { bound: 3 },
            Call::HandOut { room: 1 },
        ];
        assert_eq!(encode(&calls), [2, 0, 6, 3, 7, 0, 0, 0, 1]);
        assert_eq!(encode(&[]), []);
    }

    #[test]
    fn room_is_the_longest_reply_of_each_call() {
        let file: &[u8] = &[];
        let calls = [
            Call::Load { place: 0, file },
            Call::Clear { place: 0 },
            Call::Judge { place: 0, file },
            Call::Compile { place: 0 },
            Call::Evaluate { place: 0, file },
            Call::Compare { bound: 0 },
            Call::HandOut { room: 7 },
            Call::LoadText {
                place: 0,
                text: file,
            },
            Call::Convert { file, room: 9 },
        ];
        let rooms: Vec<usize> = calls.iter().map(|&call| room_for(&[call])).collect();
        assert_eq!(rooms, [1, 1, 2, 450, 2, 3, 12, 1, 14]);
        assert_eq!(room_for(&calls), 486);
    }
}
