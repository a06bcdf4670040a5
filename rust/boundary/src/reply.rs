//! Replies and their coding: a status byte, 0 or the refusal's number, and what the call gives.

use crate::call::{Call, ENTRY_BYTES, LENT_HEAD, LIST_ENTRIES};

/// The reply to one call.
#[derive(Clone, Debug, PartialEq, Eq)]
pub enum Reply {
    /// Load, load of a text and clear: accepted.
    Done,
    /// Judge: 0, or the lowest rule broken.
    Rule(u8),
    /// Compile: the compiled predicates (kind, association, side, and two bytes each, high byte
    /// first, of low and up).
    Records(Vec<[u8; ENTRY_BYTES]>),
    /// Evaluate: the index of the first predicate that does not hold, or their number.
    FirstFalse(u8),
    /// Compare: no record within the bound is legal for old and illegal for new.
    NoDifference,
    /// Compare: the object count of the witness.
    Difference(u8),
    /// Hand out: the witness's file; convert: the file of the other edition. Both with the bytes of
    /// the buffer behind it.
    Written { file: Vec<u8>, rest: Vec<u8> },
    /// Any call without a lent buffer: the refusal's number.
    Refused(u8),
    /// Hand out or convert: the refusal's number, and the buffer as it came back.
    NotWritten { refusal: u8, buffer: Vec<u8> },
}

impl Reply {
    /// The refusal's number, of whichever call.
    pub fn refusal(&self) -> Option<u8> {
        match *self {
            Reply::Refused(number) => Some(number),
            Reply::NotWritten { refusal, .. } => Some(refusal),
            _ => None,
        }
    }
}

/// The replies to these calls; fewer than there are calls where the library stopped early.
pub fn decode(calls: &[Call], replies: &[u8]) -> Vec<Reply> {
    let mut rest = replies;
    let mut decoded = Vec::new();
    for call in calls {
        let Some(reply) = decode_one(call, &mut rest) else {
            break;
        };
        decoded.push(reply);
    }
    decoded
}

/// The reply to one call, taken off the front; none where its bytes are not all there.
fn decode_one(call: &Call, rest: &mut &[u8]) -> Option<Reply> {
    if let Call::HandOut { room } | Call::Convert { room, .. } = *call {
        return lent_reply(room as usize, rest);
    }
    let status = take(rest, 1)?[0];
    if status != 0 {
        return Some(Reply::Refused(status));
    }
    match call {
        Call::Load { .. } | Call::LoadText { .. } | Call::Clear { .. } => Some(Reply::Done),
        Call::Judge { .. } => Some(Reply::Rule(take(rest, 1)?[0])),
        Call::Evaluate { .. } => Some(Reply::FirstFalse(take(rest, 1)?[0])),
        Call::Compile { .. } => compile_reply(rest),
        Call::Compare { .. } => compare_reply(rest),
        Call::HandOut { .. } | Call::Convert { .. } => None,
    }
}

/// The list of compile up to its number; the entries past it are zero and left out.
fn compile_reply(rest: &mut &[u8]) -> Option<Reply> {
    let number = usize::from(take(rest, 1)?[0]);
    let list = take(rest, LIST_ENTRIES * ENTRY_BYTES)?;
    let (entries, _) = list.as_chunks::<ENTRY_BYTES>();
    let records = entries.iter().take(number).copied();
    Some(Reply::Records(records.collect()))
}

/// "No difference", or "difference" with its object count.
fn compare_reply(rest: &mut &[u8]) -> Option<Reply> {
    if take(rest, 1)?[0] == 0 {
        return Some(Reply::NoDifference);
    }
    Some(Reply::Difference(take(rest, 1)?[0]))
}

/// The reply to a call with a lent buffer spans the whole buffer, refused or not.
fn lent_reply(room: usize, rest: &mut &[u8]) -> Option<Reply> {
    let head = take(rest, LENT_HEAD)?;
    let buffer = take(rest, room)?;
    if head[0] != 0 {
        let buffer = buffer.to_vec();
        return Some(Reply::NotWritten {
            refusal: head[0],
            buffer,
        });
    }
    let length = u32::from_be_bytes([head[1], head[2], head[3], head[4]]) as usize;
    let (file, behind) = buffer.split_at_checked(length)?;
    Some(Reply::Written {
        file: file.to_vec(),
        rest: behind.to_vec(),
    })
}

/// The first bytes of what is left; none where there are fewer.
fn take<'a>(rest: &mut &'a [u8], count: usize) -> Option<&'a [u8]> {
    let (front, behind) = rest.split_at_checked(count)?;
    *rest = behind;
    Some(front)
}

#[cfg(test)]
mod tests {
    use super::*;

    const FILE: &[u8] = &[];

    #[test]
    fn replies_with_a_payload() {
        let calls = [
            Call::Load {
                place: 0,
                file: FILE,
            },
            Call::Clear { place: 1 },
            Call::Judge {
                place: 0,
                file: FILE,
            },
            Call::Evaluate {
                place: 0,
                file: FILE,
            },
            Call::Compare { bound: 1 },
            Call::Compare { bound: 4 },
            Call::LoadText {
                place: 0,
                text: FILE,
            },
        ];
        let replies = [0, 0, 0, 6, 0, 3, 0, 0, 0, 1, 4, 0];
        let expected = [
            Reply::Done,
            Reply::Done,
            Reply::Rule(6),
            Reply::FirstFalse(3),
            Reply::NoDifference,
            Reply::Difference(4),
            Reply::Done,
        ];
        assert_eq!(decode(&calls, &replies), expected);
    }

    #[test]
    fn a_refusal_is_one_byte_but_for_a_lent_buffer() {
        let calls = [
            Call::Load {
                place: 2,
                file: FILE,
            },
            Call::Compile { place: 0 },
            Call::HandOut { room: 3 },
            Call::Compare { bound: 9 },
            Call::LoadText {
                place: 1,
                text: FILE,
            },
            Call::Convert {
                file: FILE,
                room: 2,
            },
            Call::Clear { place: 3 },
        ];
        let replies = [
            10, 21, 22, 0, 0, 0, 0, 7, 8, 9, 9, 23, 25, 0, 0, 0, 0, 5, 6, 10,
        ];
        let decoded = decode(&calls, &replies);
        let numbers: Vec<_> = decoded.iter().map(Reply::refusal).collect();
        assert_eq!(numbers, [10, 21, 22, 9, 23, 25, 10].map(Some));
        let not_written = |refusal, buffer| Reply::NotWritten { refusal, buffer };
        assert_eq!(decoded[2], not_written(22, vec![7, 8, 9]));
        assert_eq!(decoded[5], not_written(25, vec![5, 6]));
        assert_eq!(Reply::Done.refusal(), None);
    }

    #[test]
    fn a_compiled_list_ends_at_its_number() {
        let mut replies = vec![0, 2, 1, 0, 0, 0, 0, 1, 0, 3, 0, 0, 0, 1, 15, 160];
        replies.resize(2 + 448, 0);
        replies.push(21);
        let calls = [Call::Compile { place: 0 }, Call::Compile { place: 1 }];
        let expected = [
            Reply::Records(vec![[1, 0, 0, 0, 0, 1, 0], [3, 0, 0, 0, 1, 15, 160]]),
            Reply::Refused(21),
        ];
        assert_eq!(decode(&calls, &replies), expected);
    }

    #[test]
    fn a_written_file_and_the_buffer_behind_it() {
        let calls = [
            Call::HandOut { room: 6 },
            Call::Convert {
                file: FILE,
                room: 5,
            },
        ];
        let replies = [
            0, 0, 0, 0, 4, 0x60, 0, 1, 0, 0xAA, 0xBB, 0, 0, 0, 0, 4, 0x10, 0, 1, 2, 0xCC,
        ];
        let expected = [
            Reply::Written {
                file: vec![0x60, 0, 1, 0],
                rest: vec![0xAA, 0xBB],
            },
            Reply::Written {
                file: vec![0x10, 0, 1, 2],
                rest: vec![0xCC],
            },
        ];
        assert_eq!(decode(&calls, &replies), expected);
    }

    #[test]
    fn replies_that_are_cut_off_are_left_out() {
        let calls = [
            Call::Clear { place: 0 },
            Call::HandOut { room: 6 },
            Call::Clear { place: 0 },
        ];
        let replies = [0, 0, 0, 0, 0, 4, 0x60, 0, 1];
        assert_eq!(decode(&calls, &replies), [Reply::Done]);
        assert_eq!(decode(&calls, &[]), []);
        let too_long = [0, 0, 0, 0, 0, 9, 0, 0, 0, 0, 0, 0];
        assert_eq!(decode(&calls, &too_long), [Reply::Done]);
        let convert = Call::Convert {
            file: FILE,
            room: 6,
        };
        assert_eq!(decode(&[convert], &replies[1..]), []);
    }
}
