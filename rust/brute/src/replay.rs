//! A coded list of calls, run from a fresh bench; its replies, coded too.

use crate::bench::Bench;
use crate::predicates::Entry;

/// A call taken off the front of the coded list.
enum Call<'a> {
    Load(u8, &'a [u8]),
    Clear(u8),
    Judge(u8, &'a [u8]),
    Compile(u8),
    Evaluate(u8, &'a [u8]),
    Compare(u8),
    HandOut(usize),
    LoadText(u8, &'a [u8]),
    Convert(&'a [u8], usize),
}

/// Runs the calls and gives the number of reply bytes. It stops at the first call that is cut
/// off or unknown, or whose reply does not fit; what lies behind the replies is untouched.
pub fn replay(calls: &[u8], replies: &mut [u8]) -> usize {
    let mut bench = Bench::default();
    let mut rest = calls;
    let mut at = 0;
    while let Some(call) = take_call(&mut rest) {
        let Some(length) = run_call(&mut bench, call, &mut replies[at..]) else {
            break;
        };
        at += length;
    }
    at
}

/// Takes a call off the list; none where it is cut off or unknown.
fn take_call<'a>(rest: &mut &'a [u8]) -> Option<Call<'a>> {
    match take_byte(rest)? {
        1 => Some(Call::Load(take_byte(rest)?, take_file(rest)?)),
        2 => Some(Call::Clear(take_byte(rest)?)),
        3 => Some(Call::Judge(take_byte(rest)?, take_file(rest)?)),
        4 => Some(Call::Compile(take_byte(rest)?)),
        5 => Some(Call::Evaluate(take_byte(rest)?, take_file(rest)?)),
        6 => Some(Call::Compare(take_byte(rest)?)),
        7 => Some(Call::HandOut(take_length(rest)?)),
        8 => Some(Call::LoadText(take_byte(rest)?, take_file(rest)?)),
        9 => Some(Call::Convert(take_file(rest)?, take_length(rest)?)),
        _ => None,
    }
}

/// Takes so many bytes, if they are there.
fn take<'a>(rest: &mut &'a [u8], length: usize) -> Option<&'a [u8]> {
    let (taken, behind) = rest.split_at_checked(length)?;
    *rest = behind;
    Some(taken)
}

/// Takes one byte.
fn take_byte(rest: &mut &[u8]) -> Option<u8> {
    Some(take(rest, 1)?[0])
}

/// Takes four bytes, the high one first.
fn take_length(rest: &mut &[u8]) -> Option<usize> {
    let bytes = take(rest, 4)?.try_into().ok()?;
    usize::try_from(u32::from_be_bytes(bytes)).ok()
}

/// Takes a length and that many bytes.
fn take_file<'a>(rest: &mut &'a [u8]) -> Option<&'a [u8]> {
    let length = take_length(rest)?;
    take(rest, length)
}

/// Runs one call and writes its reply; none where the reply does not fit.
fn run_call(bench: &mut Bench, call: Call, out: &mut [u8]) -> Option<usize> {
    let done = |()| Vec::new();
    let byte = |b: u8| vec![b];
    let reply = match call {
        Call::Load(place, file) => bench.load(place, file).map(done),
        Call::Clear(place) => bench.clear(place).map(done),
        Call::Judge(place, file) => bench.judge(place, file).map(byte),
        Call::Compile(place) => bench.compile(place).map(|list| list_bytes(&list)),
        Call::Evaluate(place, file) => bench.evaluate(place, file).map(byte),
        Call::Compare(bound) => bench.compare(bound).map(difference_bytes),
        Call::HandOut(room) => return lend(room, out, |buffer| bench.hand_out(buffer)),
        Call::LoadText(place, text) => bench.load_text(place, text).map(done),
        Call::Convert(file, room) => return lend(room, out, |buffer| bench.convert(file, buffer)),
    };
    let mut bytes = vec![reply.as_ref().err().copied().unwrap_or(0)];
    bytes.extend(reply.unwrap_or_default());
    out.get_mut(..bytes.len())?.copy_from_slice(&bytes);
    Some(bytes.len())
}

/// The number of records and the list of 64, zero past the number.
fn list_bytes(list: &[Entry]) -> Vec<u8> {
    let mut bytes = vec![u8::try_from(list.len()).expect("a list has at most 64 records")];
    bytes.extend(list.concat());
    bytes.resize(1 + 64 * size_of::<Entry>(), 0);
    bytes
}

/// 0 for no difference; 1 and the object count for a difference.
fn difference_bytes(count: Option<u8>) -> Vec<u8> {
    match count {
        Some(count) => vec![1, count],
        None => vec![0],
    }
}

/// Lends a call the part behind the reply's first five bytes, which hold the status and the length.
fn lend(
    room: usize,
    out: &mut [u8],
    call: impl FnOnce(&mut [u8]) -> Result<usize, u8>,
) -> Option<usize> {
    let whole = room.checked_add(5)?;
    let (head, buffer) = out.get_mut(..whole)?.split_at_mut(5);
    let (status, length) = match call(buffer) {
        Ok(length) => (0, length),
        Err(refusal) => (refusal, 0),
    };
    let length = u32::try_from(length).expect("a file has at most 59,300 bytes");
    head[0] = status;
    head[1..].copy_from_slice(&length.to_be_bytes());
    Some(whole)
}
