//! Does a row of calls give the same bytes, call for call?

use brute::{compare_within, judge, read_diagram, read_record, read_text, Diagram};
use generators::calls::{room, split};
use generators::diagrams::TINY;
use generators::fillings::searched_soon;
use generators::hex::hex;
use generators::rows::{any_reply_room, row, spoiled};
use generators::{CallPlan, DiagramPlan, Random};

/// Nodes that the independent search may visit for a compare of a row.
const BUDGET: u64 = 50_000;

/// How often each status byte came, how many witnesses were checked, how many files were converted and
/// how many rows ended early.
#[derive(Default, Debug)]
pub struct Tally {
    pub statuses: [usize; 26],
    pub witnesses: usize,
    pub converted: usize,
    pub stopped: usize,
}

/// What both sides made of a list of calls, in buffers that held the same bytes before.
pub struct Both {
    before: Vec<u8>,
    product: Vec<u8>,
    independent: Vec<u8>,
    written: usize,
}

impl Both {
    /// The product's replies where the calls leave no choice: they are the independent bench's.
    pub fn same_replies(&self, shown: &str) -> &[u8] {
        let got = &self.product[..self.written];
        let same = *got == self.independent[..self.written];
        assert!(same, "the product's replies are others\n{shown}");
        got
    }
}

/// Runs a list of calls on both sides; as many reply bytes must come, and what lies behind them
/// must stay.
pub fn on_both_sides(list: &[u8], before: Vec<u8>, shown: &str) -> Both {
    let (mut product, mut independent) = (before.clone(), before.clone());
    let written = boundary::replay(list, &mut product);
    let expected = brute::replay(list, &mut independent);
    assert_eq!(written, expected, "another number of reply bytes\n{shown}");
    let untouched = product[written..] == before[written..];
    assert!(untouched, "bytes behind the replies changed\n{shown}");
    Both {
        before,
        product,
        independent,
        written,
    }
}

/// Runs the row of a seed on both sides and compares reply by reply.
pub fn rows_agree(seed: u64, tally: &mut Tally) {
    let mut random = Random::new(seed);
    let length = random.between(1, 24);
    let calls = row(&mut random, length, TINY, &mut ends_soon);
    let list = spoiled(&mut random, &calls);
    let space = any_reply_room(&mut random, room(&calls));
    let before = (0..space).map(|_| random.byte()).collect();
    let shown = format!("seed {seed}, room {space}\ncalls: {}", hex(&list));
    let both = on_both_sides(&list, before, &shown);
    if replies_agree(&calls, &both, &shown, tally) < calls.len() {
        tally.stopped += 1;
    }
}

/// Compares the replies one by one and gives their number; a witness handed out may be another.
pub fn replies_agree(calls: &[CallPlan], both: &Both, shown: &str, tally: &mut Tally) -> usize {
    let got = split(calls, &both.product[..both.written]);
    let wanted = split(calls, &both.independent[..both.written]);
    assert_eq!(
        got.len(),
        wanted.len(),
        "another number of replies\n{shown}"
    );
    let (mut places, mut count, mut start) = ([None, None], 0, 0);
    for (call, (got, wanted)) in calls.iter().zip(got.iter().zip(&wanted)) {
        let shown = format!("{}, replies from byte {start}\n{shown}", name(call));
        tally.statuses[usize::from(wanted[0])] += 1;
        note(call, wanted, &mut places, &mut count);
        if matches!(call, CallPlan::HandOut { .. }) && wanted[0] == 0 {
            tally.witnesses += 1;
            witness(&shown, got, &both.before[start + 5..], count, &places);
        } else {
            assert_eq!(
                got, wanted,
                "the product's reply (left) is another\n{shown}"
            );
            let is_conversion = matches!(call, CallPlan::Convert { .. });
            tally.converted += usize::from(is_conversion && wanted[0] == 0);
        }
        start += got.len();
    }
    got.len()
}

/// Whether both sides can compare these diagrams up to this bound in a moment.
fn ends_soon(old: &DiagramPlan, new: &DiagramPlan, bound: u8) -> bool {
    let bound = usize::from(bound);
    let read = |plan: &DiagramPlan| read_diagram(&plan.file()).expect("it is accepted");
    searched_soon(old, bound) && compare_within(&read(old), &read(new), bound, BUDGET).is_ok()
}

/// Keeps up with what the places hold and with the last difference's object count.
fn note(call: &CallPlan, reply: &[u8], places: &mut [Option<Diagram>; 2], count: &mut u8) {
    match call {
        CallPlan::Load { place, file } if reply[0] == 0 => {
            places[usize::from(*place)] = read_diagram(file).ok();
        }
        CallPlan::LoadText { place, text } if reply[0] == 0 => {
            places[usize::from(*place)] = read_text(text).ok();
        }
        CallPlan::Compare { .. } if reply.len() == 3 => *count = reply[2],
        _ => {}
    }
}

/// A witness handed out: the choice is free, but it must be one, and later bytes must stay.
fn witness(shown: &str, got: &[u8], before: &[u8], count: u8, places: &[Option<Diagram>; 2]) {
    assert_eq!(got[0], 0, "hand out was refused\n{shown}");
    let length = u32::from_be_bytes([got[1], got[2], got[3], got[4]]) as usize;
    let buffer = &got[5..];
    assert!(
        length <= buffer.len(),
        "length {length} passes the buffer\n{shown}"
    );
    assert!(
        buffer[length..] == before[length..buffer.len()],
        "bytes behind the witness changed\n{shown}"
    );
    let record = read_record(&buffer[..length]);
    let record = record.unwrap_or_else(|refusal| panic!("read back: refusal {refusal}\n{shown}"));
    assert_eq!(
        record.objects.len(),
        usize::from(count),
        "object count\n{shown}"
    );
    if let [Some(old), Some(new)] = places {
        assert_eq!(judge(old, &record), 0, "illegal for old\n{shown}");
        assert_ne!(judge(new, &record), 0, "legal for new\n{shown}");
    } else {
        panic!("a witness without two diagrams\n{shown}");
    }
}

/// The call in a word, for messages.
fn name(call: &CallPlan) -> String {
    match call {
        CallPlan::Load { place, .. } => format!("load into {place}"),
        CallPlan::LoadText { place, .. } => format!("load text into {place}"),
        CallPlan::Judge { place, .. } => format!("judge by {place}"),
        CallPlan::Evaluate { place, .. } => format!("evaluate by {place}"),
        CallPlan::Convert { room, .. } => format!("convert into {room} bytes"),
        other => format!("{other:?}"),
    }
}
