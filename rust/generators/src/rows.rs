//! Rows of calls as a careless caller might make them.

use crate::calls::{coded, CallPlan};
use crate::damage::damaged;
use crate::diagrams::{diagram, Size};
use crate::edition_faults::with_edition_fault;
use crate::editions::in_any_edition;
use crate::edits::edited;
use crate::plan::DiagramPlan;
use crate::random::Random;
use crate::records::record;
use crate::text_damage::{damaged_bytes, damaged_tokens};
use crate::text_layout::laid_out;
use crate::texts::{text, TextPlan};

/// Whether comparing these two diagrams up to this bound ends soon.
pub type Affordable<'a> = &'a mut dyn FnMut(&DiagramPlan, &DiagramPlan, u8) -> bool;

/// What a place holds, as far as the caller knows.
#[derive(Clone)]
enum Held {
    Nothing,
    Diagram(DiagramPlan),
    Unknown,
}

/// A row being made.
struct Row<'a> {
    diagrams: Vec<DiagramPlan>,
    held: [Held; 2],
    calls: Vec<CallPlan>,
    affordable: Affordable<'a>,
}

/// A row of about `length` calls on a few diagrams that are small edits of each other.
pub fn row(
    random: &mut Random,
    length: usize,
    size: Size,
    affordable: Affordable,
) -> Vec<CallPlan> {
    let mut diagrams = vec![diagram(random, size), DiagramPlan::default()];
    for _ in 0..2 {
        let next = edited(random, &diagrams[0]);
        diagrams.push(next);
    }
    let mut row = Row {
        diagrams,
        held: [Held::Nothing, Held::Nothing],
        calls: Vec::new(),
        affordable,
    };
    if random.chance(3, 4) {
        for place in 0..2 {
            match random.chance(1, 3) {
                true => row.load_text(random, place),
                false => row.load_whole(random, place),
            }
        }
    }
    while row.calls.len() < length {
        row.step(random);
    }
    row.calls
}

impl Row<'_> {
    /// Adds a call or two of any kind.
    fn step(&mut self, random: &mut Random) {
        match random.below(18) {
            0 => {
                let at = any_place(random);
                self.load_whole(random, at);
            }
            1 => self.load_damaged(random),
            2 => self.clear(random),
            3 | 4 => {
                let (place, file) = (any_place(random), self.record_file(random));
                self.calls.push(CallPlan::Judge { place, file });
            }
            5 => self.calls.push(CallPlan::Compile {
                place: any_place(random),
            }),
            6 | 7 => {
                let (place, file) = (any_place(random), self.record_file(random));
                self.calls.push(CallPlan::Evaluate { place, file });
            }
            8..=11 => self.compare(random),
            12 => {
                let at = any_place(random);
                self.load_text(random, at);
            }
            13 => self.load_damaged_text(random),
            14 | 15 => self.convert(random),
            _ => self.calls.push(CallPlan::HandOut {
                room: any_room(random),
            }),
        }
    }

    /// Loads one of the diagrams as it is.
    fn load_whole(&mut self, random: &mut Random, place: u8) {
        let plan = random.pick(&self.diagrams).clone();
        let file = plan.file();
        self.calls.push(CallPlan::Load { place, file });
        self.holds(place, Held::Diagram(plan));
    }

    /// One of the diagrams as a text.
    fn text(&self, random: &mut Random) -> TextPlan {
        let at = random.below(self.diagrams.len());
        text(random, &self.diagrams[at])
    }

    /// Loads the text of one of the diagrams.
    fn load_text(&mut self, random: &mut Random, place: u8) {
        let written = self.text(random);
        let text = laid_out(random, &written.tokens);
        self.calls.push(CallPlan::LoadText { place, text });
        self.holds(place, Held::Diagram(written.plan));
    }

    /// Loads a text that may be refused or may declare another diagram.
    fn load_damaged_text(&mut self, random: &mut Random) {
        let mut tokens = self.text(random).tokens;
        if random.chance(2, 3) {
            tokens = damaged_tokens(random, &tokens);
        }
        let mut text = laid_out(random, &tokens);
        if random.chance(1, 3) {
            text = damaged_bytes(random, &text);
        }
        let place = any_place(random);
        self.calls.push(CallPlan::LoadText { place, text });
        self.holds(place, Held::Unknown);
    }

    /// Loads a file that may be refused or may be another diagram.
    fn load_damaged(&mut self, random: &mut Random) {
        let plan = random.pick(&self.diagrams);
        let place = any_place(random);
        let file = match random.chance(1, 6) {
            true => with_edition_fault(random, plan),
            false => damaged(random, &plan.fields()),
        };
        self.calls.push(CallPlan::Load { place, file });
        self.holds(place, Held::Unknown);
    }

    /// Clears a place.
    fn clear(&mut self, random: &mut Random) {
        let place = any_place(random);
        self.calls.push(CallPlan::Clear { place });
        self.holds(place, Held::Nothing);
    }

    /// Notes what a place holds, if there is such a place.
    fn holds(&mut self, place: u8, what: Held) {
        if let Some(held) = self.held.get_mut(usize::from(place)) {
            *held = what;
        }
    }

    /// A record for one of the diagrams, now and then a damaged one.
    fn record_file(&self, random: &mut Random) -> Vec<u8> {
        let at = random.below(self.diagrams.len());
        let plan = record(random, &self.diagrams[at], 4);
        match random.below(4) {
            0 => damaged(random, &plan.fields()),
            _ => plan.file(),
        }
    }

    /// Converts one of the diagrams of either edition, or what may be no diagram file.
    fn convert(&mut self, random: &mut Random) {
        let plan = random.pick(&self.diagrams).clone();
        let plan = in_any_edition(random, &plan);
        let file = match random.below(10) {
            0 => with_edition_fault(random, &plan),
            1 => damaged(random, &plan.fields()),
            2 => self.record_file(random),
            3 => {
                let tokens = self.text(random).tokens;
                laid_out(random, &tokens)
            }
            _ => plan.file(),
        };
        let room = any_convert_room(random);
        self.calls.push(CallPlan::Convert { file, room });
    }

    /// Compares up to a bound that ends soon, or one that is refused; often hands out then, now and
    /// then behind a conversion.
    fn compare(&mut self, random: &mut Random) {
        let mut bound = random.below(10) as u8;
        if bound < 9 {
            while bound > 0 && !self.ends_soon(bound) {
                bound -= 1;
            }
        }
        self.calls.push(CallPlan::Compare { bound });
        if random.chance(2, 3) {
            if random.chance(1, 6) {
                self.convert(random);
            }
            self.calls.push(CallPlan::HandOut {
                room: *random.pick(&[60_000, 60_000, 60_000, 60_001, 59_999]),
            });
        }
    }

    /// Whether a compare of what the places hold ends soon; unknown diagrams might not.
    fn ends_soon(&mut self, bound: u8) -> bool {
        match (&self.held[0], &self.held[1]) {
            (Held::Diagram(old), Held::Diagram(new)) => (self.affordable)(old, new, bound),
            (Held::Unknown, _) | (_, Held::Unknown) => false,
            _ => true,
        }
    }
}

/// Mostly one of the two places, sometimes one that a bench does not have.
fn any_place(random: &mut Random) -> u8 {
    match random.below(12) {
        0 => 2,
        1 => *random.pick(&[3, 127, 128, 255]),
        _ => random.below(2) as u8,
    }
}

/// The length of a buffer: below, at and above what a hand out asks for.
fn any_room(random: &mut Random) -> u32 {
    *random.pick(&[0, 10, 59_999, 60_000, 60_001])
}

/// The length of a buffer: below, at and above what a conversion asks for.
pub fn any_convert_room(random: &mut Random) -> u32 {
    *random.pick(&[0, 4_095, 4_096, 4_096, 4_097, 5_000])
}

/// Cuts a coded list off somewhere, or puts a call that nobody knows into it.
pub fn spoiled(random: &mut Random, calls: &[CallPlan]) -> Vec<u8> {
    let mut list = coded(calls);
    match random.below(4) {
        0 => {
            list.truncate(random.below(list.len() + 1));
            list
        }
        1 => {
            let kept = random.below(calls.len() + 1);
            let mut list = coded(&calls[..kept]);
            list.push(*random.pick(&[0, 10, 11, 127, 255]));
            list.extend(coded(&calls[kept..]));
            list
        }
        _ => list,
    }
}

/// How much room the replies get: enough, more, or a part of it.
pub fn any_reply_room(random: &mut Random, enough: usize) -> usize {
    match random.below(4) {
        0 => random.below(enough + 1),
        1 => random.below(enough.min(200) + 1),
        2 => enough,
        _ => enough + random.below(100),
    }
}
