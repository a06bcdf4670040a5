//! Are the same texts accepted, refused for the same reason, and read as the same diagram?

use crate::product;
use crate::questions::{answers, questions, records};
use brute::{compare_within, read_text, write_diagram, Diagram, Edition};
use generators::diagrams::{diagram, LARGE, SMALL};
use generators::faults::faulty;
use generators::text_damage::{damaged_bytes, damaged_tokens};
use generators::text_layout::laid_out;
use generators::texts::{faulty_text, text, Token};
use generators::{CallPlan, DiagramPlan, Random};

/// How often each reply came: index 0 counts accepted texts, the others refusals by number.
pub type Tally = [usize; 25];

/// Nodes that the independent search may visit for a diagram beside itself.
const BUDGET: u64 = 5_000;

/// A diagram of a seed, now and then a large one.
fn made_up(random: &mut Random) -> DiagramPlan {
    let size = if random.chance(1, 8) { LARGE } else { SMALL };
    diagram(random, size)
}

/// Texts of a seed that no check refuses: one diagram in several orders and layouts, beside each
/// the diagram that it declares.
pub fn whole_texts(seed: u64) -> Vec<(Vec<u8>, DiagramPlan)> {
    let mut random = Random::new(seed);
    let plan = made_up(&mut random);
    let mut texts = Vec::new();
    for _ in 0..6 {
        let written = text(&mut random, &plan);
        let laid_out = laid_out(&mut random, &written.tokens);
        texts.push((laid_out, written.plan));
    }
    texts
}

/// Texts of a seed with words and marks left out, doubled, exchanged or replaced, and texts of
/// diagrams with faults.
pub fn texts_damaged_by_token(seed: u64) -> Vec<Vec<u8>> {
    let mut random = Random::new(seed);
    let plan = made_up(&mut random);
    let mut texts = Vec::new();
    for _ in 0..30 {
        let tokens = damaged(&mut random, &plan);
        texts.push(laid_out(&mut random, &tokens));
    }
    texts
}

/// The tokens of a diagram, damaged in themselves or by a fault of the diagram.
fn damaged(random: &mut Random, plan: &DiagramPlan) -> Vec<Token> {
    match random.below(3) {
        0 => {
            let plan = faulty(random, plan);
            faulty_text(random, &plan)
        }
        _ => {
            let tokens = text(random, plan).tokens;
            damaged_tokens(random, &tokens)
        }
    }
}

/// Texts of a seed with bytes changed, put in or taken out.
pub fn texts_damaged_by_byte(seed: u64) -> Vec<Vec<u8>> {
    let mut random = Random::new(seed);
    let plan = made_up(&mut random);
    let mut texts = Vec::new();
    for _ in 0..30 {
        let tokens = text(&mut random, &plan).tokens;
        let text = laid_out(&mut random, &tokens);
        texts.push(damaged_bytes(&mut random, &text));
    }
    texts
}

/// What to say about a text.
fn shown(seed: u64, text: &[u8]) -> String {
    format!("seed {seed}\n{}", text.escape_ascii())
}

/// Loads each text in the product and reads it independently; both must say the same, and where it
/// is accepted, the product must hold the diagram that was read.
pub fn texts_agree(seed: u64, texts: &[Vec<u8>], tally: &mut Tally) {
    let load = |(at, text): (usize, &Vec<u8>)| load_text(at as u8 % 2, text);
    let calls: Vec<CallPlan> = texts.iter().enumerate().map(load).collect();
    let plan = made_up(&mut Random::new(seed));
    let records = records(&mut Random::new(seed), &plan, 4);
    for (text, reply) in texts.iter().zip(product::replies(&calls)) {
        let read = read_text(text);
        let expected = read.as_ref().err().copied().unwrap_or(0);
        assert_eq!(
            reply,
            [expected],
            "the product's refusal of a text (left; 0 is accepted) is not the independent \
             reader's (right)\n{}",
            shown(seed, text)
        );
        tally[usize::from(expected)] += 1;
        if let Ok(diagram) = read {
            same_diagram(seed, text, &diagram, &records);
        }
    }
}

/// The whole texts of a seed: accepted, and read as the diagrams that they were made from.
pub fn whole_texts_agree(seed: u64, tally: &mut Tally) {
    for (text, plan) in whole_texts(seed) {
        texts_agree(seed, std::slice::from_ref(&text), tally);
        let shown = shown(seed, &text);
        let read = read_text(&text);
        let diagram = read.unwrap_or_else(|refusal| panic!("refusal {refusal}\n{shown}"));
        let file = write_diagram(edition_of(&plan), &diagram);
        assert_eq!(file, plan.file(), "another diagram\n{shown}");
        let records = records(&mut Random::new(seed), &plan, 4);
        same_diagram(seed, &text, &diagram, &records);
    }
}

/// The edition of a plan of a file that is accepted.
pub fn edition_of(plan: &DiagramPlan) -> Edition {
    Edition::of_byte(plan.edition).expect("the plan has an edition")
}

/// A load of a text, in short.
pub(crate) fn load_text(place: u8, text: &[u8]) -> CallPlan {
    let text = text.to_vec();
    CallPlan::LoadText { place, text }
}

/// The product holds the diagram of an accepted text: it replies as to the diagram's file and as
/// the independent judge does, and finds no difference from that file either way.
fn same_diagram(seed: u64, text: &[u8], diagram: &Diagram, records: &[Vec<u8>]) {
    let file = write_diagram(Edition::Two, diagram);
    let load = |place| CallPlan::Load {
        place,
        file: file.clone(),
    };
    let compare = CallPlan::Compare {
        bound: u8::from(compare_within(diagram, diagram, 1, BUDGET).is_ok()),
    };
    let calls = [
        vec![load_text(0, text), load(1)],
        questions(0, records),
        questions(1, records),
        vec![compare.clone(), load(0), load_text(1, text), compare],
    ];
    let replies = product::replies(&calls.concat());
    let (by_text, rest) = replies[2..].split_at(calls[1].len());
    let (by_file, rest) = rest.split_at(calls[2].len());
    let shown = shown(seed, text);
    assert_eq!(by_text, by_file, "other replies to text and file\n{shown}");
    let expected = answers(diagram, records);
    assert_eq!(by_text, expected, "not the independent replies\n{shown}");
    assert_eq!(rest[0], [0, 0], "text and file differ\n{shown}");
    assert_eq!(rest[3], [0, 0], "file and text differ\n{shown}");
}
