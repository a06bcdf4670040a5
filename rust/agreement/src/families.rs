//! Are deep and wide families of types read, judged and compared alike, by files and by texts?

use crate::product;
use crate::questions::{answers, questions};
use crate::texts::load_text;
use brute::{read_diagram, read_text, Diagram};
use generators::families::{family, linked, records, without_a_parent};
use generators::faults::faulty;
use generators::hex::hex;
use generators::instances::{attribute_names, is_concrete};
use generators::text_layout::laid_out;
use generators::texts::{faulty_text, text};
use generators::{CallPlan, DiagramPlan, Random};

/// How often each rule was the lowest broken (index 0: legal), how often each refusal came (index
/// 0: accepted), and how many pairs had a difference and how many none.
#[derive(Default, Debug)]
pub struct Tally {
    pub rules: [usize; 10],
    pub refusals: [usize; 25],
    pub differences: usize,
    pub none: usize,
}

/// The family of a seed is read from its file and from its text, and judged as the independent
/// comparer does; so it is after a file and a text with faults.
pub fn families_agree(seed: u64, tally: &mut Tally) {
    let mut random = Random::new(seed);
    let mut plan = family(&mut random);
    if random.chance(1, 2) {
        plan = linked(&mut random, &plan);
    }
    let written = text(&mut random, &plan);
    let whole = laid_out(&mut random, &written.tokens);
    let files = [plan.file(), faulty(&mut random, &plan).file()].map(Input::File);
    let broken = faulty(&mut random, &written.plan);
    let broken = faulty_text(&mut random, &broken);
    let texts = [whole, laid_out(&mut random, &broken)].map(Input::Text);
    inputs_agree(seed, &mut random, &plan, 0, &files, tally);
    inputs_agree(seed, &mut random, &written.plan, 1, &texts, tally);
}

/// A diagram as a file or as a text.
enum Input {
    File(Vec<u8>),
    Text(Vec<u8>),
}

impl Input {
    /// The call that loads it into the place.
    fn load(&self, place: u8) -> CallPlan {
        match self {
            Input::File(bytes) => CallPlan::Load {
                place,
                file: bytes.clone(),
            },
            Input::Text(bytes) => load_text(place, bytes),
        }
    }

    /// What the independent reader says of it.
    fn read(&self) -> Result<Diagram, u8> {
        match self {
            Input::File(bytes) => read_diagram(bytes),
            Input::Text(bytes) => read_text(bytes),
        }
    }

    /// It as it can be put into a test.
    fn shown(&self) -> String {
        match self {
            Input::File(bytes) => hex(bytes),
            Input::Text(bytes) => bytes.escape_ascii().to_string(),
        }
    }
}

/// Loads one input after the other into the place and asks about the diagram that is there, with
/// records of the plan: the replies are those of the independent comparer.
fn inputs_agree(
    seed: u64,
    random: &mut Random,
    plan: &DiagramPlan,
    place: u8,
    inputs: &[Input],
    tally: &mut Tally,
) {
    let files: Vec<Vec<u8>> = records(random, plan).iter().map(|r| r.file()).collect();
    let (mut calls, mut expected) = (Vec::new(), Vec::new());
    let mut held: Option<Diagram> = None;
    for input in inputs {
        let read = input.read();
        let refusal = read.as_ref().err().copied().unwrap_or(0);
        tally.refusals[usize::from(refusal)] += 1;
        held = read.ok().or(held);
        let diagram = held.as_ref().expect("the first input is accepted");
        calls.push(input.load(place));
        expected.push(vec![refusal]);
        calls.extend(questions(place, &files));
        let replies = answers(diagram, &files);
        for judged in replies[1..].iter().step_by(2) {
            tally.rules[usize::from(judged[1])] += 1;
        }
        expected.extend(replies);
    }
    let shown: Vec<String> = inputs.iter().map(Input::shown).collect();
    let shown = shown.join("\n");
    for ((call, got), wanted) in calls.iter().zip(product::replies(&calls)).zip(&expected) {
        assert_eq!(
            got, *wanted,
            "not the independent reply (right)\nseed {seed}\n{call:?}\ninputs: {shown}"
        );
    }
}

/// A family by its text against the file of the same without one parent: they differ exactly where
/// some type that may have objects has lost an attribute, and then by one object.
pub fn families_without_a_parent_differ(seed: u64, tally: &mut Tally) {
    let mut random = Random::new(seed);
    let plan = family(&mut random);
    let written = text(&mut random, &plan);
    let whole = laid_out(&mut random, &written.tokens);
    let other = without_a_parent(&mut random, &written.plan);
    let differs = has_lost(&written.plan, &other);
    let bound = random.between(1, 8) as u8;
    let (place, file) = (1, other.file());
    let calls = [
        load_text(0, &whole),
        CallPlan::Load { place, file },
        CallPlan::Compare { bound },
    ];
    let wanted = match differs {
        true => vec![0, 1, 1],
        false => vec![0, 0],
    };
    assert_eq!(
        product::replies(&calls),
        [vec![0], vec![0], wanted],
        "seed {seed}, bound {bound}\nold: {}\nnew: {}",
        whole.escape_ascii(),
        hex(&other.file())
    );
    tally.differences += usize::from(differs);
    tally.none += usize::from(!differs);
}

/// Whether some type that may have objects has fewer attributes in the other plan.
fn has_lost(plan: &DiagramPlan, other: &DiagramPlan) -> bool {
    let mut concrete = (0..plan.types.len()).filter(|at| is_concrete(plan, *at));
    concrete.any(|at| attribute_names(other, at).len() < attribute_names(plan, at).len())
}
