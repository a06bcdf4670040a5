//! Two diagrams that differ only in ↔ against no arrowhead ask the same of every site, and so no
//! site is allowed by one and forbidden by the other.

use crate::formula::Formula;
use crate::legal::conditions;
use crate::site::Site;
use brute::{read_diagram, Diagram};
use generators::diagrams::SMALL;
use generators::heads::headed_pair;
use generators::{notation, DiagramPlan, Random};

/// Objects that a site has at most.
const OBJECTS: usize = 4;

/// The diagram that a plan's file declares.
fn declared(plan: &DiagramPlan) -> Diagram {
    read_diagram(&plan.file()).expect("generated diagrams are accepted")
}

/// Whether both diagrams ask the same conditions of a site of so many objects; equal gates are
/// one literal.
fn ask_the_same(old: &Diagram, new: &Diagram, count: usize) -> bool {
    let mut formula = Formula::new();
    let site = Site::new(&mut formula, old, count);
    let [asked, of_new] = [old, new].map(|diagram| conditions(&mut formula, &site, diagram));
    asked == of_new
}

#[test]
fn heads_do_not_matter() {
    for seed in 0..500 {
        let (one, other) = headed_pair(&mut Random::new(seed), SMALL);
        let (one, other) = (declared(&one), declared(&other));
        for count in 0..=OBJECTS {
            assert!(ask_the_same(&one, &other, count), "seed {seed}, {count}");
            assert!(ask_the_same(&other, &one, count), "seed {seed}, {count}");
        }
    }
}

#[test]
fn one_head_matters() {
    let line_and_port = |arrow: &str| {
        let text =
            "class Line; class Port; association [0..1] Line (line) ARROW (port) Port [0..1];";
        declared(&notation::diagram(&text.replace("ARROW", arrow)))
    };
    let headless = line_and_port("--");
    assert!(ask_the_same(&headless, &line_and_port("<->"), 2));
    for arrow in ["->", "<-"] {
        assert!(!ask_the_same(&headless, &line_and_port(arrow), 2));
    }
}
