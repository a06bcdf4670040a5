//! Each command, with each exit status that it has.

mod common;

use common::sites::{self, folder};

/// A card without a shelf, where each needs one.
const NO_SHELF: &str = "  Card0 is the target of no Shelf by role cards; allowed: exactly 1.\n";

#[test]
fn compare_finds_a_difference() {
    let answer = folder("compare_difference").answer(1, "compare p.diagram q.diagram --bound 4");
    assert!(answer.starts_with(
        "Difference: p.diagram allows this site of 4 objects, and q.diagram forbids it."
    ));
    let body = answer.split("\n\n").nth(1).expect("an object diagram");
    let mut lines: Vec<&str> = body.lines().collect();
    assert_eq!(lines[0], "objectdiagram witness {");
    lines.sort();
    assert_eq!(
        lines,
        [
            "  Card0:Card {}",
            "  Card1:Card {}",
            "  Card2:Card {}",
            "  Shelf0:Shelf {}",
            "  link Shelf0 -> (cards) Card0;",
            "  link Shelf0 -> (cards) Card1;",
            "  link Shelf0 -> (cards) Card2;",
            "objectdiagram witness {",
            "}",
        ]
    );
    assert!(answer.contains("Why q.diagram forbids it:\n  Rule 6: "));
    assert!(answer.contains(
        "  Shelf0 has 3 links of role cards; allowed: at most 2.\n    q.diagram: composition [1] Shelf (shelf) -> (cards) Card [0..2]\n    p.diagram: composition [1] Shelf (shelf) -> (cards) Card [0..4]\n"
    ));
}

#[test]
fn compare_finds_no_difference() {
    let folder = folder("compare_none");
    for (line, sites) in [
        (
            "compare p.diagram q.diagram --bound 3",
            "of at most 3 objects",
        ),
        (
            "compare q.diagram p.diagram --bound 1",
            "of at most 1 object",
        ),
        ("compare e.diagram p.diagram --bound 0", "without objects"),
    ] {
        let first = format!("No difference: every site {sites} that ");
        assert!(folder.answer(0, line).starts_with(&first), "{line}");
    }
}

#[test]
fn compare_tells_the_least_site() {
    let folder = folder("compare_least");
    let answer = folder.answer(1, "compare s.diagram p.diagram");
    assert!(answer.contains("objectdiagram witness {\n  Card0:Card {}\n}\n"));
    assert!(answer.contains(NO_SHELF));
    let answer = folder.answer(1, "compare e.diagram z.diagram");
    assert!(answer.contains("objectdiagram witness {\n}\n"));
    assert!(answer.contains("  No object is of the singleton class Main.\n"));
    let answer = folder.answer(1, "compare z.diagram e.diagram");
    assert!(answer.contains("  Main0 is of type Main, which the diagram does not have.\n"));
}

#[test]
fn compare_writes_the_site() {
    let folder = folder("compare_out");
    let answer = folder.answer(1, "compare s.diagram p.diagram --out site.record");
    assert!(answer.ends_with("The site as a record file: site.record (12 bytes)\n"));
    assert_eq!(folder.get("site.record"), Some(sites::card()));
    folder.answer(0, "judge s.diagram site.record");
    folder.answer(1, "judge p.diagram site.record");

    folder.answer(0, "compare p.diagram p.diagram --bound 2 --out none.record");
    assert_eq!(folder.get("none.record"), None);
}

#[test]
fn judge_says_legal_or_why_not() {
    let folder = folder("judge");
    let answer = folder.answer(0, "judge p.diagram shelf3.record");
    assert_eq!(answer, "Legal: p.diagram allows shelf3.record.\n");
    let answer = folder.answer(1, "judge q.diagram shelf3.record");
    assert!(answer.starts_with("Illegal: q.diagram forbids shelf3.record.\n  Rule 6: "));
    let answer = folder.answer(1, "judge z.diagram empty.record");
    assert!(answer.contains("\n  Rule 2: "));
}

#[test]
fn compile_lists_the_predicates() {
    let folder = folder("compile");
    assert_eq!(
        folder.answer(0, "compile p.diagram"),
        "p.diagram has 3 predicates.\n\n\
         0: composition [1] Shelf (shelf) -> (cards) Card [0..4]\n\
        \x20  0  ObjLUAttrib  1 0 0 0 4  links of role cards from each Shelf: at most 4, each to a Card\n\
        \x20  1  ObjLU        3 0 0 1 1  Shelf objects with a link of role cards to each Card: exactly 1\n\
        \x20  2  Composition  6 0 0 0 0  each Card is part of at most one whole\n"
    );
    let answer = folder.answer(0, "compile e.diagram");
    assert_eq!(answer, "e.diagram has no predicates.\n");
}

#[test]
fn evaluate_names_the_first_that_does_not_hold() {
    let folder = folder("evaluate");
    assert_eq!(
        folder.answer(0, "evaluate p.diagram shelf3.record"),
        "All hold: 3 predicates of p.diagram on shelf3.record.\n"
    );
    let answer = folder.answer(1, "evaluate p.diagram card.record");
    assert!(answer.starts_with("Not all hold: predicate 1 of p.diagram "));
    assert!(answer.contains(NO_SHELF));
    assert_eq!(
        folder.answer(0, "evaluate z.diagram empty.record"),
        "z.diagram has no predicates, so that all hold on empty.record.\n"
    );
}

#[test]
fn check_tells_the_two_kinds_apart() {
    let folder = folder("check");
    assert_eq!(
        folder.answer(0, "check p.diagram"),
        "Accepted: p.diagram is a diagram file of edition 1 with no value types, 2 types, no attributes, 1 association.\n"
    );
    assert_eq!(
        folder.answer(0, "check shelf3.record"),
        "Accepted: shelf3.record is a record file with 4 objects, no values, 3 links.\n"
    );
}

#[test]
fn nothing_is_shown_on_the_way_where_nobody_watches() {
    let answer = folder("quiet").answer(0, "compare p.diagram p.diagram --bound 3");
    assert!(!answer.contains("trying") && !answer.contains('\r') && !answer.contains('\x1b'));
}
