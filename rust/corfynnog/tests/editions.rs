//! Diagram files of both editions, and limits above 100.

mod common;

use common::json::{read, Value};
use common::{sites, Folder};

/// No upper limit, as edition 2 has it.
const NONE: u16 = 65_535;

/// The usual diagrams, and the same and wider ones as files of edition 2.
fn folder(test: &str) -> Folder {
    let folder = Folder::of(test);
    folder.put("p_1.diagram", &sites::p());
    folder.put("q_1.diagram", &sites::q());
    folder.put("p_2.diagram", &sites::wide((1, 1), (0, 4)));
    folder.put("q_2.diagram", &sites::wide((1, 1), (0, 2)));
    folder.put("256.diagram", &sites::wide((1, 1), (0, 256)));
    folder.put("255.diagram", &sites::wide((1, 255), (0, NONE)));
    folder.put("least.diagram", &sites::wide((1, 1), (256, 4_000)));
    folder.put("shelf3.record", &sites::shelf_with(3));
    folder.put("card.record", &sites::card());
    folder.put("256.cd", text("[0..256]").as_bytes());
    folder
}

/// A shelf with cards as text, so many cards a shelf.
fn text(cards: &str) -> String {
    format!(
        "classdiagram cards {{\n  class Shelf;\n  class Card;\n  composition [1] Shelf (shelf) -> (cards) Card {cards};\n}}\n"
    )
}

/// The edition that a command tells of a file in JSON.
fn edition(folder: &Folder, command: &str, file: &str) -> Option<u64> {
    let object = read(&folder.answer(0, &format!("{command} {file} --json")));
    match object.get("edition") {
        Value::Null => None,
        number => Some(number.number()),
    }
}

#[test]
fn check_and_show_tell_the_edition_of_a_file() {
    let folder = folder("editions_told");
    assert_eq!(
        folder.answer(0, "check 256.diagram"),
        "Accepted: 256.diagram is a diagram file of edition 2 with no value types, 2 types, no attributes, 1 association.\n"
    );
    for (file, told) in [
        ("p_1.diagram", Some(1)),
        ("p_2.diagram", Some(2)),
        ("256.cd", None),
        ("card.record", None),
    ] {
        assert_eq!(edition(&folder, "check", file), told, "{file}");
        assert_eq!(edition(&folder, "show", file), told, "{file}");
    }
}

#[test]
fn a_diagram_has_the_same_answers_in_both_editions() {
    let folder = folder("editions_same");
    for (line, status) in [
        ("compile P", 0),
        ("judge P shelf3.record", 0),
        ("judge P card.record", 1),
        ("judge Q shelf3.record", 1),
        ("evaluate P card.record", 1),
        ("compare P Q --bound 3", 0),
        ("compare P Q", 1),
        ("compare P Q --all", 1),
        ("compare Q P --all", 0),
    ] {
        let answer = |p: &str, q: &str| {
            let line = line.replace('P', p).replace('Q', q);
            let answer = folder.answer(status, &line);
            answer.replace(p, "P").replace(q, "Q")
        };
        let of_edition_1 = answer("p_1.diagram", "q_1.diagram");
        for (p, q) in [("p_2", "q_2"), ("p_2", "q_1"), ("p_1", "q_2")] {
            let other = answer(&format!("{p}.diagram"), &format!("{q}.diagram"));
            assert_eq!(other, of_edition_1, "{line} {p} {q}");
        }
    }
}

#[test]
fn editions_may_be_mixed_in_a_compare() {
    let folder = folder("editions_mixed");
    for (old, new) in [("p_1", "p_2"), ("p_2", "p_1"), ("q_2", "p_1")] {
        let line = format!("compare {old}.diagram {new}.diagram");
        let answer = folder.answer(0, &line);
        assert!(answer.starts_with("No difference: "), "{line}: {answer}");
    }
}

#[test]
fn limits_above_the_number_of_objects_make_no_difference() {
    let folder = folder("editions_large");
    for most in [100, 8, 1, 4_000] {
        let file = format!("up_to_{most}.diagram");
        folder.put(&file, &sites::wide((1, 1), (0, most)));
        let status = i32::from(most == 1);
        folder.answer(status, &format!("compare 256.diagram {file} --bound 3"));
        folder.answer(0, &format!("compare {file} 256.diagram --bound 3"));
    }
    folder.answer(1, "compare 256.diagram least.diagram --bound 1");
    folder.answer(0, "compare least.diagram 256.diagram --bound 4");
}

#[test]
fn a_limit_is_told_by_its_number() {
    let folder = folder("editions_numbers");
    let answer = folder.answer(0, "compile 256.diagram");
    let line = "  0  ObjLUAttrib  1 0 0 0 256  links of role cards from each Shelf: at most 256, each to a Card\n";
    assert!(answer.contains(line), "{answer}");
    let answer = folder.answer(0, "compile least.diagram");
    assert!(answer.contains("  1 0 0 256 4000  links of role cards from each Shelf: 256 to 4000,"));
    let object = read(&folder.answer(0, "compile least.diagram --json"));
    let predicate = object.get("predicates").at(0);
    let limits = ["low", "up"].map(|limit| predicate.get(limit).number());
    assert_eq!(limits, [256, 4_000]);
    let place = "Shelf0 has 3 links of role cards; allowed: 256 to 4000.";
    let answer = folder.answer(1, "judge least.diagram shelf3.record");
    assert!(answer.contains(place), "{answer}");
}

#[test]
fn in_edition_2_the_number_255_is_a_limit() {
    let folder = folder("editions_255");
    let answer = folder.answer(0, "show 255.diagram");
    let declared = "composition [1..255] Shelf (shelf) -> (cards) Card [*];";
    assert!(answer.contains(declared), "{answer}");
    let object = read(&folder.answer(0, "show 255.diagram --json"));
    let association = object.get("diagram").get("associations").at(0);
    assert_eq!(association.get("left").get("up").number(), 255);
    assert_eq!(association.get("right").get("up"), &Value::Null);
}

#[test]
fn a_text_has_limits_up_to_4000() {
    let folder = folder("editions_text");
    let of_text = folder.answer(0, "compile 256.cd");
    let of_file = folder.answer(0, "compile 256.diagram");
    assert_eq!(of_text.replace(".cd", ".diagram"), of_file);
    for cards in ["[101]", "[0..256]", "[0..4000]", "[4000..*]", "[0004000]"] {
        folder.put("d.cd", text(cards).as_bytes());
        folder.answer(0, "check d.cd");
    }
    folder.put("d.cd", text("[0..4000]").as_bytes());
    assert_eq!(folder.answer(0, "show d.cd"), text("[0..4000]"));
}

#[test]
fn a_change_tells_of_limits_that_the_edition_lacks() {
    let folder = folder("editions_lacking");
    folder.put("q.cd", text("[0..2]").as_bytes());
    let becomes = "composition [1] Shelf (shelf) -> (cards) Card [0..2] becomes composition [1] Shelf (shelf) -> (cards) Card";
    let needed = ", which needs a text or a diagram file of edition 2";
    for (old, new, change) in [
        ("256", "q_1.diagram", format!("{becomes} [0..256]{needed}.")),
        ("256", "q_2.diagram", format!("{becomes} [0..256].")),
        ("256", "q.cd", format!("{becomes} [0..256].")),
        ("p_2", "q_1.diagram", format!("{becomes} [0..4].")),
    ] {
        let line = format!("compare {old}.diagram {new} --bound 4 --all");
        let answer = folder.answer(1, &line);
        assert!(answer.contains(&format!("Change: {change}\n")), "{answer}");
        assert!(answer.contains(&format!("  1. {change}\n")), "{answer}");
        let object = read(&folder.answer(1, &format!("{line} --json")));
        let difference = object.get("differences").at(0);
        assert_eq!(difference.get("change").text(), change);
        assert_eq!(object.get("changes").at(0).text(), change);
    }
}

#[test]
fn changes_keep_wide_limits() {
    let folder = folder("editions_all");
    let answer = folder.answer(1, "compare p_1.diagram least.diagram --bound 2 --all");
    assert!(answer.contains("Card [0..4000]"), "{answer}");
}
