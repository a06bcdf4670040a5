//! Why a diagram forbids a record: each rule, with the objects and the association it is about.

mod common;

use common::json::{read, Value};
use common::{sites, Folder};
use generators::hex::bytes;

/// Judges a record; the text behind the first line.
fn why(test: &str, diagram: &[u8], record: &[u8]) -> String {
    let folder = Folder::of(test);
    folder.put("d", diagram);
    folder.put("r", record);
    let ran = folder.line("judge d r");
    assert_eq!((ran.status, ran.err.as_str()), (1, ""), "{test}");
    let (first, rest) = ran.out.split_once('\n').expect("two lines");
    assert_eq!(first, "Illegal: d forbids r.");
    rest.to_string()
}

/// The rule's number, and the lines behind the rule's own.
fn rule_and_places(text: &str) -> (&str, &str) {
    let (rule, places) = text.split_once('\n').expect("places");
    let number = rule.trim_start().split(':').next().expect("a number");
    (number, places)
}

/// Judges a record and compares the rule and the places.
fn expect(test: &str, diagram: &[u8], record: &[u8], rule: &str, places: &str) {
    let text = why(test, diagram, record);
    assert_eq!(rule_and_places(&text), (rule, places), "{test}");
}

/// Value types V (plain) and C {r, g}, class A below interface I, attribute a of I, b of A.
const VALUES: &str =
    "10 00 01 01 20 00 03 01 56 00 20 00 07 01 43 02 01 72 01 67 30 00 04 02 01 49 00 \
    30 00 05 00 01 41 01 00 40 00 04 00 01 61 00 40 00 04 01 01 62 01";

#[test]
fn rules_1_and_2_types() {
    let abstract_a = bytes("10 00 01 01 30 00 04 01 01 41 00");
    let interface_a = bytes("10 00 01 01 30 00 04 02 01 41 00");
    let a = bytes("60 00 01 01 61 00 02 01 41");
    expect(
        "rule_1_unknown",
        &sites::e(),
        &a,
        "Rule 1",
        "  A0 is of type A, which the diagram does not have.\n",
    );
    expect(
        "rule_1_abstract",
        &abstract_a,
        &a,
        "Rule 1",
        "  A0 is of type A, which is abstract there.\n    abstract class A\n",
    );
    expect(
        "rule_1_interface",
        &interface_a,
        &a,
        "Rule 1",
        "  A0 is of type A, which is an interface there.\n    interface A\n",
    );
    let none = "  No object is of the singleton class Main.\n    <<singleton>> class Main\n";
    expect(
        "rule_2_none",
        &sites::z(),
        &sites::empty_site(),
        "Rule 2",
        none,
    );
    let two = b"\x60\x00\x01\x02\x61\x00\x05\x04Main\x61\x00\x05\x04Main";
    let several = "  2 objects are of the singleton class Main: Main0, Main1.\n    <<singleton>> class Main\n";
    expect("rule_2_two", &sites::z(), two, "Rule 2", several);
}

#[test]
fn rule_3_attributes() {
    let missing = bytes("60 00 01 01 61 00 02 01 41 62 00 07 00 01 62 01 43 01 72");
    let places =
        "  A0 has no value for the attribute a, which I declares.\n    V a; in interface I\n";
    expect("rule_3_missing", &bytes(VALUES), &missing, "Rule 3", places);
    let extra = bytes(
        "60 00 01 01 61 00 02 01 41 62 00 06 00 01 61 01 56 00 62 00 07 00 01 62 01 43 01 72 \
         62 00 06 00 01 63 01 56 00",
    );
    let places =
        "  A0 has a value for the attribute c, which neither A nor an ancestor declares.\n";
    expect("rule_3_extra", &bytes(VALUES), &extra, "Rule 3", places);
}

#[test]
fn rule_4_values() {
    let start = "60 00 01 01 61 00 02 01 41";
    let cases = [
        (
            "62 00 07 00 01 61 01 56 01 78 62 00 07 00 01 62 01 43 01 72",
            "  A0 has the attribute a, which I declares as V, but its value is the constant x, and V has none.\n    V a; in interface I\n    enum V\n",
        ),
        (
            "62 00 06 00 01 61 01 56 00 62 00 06 00 01 62 01 43 00",
            "  A0 has the attribute b, which A declares as C, but its value is unnamed, and C has constants.\n    C b; in class A\n    enum C {r, g;}\n",
        ),
        (
            "62 00 07 00 01 61 01 43 01 72 62 00 07 00 01 62 01 43 01 72",
            "  A0 has the attribute a, which I declares as V, but its value is of type C.\n    V a; in interface I\n    enum V\n",
        ),
        (
            "62 00 06 00 01 61 01 56 00 62 00 07 00 01 62 01 43 01 78",
            "  A0 has the attribute b, which A declares as C, but C has no constant x.\n    C b; in class A\n    enum C {r, g;}\n",
        ),
    ];
    for (i, (values, places)) in cases.into_iter().enumerate() {
        let record = bytes(&format!("{start} {values}"));
        expect(
            &format!("rule_4_{i}"),
            &bytes(VALUES),
            &record,
            "Rule 4",
            places,
        );
    }
}

#[test]
fn rules_5_to_8_links() {
    let stray = "  Card0 has a link of role cards to Shelf0, but no association carries cards from Card to Shelf; cards leads from Shelf to Card.\n    composition [1] Shelf (shelf) -> (cards) Card [0..4]\n";
    expect("rule_5", &sites::p(), &sites::wrong_way(), "Rule 5", stray);
    let many = "  Shelf0 has 5 links of role cards; allowed: at most 4.\n    composition [1] Shelf (shelf) -> (cards) Card [0..4]\n";
    expect("rule_6", &sites::p(), &sites::shelf_with(5), "Rule 6", many);
    let none = "  Card0 is the target of no Shelf by role cards; allowed: exactly 1.\n    composition [1] Shelf (shelf) -> (cards) Card [0..4]\n";
    expect("rule_7", &sites::p(), &sites::card(), "Rule 7", none);
    let one_way = "  Line0 has a link of role port to Port0, but Port0 has none of role line to Line0.\n    association [0..1] Line (line) <-> (port) Port [0..1]\n";
    expect(
        "rule_8",
        &sites::line_and_port(3),
        &sites::one_way(),
        "Rule 8",
        one_way,
    );
    let plain = one_way.replace("<->", "--");
    expect(
        "rule_8_plain",
        &sites::line_and_port(4),
        &sites::one_way(),
        "Rule 8",
        &plain,
    );
}

#[test]
fn rule_8_a_role_at_both_ends_is_told_once() {
    let record = bytes("60 00 01 02 61 00 02 01 4E 61 00 02 01 4E 63 00 04 01 01 72 00");
    for (test, arrow) in [("rule_8_same", "<->"), ("rule_8_same_plain", "--")] {
        let diagram = format!("classdiagram d {{ class N; association N (r) {arrow} (r) N; }}");
        let places = format!(
            "  N1 has a link of role r to N0, but N0 has none of role r to N1.\n    association [*] N (r) {arrow} (r) N [*]\n"
        );
        expect(test, diagram.as_bytes(), &record, "Rule 8", &places);
    }
}

#[test]
fn rule_8_comes_before_rule_9() {
    let diagram = b"classdiagram d { class W; class X; composition W (w) -- (x) X; }";
    let record = bytes(
        "60 00 01 03 61 00 02 01 57 61 00 02 01 57 61 00 02 01 58 63 00 04 00 01 78 02 63 00 04 01 01 78 02",
    );
    let places = ["W0", "W1"].map(|whole| {
        format!("  {whole} has a link of role x to X0, but X0 has none of role w to {whole}.\n    composition [*] W (w) -- (x) X [*]\n")
    });
    expect("rule_8_first", diagram, &record, "Rule 8", &places.concat());
}

#[test]
fn rule_6_targets_of_another_type() {
    let two_roles = bytes(
        "10 00 01 01 30 00 04 00 01 4C 00 30 00 04 00 01 52 00 30 00 04 00 01 54 00 \
         50 00 0C 00 01 00 00 FF 01 6C 01 00 FF 01 72 50 00 0C 00 01 00 00 FF 01 6C 02 00 FF 01 72",
    );
    let record = bytes("60 00 01 02 61 00 02 01 4C 61 00 02 01 52 63 00 04 00 01 72 01");
    let places =
        "  L0 has a link of role r to R0, which is no T.\n    association [*] L (l) -> (r) T [*]\n";
    expect("rule_6_type", &two_roles, &record, "Rule 6", places);
}

#[test]
fn rule_7_of_an_arrow_to_the_left() {
    let diagram = bytes(
        "10 00 01 01 30 00 04 00 01 4C 00 30 00 04 00 01 52 00 50 00 0C 00 02 00 01 01 01 6C 01 00 01 01 72",
    );
    let record = bytes(
        "60 00 01 03 61 00 02 01 4C 61 00 02 01 52 61 00 02 01 52 63 00 04 01 01 6C 00 63 00 04 02 01 6C 00",
    );
    let places = "  L0 is the target of 2 R objects by role l; allowed: at most 1.\n    association [1] L (l) <- (r) R [0..1]\n";
    expect("rule_7_left", &diagram, &record, "Rule 7", places);
}

#[test]
fn rule_9_wholes() {
    let diagram = bytes(
        "10 00 01 01 30 00 04 00 01 46 00 30 00 04 00 01 47 00 30 00 04 00 01 58 00 \
         50 00 0C 01 01 00 00 01 01 66 02 00 FF 01 78 50 00 0C 01 01 01 00 01 01 67 02 00 FF 01 79",
    );
    let record = bytes(
        "60 00 01 03 61 00 02 01 46 61 00 02 01 47 61 00 02 01 58 63 00 04 00 01 78 02 63 00 04 01 01 79 02",
    );
    expect(
        "rule_9",
        &diagram,
        &record,
        "Rule 9",
        "  X0 is part of 2 wholes: F0 by role x, G0 by role y.\n    composition [0..1] F (f) -> (x) X [*]\n    composition [0..1] G (g) -> (y) X [*]\n",
    );
    let own = bytes(
        "10 00 01 01 30 00 04 00 01 4E 00 50 00 0F 01 01 00 00 FF 02 75 70 00 00 FF 03 73 75 62",
    );
    let record = bytes(
        "60 00 01 02 61 00 02 01 4E 61 00 02 01 4E 63 00 06 00 03 73 75 62 00 63 00 06 01 03 73 75 62 00",
    );
    expect(
        "rule_9_own",
        &own,
        &record,
        "Rule 9",
        "  N0 is part of 2 wholes: N0 by role sub, N1 by role sub.\n    composition [*] N (up) -> (sub) N [*]\n",
    );
}

#[test]
fn rule_3_and_4_several_declarations() {
    let twice = b"classdiagram d {\n  enum C {r;}\n  class B { V x; }\n  class A extends B { V x; C y; }\n  class E extends A { V y; }\n}";
    let nothing = bytes("60 00 01 01 61 00 02 01 41");
    let places = "  A0 has no value for the attribute x, which B and A declare.\n    V x; in class B\n    V x; in class A\n  A0 has no value for the attribute y, which A declares.\n    C y; in class A\n";
    expect("rule_3_twice", twice, &nothing, "Rule 3", places);
    let valued = bytes(
        "60 00 01 01 61 00 02 01 45 62 00 06 00 01 78 01 56 00 62 00 07 00 01 79 01 43 01 72",
    );
    let places = "  E0 has the attribute y, which A declares as C and E declares as V; no value meets both.\n    C y; in class A\n    V y; in class E\n    enum C {r;}\n    enum V\n";
    expect("rule_4_clash", twice, &valued, "Rule 4", places);
}

#[test]
fn rule_5_roles_that_lead_elsewhere() {
    let record = bytes("60 00 01 02 61 00 02 01 41 61 00 02 01 42 63 00 04 00 01 72 01");
    for (test, associations, why, lines) in [
        ("rule_5_none", "", "no association of this diagram has the role r", ""),
        (
            "rule_5_start",
            "association B (r) -> (q) A;",
            "r is only the role at the start of a one-way association",
            "    association [*] B (r) -> (q) A [*]\n",
        ),
        (
            "rule_5_twice",
            "association B -> (r) A; association A (r) <-> (q) B; composition A -> (r) A [0..1];",
            "no association carries r from A to B; r leads from B to A and from A to A",
            "    association [*] B (b) -> (r) A [*]\n    association [*] A (r) <-> (q) B [*]\n    composition [*] A (a) -> (r) A [0..1]\n",
        ),
    ] {
        let diagram = format!("classdiagram d {{ class A; class B; {associations} }}");
        let places = format!("  A0 has a link of role r to B0, but {why}.\n{lines}");
        expect(test, diagram.as_bytes(), &record, "Rule 5", &places);
    }
}

#[test]
fn many_places_are_counted() {
    let mut record = vec![0x60, 0, 1, 6];
    for _ in 0..6 {
        record.extend(b"\x61\x00\x05\x04Card");
    }
    let text = why("many_places", &sites::p(), &record);
    let told = text
        .matches("is the target of no Shelf by role cards")
        .count();
    assert_eq!(told, 4);
    assert!(text.ends_with("  ... and 2 more places.\n"));
}

/// A shelf on a card, two cards without a shelf, and no Main.
const SEVERAL: &str = "60 00 01 03 61 00 06 05 53 68 65 6C 66 61 00 05 04 43 61 72 64 \
    61 00 05 04 43 61 72 64 63 00 08 01 05 63 61 72 64 73 00";

/// Shelf, Card and the singleton class Main.
const SEVERAL_RULES: &str = "classdiagram d {
  class Shelf;
  class Card;
  <<singleton>> class Main;
  composition [1] Shelf (shelf) -> (cards) Card [0..4];
}";

#[test]
fn all_reasons_are_told_where_they_are_asked_for() {
    let folder = Folder::of("judge_all");
    folder.put("d", SEVERAL_RULES.as_bytes());
    folder.put("r", &bytes(SEVERAL));
    let composition = "    composition [1] Shelf (shelf) -> (cards) Card [0..4]\n";
    let text = format!(
        "Illegal: d forbids r.\n\
        \x20 Rule 2: Every singleton class is the type of exactly one object.\n\
        \x20 No object is of the singleton class Main.\n\
        \x20   <<singleton>> class Main\n\
        Also broken, by this program's own reading:\n\
        \x20 Rule 5: Every link is carried by an association with that role, in that direction and between such objects.\n\
        \x20 Card0 has a link of role cards to Shelf0, but no association carries cards from Card to Shelf; cards leads from Shelf to Card.\n\
        {composition}\
        \x20 Rule 7: An object at the end of a one-way association is the target of as many objects as the limits at the start allow.\n\
        \x20 Card0 is the target of no Shelf by role cards; allowed: exactly 1.\n\
        {composition}\
        \x20 Card1 is the target of no Shelf by role cards; allowed: exactly 1.\n\
        {composition}"
    );
    assert_eq!(folder.answer(1, "judge d r --all"), text);
    let first = folder.answer(1, "judge d r");
    assert!(text.starts_with(&first) && first.len() < text.len());
    let object = read(&folder.answer(1, "judge d r --all --json"));
    let reasons = object.get("reasons");
    let rule = |i: usize| reasons.at(i).get("rule").number();
    assert_eq!((0..reasons.len()).map(rule).collect::<Vec<_>>(), [2, 5, 7]);
    assert_eq!(reasons.at(0), object.get("reason"));
    assert_eq!(reasons.at(2).get("places").len(), 2);
    let object = read(&folder.answer(1, "judge d r --json"));
    assert_eq!(object.get("reasons"), &Value::Null);
}

#[test]
fn all_places_are_told_where_all_reasons_are() {
    let mut record = vec![0x60, 0, 1, 6];
    for _ in 0..6 {
        record.extend(b"\x61\x00\x05\x04Card");
    }
    let folder = Folder::of("judge_all_places");
    folder.put("d", &sites::p());
    folder.put("r", &record);
    let text = folder.answer(1, "judge d r --all");
    assert_eq!(text.matches("is the target of no Shelf").count(), 6);
    assert!(!text.contains("more places") && !text.contains("Also broken"));
}
