//! Diagrams and records as text.

mod common;

use common::json::read;
use common::{constructs, sites, Folder};
use generators::hex::bytes;

#[test]
fn a_diagram_with_every_construct() {
    let folder = Folder::of("show_diagram");
    folder.put("cards_1.diagram", &constructs::file());
    let ran = folder.line("show cards_1.diagram");
    assert_eq!(ran.status, 0);
    assert_eq!(
        ran.err,
        "corfynnog: Remark: As text this diagram is refused (23), since in a text interfaces have no attributes: Wired.made.\n"
    );
    assert_eq!(ran.out, constructs::shown("cards_1"));
}

#[test]
fn what_text_cannot_hold_is_remarked_for_scripts_too() {
    let folder = Folder::of("show_remarks");
    folder.put("d", &constructs::file());
    folder.put("p", &sites::p());
    let object = read(&folder.answer(0, "show d --json"));
    let remarks = object.get("remarks");
    assert_eq!(remarks.len(), 1);
    assert!(remarks.at(0).text().contains("Wired.made"));
    let object = read(&folder.answer(0, "show p --json"));
    assert_eq!(object.get("remarks").len(), 0);
}

#[test]
fn the_name_is_one_that_text_may_have() {
    let folder = Folder::of("show_name");
    for (file, name) in [
        ("cards_1.diagram", "cards_1"),
        ("a234567890123456.diagram", "a234567890123456"),
        ("a2345678901234567.diagram", "diagram"),
        ("enum.diagram", "diagram"),
        ("my-cards.diagram", "diagram"),
    ] {
        folder.put(file, &sites::e());
        let ran = folder.run(&["show", file]);
        assert_eq!(ran.out, format!("classdiagram {name} {{\n}}\n"), "{file}");
    }
}

#[test]
fn a_record_with_values_and_links() {
    let folder = Folder::of("show_record");
    let file = [
        &b"\x60\x00\x01\x03"[..],
        b"\x61\x00\x05\x04Card\x61\x00\x06\x05Shelf\x61\x00\x05\x04Card",
        b"\x62\x00\x0C\x00\x04made\x04Date\x00",
        b"\x62\x00\x12\x00\x05paint\x06Colour\x03tan",
        b"\x63\x00\x08\x01\x05cards\x00\x63\x00\x08\x01\x05cards\x02",
    ]
    .concat();
    folder.put("my-site.record", &file);
    assert_eq!(
        folder.answer(0, "show my-site.record"),
        "objectdiagram record {
  Card0:Card { Date made = some_type_Date; Colour paint = tan; }
  Shelf0:Shelf {}
  Card1:Card {}
  link Shelf0 -> (cards) Card0;
  link Shelf0 -> (cards) Card1;
}
"
    );
}

#[test]
fn what_is_refused_is_not_shown() {
    let folder = Folder::of("show_refused");
    folder.put("cut.diagram", &sites::p()[..20]);
    folder.put("cut.record", &bytes("60 00 01"));
    for line in ["show cut.diagram", "show cut.record"] {
        assert!(folder.complaint(line).contains("(refusal 1)"), "{line}");
    }
}
