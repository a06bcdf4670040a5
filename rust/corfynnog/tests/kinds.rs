//! Which kind a file is: every kind in the place of a diagram and of a record, and files of no kind.

mod common;

use common::json::{read, Value};
use common::{sites, Folder};

/// A file of each kind, and of none.
fn folder(test: &str) -> Folder {
    let folder = Folder::of(test);
    folder.put("p.diagram", &sites::p());
    folder.put("p.cd", b"\n classdiagram P {class Shelf; class Card;}");
    folder.put("card.record", &sites::card());
    folder.put("card.od", b"\t\nobjectdiagram s {c:Card;}");
    folder.put("nothing", b"");
    folder.put("letter.txt", b"Dear all");
    folder.put("compass.txt", b"compass, class and objectdiagram");
    folder.put("picture.png", b"\x89PNG\r\n\x1A\n");
    folder
}

/// The files in the place of a diagram: whether it is taken, its refusal, and some words.
const DIAGRAMS: [(&str, Option<(u64, &str)>); 8] = [
    ("p.diagram", None),
    ("p.cd", None),
    (
        "card.record",
        Some((
            23,
            "this looks like a record file, but a diagram is wanted here",
        )),
    ),
    (
        "card.od",
        Some((
            23,
            "this looks like a site text, but a diagram is wanted here",
        )),
    ),
    (
        "nothing",
        Some((23, "the text ends, expected \"classdiagram\"")),
    ),
    (
        "letter.txt",
        Some((23, "read \"Dear\", expected \"classdiagram\"")),
    ),
    (
        "compass.txt",
        Some((23, "read \"compass\", expected \"classdiagram\"")),
    ),
    (
        "picture.png",
        Some((23, "read the byte 0x89, expected \"classdiagram\"")),
    ),
];

/// The files in the place of a record, likewise.
const RECORDS: [(&str, Option<(u64, &str)>); 8] = [
    (
        "p.diagram",
        Some((
            2,
            "this looks like a diagram file, but a record is wanted here",
        )),
    ),
    (
        "p.cd",
        Some((
            1,
            "this looks like a diagram text, but a record is wanted here",
        )),
    ),
    ("card.record", None),
    ("card.od", None),
    ("nothing", Some((2, "the file is empty"))),
    (
        "letter.txt",
        Some((1, "a record file starts with tag 0x60, this one with 0x44")),
    ),
    (
        "compass.txt",
        Some((1, "a record file starts with tag 0x60, this one with 0x63")),
    ),
    (
        "picture.png",
        Some((1, "a record file starts with tag 0x60, this one with 0x89")),
    ),
];

const DIAGRAM_IS: &str = "a diagram is a diagram text, which starts with classdiagram NAME {, or a diagram file, which starts with the byte 0x10";

const RECORD_IS: &str = "a record is a record file, which starts with the byte 0x60, or a site text, which starts with objectdiagram NAME {";

const ORDER: &str = "check the order of the arguments";

/// What is complained of a file, for people and for scripts; the refusal and the words are these.
#[track_caller]
fn refused(folder: &Folder, line: &str, file: &str, refusal: u64, words: &str) -> (String, Value) {
    let told = folder.complaint(line);
    let first = format!("corfynnog: {file} is not an acceptable ");
    assert!(told.starts_with(&first), "{line}: {told}");
    assert!(told.contains(words), "{line}: {told}");
    assert!(
        told.contains(&format!("(refusal {refusal})")),
        "{line}: {told}"
    );
    let object = read(&folder.line(&format!("{line} --json")).out);
    assert_eq!(object.get("result").text(), "refused", "{line}");
    assert_eq!(object.get("refusal").number(), refusal, "{line}");
    assert_eq!(object.get("text").text(), words, "{line}");
    (told, object)
}

#[test]
fn every_kind_in_the_place_of_a_diagram() {
    let folder = folder("kinds_diagram");
    for (file, trouble) in DIAGRAMS {
        let lines = [
            format!("judge {file} card.record"),
            format!("evaluate {file} card.od"),
            format!("compile {file}"),
            format!("compare {file} p.cd --bound 1"),
            format!("compare p.cd {file} --bound 1"),
        ];
        for line in lines {
            let Some((refusal, words)) = trouble else {
                assert_ne!(folder.line(&line).status, 2, "{line}");
                continue;
            };
            let (told, object) = refused(&folder, &line, file, refusal, words);
            assert_eq!(object.get("kind").text(), "diagram", "{line}");
            let other = file.starts_with("card");
            assert_eq!(told.contains(ORDER), other, "{line}: {told}");
            assert_eq!(told.contains(DIAGRAM_IS), other, "{line}: {told}");
            let starts = "a diagram text starts with classdiagram NAME {, a diagram file with the byte 0x10, a record file with the byte 0x60, a site text with objectdiagram NAME {";
            assert_eq!(told.contains(starts), !other, "{line}: {told}");
        }
    }
}

#[test]
fn every_kind_in_the_place_of_a_record() {
    let folder = folder("kinds_record");
    for (file, trouble) in RECORDS {
        let lines = [
            format!("judge p.cd {file}"),
            format!("judge p.diagram {file}"),
            format!("evaluate p.cd {file}"),
            format!("make {file} --out made.record"),
        ];
        for line in lines {
            let Some((refusal, words)) = trouble else {
                assert_ne!(folder.line(&line).status, 2, "{line}");
                continue;
            };
            let (told, object) = refused(&folder, &line, file, refusal, words);
            assert_eq!(object.get("kind").text(), "record", "{line}");
            assert!(told.contains(RECORD_IS), "{line}: {told}");
            assert!(!told.contains("fetch"), "{line}: {told}");
            match words
                .split_once("looks like a ")
                .and_then(|(_, rest)| rest.split_once(','))
            {
                Some((look, _)) => {
                    assert_eq!(object.get("looks_like").text(), look, "{line}");
                    assert!(told.contains(ORDER), "{line}: {told}");
                }
                None => {
                    assert_eq!(object.get("looks_like"), &Value::Null, "{line}");
                    assert!(told.contains("check the file's name"), "{line}: {told}");
                }
            }
        }
    }
}

#[test]
fn both_in_the_wrong_order() {
    let folder = folder("kinds_order");
    for diagram in ["p.diagram", "p.cd"] {
        for record in ["card.record", "card.od"] {
            let told = folder.complaint(&format!("judge {record} {diagram}"));
            let first = format!("corfynnog: {record} is not an acceptable diagram (refusal 23).\n");
            assert!(told.starts_with(&first) && told.contains(ORDER), "{told}");
            assert_eq!(folder.line(&format!("judge {diagram} {record}")).err, "");
        }
    }
}

#[test]
fn texts_that_are_saved_otherwise_than_as_ascii() {
    let folder = folder("kinds_encoding");
    let text = "objectdiagram s {}";
    let wide: Vec<u8> = text.encode_utf16().flat_map(u16::to_le_bytes).collect();
    folder.put("marked.od", format!("\u{FEFF}{text}").as_bytes());
    folder.put("wide.od", &[b"\xFF\xFE", &wide[..]].concat());
    for (file, advice) in [
        (
            "marked.od",
            "to do: save the file without a byte order mark",
        ),
        ("wide.od", "to do: save the file as plain ASCII text"),
    ] {
        for line in [format!("judge p.cd {file}"), format!("check {file}")] {
            let told = folder.complaint(&line);
            assert!(told.contains(advice), "{line}: {told}");
        }
    }
}

#[test]
fn check_and_show_take_every_kind() {
    let folder = folder("kinds_any");
    for (file, words, kind, form) in [
        (
            "p.diagram",
            "diagram file of edition 1 with no value types, 2 types",
            "diagram",
            "file",
        ),
        (
            "p.cd",
            "diagram text with no value types, 2 types",
            "diagram",
            "text",
        ),
        (
            "card.record",
            "record file with 1 object, no values, no links.",
            "record",
            "file",
        ),
        (
            "card.od",
            "site text with 1 object, no values, no links.",
            "record",
            "text",
        ),
    ] {
        let answer = folder.answer(0, &format!("check {file}"));
        let first = format!("Accepted: {file} is a {words}");
        assert!(answer.starts_with(&first), "{answer}");
        let object = read(&folder.answer(0, &format!("check {file} --json")));
        assert_eq!(
            (object.get("kind").text(), object.get("form").text()),
            (kind, form)
        );
        let object = read(&folder.answer(0, &format!("show {file} --json")));
        assert_eq!(object.get("kind").text(), kind);
    }
}
