//! Sites typed as text, wherever a record is taken, and record files made of them.

mod common;

use common::json::{read, Value};
use common::{sites, Folder};
use generators::diagrams::{diagram, SMALL};
use generators::Random;

/// A shelf with three cards, as `show` prints it of a file `shelf3.record`.
const SHELF3: &str = "objectdiagram shelf3 {
  Shelf0:Shelf {}
  Card0:Card {}
  Card1:Card {}
  Card2:Card {}
  link Shelf0 -> (cards) Card0;
  link Shelf0 -> (cards) Card1;
  link Shelf0 -> (cards) Card2;
}
";

/// The same with other names, in another order and layout.
const SHELF3_LOOSE: &str = "objectdiagram Loose{link main->(cards)c;link main->(cards)a;
main:Shelf;a:Card;link:Card{}c:Card{} link main -> ( cards ) link ;}";

/// Diagrams and records, the records as texts too.
fn folder(test: &str) -> Folder {
    let folder = sites::folder(test);
    folder.put("shelf3.od", SHELF3.as_bytes());
    folder.put("loose.od", SHELF3_LOOSE.as_bytes());
    folder.put("card.od", b"objectdiagram card {Card0:Card;}");
    folder.put("empty.od", b"objectdiagram empty {}");
    folder
}

#[test]
fn a_text_has_the_answers_of_its_file() {
    let folder = folder("site_answers");
    for (line, status) in [
        ("judge p.diagram shelf3", 0),
        ("judge q.diagram shelf3", 1),
        ("judge s.diagram card", 0),
        ("judge p.diagram card", 1),
        ("judge z.diagram empty", 1),
        ("evaluate p.diagram shelf3", 0),
        ("evaluate q.diagram shelf3", 1),
        ("evaluate p.diagram card", 1),
        ("show shelf3", 0),
        ("show card", 0),
        ("show empty", 0),
    ] {
        for json in ["", " --json"] {
            let by_file = folder.answer(status, &format!("{line}.record{json}"));
            let by_text = folder.answer(status, &format!("{line}.od{json}"));
            assert_eq!(by_text.replace(".od", ".record"), by_file, "{line}{json}");
        }
    }
    assert_eq!(folder.answer(0, "show shelf3.record"), SHELF3);
}

#[test]
fn a_text_keeps_the_names_of_its_objects() {
    let folder = folder("site_names");
    assert_eq!(
        folder.answer(0, "show loose.od"),
        "objectdiagram Loose {
  main:Shelf {}
  a:Card {}
  link:Card {}
  c:Card {}
  link main -> (cards) a;
  link main -> (cards) link;
  link main -> (cards) c;
}
"
    );
    let answer = folder.answer(1, "judge q.diagram loose.od");
    assert!(answer.contains("  main has 3 links of role cards; allowed: at most 2.\n"));
    let object = read(&folder.answer(1, "judge q.diagram loose.od --json"));
    let place = object.get("reason").get("places").at(0);
    assert_eq!(place.get("objects").at(0).text(), "main");
}

#[test]
fn check_tells_a_site() {
    let folder = folder("site_check");
    assert_eq!(
        folder.answer(0, "check shelf3.od"),
        "Accepted: shelf3.od is a site text with 4 objects, no values, 3 links.\n"
    );
    assert_eq!(
        folder.answer(0, "check shelf3.od --json"),
        "{\"command\": \"check\", \"file\": \"shelf3.od\", \"kind\": \"record\", \"form\": \"text\", \"edition\": null, \"result\": \"accepted\"}\n"
    );
}

#[test]
fn make_writes_the_record_file() {
    let folder = folder("site_make");
    for site in ["shelf3.od", "loose.od", "shelf3.record"] {
        let answer = folder.answer(0, &format!("make {site} --out made.record"));
        assert_eq!(
            answer,
            "Made: made.record, a record file with 4 objects, no values, 3 links (70 bytes).\n"
        );
        assert_eq!(
            folder.get("made.record"),
            Some(sites::shelf_with(3)),
            "{site}"
        );
        folder.put("made.record", b"");
    }
    let object = read(&folder.answer(0, "make shelf3.od --out made.record --json"));
    assert_eq!(object.get("result").text(), "made");
    assert_eq!(object.get("site").text(), "shelf3.od");
    assert_eq!(object.get("written").text(), "made.record");
    assert_eq!(object.get("bytes").number(), 70);
}

#[test]
fn make_tells_what_it_cannot_write() {
    let folder = folder("site_not_made");
    let told = folder.complaint("make shelf3.od --out no_folder/made.record");
    let first = "corfynnog: Cannot write no_folder/made.record: ";
    assert!(told.starts_with(first), "{told}");
    folder.put("bad.od", b"objectdiagram s {");
    folder.complaint("make bad.od --out made.record");
    assert_eq!(folder.get("made.record"), None);
}

#[test]
fn a_refused_text_is_explained() {
    let folder = folder("site_refused");
    folder.put(
        "site.od",
        b"objectdiagram site {\n  Card0:Card {}\n\tlink Crad0 -> (next) Card0;\n}\n",
    );
    for line in [
        "check site.od",
        "show site.od",
        "judge p.diagram site.od",
        "evaluate p.diagram site.od",
        "make site.od --out made.record",
    ] {
        assert_eq!(
            folder.complaint(line),
            "corfynnog: site.od is not an acceptable site text.\n\
             site.od:3:7: \"Crad0\" is no object of this text\n\
             \x20    link Crad0 -> (next) Card0;\n\
             \x20         ^\n\
             \x20 to do: perhaps Card0 is meant; else declare Crad0\n",
            "{line}"
        );
        let object = read(&folder.line(&format!("{line} --json")).out);
        assert_eq!(object.get("result").text(), "refused");
        assert_eq!(object.get("refusal"), &Value::Null);
        assert_eq!(object.get("file").text(), "site.od");
        assert_eq!(
            (object.get("kind").text(), object.get("form").text()),
            ("record", "text")
        );
        let place = ["line", "column", "byte"].map(|name| object.get(name).number());
        assert_eq!(place, [3, 7, 43]);
        assert_eq!(
            object.get("text").text(),
            "\"Crad0\" is no object of this text"
        );
        assert_eq!(
            object.get("rule").text(),
            "a link joins two objects of the text"
        );
        assert!(object.get("to_do").text().starts_with("perhaps Card0"));
    }
    let told = folder.complaint("judge site.od site.od");
    assert!(told.starts_with("corfynnog: site.od is not an acceptable diagram (refusal 23)."));
}

/// Place and words, declarations of a site.
const REFUSED: &str = "\
2:3: the name \"A2345678901234567\" has 17 bytes, at most 16 are allowed | a:A2345678901234567;
2:5: read \"}\", expected \"{\" or \";\" | a:A }
2:35: \"h\" stands here a second time as object; the first is at line 2, column 30 | a:A;b:A;c:A;d:A;e:A;f:A;     h:A; h:A;
2:33: the text has 9 objects, at most 8 are allowed; this is number 9 | a:A;b:A;c:A;d:A;e:A;f:A;g:A;h:A;i:A;
3:3: \"p\" stands here a second time as attribute of \"a\"; the first is at line 2, column 9 | a:A { V p = x;~V p = y; }
3:1: this link stands here a second time; the first is at line 2, column 6 | a:A; link a -> (r) a;~link a -> (r) a;
2:20: \"b\" is no object of this text | a:A; link a -> (r) b;
";

#[test]
fn each_fault_of_a_text() {
    let folder = Folder::of("site_faults");
    for row in REFUSED.lines() {
        let (words, declarations) = row.split_once(" | ").expect("two cells");
        let lines = declarations.replace('~', "\n");
        folder.put(
            "s.od",
            format!("objectdiagram s {{\n{lines}\n}}").as_bytes(),
        );
        let told = folder.complaint("check s.od");
        let first = format!("corfynnog: s.od is not an acceptable site text.\ns.od:{words}\n");
        assert!(told.starts_with(&first), "{row}: {told}");
        assert!(told.contains("\n  to do: "), "{row}: {told}");
    }
}

#[test]
fn the_record_is_refused_behind_the_diagram() {
    let folder = folder("site_which");
    folder.put("bad.cd", b"classdiagram d {");
    folder.put("bad.od", b"objectdiagram s {");
    for (line, place) in [
        ("judge bad.cd bad.od", "bad.cd:1:17: "),
        ("judge p.diagram bad.od", "bad.od:1:18: "),
        ("evaluate bad.cd bad.od", "bad.cd:1:17: "),
    ] {
        let told = folder.complaint(line);
        assert!(told.contains(&format!("\n{place}")), "{line}: {told}");
    }
}

#[test]
fn records_are_read_back_byte_for_byte() {
    let folder = Folder::of("site_back");
    let mut random = Random::new(5);
    for _ in 0..150 {
        let plan = diagram(&mut random, SMALL);
        let file = generators::records::record(&mut random, &plan, 8).file();
        folder.put("r.record", &file);
        let shown = folder.answer(0, "show r.record");
        folder.put("r.od", shown.as_bytes());
        folder.answer(0, "make r.od --out back.record");
        assert_eq!(folder.get("back.record"), Some(file), "{shown}");
    }
}

#[test]
fn the_largest_record_is_read_back() {
    let folder = Folder::of("site_largest");
    let file = generators::record_limits::largest().file();
    folder.put("r.record", &file);
    let shown = folder.answer(0, "show r.record");
    folder.put("r.od", shown.as_bytes());
    assert_eq!(
        folder.answer(0, "make r.od --out back.record"),
        "Made: back.record, a record file with 8 objects, 256 values, 2048 links (59300 bytes).\n"
    );
    assert_eq!(folder.get("back.record"), Some(file));
}

#[test]
fn a_constant_spelled_like_the_unnamed_value_stands_in_quotation_marks() {
    let folder = Folder::of("site_unnamed");
    let file = b"\x60\0\x01\x01\x61\0\x02\x01A\
        \x62\0\x06\0\x01a\x01V\0\
        \x62\0\x11\0\x01b\x01V\x0Bsome_type_V\
        \x62\0\x11\0\x01c\x01V\x0Bsome_type_W";
    folder.put("r.record", file);
    let shown = folder.answer(0, "show r.record");
    assert_eq!(
        shown,
        "objectdiagram r {
  A0:A { V a = some_type_V; V b = \"some_type_V\"; V c = some_type_W; }
}
"
    );
    folder.put("r.od", shown.as_bytes());
    folder.answer(0, "make r.od --out back.record");
    assert_eq!(folder.get("back.record").as_deref(), Some(&file[..]));
}

#[test]
fn the_name_of_a_shown_record_is_a_word() {
    let folder = Folder::of("site_word");
    let long = "a".repeat(40);
    for (file, name) in [
        ("card.record", "card"),
        ("link.record", "link"),
        (long.as_str(), long.as_str()),
        ("my-site.record", "record"),
        (".record", "record"),
        ("a b", "record"),
        ("é.record", "record"),
    ] {
        folder.put(file, &sites::empty_site());
        let shown = folder.run(&["show", file]).out;
        assert_eq!(shown, format!("objectdiagram {name} {{\n}}\n"), "{file}");
        folder.put("shown.od", shown.as_bytes());
        assert_eq!(folder.answer(0, "show shown.od"), shown, "{file}");
    }
    let ran = folder.line_with_input("show -", &sites::empty_site());
    assert_eq!(ran.out, "objectdiagram record {\n}\n");
}

#[test]
fn the_site_in_the_help_is_accepted() {
    let folder = Folder::of("site_help");
    let help = folder.answer(0, "help show");
    let (_, behind) = help.split_once("Site text:\n").expect("a text");
    let (text, _) = behind.split_once("\n  }\n").expect("its end");
    folder.put("s.od", format!("{text}\n}}").as_bytes());
    let answer = folder.answer(0, "check s.od");
    assert!(answer.contains("3 objects, 2 values, 1 link."), "{answer}");
}

#[test]
fn standard_input() {
    let folder = folder("site_input");
    let ran = folder.line_with_input("judge p.diagram -", SHELF3.as_bytes());
    assert_eq!((ran.status, ran.err.as_str()), (0, ""));
    assert_eq!(ran.out, "Legal: p.diagram allows standard input.\n");
    let ran = folder.line_with_input("check -", b"objectdiagram d {\n;");
    assert_eq!(ran.status, 2);
    assert!(ran
        .err
        .contains("\nstandard input:2:1: read \";\", expected "));
}
