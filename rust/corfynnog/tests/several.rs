//! Several files in one run.

mod common;

use common::{sites, Folder};

/// Diagrams and records, some of them bad.
fn folder(test: &str) -> Folder {
    let folder = sites::folder(test);
    folder.put("p.cd", b"classdiagram P {\n  class Shelf;\n}\n");
    folder.put("bad.cd", b"classdiagram d {\n  class extends A;\n}\n");
    folder.put("bad.diagram", b"\x10\x00\x01\x03");
    folder.put("bad.record", b"\x60\x00\x01\x01");
    folder
}

#[test]
fn check_has_a_line_for_each_file() {
    let folder = folder("several_check");
    let answer = folder.answer(0, "check p.diagram card.record p.cd");
    let alone =
        ["p.diagram", "card.record", "p.cd"].map(|f| folder.answer(0, &format!("check {f}")));
    assert_eq!(answer, alone.concat());
    let ran = folder.line("check card.record bad.cd gone bad.diagram bad.record e.diagram");
    assert_eq!((ran.status, ran.err.as_str()), (2, ""));
    assert_eq!(
        ran.out,
        "Accepted: card.record is a record file with 1 object, no values, no links.\n\
         Refused: bad.cd is not an acceptable diagram text (refusal 23), line 2, column 9: read \"extends\", expected a name for the class.\n\
         Unreadable: gone: no such file or directory.\n\
         Refused: bad.diagram is not an acceptable diagram file (refusal 3), field 1, byte 3: the edition is 3, but there are only edition 1 and edition 2.\n\
         Refused: bad.record is not an acceptable record file (refusal 4), byte 4: the object count is 1, but no object follows.\n\
         Accepted: e.diagram is a diagram file of edition 1 with no value types, no types, no attributes, no associations.\n"
    );
}

#[test]
fn judge_has_a_line_for_each_record() {
    let folder = folder("several_judge");
    let ran = folder.line("judge p.diagram shelf3.record empty.record");
    assert_eq!(ran.status, 0);
    assert_eq!(
        ran.out,
        "Legal: p.diagram allows shelf3.record.\nLegal: p.diagram allows empty.record.\n"
    );
    let ran = folder.line("judge q.diagram card.record empty.record shelf3.record");
    assert_eq!((ran.status, ran.err.as_str()), (1, ""));
    assert_eq!(
        ran.out,
        "Illegal: q.diagram forbids card.record. Rule 7: Card0 is the target of no Shelf by role cards; allowed: exactly 1.\n\
         Legal: q.diagram allows empty.record.\n\
         Illegal: q.diagram forbids shelf3.record. Rule 6: Shelf0 has 3 links of role cards; allowed: at most 2.\n"
    );
    let ran = folder.line("judge q.diagram card.record bad.record gone empty.record");
    assert_eq!((ran.status, ran.err.as_str()), (2, ""));
    let starts: Vec<&str> = ran
        .out
        .lines()
        .map(|l| &l[..l.find(':').unwrap()])
        .collect();
    assert_eq!(starts, ["Illegal", "Refused", "Unreadable", "Legal"]);
}

#[test]
fn each_object_is_that_of_its_file_alone() {
    let folder = folder("several_json");
    for (line, files, status) in [
        ("check", "p.diagram bad.cd gone bad.record p.cd", 2),
        ("judge p.diagram", "shelf3.record card.record", 1),
        ("judge p.diagram", "card.record bad.record gone", 2),
    ] {
        let ran = folder.line(&format!("{line} {files} --json"));
        assert_eq!((ran.status, ran.err.as_str()), (status, ""), "{line}");
        let alone = files
            .split(' ')
            .map(|f| folder.line(&format!("{line} {f} --json")).out);
        assert_eq!(ran.out, alone.collect::<String>(), "{line}");
    }
}

#[test]
fn a_diagram_that_is_refused_is_one_complaint() {
    let folder = folder("several_diagram");
    for diagram in ["bad.cd", "bad.diagram", "gone", "card.record"] {
        let alone = folder.complaint(&format!("judge {diagram} card.record"));
        let several = folder.complaint(&format!("judge {diagram} card.record bad.record"));
        assert_eq!(several, alone, "{diagram}");
    }
}

#[test]
fn full_reports_have_a_blank_line_between_them() {
    let folder = folder("several_full");
    let files = ["card.record", "shelf3.record", "empty.record"];
    let alone = files.map(|f| folder.line(&format!("judge q.diagram {f} --all")).out);
    let ran = folder.line(&format!("judge q.diagram --all {} gone", files.join(" ")));
    assert_eq!(ran.status, 2);
    let told = "Unreadable: gone: no such file or directory.\n";
    assert_eq!(ran.out, format!("{}\n{told}", alone.join("\n")));
}

#[test]
fn standard_input_is_one_of_them() {
    let folder = folder("several_input");
    let ran = folder.line_with_input("check p.diagram - e.diagram", b"\x60\x00\x01\x02");
    assert_eq!(ran.status, 2);
    let lines: Vec<&str> = ran.out.lines().collect();
    assert_eq!(lines.len(), 3);
    assert!(lines[1].starts_with("Refused: standard input is not an acceptable record file "));
}
