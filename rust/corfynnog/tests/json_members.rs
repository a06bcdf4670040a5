//! Every object has the members that the help promises.

mod common;

use std::collections::BTreeSet;

use common::json::{read, Value};
use common::promised::{expect, of_command, of_failures};
use common::{constructs, sites, Folder};

/// A folder with files of every kind, good and bad.
fn folder(test: &str) -> Folder {
    let folder = sites::folder(test);
    folder.put("every.diagram", &constructs::file());
    folder.put("every.cd", constructs::TEXT.as_bytes());
    folder.put("bad.diagram", b"\x10\x00\x01\x03");
    folder.put("bad.cd", b"classdiagram d { class A; class A; }");
    folder.put("bad.record", b"\x60\x00\x01\x01");
    folder.put("card.od", b"objectdiagram site { Card0:Card {} }");
    folder.put("bad.od", b"objectdiagram site { Card0:Card {}");
    folder.put("wide.diagram", &sites::wide((1, 1), (0, 4)));
    folder.put("256.diagram", &sites::wide((1, 1), (0, 256)));
    folder
}

/// Lines with answers of every kind.
const ANSWERS: &str = "\
compare s.diagram p.diagram
compare s.diagram p.diagram --out site
compare s.diagram p.diagram --all
compare p.diagram e.diagram --all --bound 2
compare s.diagram p.diagram --out /dev/full
compare p.diagram q.diagram --bound 3
compare z.diagram p.diagram --bound 0
compare every.cd every.diagram --bound 1
judge p.diagram shelf3.record
judge p.diagram card.record
judge p.diagram card.record --all
judge z.diagram empty.record
judge p.diagram card.record --all
judge p.diagram card.od
compile p.diagram
compile e.diagram
compile every.cd
evaluate p.diagram shelf3.record
evaluate p.diagram card.record
check p.diagram
check every.cd
check card.record
check card.od
show p.diagram
show every.cd
show every.diagram
show shelf3.record
show card.od
make card.od --out made
convert p.diagram --out converted
convert wide.diagram --out converted
marked";

/// Lines without an answer.
const FAILURES: &str = "\
check bad.diagram
check bad.cd
check bad.record
show bad.record
judge p.diagram bad.record
check bad.od
judge p.diagram bad.od
make bad.od --out made
make card.od --out card.od
make card.od
convert bad.diagram --out converted
convert 256.diagram --out converted
convert every.cd --out converted
convert card.record --out converted
convert p.diagram --out p.diagram
convert p.diagram --out gone/converted
convert gone --out converted
convert p.diagram
judge bad.cd card.record
compare bad.cd p.diagram
compare p.diagram bad.diagram
compare p.diagram p.diagram --bound 9
check gone
compare p.diagram gone
compare s.diagram p.diagram --out gone/site
compare s.diagram p.diagram --out s.diagram
compare p.diagram
compere p.diagram
check --fast";

/// Runs each line; its object, with its command and its result.
fn objects(folder: &Folder, lines: &'static str) -> Vec<(&'static str, Value)> {
    let run = |line: &'static str| (line, read(&folder.line(&format!("{line} --json")).out));
    lines.lines().map(run).collect()
}

#[test]
fn every_answer_has_what_the_help_of_its_command_lists() {
    let folder = folder("members_answers");
    let mut seen = BTreeSet::new();
    for (line, object) in objects(&folder, ANSWERS) {
        let command = object.get("command").text();
        assert_eq!(Some(command), line.split(' ').next());
        let promised = of_command(&folder, command);
        expect(&object, &promised, line);
        assert_eq!(object.len(), promised.len() + 1, "{line}: {object:?}");
        seen.insert(object.get("result").text().to_string());
    }
    let results = [
        "accepted",
        "all hold",
        "as the documents have them",
        "compiled",
        "converted",
        "difference",
        "illegal",
        "legal",
        "made",
        "no difference",
        "not all hold",
        "shown",
    ];
    assert_eq!(seen.iter().collect::<Vec<_>>(), results);
}

#[test]
fn every_failure_has_what_the_help_lists() {
    let folder = folder("members_failures");
    let failures = of_failures(&folder);
    let listed: Vec<&str> = failures.iter().map(|(result, _)| result.as_str()).collect();
    let rest = [
        "unreadable",
        "unwritable",
        "misused",
        "no memory",
        "unexpected",
    ];
    assert_eq!(listed, [&["refused"][..], &rest].concat());
    assert_eq!(failures[0].1.len(), 16);
    for (line, object) in objects(&folder, FAILURES) {
        let result = object.get("result").text();
        let found = failures.iter().find(|(listed, _)| listed == result);
        let (_, promised) = found.unwrap_or_else(|| panic!("{line}: {result} is not listed"));
        expect(&object, promised, line);
        assert_eq!(object.len(), promised.len() + 2, "{line}: {object:?}");
    }
}

#[test]
fn members_that_do_not_apply_are_null() {
    let folder = folder("members_null");
    for (line, nulls) in [
        ("judge p.diagram shelf3.record", "reason"),
        (
            "evaluate p.diagram shelf3.record",
            "first_false predicate places",
        ),
        ("show card.record", "diagram remarks"),
        ("show p.diagram", "record"),
        (
            "compare p.diagram q.diagram --bound 3",
            "objects witness reason written",
        ),
        (
            "check bad.cd",
            "field tag field_name field_start bound looks_like",
        ),
        ("judge card.record p.diagram", "form field line byte bound"),
        ("check bad.diagram", "line column bound looks_like"),
        (
            "convert 256.diagram --out converted",
            "line column bound looks_like",
        ),
        (
            "convert every.cd --out converted",
            "form field line byte bound",
        ),
        (
            "compare e.diagram e.diagram --bound x",
            "file kind form field tag line column byte",
        ),
        ("--fast", "command"),
    ] {
        let object = read(&folder.line(&format!("{line} --json")).out);
        for name in nulls.split(' ') {
            assert_eq!(object.get(name), &Value::Null, "{line}: {name}");
        }
    }
}
