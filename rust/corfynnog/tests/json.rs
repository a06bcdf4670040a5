//! The answers for scripts.

mod common;

use common::json::{read, Value};
use common::{sites, Folder};
use generators::hex::bytes;

fn folder(test: &str) -> Folder {
    let folder = Folder::of(test);
    folder.put("p", &sites::p());
    folder.put("q", &sites::q());
    folder.put("s", &sites::s());
    folder.put("card", &sites::card());
    folder.put("shelf3", &sites::shelf_with(3));
    folder.put("bad", &bytes("10 00 01 01 30 00 04 04 01 41 00"));
    folder
}

/// The one object that a run prints, with its exit status; nothing goes to standard error.
fn answer(folder: &Folder, line: &str) -> (i32, Value) {
    let ran = folder.line(line);
    assert_eq!(ran.err, "", "{line}");
    (ran.status, read(&ran.out))
}

#[test]
fn compare() {
    let folder = folder("json_compare");
    let (status, object) = answer(&folder, "compare s p --json --out site");
    assert_eq!((status, object.get("result").text()), (1, "difference"));
    assert_eq!(object.get("command").text(), "compare");
    assert_eq!(
        (object.get("old").text(), object.get("new").text()),
        ("s", "p")
    );
    assert_eq!(
        (object.get("bound").number(), object.get("objects").number()),
        (8, 1)
    );
    assert_eq!(object.get("written").text(), "site");
    let witness = object.get("witness");
    assert_eq!(witness.get("objects").at(0).get("name").text(), "Card0");
    assert_eq!(witness.get("links").len(), 0);
    let reason = object.get("reason");
    assert_eq!(
        (
            reason.get("rule").number(),
            reason.get("predicate").number()
        ),
        (7, 1)
    );
    let place = reason.get("places").at(0);
    assert_eq!(place.get("objects").at(0).text(), "Card0");
    assert_eq!(place.get("association").number(), 0);
    assert_eq!(place.get("attribute"), &Value::Null);

    let (status, object) = answer(&folder, "compare p q --json --bound 3");
    assert_eq!((status, object.get("result").text()), (0, "no difference"));
    assert_eq!(object.get("old_smallest_site").number(), 0);
}

#[test]
fn judge_and_evaluate() {
    let folder = folder("json_judge");
    let (status, object) = answer(&folder, "judge p shelf3 --json");
    assert_eq!((status, object.get("result").text()), (0, "legal"));
    let (status, object) = answer(&folder, "--json judge q shelf3");
    assert_eq!((status, object.get("result").text()), (1, "illegal"));
    assert_eq!(object.get("reason").get("rule").number(), 6);
    let (status, object) = answer(&folder, "evaluate p shelf3 --json");
    assert_eq!((status, object.get("result").text()), (0, "all hold"));
    assert_eq!(object.get("number").number(), 3);
    let (status, object) = answer(&folder, "evaluate p card --json");
    assert_eq!((status, object.get("result").text()), (1, "not all hold"));
    assert_eq!(object.get("first_false").number(), 1);
    assert_eq!(object.get("predicate").get("name").text(), "ObjLU");
    assert_eq!(object.get("places").len(), 1);
}

#[test]
fn compile() {
    let (status, object) = answer(&folder("json_compile"), "compile q --json");
    assert_eq!((status, object.get("result").text()), (0, "compiled"));
    assert_eq!(object.get("number").number(), 3);
    let numbers = |entry: &Value| {
        ["kind", "association", "side", "low", "up"].map(|name| entry.get(name).number())
    };
    let list = object.get("predicates");
    let entries: Vec<_> = (0..list.len()).map(|i| numbers(list.at(i))).collect();
    assert_eq!(entries, [[1, 0, 0, 0, 2], [3, 0, 0, 1, 1], [6, 0, 0, 0, 0]]);
}

#[test]
fn check_and_show() {
    let folder = folder("json_show");
    let (status, object) = answer(&folder, "check p --json");
    assert_eq!((status, object.get("result").text()), (0, "accepted"));
    assert_eq!(object.get("kind").text(), "diagram");
    let (status, object) = answer(&folder, "show p --json");
    assert_eq!((status, object.get("result").text()), (0, "shown"));
    let association = object.get("diagram").get("associations").at(0);
    assert_eq!(association.get("form").text(), "composition");
    assert_eq!(association.get("right").get("up").number(), 4);
    assert_eq!(object.get("diagram").get("types").len(), 2);
    let (_, object) = answer(&folder, "show shelf3 --json");
    assert_eq!(
        object.get("record").get("links").at(2).get("to").text(),
        "Card2"
    );
}

#[test]
fn values_without_a_constant_are_null() {
    let folder = Folder::of("json_null");
    folder.put(
        "r",
        &bytes("60 00 01 01 61 00 02 01 41 62 00 06 00 01 61 01 56 00"),
    );
    folder.put(
        "d",
        &bytes("10 00 01 01 30 00 04 00 01 41 00 50 00 0C 00 01 00 00 FF 01 6C 00 00 01 01 72"),
    );
    let (_, object) = answer(&folder, "show r --json");
    let value = object
        .get("record")
        .get("objects")
        .at(0)
        .get("values")
        .at(0);
    assert_eq!(value.get("constant"), &Value::Null);
    assert_eq!(value.get("type").text(), "V");
    let (_, object) = answer(&folder, "show d --json");
    let association = object.get("diagram").get("associations").at(0);
    assert_eq!(association.get("left").get("up"), &Value::Null);
}

#[test]
fn what_goes_wrong() {
    let folder = folder("json_wrong");
    let (status, object) = answer(&folder, "check bad --json");
    assert_eq!((status, object.get("result").text()), (2, "refused"));
    assert_eq!(
        (object.get("refusal").number(), object.get("file").text()),
        (3, "bad")
    );
    assert_eq!(
        (object.get("field").number(), object.get("byte").number()),
        (2, 7)
    );
    assert_eq!(
        (object.get("tag").number(), object.get("field_name").text()),
        (0x30, "type")
    );
    let (status, object) = answer(&folder, "compare p q --bound 9 --json");
    assert_eq!((status, object.get("refusal").number()), (2, 9));
    let (status, object) = answer(&folder, "show gone --json");
    assert_eq!((status, object.get("result").text()), (2, "unreadable"));
    let (status, object) = answer(&folder, "compare p --json");
    assert_eq!((status, object.get("result").text()), (2, "misused"));
    let (status, object) = answer(&folder, "--json");
    assert_eq!((status, object.get("command")), (2, &Value::Null));
}

#[test]
fn names_of_files_are_escaped() {
    let folder = Folder::of("json_escape");
    let name = "a \"b\"\\\n\u{1}é";
    folder.put(name, &sites::e());
    let ran = folder.run(&["check", name, "--json"]);
    assert_eq!(ran.status, 0);
    assert_eq!(read(&ran.out).get("file").text(), name);
}
