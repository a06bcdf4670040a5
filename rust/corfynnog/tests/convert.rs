//! Diagram files written in the other edition, and what is refused there.

mod common;

use std::fs;
use std::os::unix::fs::symlink;
use std::path::Path;

use common::json::{read, Value};
use common::{constructs, sites, Folder};
use generators::hex::bytes;

/// No upper limit, as edition 2 has it.
const NONE: u16 = 65_535;

/// The usual diagrams in edition 1, and the first of them in edition 2.
fn folder(test: &str) -> Folder {
    let folder = sites::folder(test);
    folder.put("p_2.diagram", &sites::wide((1, 1), (0, 4)));
    folder.put("256.diagram", &sites::wide((1, 1), (0, 256)));
    folder
}

#[test]
fn each_edition_becomes_the_other() {
    let folder = folder("convert_both");
    assert_eq!(
        folder.answer(0, "convert p.diagram --out wide"),
        "Converted: wide, a diagram file of edition 2 (52 bytes); p.diagram is of edition 1.\n"
    );
    assert_eq!(folder.get("wide"), folder.get("p_2.diagram"));
    assert_eq!(
        folder.answer(0, "convert wide --out narrow"),
        "Converted: narrow, a diagram file of edition 1 (48 bytes); wide is of edition 2.\n"
    );
    assert_eq!(folder.get("narrow"), Some(sites::p()));
}

#[test]
fn the_answer_for_scripts() {
    let folder = folder("convert_json");
    for (file, edition, other, length) in [("p.diagram", 1, 2, 52), ("p_2.diagram", 2, 1, 48)] {
        let object = read(&folder.answer(0, &format!("convert {file} --out other --json")));
        assert_eq!(object.get("command").text(), "convert");
        assert_eq!(object.get("result").text(), "converted");
        assert_eq!(object.get("file").text(), file);
        assert_eq!(object.get("edition").number(), edition);
        assert_eq!(object.get("written").text(), "other");
        assert_eq!(object.get("written_edition").number(), other);
        assert_eq!(object.get("bytes").number(), length);
        let written = folder.get("other").expect("the file");
        assert_eq!(
            (written.len() as u64, u64::from(written[3])),
            (length, other)
        );
    }
}

/// Converts a file twice: the first result has the other edition and the same diagram as text, the
/// second is the file.
fn expect_same(folder: &Folder, file: &[u8]) {
    folder.put("d.1", file);
    folder.answer(0, "convert d.1 --out d.2");
    folder.answer(0, "convert d.2 --out d.3");
    let other = folder.get("d.2").expect("the first result");
    assert_eq!(other[3], 3 - file[3]);
    assert_eq!(folder.get("d.3").as_deref(), Some(file));
    let [first, second] = ["d.1", "d.2"].map(|name| folder.line(&format!("show {name}")));
    assert_eq!((first.status, &first.out), (0, &second.out));
    assert_eq!(first.err, second.err);
    folder.answer(0, "compare d.1 d.2 --bound 1");
}

#[test]
fn converted_twice_a_file_is_the_same() {
    let folder = folder("convert_twice");
    let limits = [(0, 0), (100, 100), (0, 100), (100, NONE), (0, NONE)];
    for left in limits {
        for right in limits {
            expect_same(&folder, &sites::wide(left, right));
        }
    }
    for file in [sites::p(), sites::e(), sites::z(), constructs::file()] {
        expect_same(&folder, &file);
    }
    for arrow in 1..=4 {
        expect_same(&folder, &sites::line_and_port(arrow));
    }
    for composition in [
        "10 00 01 01 30 00 04 00 01 41 00 50 00 0C 01 03 00 00 FF 01 6C 00 00 FF 01 72",
        "10 00 01 01 30 00 04 00 01 41 00 50 00 0C 01 04 00 00 FF 01 6C 00 00 FF 01 72",
    ] {
        expect_same(&folder, &bytes(composition));
    }
}

#[test]
fn the_files_of_the_examples() {
    let folder = folder("convert_examples");
    let examples = Path::new(env!("CARGO_MANIFEST_DIR")).join("../../examples");
    for (file, is_large) in [
        ("card_states/old.diagram", false),
        ("line_cards/new.diagram", false),
        ("line_groups/old.diagram", false),
        ("line_groups/new.diagram", true),
        ("new_families/new.diagram", false),
        ("shelf_and_card/associations_16.diagram", false),
        ("shelf_and_card/p_edition_2.diagram", false),
        ("shelf_and_card/lines_4000.diagram", true),
    ] {
        let bytes = fs::read(examples.join(file)).expect(file);
        if !is_large {
            expect_same(&folder, &bytes);
            continue;
        }
        folder.put("large", &bytes);
        let told = folder.complaint("convert large --out none");
        assert!(told.contains("(refusal 25)"), "{file}: {told}");
    }
    assert_eq!(folder.get("none"), None);
}

/// What is told of a large limit, and what it means for the file.
const REFUSED_256: &str = "\
corfynnog: 256.diagram cannot be written in edition 1 (refusal 25).
  where: field 4 (association, tag 0x50), which starts at byte 25; the fault is at byte 44 (fields counted from 1, bytes from 0)
  fault: the right upper limit of composition [1] Shelf (shelf) -> (cards) Card [0..256] is 256, but edition 1 has limits up to 100
  rule:  a file of edition 1 has limits of at most 100, or no upper limit
  to do: keep the file of edition 2; or write 100 there, or 65535 for no upper limit, which allows the same sites of at most 8 objects
";

#[test]
fn a_limit_above_100_is_told_with_its_place() {
    let folder = folder("convert_large");
    folder.put("before", b"before");
    assert_eq!(
        folder.complaint("convert 256.diagram --out before"),
        REFUSED_256
    );
    assert_eq!(folder.get("before").as_deref(), Some(&b"before"[..]));
    let object = read(&folder.line("convert 256.diagram --out none --json").out);
    assert_eq!(object.get("result").text(), "refused");
    for (member, number) in [
        ("refusal", 25),
        ("field", 4),
        ("tag", 0x50),
        ("field_start", 25),
        ("byte", 44),
    ] {
        assert_eq!(object.get(member).number(), number, "{member}");
    }
    assert_eq!(object.get("kind").text(), "diagram");
    assert_eq!(object.get("form").text(), "file");
    for (member, line) in [
        ("text", "  fault: "),
        ("rule", "  rule:  "),
        ("to_do", "  to do: "),
    ] {
        let text = format!("{line}{}\n", object.get(member).text());
        assert!(REFUSED_256.contains(&text), "{member}: {text}");
    }
    assert_eq!(folder.get("none"), None);
}

#[test]
fn every_limit_is_looked_at() {
    let folder = folder("convert_limits");
    for (left, right, words) in [
        ((101, NONE), (0, 0), "the left lower limit of composition [101..*] Shelf "),
        ((0, 255), (0, 0), "the left upper limit of composition [0..255] Shelf "),
        ((101, 101), (355, 4_000), "the left lower limit of composition [101] Shelf (shelf) -> (cards) Card [355..4000] is 101, but edition 1 has limits up to 100; 3 further limits are above 100\n"),
    ] {
        folder.put("d", &sites::wide(left, right));
        let told = folder.complaint("convert d --out none");
        assert!(told.contains("(refusal 25)"), "{told}");
        assert!(told.contains(words), "{words}: {told}");
    }
}

/// The limits with 100 in the place of a larger lower one, and this in the place of an upper one.
fn mended((low, up): (u16, u16), most: u16) -> (u16, u16) {
    match up {
        0..=100 | NONE => (low.min(100), up),
        _ => (low.min(100), most),
    }
}

#[test]
fn what_is_advised_about_a_large_limit_makes_no_difference() {
    let folder = folder("convert_advice");
    let same = "which allows the same sites of at most 8 objects";
    let or_none = format!("or 65535 for no upper limit, {same}");
    let too =
        format!("{same}; in the place of an upper one 65535, for no upper limit, will do too");
    for (left, right, place, advice) in [
        ((1, 1), (0, 256), "there", &*or_none),
        ((0, NONE), (101, NONE), "there", same),
        ((101, NONE), (355, NONE), "in the place of each", same),
        ((0, 255), (1, 4_000), "in the place of each", &or_none),
        ((0, 255), (355, 4_000), "in the place of each", &too),
        ((101, NONE), (0, 256), "in the place of each", &too),
    ] {
        folder.put("large", &sites::wide(left, right));
        let told = folder.complaint("convert large --out small");
        let to_do = format!("keep the file of edition 2; or write 100 {place}, {advice}");
        assert!(told.ends_with(&format!("\n  to do: {to_do}\n")), "{told}");
        let most = [Some(100), to_do.contains("65535").then_some(NONE)];
        for most in most.into_iter().flatten() {
            let file = sites::wide(mended(left, most), mended(right, most));
            folder.put("mended", &file);
            folder.answer(0, "convert mended --out small");
            for line in ["compare large small", "compare small large"] {
                let answer = folder.answer(0, line);
                assert!(answer.starts_with("No difference: "), "{answer}");
            }
        }
    }
}

/// Files that are refused as they are by every command: refusal, file.
const REFUSED: &str = "\
1 | 10 00 01
1 | 10 00 01 02 30 00 04 00 01 41 00 50 00 10 00 01 00 00 00 00 65 01 6C 00 00 00 00 00 01 72 50
2 | 10 00 01 02 10 00 01 02
2 | 20 00 03 01 56 00
3 | 10 00 01 03
3 | 10 00 01 01 30 00 04 00 01 41 00 50 00 0C 00 01 00 00 65 01 6C 00 00 FF 01 72
3 | 10 00 01 02 30 00 04 00 01 41 00 50 00 0C 00 01 00 00 FF 01 6C 00 00 FF 01 72
3 | 10 00 01 02 30 00 04 00 01 41 00 50 00 10 00 01 00 FF FF FF FF 01 6C 00 00 00 FF FF 01 72
3 | 10 00 01 02 30 00 04 00 01 41 00 50 00 10 00 01 00 00 00 FF FF 01 6C 00 00 00 0F A1 01 72
4 | 10 00 01 02 \
    20 00 03 01 41 00 20 00 03 01 42 00 20 00 03 01 43 00 20 00 03 01 44 00 20 00 03 01 45 00 \
    20 00 03 01 46 00 20 00 03 01 47 00 20 00 03 01 48 00 20 00 03 01 49 00 20 00 03 01 4A 00 \
    20 00 03 01 4B 00 20 00 03 01 4C 00 20 00 03 01 4D 00
5 | 10 00 01 01 30 00 04 00 01 41 00 30 00 04 00 01 41 00
6 | 10 00 01 02 30 00 04 00 01 41 00 50 00 10 00 01 00 00 00 00 65 01 6C 01 00 00 00 00 01 72
7 | 10 00 01 01 30 00 04 00 01 41 00 30 00 05 02 01 49 01 00
8 | 10 00 01 01 30 00 04 00 01 41 00 50 00 0C 01 02 00 00 FF 01 6C 00 00 FF 01 72";

#[test]
fn a_file_that_is_refused_is_told_as_check_tells_it() {
    let folder = folder("convert_refused");
    for row in REFUSED.lines() {
        let (refusal, digits) = row.split_once(" | ").expect(row);
        folder.put("d", &bytes(digits));
        let told = folder.complaint("convert d --out none");
        let first = format!(
            "corfynnog: d is not an acceptable diagram file (refusal {refusal}).\n  where: "
        );
        assert!(told.starts_with(&first), "{row}: {told}");
        if digits.starts_with("10") {
            assert_eq!(told, folder.complaint("check d"), "{row}");
        }
    }
    assert_eq!(folder.get("none"), None);
}

/// What is told of a file that is no diagram file.
struct Told {
    refusal: u64,
    looks_like: Option<&'static str>,
    fault: &'static str,
    to_do: &'static str,
}

const CHECK_NAME: &str = "check the file's name";
const CHECK_IT: &str = "give a diagram file; 'corfynnog check' tells what this one is";

/// A file of each other kind, and some of none.
const OTHER_KINDS: [(&[u8], Told); 7] = [
    (
        b"classdiagram P {class Shelf; class Card;}",
        Told {
            refusal: 1,
            looks_like: Some("diagram text"),
            fault: "this looks like a diagram text, but a diagram file is wanted here",
            to_do: "give a diagram file; a text has no edition, and this program writes no diagram file of it",
        },
    ),
    (
        b"objectdiagram s {c:Card;}",
        Told {
            refusal: 1,
            looks_like: Some("site text"),
            fault: "this looks like a site text, but a diagram file is wanted here",
            to_do: CHECK_NAME,
        },
    ),
    (
        b"\x60\x00\x01\x00",
        Told {
            refusal: 2,
            looks_like: Some("record file"),
            fault: "this looks like a record file, but a diagram file is wanted here",
            to_do: CHECK_NAME,
        },
    ),
    (
        b"",
        Told {
            refusal: 2,
            looks_like: None,
            fault: "the file is empty",
            to_do: CHECK_NAME,
        },
    ),
    (
        b"Dear all",
        Told {
            refusal: 1,
            looks_like: None,
            fault: "a diagram file starts with tag 0x10, this one with 0x44",
            to_do: CHECK_IT,
        },
    ),
    (
        b"class diagram P {}",
        Told {
            refusal: 1,
            looks_like: None,
            fault: "a diagram file starts with tag 0x10, this one with 0x63",
            to_do: CHECK_IT,
        },
    ),
    (
        b"\xFF\xFEc\x00l\x00",
        Told {
            refusal: 1,
            looks_like: None,
            fault: "a diagram file starts with tag 0x10, this one with 0xFF",
            to_do: CHECK_IT,
        },
    ),
];

#[test]
fn other_kinds_have_no_edition() {
    let folder = folder("convert_kinds");
    let rule = "only a diagram file has an edition; it starts with the byte 0x10";
    for (file, told) in OTHER_KINDS {
        let Told {
            refusal,
            looks_like,
            fault,
            to_do,
        } = told;
        folder.put("d", file);
        assert_eq!(
            folder.complaint("convert d --out none"),
            format!("corfynnog: d is not an acceptable diagram file (refusal {refusal}).\n  fault: {fault}\n  rule:  {rule}\n  to do: {to_do}\n")
        );
        let object = read(&folder.line("convert d --out none --json").out);
        assert_eq!(object.get("result").text(), "refused");
        assert_eq!(object.get("refusal").number(), refusal, "{fault}");
        assert_eq!(object.get("kind").text(), "diagram");
        assert_eq!(object.get("text").text(), fault);
        assert_eq!(object.get("rule").text(), rule, "{fault}");
        assert_eq!(object.get("to_do").text(), to_do, "{fault}");
        let expected = looks_like.map_or(Value::Null, |look| Value::Text(look.to_string()));
        assert_eq!(object.get("looks_like"), &expected, "{fault}");
    }
    assert_eq!(folder.get("none"), None);
}

#[test]
fn standard_input_and_standard_output() {
    let folder = folder("convert_pipe");
    let ran = folder.shell("$P convert p.diagram --out - > other");
    let told = "Converted: standard output, a diagram file of edition 2 (52 bytes); p.diagram is of edition 1.\n";
    assert_eq!(
        (ran.status, ran.out.as_str(), ran.err.as_str()),
        (0, "", told)
    );
    assert_eq!(folder.get("other"), folder.get("p_2.diagram"));
    let ran = folder.line_with_input("convert - --out other", &sites::wide((1, 1), (0, 4)));
    let told = "Converted: other, a diagram file of edition 1 (48 bytes); standard input is of edition 2.\n";
    assert_eq!(
        (ran.status, ran.out.as_str(), ran.err.as_str()),
        (0, told, "")
    );
    assert_eq!(folder.get("other"), Some(sites::p()));
    let ran = folder.shell("$P convert p.diagram --out - 2> told | $P convert - --out -");
    assert_eq!((ran.status, ran.out.into_bytes()), (0, sites::p()));
    let object = read(&folder.line("convert p.diagram --out - --json").out);
    assert_eq!(object.get("result").text(), "misused");
    let sentence = "--json and '--out -' both write to standard output; name a file.";
    assert_eq!(object.get("text").text(), sentence);
    let ran = folder.shell("$P convert p.diagram --out site > site");
    let words =
        "'--out site' is the file that standard output goes to; use '--out -' to write nothing else there.";
    assert_eq!((ran.status, ran.out.as_str()), (2, ""));
    assert!(ran.err.contains(words), "{}", ran.err);
}

#[test]
fn the_input_is_never_written_over() {
    let folder = folder("convert_input");
    symlink("p.diagram", folder.path("link")).expect("a link");
    for out in ["p.diagram", "./p.diagram", "link"] {
        let told = folder.complaint(&format!("convert p.diagram --out {out}"));
        let sentence = format!("'--out {out}' would write over the input 'p.diagram'; name another file. Run 'corfynnog convert --help' for help.");
        assert_eq!(told, format!("corfynnog: {sentence}\n"));
    }
    assert_eq!(folder.get("p.diagram"), Some(sites::p()));
}

#[test]
fn a_file_that_cannot_be_written() {
    let folder = folder("convert_unwritable");
    for out in ["gone/other", "/dev/full"] {
        let told = folder.complaint(&format!("convert p.diagram --out {out}"));
        let first = format!("corfynnog: Cannot write {out}: ");
        assert!(told.starts_with(&first), "{told}");
    }
}
