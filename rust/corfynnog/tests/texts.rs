//! Diagrams typed as text, wherever a diagram is taken.

mod common;

use common::json::read;
use common::{constructs, sites, Folder};

/// P as text: a shelf with at most so many cards.
fn shelf_and_card(left: &str, right: &str) -> String {
    format!(
        "classdiagram P {{\n  class Shelf;\n  class Card;\n  composition {left} Shelf -> (cards) Card {right};\n}}\n"
    )
}

/// The same diagrams as files and as texts, and records.
fn folder(test: &str) -> Folder {
    let folder = sites::folder(test);
    folder.put("p.cd", shelf_and_card("[1]", "[0..4]").as_bytes());
    folder.put("q.cd", shelf_and_card("[1]", "[0..2]").as_bytes());
    folder.put("s.cd", shelf_and_card("[0..1]", "[0..4]").as_bytes());
    folder.put("z.cd", b"classdiagram Z { <<singleton>> class Main; }");
    folder
}

#[test]
fn a_text_has_the_answers_of_its_file() {
    let folder = folder("text_answers");
    for (line, status) in [
        ("compile p", 0),
        ("judge p shelf3.record", 0),
        ("judge q shelf3.record", 1),
        ("judge s card.record", 0),
        ("judge p card.record", 1),
        ("judge z empty.record", 1),
        ("evaluate p shelf3.record", 0),
        ("evaluate p card.record", 1),
    ] {
        let (command, rest) = line.split_once(' ').expect("a command");
        let (name, behind) = rest.split_at(1);
        let answer = |suffix: &str| {
            let line = format!("{command} {name}.{suffix}{behind}");
            folder.answer(status, &line)
        };
        let by_text = answer("cd").replace(".cd", ".diagram");
        assert_eq!(by_text, answer("diagram"), "{line}");
    }
}

#[test]
fn texts_and_files_are_compared_with_each_other() {
    let folder = folder("text_compare");
    for (old, new) in [
        ("p.cd", "q.cd"),
        ("p.cd", "q.diagram"),
        ("p.diagram", "q.cd"),
    ] {
        folder.answer(0, &format!("compare {old} {new} --bound 3"));
        let answer = folder.answer(1, &format!("compare {old} {new} --bound 4"));
        let first =
            format!("Difference: {old} allows this site of 4 objects, and {new} forbids it.");
        assert!(answer.starts_with(&first), "{answer}");
        let place = "  Shelf0 has 3 links of role cards; allowed: at most 2.\n";
        let (_, lines) = answer.split_once(place).expect("a place");
        let mut lines = lines.lines();
        for (name, limits) in [(new, "[0..2]"), (old, "[0..4]")] {
            let line = lines.next().expect("a declaration").trim_start();
            assert!(line.starts_with(&format!("{name}: ")), "{line}");
            let declared = format!(" composition [1] Shelf (shelf) -> (cards) Card {limits}");
            assert!(line.ends_with(&declared), "{line}");
        }
    }
    folder.answer(1, "compare s.cd p.cd --out site.record");
    assert_eq!(folder.get("site.record"), Some(sites::card()));
    for name in ["p", "q", "s", "z"] {
        for line in [
            format!("compare {name}.cd {name}.diagram --bound 2"),
            format!("compare {name}.diagram {name}.cd --bound 2"),
        ] {
            folder.answer(0, &line);
        }
    }
}

#[test]
fn check_tells_a_text() {
    let folder = folder("text_check");
    assert_eq!(
        folder.answer(0, "check p.cd"),
        "Accepted: p.cd is a diagram text with no value types, 2 types, no attributes, 1 association.\n"
    );
    let object = read(&folder.answer(0, "check p.cd --json"));
    assert_eq!(object.get("kind").text(), "diagram");
    assert_eq!(object.get("form").text(), "text");
}

#[test]
fn a_text_may_start_with_any_blank() {
    let folder = Folder::of("text_blanks");
    for blank in [" ", "\t", "\n", "\r", "\r\n \t", ""] {
        folder.put("d", format!("{blank}classdiagram d{{}}{blank}").as_bytes());
        assert_eq!(folder.line("check d").status, 0, "{blank:?}");
    }
}

#[test]
fn texts_of_any_length() {
    let folder = Folder::of("text_length");
    let blanks = " ".repeat(300_000);
    folder.put("blanks", format!("classdiagram d {{{blanks}}}").as_bytes());
    folder.answer(0, "check blanks");
    let word = "a".repeat(70_000);
    folder.put("word", format!("classdiagram {word} {{}}").as_bytes());
    let complaint = folder.complaint("check word");
    assert!(complaint.contains("word:1:14: the name \"aaaaaaaaaaaaaaaa"));
    assert!(complaint.contains("...\" has 70000 bytes, at most 16 are allowed\n"));
    assert!(complaint.len() < 1_000, "{}", complaint.len());
}

#[test]
fn a_refused_text_is_explained() {
    let folder = Folder::of("text_refused");
    folder.put(
        "d.cd",
        b"classdiagram d {\n  class Card;\n\tclass extends Card;\n}\n",
    );
    assert_eq!(
        folder.complaint("check d.cd"),
        "corfynnog: d.cd is not an acceptable diagram text (refusal 23).\n\
         d.cd:3:8: read \"extends\", expected a name for the class\n\
         \x20    class extends Card;\n\
         \x20          ^\n\
         \x20 rule:  a text follows the grammar, its names have at most 16 bytes, its limits are 0 to 4,000 with the lower one first\n\
         \x20 to do: this word belongs to the grammar and is no name; spelled otherwise (Class) it is one\n"
    );
    let object = read(&folder.line("check d.cd --json").out);
    assert_eq!(object.get("result").text(), "refused");
    assert_eq!(object.get("refusal").number(), 23);
    assert_eq!(
        (object.get("kind").text(), object.get("form").text()),
        ("diagram", "text")
    );
    assert_eq!(
        (object.get("line").number(), object.get("column").number()),
        (3, 8)
    );
    assert_eq!(object.get("byte").number(), 38);
    assert!(object.get("text").text().starts_with("read \"extends\""));
    assert!(object.get("to_do").text().starts_with("this word"));
}

/// Refusal, place and words, declarations of a text.
const REFUSED: &str = "\
23 | 2:7: the name \"A2345678901234567\" has 17 bytes | class A2345678901234567;
23 | 2:33: the upper limit 1 is below the lower limit 2 | class A; association A -> A [2..1];
23 | 2:30: the limit \"4001\" is too large, at most 4000 is allowed | class A; association A -> A [4001];
23 | 2:33: the limit \"65535\" is too large, at most 4000 is allowed | class A; association A -> A [0..65535];
23 | 2:30: the limit \"99999999999999999999\" is too large | class A; association A -> A [99999999999999999999];
23 | 2:35: the upper limit 255 is below the lower limit 256 | class A; association A -> A [256..255];
23 | 2:10: read \"}\", expected a name for a constant | enum E { }
24 | 2:35: \"Shelv\" is no class or interface of this text | class Shelf; association Shelf -> Shelv;
24 | 2:17: \"A\" is declared only at line 3 | class B extends A;~class A;
24 | 2:30: \"I\" is an interface, but a class is needed here | interface I; class A extends I;
4 | 2:33: the enumeration \"E\" has 9 constants, at most 8 are allowed | enum E {a, b, c, d, e, f, g, h, i;}
5 | 3:7: \"A\" stands here a second time as class or interface; the first is at line 2, column 7 | class A;~class A;
5 | 2:29: \"A\" stands here a second time as parent of \"B\" | class A; class B extends A, A;
8 | 2:24: a composition has its whole on the left | class A; composition A <- A;
";

#[test]
fn each_refusal_of_a_text() {
    let folder = Folder::of("text_refusals");
    for row in REFUSED.lines() {
        let cells: Vec<&str> = row.split(" | ").collect();
        let [refusal, words, declarations] = cells[..] else {
            panic!("three cells: {row}");
        };
        let lines = declarations.replace('~', "\n");
        folder.put("d.cd", format!("classdiagram d {{\n{lines}\n}}").as_bytes());
        for command in [
            "check d.cd",
            "show d.cd",
            "compile d.cd",
            "compare d.cd d.cd",
        ] {
            let ran = folder.line(command);
            assert_eq!((ran.status, ran.out.as_str()), (2, ""), "{row}");
            let first =
                format!("corfynnog: d.cd is not an acceptable diagram text (refusal {refusal}).\n");
            assert!(ran.err.starts_with(&first), "{row}: {}", ran.err);
            let place = format!("\nd.cd:{words}");
            assert!(ran.err.contains(&place), "{row}: {}", ran.err);
            assert!(ran.err.contains("\n  rule:  ") && ran.err.contains("\n  to do: "));
        }
    }
}

#[test]
fn the_text_at_fault_is_named() {
    let folder = folder("text_which");
    folder.put("bad.cd", b"classdiagram d {class A extends B;}");
    folder.put("worse.cd", b"classdiagram d {");
    for (line, file) in [
        ("compare bad.cd p.cd", "bad.cd:1:33: "),
        ("compare p.diagram bad.cd", "bad.cd:1:33: "),
        ("compare worse.cd bad.cd", "worse.cd:1:17: "),
        ("judge bad.cd card.record", "bad.cd:1:33: "),
        ("evaluate worse.cd card.record", "worse.cd:1:17: "),
    ] {
        let told = folder.complaint(line);
        assert!(told.contains(&format!("\n{file}")), "{line}: {told}");
    }
}

#[test]
fn what_show_prints_is_read_back() {
    let folder = folder("text_shown");
    folder.put("every.cd", constructs::TEXT.as_bytes());
    assert_eq!(folder.answer(0, "show every.cd"), constructs::TEXT);
    for file in ["p.diagram", "q.diagram", "z.diagram", "p.cd", "every.cd"] {
        let shown = folder.answer(0, &format!("show {file}"));
        folder.put("shown.cd", shown.as_bytes());
        assert_eq!(folder.answer(0, "show shown.cd"), shown, "{file}");
        for (command, part) in [("show", "diagram"), ("compile", "predicates")] {
            let told = |file: &str| {
                let object = read(&folder.answer(0, &format!("{command} {file} --json")));
                object.get(part).clone()
            };
            assert_eq!(told("shown.cd"), told(file), "{command} {file}");
        }
    }
}

#[test]
fn a_loose_text_is_shown_in_order() {
    let folder = Folder::of("text_loose");
    folder.put(
        "d.cd",
        b"classdiagram Loose{association B->A;class A{Date d;Col c;}class B extends A{}enum Col{r;}}",
    );
    assert_eq!(
        folder.answer(0, "show d.cd"),
        "classdiagram Loose {
  enum Col {r;}
  enum Date;
  class A {
    Date d;
    Col c;
  }
  class B extends A;
  association [*] B (b) -> (a) A [*];
}
"
    );
}

#[test]
fn the_text_in_the_help_is_accepted() {
    let folder = Folder::of("text_help");
    let help = folder.answer(0, "help check");
    let (_, behind) = help.split_once("Diagram text:\n").expect("a text");
    let (text, _) = behind.split_once("\n  }\n").expect("its end");
    folder.put("d.cd", format!("{text}\n}}").as_bytes());
    let answer = folder.answer(0, "check d.cd");
    assert!(answer.contains("2 value types, 4 types, 2 attributes, 2 associations"));
}

#[test]
fn standard_input() {
    let folder = folder("text_input");
    let text = shelf_and_card("[1]", "[0..2]");
    let ran = folder.line_with_input("compare p.cd - --bound 4", text.as_bytes());
    assert_eq!((ran.status, ran.err.as_str()), (1, ""));
    let first = "Difference: p.cd allows this site of 4 objects, and standard input forbids it.";
    assert!(ran.out.starts_with(first), "{}", ran.out);
    let ran = folder.line_with_input("check -", b"classdiagram d {\n;");
    assert_eq!(ran.status, 2);
    assert!(ran
        .err
        .contains("\nstandard input:2:1: read \";\", expected "));
    let ran = folder.line_with_input("judge p.diagram -", &sites::shelf_with(3));
    assert_eq!(ran.status, 0);
}
