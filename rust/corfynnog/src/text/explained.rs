//! What is told of texts that are refused: the refusal, line and column, and the words.

use super::{place_of, read_text};

/// Text with its escapes `\n`; refusal, line and column; words.
const CASES: &str = "\
classdiagram d {\\n  class extends A;\\n} | 23 2:9 | read \"extends\", expected a name for the class
classdiagram enum {} | 23 1:14 | read \"enum\", expected a name for the diagram
classdiagram d class A; | 23 1:16 | read \"class\", expected \"{\"
class A; | 23 1:1 | read \"class\", expected \"classdiagram\"
\\n\\n | 23 3:1 | the text ends, expected \"classdiagram\"
classdiagram d {} x | 23 1:19 | read \"x\", expected the end of the text
classdiagram d {class A | 23 1:24 | the text ends, expected \"extends\", \"implements\", \";\" or \"{\"
classdiagram d {class A;\\n} ; | 23 2:3 | read \";\", expected the end of the text
classdiagram d {; | 23 1:17 | read \";\", expected \"class\", \"abstract\", \"<<\", \"interface\", \"enum\", \"association\", \"composition\" or \"}\"
classdiagram d {interface I {} | 23 1:29 | read \"{\", expected \"extends\" or \";\"
classdiagram d {class A {int x} | 23 1:31 | read \"}\", expected \";\"
classdiagram d {enum E {a} | 23 1:26 | read \"}\", expected \",\" or \";\"
classdiagram d {association A [1] -> A; | 23 1:31 | read \"[\", expected \"(\", \"->\", \"<-\", \"<->\" or \"--\"
classdiagram d {association A () -> A; | 23 1:32 | read \")\", expected a name for the role
classdiagram d {association A -> ; | 23 1:34 | read \";\", expected \"(\" or a name of a class or interface
classdiagram d {association [n] A -> A; | 23 1:30 | read \"n\", expected a number or \"*\"
classdiagram d {association [1,2] A -> A; | 23 1:31 | read \",\", expected \"]\" or \"..\"
classdiagram d {class A; # no | 23 1:26 | read \"#\", expected \"class\"
classdiagram d {class A2345678901234567; | 23 1:23 | the name \"A2345678901234567\" has 17 bytes, at most 16 are allowed
classdiagram d {association [4001] A -> A; | 23 1:30 | the limit \"4001\" is too large, at most 4000 is allowed
classdiagram d {association [4001..*] A -> A; | 23 1:30 | the limit \"4001\" is too large, at most 4000 is allowed
classdiagram d {association A -> A [0..65535]; | 23 1:40 | the limit \"65535\" is too large, at most 4000 is allowed
classdiagram d {association A -> A [18446744073709551617]; | 23 1:37 | the limit \"18446744073709551617\" is too large, at most 4000 is allowed
classdiagram d {association A -> A [2..1]; | 23 1:40 | the upper limit 1 is below the lower limit 2
classdiagram d {association A -> A [256..255]; | 23 1:42 | the upper limit 255 is below the lower limit 256
classdiagram d {class Shelf;\\n\\tassociation Shelf -> Shelv;} | 24 2:23 | \"Shelv\" is no class or interface of this text
classdiagram d {class A; enum E; association E -> A;} | 24 1:46 | \"E\" is an enumeration, but an end is a class or interface
classdiagram d {class B extends A;\\nclass A;} | 24 1:33 | \"A\" is declared only at line 2, but a parent stands before its child
classdiagram d {class A extends A;} | 24 1:33 | \"A\" is named as its own parent
classdiagram d {interface I; class A extends I;} | 24 1:46 | \"I\" is an interface, but a class is needed here
classdiagram d {class A; class B implements A;} | 24 1:45 | \"A\" is a class, but an interface is needed here
classdiagram d {class A; interface I extends A;} | 24 1:46 | \"A\" is a class, but an interface is needed here
classdiagram d {enum E; class A extends E;} | 24 1:41 | \"E\" is an enumeration, but a class is needed here
classdiagram d {class A; class B extends A, C;} | 24 1:45 | \"C\" is no class of this text
classdiagram d {class B implements C; association B -> D;} | 24 1:36 | \"C\" is no interface of this text
classdiagram d {association B -> D; class B extends C;} | 24 1:34 | \"D\" is no class or interface of this text
classdiagram d {enum E {a, b, c, d, e, f, g, h, i, j;}} | 4 1:49 | the enumeration \"E\" has 10 constants, at most 8 are allowed; this is number 9
classdiagram d {class A; class B extends A, A, A, A, A;} | 4 1:54 | \"B\" has 5 parents, at most 4 are allowed; this is number 5
classdiagram d {class A;\\n class A;} | 5 2:8 | \"A\" stands here a second time as class or interface; the first is at line 1, column 23
classdiagram d {enum E; enum E;} | 5 1:30 | \"E\" stands here a second time as enumeration; the first is at line 1, column 22
classdiagram d {enum E {a, a;}} | 5 1:28 | \"a\" stands here a second time as constant of \"E\"; the first is at line 1, column 25
classdiagram d {interface I; interface J extends I, I;} | 5 1:53 | \"I\" stands here a second time as parent of \"J\"; the first is at line 1, column 50
classdiagram d {class A;\\r\\ncomposition A <- A;} | 8 2:15 | a composition has its whole on the left, so that its arrow is not \"<-\"
";

/// `23 1:14` and the words; `none` where the text is accepted.
fn told(text: &[u8]) -> (String, String) {
    match read_text(text) {
        Ok(_) => ("none".to_string(), String::new()),
        Err(fault) => {
            let place = place_of(text, fault.at);
            let place = format!("{} {}:{}", fault.rule.refusal(), place.line, place.column);
            (place, fault.what)
        }
    }
}

#[test]
fn places_and_words() {
    for row in CASES.lines() {
        let cells: Vec<&str> = row.split(" | ").collect();
        let [text, place, words] = cells[..] else {
            panic!("three cells: {row}");
        };
        let unescaped = [("\\n", "\n"), ("\\r", "\r"), ("\\t", "\t")];
        let text = unescaped
            .iter()
            .fold(text.to_string(), |text, (from, to)| text.replace(from, to));
        let (found, told) = told(text.as_bytes());
        assert_eq!(found, place, "{row}");
        assert!(told.starts_with(words), "{row}: {told}");
    }
}

/// A text with these declarations, each on a line of its own.
fn told_of(declarations: impl IntoIterator<Item = String>) -> (String, String) {
    let lines: Vec<String> = declarations.into_iter().collect();
    told(format!("classdiagram d {{\n{}\n}}", lines.join("\n")).as_bytes())
}

#[test]
fn counts_name_the_first_that_is_too_many() {
    let classes = (0..27).map(|i| format!("class C{i};"));
    let (place, words) = told_of(classes);
    assert_eq!(place, "4 26:7");
    assert_eq!(
        words,
        "the text has 27 types, at most 24 are allowed; this is number 25"
    );
    let first = "class A;".to_string();
    let associations = (0..17).map(|_| "association A -> A;".to_string());
    let (place, words) = told_of(std::iter::once(first).chain(associations));
    assert_eq!(place, "4 19:13");
    assert!(words.starts_with("the text has 17 associations, at most 16"));
    let attributes = (0..33)
        .map(|i| format!("class C{} {{ V a; V b; }}", i % 7))
        .take(17);
    let (place, words) = told_of(attributes);
    assert_eq!(place, "4 18:14");
    assert!(words.starts_with("the text has 34 attributes, at most 32"));
    let enums = (0..12).map(|i| format!("enum E{i};"));
    let user = "class A { E1 a; V v; V w; }".to_string();
    let (place, words) = told_of(std::iter::once(user).chain(enums));
    assert_eq!(place, "4 2:17");
    assert!(
        words.starts_with("the text has 13 value types ("),
        "{words}"
    );
}

#[test]
fn advice_on_slips() {
    for (text, advice) in [
        ("classdiagram d {class A {};}", "no semicolon stands behind"),
        (
            "classdiagram d {enum E {a}}",
            "a semicolon stands behind the last",
        ),
        (
            "classdiagram d {interface I {}}",
            "an interface has no body",
        ),
        ("classdiagram d {// x\n}", "has no comments"),
        ("\u{FEFF}classdiagram d {}", "without a byte order mark"),
        ("classdiagram d {«singleton» class A;}", "<<singleton>>"),
        ("classdiagram d {class enum;}", "belongs to the grammar"),
        (
            "classdiagram d {class A; association A --> A;}",
            "the arrows are",
        ),
        (
            "classdiagram d {class Card; association Card -> Crad;}",
            "perhaps Card is meant",
        ),
        (
            "classdiagram d {interface I; class A extends I;}",
            "behind implements",
        ),
        ("Dear all", "check the file's name"),
        ("classdiagram d {class A;", "cut off"),
    ] {
        let fault = read_text(text.as_bytes()).expect_err(text);
        let to_do = fault.to_do.expect(text);
        assert!(to_do.contains(advice), "{text}: {to_do}");
    }
}

#[test]
fn any_bytes_are_explained() {
    let whole = b"classdiagram d {enum E {a;} class A {E e;} association [0..4] A (r) <-> A;}";
    for at in 0..whole.len() {
        for byte in 0..=255 {
            let mut text = whole.to_vec();
            text[at] = byte;
            let (place, words) = told(&text);
            assert!(place == "none" || !words.is_empty(), "{at} {byte}");
            assert!(!words.chars().any(char::is_control), "{words:?}");
        }
        let (place, _) = told(&whole[..at]);
        assert!(place.starts_with("23 "), "{at}");
    }
}
