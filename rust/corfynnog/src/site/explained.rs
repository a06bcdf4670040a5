//! What is told of site texts that are refused: line and column, the words, and what to do.

use super::read_site;
use crate::text::{place_of, TextRule};
use crate::words::site_rule_in_words;

/// The body of a site `s`, which starts at column 18, with `~` for a line end; line and column; the
/// words; what to do.
const CASES: &str = "\
a:A {} b | 1:26 | read \"}\", expected \":\" | an object is written NAME:TYPE {}, and a link link A -> (role) B;
a:A; :B {} | 1:23 | read \":\", expected a name for an object, \"link\" or \"}\" | every object has a name before the colon
a A {} | 1:20 | read \"A\", expected \":\" | an object is written NAME:TYPE {}, and a link link A -> (role) B;
; | 1:18 | read \";\", expected a name for an object, \"link\" or \"}\" | no semicolon stands behind a closing brace
a:A {}; | 1:24 | read \";\", expected a name for an object, \"link\" or \"}\" | no semicolon stands behind a closing brace
a:A~b:B {} | 2:1 | read \"b\", expected \"{\" or \";\" | behind an object's type stand its values in braces, or a semicolon
a:{} | 1:20 | read \"{\", expected a name of a type | correct the text; 'corfynnog show --help' shows how it is written
a:A2345678901234567; | 1:20 | the name \"A2345678901234567\" has 17 bytes, at most 16 are allowed | choose a shorter name
a:A { red; } | 1:27 | read \";\", expected a name of an attribute | a value is written TYPE ATTRIBUTE = CONSTANT;
a:A { paint = red; } | 1:30 | read \"=\", expected a name of an attribute | a value is written TYPE ATTRIBUTE = CONSTANT;
a:A { C paint red; } | 1:32 | read \"red\", expected \"=\" | a value is written TYPE ATTRIBUTE = CONSTANT;
a:A { C p = red } | 1:34 | read \"}\", expected \";\" | correct the text; 'corfynnog show --help' shows how it is written
a:A { C p = red, D q = x; } | 1:33 | read \",\", expected \";\" | a semicolon stands behind each value and each link, and there are no commas
a:A { C p = ; } | 1:30 | read \";\", expected a name of a constant or \"\"\" | the unnamed value of a type T is written some_type_T
a:A { C p = \"\"; } | 1:31 | read \"\"\", expected a name of a constant | the unnamed value of a type T is written some_type_T
a:A { C p = 'red'; } | 1:30 | read \"'\", expected a name of a constant or \"\"\" | take the quotation marks out, or write them as \"
a:A { C p = \"red hot\"; } | 1:35 | read \"hot\", expected \"\"\" | a constant is one word of letters, digits and underscores
a:A { C p = red45678901234567; } | 1:30 | the name \"red45678901234567\" has 17 bytes, at most 16 are allowed | choose a shorter name
a:A { Cc p = some_type_Colours; } | 1:31 | the name \"some_type_Colours\" has 17 bytes, at most 16 are allowed | the unnamed value of Cc is written some_type_Cc
a:A { C p = \"some_type_Colours\"; } | 1:31 | the name \"some_type_Colours\" has 17 bytes, at most 16 are allowed | choose a shorter name
a:A { C234567890123456x p = red; } | 1:24 | the name \"C234567890123456x\" has 17 bytes, at most 16 are allowed | choose a shorter name
a:A {~link a -> (r) a; | 2:8 | read \"->\", expected \"=\" | a value or a closing brace is missing before this
a:A {~b:B {} | 2:2 | read \":\", expected a name of an attribute | a value or a closing brace is missing before this
a:A; link -> (r) a; | 1:28 | read \"->\", expected a name of an object or \":\" | an object is written NAME:TYPE {}, and a link link A -> (role) B;
a:A; link a a; | 1:30 | read \"a\", expected \"->\" | a link is written link A -> (role) B;
a:A; link a (r) -> a; | 1:30 | read \"(\", expected \"->\" | a link is written link A -> (role) B;
a:A; link a -- (r) a; | 1:30 | read \"-\", expected \"->\" | a link is written link A -> (role) B;
a:A; link a <-> (r) a; | 1:30 | read \"<\", expected \"->\" | a link is written link A -> (role) B;
a:A; link a -> a; | 1:33 | read \"a\", expected \"(\" | a link is written link A -> (role) B;
a:A; link a -> () a; | 1:34 | read \")\", expected a name of a role | a link is written link A -> (role) B;
a:A; link a -> (r2345678901234567) a; | 1:34 | the name \"r2345678901234567\" has 17 bytes, at most 16 are allowed | choose a shorter name
a:A; Link a -> (r) a; | 1:28 | read \"a\", expected \":\" | an object is written NAME:TYPE {}, and a link link A -> (role) B;
a:A; // no | 1:23 | read \"/\", expected a name for an object, \"link\" or \"}\" | a text has no comments: take it out
a:A; é:A; | 1:23 | read \"é\", expected a name for an object, \"link\" or \"}\" | names are made of A-Z, a-z, 0-9 and _ alone
a:A; } b:B; | 1:25 | read \"b\", expected the end of the text | a file holds one site: take out what stands behind its closing brace
Card0:Card; link Card0 -> (r) Crad0; | 1:48 | \"Crad0\" is no object of this text | perhaps Card0 is meant; else declare Crad0
Card0:Card; link Card -> (r) Card0; | 1:35 | \"Card\" is no object of this text | perhaps Card0 is meant; else declare Card
link a -> (r) b;~a:A; | 1:32 | \"b\" is no object of this text | declare b, or correct the name
a:A; b:B;~a:C; | 2:1 | \"a\" stands here a second time as object; the first is at line 1, column 18 | rename one of the two, or take the second one out
a:A { C p = red;~C q = red; D p = x; } | 2:14 | \"p\" stands here a second time as attribute of \"a\"; the first is at line 1, column 26 | take one of the two values out
a:A; link a -> (r) a;~link a -> (s) a;~ link a -> (r) a; | 3:2 | this link stands here a second time; the first is at line 1, column 23 | take the second one out
";

/// `1:20`, the words, and what to do.
fn told(text: &str) -> [String; 3] {
    let fault = read_site(text.as_bytes()).expect_err(text);
    let place = place_of(text.as_bytes(), fault.at);
    let general = site_rule_in_words(fault.rule).to_do;
    [
        format!("{}:{}", place.line, place.column),
        fault.what,
        fault.to_do.unwrap_or(general.to_string()),
    ]
}

#[test]
fn places_words_and_advice() {
    for row in CASES.lines() {
        let cells: Vec<&str> = row.split(" | ").collect();
        let [body, expected @ ..] = &cells[..] else {
            panic!("four cells: {row}");
        };
        let text = format!("objectdiagram s {{{body}}}").replace('~', "\n");
        assert_eq!(told(&text), expected, "{row}");
    }
}

#[test]
fn the_head_and_the_end_of_a_text() {
    for (text, place, words) in [
        ("", "1:1", "the text ends, expected \"objectdiagram\""),
        (
            "site s {}",
            "1:1",
            "read \"site\", expected \"objectdiagram\"",
        ),
        (
            "objectdiagram {}",
            "1:15",
            "read \"{\", expected a name for the site",
        ),
        ("objectdiagram s", "1:16", "the text ends, expected \"{\""),
        (
            "objectdiagram s {\n",
            "2:1",
            "the text ends, expected a name for an object, \"link\" or \"}\"",
        ),
        (
            "objectdiagram s {a:A {",
            "1:23",
            "the text ends, expected a name of a value type or \"}\"",
        ),
    ] {
        let [found, told, _] = told(text);
        assert_eq!((found.as_str(), told.as_str()), (place, words));
    }
}

/// A text with so many objects, values of each of them, and links among them.
fn crowded(objects: usize, values: usize, links: usize) -> String {
    let value = |i: usize| format!("V a{i} = v;\n");
    let body: String = (0..values).map(value).collect();
    let object = |i: usize| format!("o{i}:T {{\n{body}}}\n");
    let link = |i: usize| format!("link o{} -> (r{}) o{};\n", i % 8, i / 64, i / 8 % 8);
    let objects: String = (0..objects).map(object).collect();
    let links: String = (0..links).map(link).collect();
    format!("objectdiagram s {{\n{objects}{links}}}")
}

#[test]
fn counts_name_the_first_that_is_too_many() {
    for (text, place, words) in [
        (
            crowded(9, 0, 0),
            "18:1",
            "the text has 9 objects, at most 8 are allowed; this is number 9",
        ),
        (
            crowded(8, 33, 0),
            "273:1",
            "the text has 264 values, at most 256 are allowed; this is number 257",
        ),
        (
            crowded(8, 0, 2050),
            "2066:1",
            "the text has 2050 links, at most 2048 are allowed; this is number 2049",
        ),
    ] {
        let [found, told, to_do] = told(&text);
        assert_eq!((found.as_str(), told.as_str()), (place, words));
        assert_eq!(to_do, "take some out");
    }
    let most = read_site(crowded(8, 32, 2048).as_bytes()).expect("at the limits");
    assert_eq!(most.record.counts().map(|(_, _, n)| n), [8, 256, 2048]);
}

#[test]
fn what_is_wrong_first_is_told() {
    for (body, rule) in [
        ("a:A; a:A; link a -> (r) b; ;", TextRule::Grammar),
        ("a:A; a:A; link a -> (r) b;", TextRule::Declared),
        ("a:A; a:A;b:B;c:C;d:D;e:E;f:F;g:G;h:H;", TextRule::Count),
        ("a:A; a:A;", TextRule::Different),
    ] {
        let text = format!("objectdiagram s {{{body}}}");
        let fault = read_site(text.as_bytes()).expect_err(body);
        assert_eq!(fault.rule, rule, "{body}");
    }
}

#[test]
fn long_words_are_told_shortened() {
    let long = "a".repeat(70_000);
    let text = format!("objectdiagram {long} {{{long}:A; link {long} -> (r) {long}b;}}");
    let [_, words, to_do] = told(&text);
    assert!(words.len() < 200 && to_do.len() < 200, "{words} {to_do}");
    let text = text.replace(&format!("{long}b"), &long);
    let read = read_site(text.as_bytes()).expect("words of any length");
    assert_eq!(read.name, long);
    assert_eq!(read.record.object_name(0), long);
}

#[test]
fn every_word_may_be_a_name() {
    let text = "objectdiagram objectdiagram {link:link {link link = link;\
                enum class = objectdiagram;} link link -> (link) link;}";
    let read = read_site(text.as_bytes()).expect("a site");
    assert_eq!(read.record.types, ["link"]);
    assert_eq!((read.record.values.len(), read.record.links.len()), (2, 1));
    // In the order of a record file.
    assert_eq!(read.record.values[0].attribute, "class");
}

#[test]
fn the_unnamed_value_and_a_constant_spelled_like_it() {
    let constants = |text: &str| {
        let text = format!("objectdiagram s {{a:A {{{text}}}}}");
        let read = read_site(text.as_bytes()).expect("a site");
        let values = read.record.values.iter();
        values.map(|v| v.constant.clone()).collect::<Vec<_>>()
    };
    let text = "V a = some_type_V; V b = \"some_type_V\"; V c = some_type_W; V d = \" v \";\
                A234567890123456 e = some_type_A234567890123456;";
    let expected = ["", "some_type_V", "some_type_W", "v", ""];
    assert_eq!(constants(text), expected);
}
