//! Worked texts at the limits on counts, and long ones.

/// The reply to a text: the refusal's number, or the length of the edition 1 file of its diagram.
#[derive(Clone, Copy, Debug, PartialEq, Eq)]
pub enum Reply {
    Refused(u8),
    FileOf(usize),
}

use Reply::{FileOf, Refused};

/// What the case is about, the text, and its reply.
pub type Counted = (&'static str, Vec<u8>, Reply);

/// All of them.
pub fn counted() -> Vec<Counted> {
    [types(), associations(), value_types(), parents(), sizes()].concat()
}

/// A text with these declarations.
fn text(declarations: &str) -> Vec<u8> {
    format!("classdiagram d {{{declarations}}}").into_bytes()
}

/// The pieces for the first numbers, with this between them.
fn numbered(count: usize, between: &str, piece: impl Fn(usize) -> String) -> String {
    (0..count).map(piece).collect::<Vec<_>>().join(between)
}

/// `class C0; class C1; …`
fn classes(count: usize) -> String {
    numbered(count, " ", |at| format!("class C{at};"))
}

/// Up to 24 types; ends and parents are looked for among all of them, before they are counted.
fn types() -> Vec<Counted> {
    let (most, over) = (classes(24), classes(25));
    let unknown_end = format!("{over} association C0 -> X;");
    let last_end = format!("{over} association C24 -> C24;");
    let later_parent = format!("class B extends C24; {over}");
    let many = classes(300);
    let unfinished = format!("{many} class");
    let far_end = format!("{many} association C299 -> C0;");
    vec![
        ("24 types", text(&most), FileOf(210)),
        ("25 types", text(&over), Refused(4)),
        (
            "25 types, an end not declared",
            text(&unknown_end),
            Refused(24),
        ),
        (
            "25 types, an end that is the 25th",
            text(&last_end),
            Refused(4),
        ),
        (
            "25 types alike (not 5)",
            text(&"class A; ".repeat(25)),
            Refused(4),
        ),
        (
            "25 types, a parent declared later",
            text(&later_parent),
            Refused(24),
        ),
        (
            "300 types, a fault behind them",
            text(&unfinished),
            Refused(23),
        ),
        ("300 types, the 300th an end", text(&far_end), Refused(4)),
    ]
}

/// Up to 16 associations.
fn associations() -> Vec<Counted> {
    let times = |piece: &str, count| text(&format!("class A; {}", piece.repeat(count)));
    let (right, left) = ("association A -> A; ", "composition A <- A; ");
    vec![
        ("16 associations", times(right, 16), FileOf(251)),
        ("17 associations", times(right, 17), Refused(4)),
        (
            "17 compositions to the left (not 8)",
            times(left, 17),
            Refused(4),
        ),
    ]
}

/// Up to 32 attributes, 12 value types of either kind, 8 constants.
fn value_types() -> Vec<Counted> {
    let attributes = |count| text(&format!("class A {{ {}}}", "V a; ".repeat(count)));
    let plain_types = |count| {
        let attributes = numbered(count, " ", |at| format!("V{at} a;"));
        text(&format!("class A {{ {attributes} }}"))
    };
    let enumerations = numbered(12, " ", |at| format!("enum E{at};"));
    let used = |name| text(&format!("{enumerations} class A {{ {name} a; }}"));
    let constants = |count| {
        let names = numbered(count, ", ", |at| format!("k{at}"));
        text(&format!("enum E {{{names};}}"))
    };
    let alike = numbered(9, ", ", |_| "k".to_string());
    vec![
        ("32 attributes", attributes(32), FileOf(241)),
        ("33 attributes", attributes(33), Refused(4)),
        ("12 plain types", plain_types(12), FileOf(181)),
        ("13 plain types", plain_types(13), Refused(4)),
        ("12 enumerations, one plain type", used("V"), Refused(4)),
        ("12 enumerations, used and unused", used("E3"), FileOf(104)),
        (
            "13 enumerations alike (not 5)",
            text(&"enum E; ".repeat(13)),
            Refused(4),
        ),
        ("8 constants", constants(8), FileOf(34)),
        ("9 constants", constants(9), Refused(4)),
        (
            "9 constants alike (not 5)",
            text(&format!("enum E {{{alike};}}")),
            Refused(4),
        ),
    ]
}

/// Up to 4 parents, as they are written.
fn parents() -> Vec<Counted> {
    let below = |count, child: &str| text(&format!("{} {child}", classes(count)));
    let both = "interface I; class X extends C0, C1, C2, C3 implements I;";
    vec![
        (
            "4 parents",
            below(4, "class X extends C3, C2, C1, C0;"),
            FileOf(47),
        ),
        (
            "5 parents",
            below(5, "class X extends C4, C3, C2, C1, C0;"),
            Refused(4),
        ),
        ("5 parents, over both lists", below(4, both), Refused(4)),
        (
            "5 parents alike (not 5)",
            text("class A; class X extends A, A, A, A, A;"),
            Refused(4),
        ),
    ]
}

/// Many blanks, a long word, long integers, many types.
fn sizes() -> Vec<Counted> {
    let (zeros, letters) = ("0".repeat(70_000), "a".repeat(70_000));
    let long_name = format!("classdiagram {letters} {{}}").into_bytes();
    let limited = |integer: String| text(&format!("class A; association [{integer}] A -> A;"));
    vec![
        ("70,000 blanks", text(&" ".repeat(70_000)), FileOf(4)),
        ("a word of 70,000 bytes", long_name, Refused(23)),
        (
            "a cardinality of 70,000 zeros and a 1",
            limited(format!("{zeros}1")),
            FileOf(26),
        ),
        (
            "a cardinality of a 1 and 70,000 zeros",
            limited(format!("1{zeros}")),
            Refused(23),
        ),
        ("200,000 types", text(&classes(200_000)), Refused(4)),
    ]
}
