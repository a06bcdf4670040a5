//! A line drawn without an arrowhead, `--`, means the same as one with both, `<->`.

mod common;

use common::json::read;
use common::{sites, Folder};

/// At most one port a line and one line a port.
const PORTS: &str = "class Line; class Port; association [0..1] Line -- Port [0..1];";

/// The same role at both ends.
const NEIGHBOURS: &str = "class N; association N (r) -- (r) N;";

/// Parts that know their wholes.
const WHOLES: &str = "class W; class X; composition W (w) -- (x) X;";

/// Declarations, a site's body, and the lowest rule that it breaks, 0 for none.
const SITES: [(&str, &str, u64); 12] = [
    (PORTS, "a:Line; p:Port;", 0),
    (PORTS, "a:Line; p:Port; link a -> (port) p;", 8),
    (PORTS, "a:Line; p:Port; link p -> (line) a;", 8),
    (
        PORTS,
        "a:Line; p:Port; link a -> (port) p; link p -> (line) a;",
        0,
    ),
    // Rule 7 would come first, but it is about one-way associations.
    (
        PORTS,
        "a:Line; b:Line; p:Port; link a -> (port) p; link b -> (port) p;",
        8,
    ),
    (
        PORTS,
        "a:Line; b:Line; p:Port; link p -> (line) a; link p -> (line) b;",
        6,
    ),
    (NEIGHBOURS, "a:N; b:N; link a -> (r) b;", 8),
    (NEIGHBOURS, "a:N; b:N; link a -> (r) b; link b -> (r) a;", 0),
    (NEIGHBOURS, "a:N; link a -> (r) a;", 0),
    // A link back makes no whole.
    (
        WHOLES,
        "v:W; w:W; x:X; link v -> (x) x; link x -> (w) v; link x -> (w) w;",
        8,
    ),
    (
        WHOLES,
        "v:W; w:W; x:X; link v -> (x) x; link w -> (x) x;",
        8,
    ),
    (
        WHOLES,
        "v:W; w:W; x:X; link v -> (x) x; link w -> (x) x; link x -> (w) v; link x -> (w) w;",
        9,
    ),
];

/// Puts a text of these declarations, once as they are and once with both arrowheads.
fn put_both(folder: &Folder, declarations: &str) {
    let text = format!("classdiagram d {{ {declarations} }}");
    assert!(text.contains("--"));
    folder.put("plain.cd", text.as_bytes());
    folder.put("both.cd", text.replace("--", "<->").as_bytes());
}

/// An answer about either diagram in the same words.
fn same_words(answer: &str) -> String {
    answer.replace("both.cd", "plain.cd").replace("<->", "--")
}

#[test]
fn sites_are_judged_and_evaluated_alike() {
    let folder = Folder::of("no_arrowhead_judged");
    for (declarations, site, rule) in SITES {
        put_both(&folder, declarations);
        folder.put("s.od", format!("objectdiagram s {{ {site} }}").as_bytes());
        let status = i32::from(rule != 0);
        let object = read(&folder.answer(status, "judge plain.cd s.od --json"));
        let told = match rule {
            0 => 0,
            _ => object.get("reason").get("rule").number(),
        };
        assert_eq!(told, rule, "{site}");
        for command in ["judge", "judge --all", "evaluate"] {
            let plain = folder.answer(status, &format!("{command} plain.cd s.od"));
            let both = folder.answer(status, &format!("{command} both.cd s.od"));
            assert_eq!(same_words(&plain), same_words(&both), "{command} {site}");
        }
    }
}

#[test]
fn an_association_has_a_mirror_among_its_predicates() {
    let folder = Folder::of("no_arrowhead_compiled");
    put_both(&folder, PORTS);
    assert_eq!(
        folder.answer(0, "compile plain.cd"),
        "plain.cd has 3 predicates.\n\n\
         0: association [0..1] Line (line) -- (port) Port [0..1]\n\
        \x20  0  ObjLUAttrib  1 0 0 0 1  links of role port from each Line: at most 1, each to a Port\n\
        \x20  1  ObjLUAttrib  1 0 1 0 1  links of role line from each Port: at most 1, each to a Line\n\
        \x20  2  BidiAssoc    5 0 0 0 0  a Line has a link of role port to a Port exactly when that has one of role line to it\n"
    );
    put_both(&folder, WHOLES);
    let answer = folder.answer(0, "compile plain.cd");
    let kinds = answer.lines().filter_map(|line| {
        let mut words = line.split_whitespace();
        words.next()?.parse::<u8>().ok()?;
        words.next()
    });
    assert_eq!(
        kinds.collect::<Vec<_>>(),
        ["ObjLAttrib", "ObjLAttrib", "BidiAssoc", "Composition"]
    );
    for declarations in [PORTS, NEIGHBOURS, WHOLES] {
        put_both(&folder, declarations);
        let (plain, both) = ("compile plain.cd", "compile both.cd");
        assert_eq!(
            same_words(&folder.answer(0, plain)),
            same_words(&folder.answer(0, both))
        );
    }
}

/// Compares both ways up to 8 objects; there is no difference.
fn expect_none(folder: &Folder, one: &str, other: &str) {
    for (old, new) in [(one, other), (other, one)] {
        let answer = folder.answer(0, &format!("compare {old} {new} --bound 8"));
        let first = format!(
            "No difference: every site of at most 8 objects that {old} allows is allowed by {new} too.\n"
        );
        assert!(answer.starts_with(&first), "{answer}");
    }
}

#[test]
fn exchanging_the_one_for_the_other_makes_no_difference() {
    let folder = Folder::of("no_arrowhead_exchanged");
    for declarations in [PORTS, NEIGHBOURS, WHOLES] {
        put_both(&folder, declarations);
        expect_none(&folder, "plain.cd", "both.cd");
    }
    let crossed = |one: &str, other: &str| {
        format!(
            "classdiagram d {{ class A; class B; association [0..1] A (a) {one} (b) B [0..1]; \
             association [0..1] A (c) {other} (d) B [0..1]; }}"
        )
    };
    folder.put("one.cd", crossed("<->", "--").as_bytes());
    folder.put("other.cd", crossed("--", "<->").as_bytes());
    expect_none(&folder, "one.cd", "other.cd");
    folder.put("both.diagram", &sites::line_and_port(3));
    folder.put("plain.diagram", &sites::line_and_port(4));
    expect_none(&folder, "plain.diagram", "both.diagram");
}

#[test]
fn an_arrow_one_way_is_another_thing() {
    let folder = Folder::of("no_arrowhead_one_way");
    for arrow in 1..=4 {
        folder.put(format!("{arrow}.diagram"), &sites::line_and_port(arrow));
    }
    for (old, new, rule) in [(1, 4, 8), (2, 4, 8), (4, 1, 5), (4, 2, 5)] {
        let line = format!("compare {old}.diagram {new}.diagram --bound 2 --json");
        let object = read(&folder.answer(1, &line));
        assert_eq!(object.get("objects").number(), 2, "{line}");
        assert_eq!(object.get("reason").get("rule").number(), rule, "{line}");
    }
}
