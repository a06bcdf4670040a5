//! Pairs that make a search long: sites that are out of reach or only just within it, and limits
//! that no number of objects can meet, for a reason that single objects do not show.

use super::pair;
use crate::inputs::Pair;
use generators::notation;

/// All of them.
pub fn pairs() -> Vec<Pair> {
    let mut pairs = Vec::new();
    pairs.extend(limits());
    pairs.extend(chains());
    pairs.extend(rings());
    pairs.extend(stars());
    pairs.extend(wholes());
    pairs
}

/// A pair by its texts.
fn texts(name: &str, old: &str, new: &str) -> Pair {
    pair(name, &notation::diagram(old), &notation::diagram(new))
}

/// So many parts of a text, each by its number.
fn each(count: usize, part: impl Fn(usize) -> String) -> String {
    (0..count).map(part).collect()
}

/// Limits at both ends that add up to more links than there can be, or to exactly as many.
fn limits() -> Vec<Pair> {
    let own = |limits: &str| format!("class A; association {limits};");
    // Classes that differ from each other by an association of their own.
    let many = |limits: &str| {
        let classes = each(15, |at| format!("class T{at} extends A;"));
        let others = each(14, |at| {
            let next = at + 1;
            format!("association [*] T{at} (l{at}) -> (r{at}) T{next} [0..{next}];")
        });
        format!("abstract class A; {classes} association {limits}; {others}")
    };
    let mirrors = |first: &str| {
        let others = each(14, |at| {
            format!("association [2] A (l{at}) <-> (r{at}) A [2];")
        });
        format!("class A; association {first} A (u) <-> (v) A [2]; {others}")
    };
    let slots = |cards: &str| {
        format!(
            "<<singleton>> class Shelf; class Card; abstract class Slot;
             <<singleton>> class First extends Slot; <<singleton>> class Second extends Slot;
             <<singleton>> class Third extends Slot;
             composition [1] Shelf (shelf) -> (cards) Card {cards};
             association [0..1] Card (card) -> (slot) Slot [1];"
        )
    };
    let shelf_of_four = slots("[4]");
    vec![
        texts(
            "more targets than sources",
            &own("[3] A (x) -> (y) A [4]"),
            &own("[2..3] A (x) -> (y) A [4]"),
        ),
        texts(
            "exactly as many targets as sources",
            &own("[2..4] A (x) -> (y) A [4..5]"),
            &own("[3..4] A (x) -> (y) A [4..5]"),
        ),
        texts(
            "more targets than sources, 15 classes",
            &many("[3] A (x) -> (y) A [4]"),
            &many("[2..3] A (x) -> (y) A [2]"),
        ),
        texts(
            "exactly as many, 15 classes",
            &many("[2..4] A (x) -> (y) A [4..5]"),
            &many("[3..4] A (x) -> (y) A [4..5]"),
        ),
        texts(
            "fourteen even mirrors and an uneven one",
            &mirrors("[1]"),
            &mirrors("[3]"),
        ),
        texts(
            "four cards for three slots",
            &shelf_of_four,
            &shelf_of_four.replace("(cards) Card [4]", "(cards) Card [5]"),
        ),
        texts("three cards for three slots", &slots("[3]"), &slots("[2]")),
    ]
}

/// Objects that each need another one.
fn chains() -> Vec<Pair> {
    let chain = |classes: usize, without: usize| {
        let types = each(classes, |at| {
            let kind = if at == without {
                "abstract class"
            } else {
                "class"
            };
            format!("{kind} K{at};")
        });
        let links = each(classes - 1, |at| {
            let next = at + 1;
            format!("association [*] K{at} (l{at}) -> (r{at}) K{next} [1];")
        });
        types + &links
    };
    let levels = |first: &str| {
        let types = each(8, |at| {
            format!("class K{at}; class A{at} extends K{at}; class B{at} extends K{at};")
        });
        let links = each(7, |at| {
            let (next, limits) = (at + 1, ["[1]", "[2]"][at / 6]);
            let limits = if at == 0 { first } else { limits };
            format!("association [0..1] K{at} (l{at}) -> (r{at}) K{next} {limits};")
        });
        types + &links
    };
    vec![
        texts("a chain of nine objects", &chain(9, 9), &chain(9, 0)),
        texts("a chain of eight objects", &chain(9, 9), &chain(9, 1)),
        texts(
            "eight levels of three classes, nine objects",
            &levels("[1]"),
            &levels("[2]"),
        ),
    ]
}

/// Compositions that lead around.
fn rings() -> Vec<Pair> {
    let ring = |classes: usize, part: &str| {
        let types = each(classes, |at| format!("class C{at};"));
        let links = each(classes, |at| {
            let (next, limits) = ((at + 1) % classes, if at == 0 { part } else { "[1]" });
            format!("composition [1] C{at} (w{at}) -> (p{at}) C{next} {limits};")
        });
        types + &links
    };
    vec![
        texts(
            "a ring of sixteen compositions",
            &ring(16, "[1]"),
            &ring(16, "[2]"),
        ),
        texts(
            "a ring of eight compositions",
            &ring(8, "[1]"),
            &ring(8, "[2]"),
        ),
    ]
}

/// An upper limit that is passed only with many targets.
fn stars() -> Vec<Pair> {
    let star = |classes: usize, limits: &str| {
        let types = each(classes, |at| format!("class T{at} extends Port;"));
        format!(
            "class Hub; abstract class Port; {types}
             association [1] Hub (hub) <-> (ports) Port {limits};"
        )
    };
    let free = |limits: &str| {
        let others = each(15, |at| {
            format!("association [*] A (l{at}) -> (r{at}) A [*];")
        });
        format!("class A; association [*] A (x) -> (y) A {limits}; {others}")
    };
    let one_role = |limits: &str| {
        let types = each(4, |at| format!("class A{} extends A{at};", at + 1));
        let links = each(4, |at| {
            format!("association [1..2] A{at} (l{at}) -> (r) B [{at}..6];")
        });
        format!(
            "class B; class A0; {types} {links}
             association [1..2] A4 (l4) -> (r) B {limits};"
        )
    };
    vec![
        texts(
            "22 classes, seen with nine objects",
            &star(22, "[*]"),
            &star(22, "[0..7]"),
        ),
        texts(
            "22 classes, seen with eight objects",
            &star(22, "[*]"),
            &star(22, "[0..6]"),
        ),
        texts(
            "20 classes, seen with six objects",
            &star(20, "[*]"),
            &star(20, "[0..4]"),
        ),
        texts("sixteen free associations", &free("[*]"), &free("[0..7]")),
        texts(
            "one role in five associations",
            &one_role("[3..4]"),
            &one_role("[3]"),
        ),
    ]
}

/// A part that two compositions each give exactly one whole, which must then be the same object.
fn wholes() -> Vec<Pair> {
    let common = |both: &str, part: &str| {
        let left = each(10, |at| format!("class L{at} extends Left;"));
        let right = each(9, |at| format!("class R{at} extends Right;"));
        format!(
            "class Left; class Right; {left} {right} {both} {part} Part;
             composition [1] Left (left) -> (left_parts) Part [*];
             composition [1] Right (right) -> (right_parts) Part [*];"
        )
    };
    let both = "class Both extends Left, Right;";
    vec![
        texts(
            "a common whole out of reach",
            &common("", "class"),
            &common("", "abstract class"),
        ),
        texts(
            "a common whole within reach",
            &common(both, "class"),
            &common(both, "abstract class"),
        ),
    ]
}
