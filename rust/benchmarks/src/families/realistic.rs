//! Exchanges of a village, a town and a district, with 6, 12 and 24 types, and what may change
//! from one release to the next.

use super::{changed, pair, Change};
use crate::inputs::Pair;

const VILLAGE: &str = include_str!("../../diagrams/village.text");
const TOWN: &str = include_str!("../../diagrams/town.text");
const DISTRICT: &str = include_str!("../../diagrams/district.text");

/// A release: what it is about, the changes that lead to the old diagram, and to the new one.
type Release = (&'static str, &'static [Change], &'static [Change]);

/// The same in the old diagram as in the text.
const SAME: &[Change] = &[];

/// A state that is no longer there.
const NOT_BLOCKED: &[Change] = &[("working, blocked", "working, testing")];

/// A state more.
const TESTING: &[Change] = &[("working, blocked", "working, blocked, testing")];

const VILLAGE_RELEASES: [Release; 8] = [
    (
        "a card needs a line",
        SAME,
        &[("Line [0..32]", "Line [1..32]")],
    ),
    (
        "three cards to a shelf",
        SAME,
        &[("Card [0..8]", "Card [0..3]")],
    ),
    (
        "more cards to a shelf",
        SAME,
        &[("Card [0..8]", "Card [0..16]")],
    ),
    ("no card is blocked", SAME, NOT_BLOCKED),
    (
        "a line needs a subscriber",
        SAME,
        &[("Subscriber [0..1]", "Subscriber [1]")],
    ),
    (
        "subscribers not looked up",
        SAME,
        &[("(line) <->", "(line) ->")],
    ),
    (
        "subscribers looked up",
        &[("(line) <->", "(line) ->")],
        SAME,
    ),
    (
        "subscribers without arrowheads",
        SAME,
        &[("(line) <->", "(line) --")],
    ),
];

const TOWN_RELEASES: [Release; 8] = [
    (
        "four cards to a shelf",
        SAME,
        &[("Card [0..8]", "Card [0..4]")],
    ),
    (
        "five cards to a shelf",
        SAME,
        &[("Card [0..8]", "Card [0..5]")],
    ),
    ("more racks", SAME, &[("Rack [1..2]", "Rack [1..4]")]),
    ("no card is blocked", SAME, NOT_BLOCKED),
    ("a card may be testing", SAME, TESTING),
    (
        "a subscriber needs a line",
        SAME,
        &[("[0..1] Line", "[1] Line")],
    ),
    (
        "a trunk needs a far end",
        SAME,
        &[("(far) Trunk [0..1]", "(far) Trunk [1]")],
    ),
    (
        "lines are parts of a card",
        &[("composition [1] LineCard", "association [1] LineCard")],
        SAME,
    ),
];

const DISTRICT_RELEASES: [Release; 8] = [
    (
        "six cards to a shelf",
        SAME,
        &[("Card [0..8]", "Card [0..6]")],
    ),
    (
        "one battery",
        SAME,
        &[("(batteries) Battery [0..2]", "(batteries) Battery [0..1]")],
    ),
    (
        "two trunks to a card",
        SAME,
        &[("Trunk [1..4]", "Trunk [1..2]")],
    ),
    (
        "three trunks to a card",
        SAME,
        &[("Trunk [1..4]", "Trunk [1..3]")],
    ),
    (
        "two partners",
        SAME,
        &[("PartyLine [1..3]", "PartyLine [1..2]")],
    ),
    ("a card may be testing", SAME, TESTING),
    (
        "no more ringing cards",
        SAME,
        &[("class RingCard", "abstract class RingCard")],
    ),
    (
        "batteries are no parts",
        SAME,
        &[("composition [0..1] Exchange", "association [0..1] Exchange")],
    ),
];

/// All releases.
pub fn pairs() -> Vec<Pair> {
    let bases: [(&str, &str, &[Release]); 3] = [
        ("village", VILLAGE, &VILLAGE_RELEASES),
        ("town", TOWN, &TOWN_RELEASES),
        ("district", DISTRICT, &DISTRICT_RELEASES),
    ];
    let mut pairs = Vec::new();
    for (place, text, releases) in bases {
        for (about, before, after) in releases {
            let name = format!("{place}: {about}");
            pairs.push(pair(&name, &changed(text, before), &changed(text, after)));
        }
    }
    pairs
}
