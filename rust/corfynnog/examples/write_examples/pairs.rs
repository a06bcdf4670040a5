//! The diagrams of the folder `examples`, release by release.

use super::builder::{DiagramFile, ABSTRACT, BOTH, CLASS, INTERFACE, MANY, SINGLETON};

/// A folder's name, its old diagram and its new one.
pub type Pair = (&'static str, Vec<u8>, Vec<u8>);

/// All pairs.
pub fn pairs() -> Vec<Pair> {
    vec![
        ("line_cards", line_cards(0), line_cards(1)),
        ("card_states", card_states(true), card_states(false)),
        ("new_families", few_families(), new_families()),
        (
            "line_groups",
            line_groups(1, 3, 100),
            line_groups(2, 1, 256),
        ),
    ]
}

/// An exchange of 4 cards with 32 lines each; a card has at least so many lines.
fn line_cards(least: u16) -> Vec<u8> {
    DiagramFile::new()
        .of_kind(SINGLETON, "Exchange", &[])
        .of_kind(CLASS, "Shelf", &[])
        .of_kind(CLASS, "Card", &[])
        .of_kind(CLASS, "Line", &[])
        .parts(("Exchange", "exchange"), ("Shelf", 1, 1, "shelf"))
        .parts(("Shelf", "home"), ("Card", 0, 4, "cards"))
        .parts(("Card", "card"), ("Line", least, 32, "lines"))
        .bytes()
}

/// Racks, shelves, three families of cards and their ports. The later release has wider limits and a
/// further card, but a card can no longer be blocked.
fn card_states(earlier: bool) -> Vec<u8> {
    let states: &[&str] = match earlier {
        true => &["spare", "working", "blocked"],
        false => &["spare", "working", "testing"],
    };
    let shelves = if earlier { 2 } else { 4 };
    let file = DiagramFile::new()
        .value_type("State", states)
        .value_type("Signalling", &["loop", "tones"])
        .value_type("Serial", &[])
        .of_kind(INTERFACE, "Powered", &[])
        .of_kind(INTERFACE, "Addressed", &[])
        .of_kind(ABSTRACT, "Unit", &["Powered"])
        .of_kind(SINGLETON, "Exchange", &[])
        .of_kind(CLASS, "Rack", &["Powered"])
        .of_kind(CLASS, "Shelf", &["Powered"])
        .of_kind(ABSTRACT, "Card", &["Unit"])
        .of_kind(CLASS, "LineCard", &["Addressed", "Card"])
        .of_kind(CLASS, "TrunkCard", &["Addressed", "Card"])
        .of_kind(CLASS, "PowerCard", &["Card"])
        .of_kind(ABSTRACT, "Port", &["Addressed"])
        .of_kind(CLASS, "Line", &["Port"])
        .of_kind(CLASS, "Trunk", &["Port"])
        .of_kind(CLASS, "Subscriber", &[]);
    let file = match earlier {
        true => file,
        false => file.of_kind(CLASS, "ClockCard", &["Card"]),
    };
    file.attribute("Unit", "State", "state")
        .attribute("Exchange", "Serial", "serial")
        .attribute("TrunkCard", "Signalling", "signalling")
        .parts(("Exchange", "exchange"), ("Rack", 0, 2, "racks"))
        .parts(("Rack", "rack"), ("Shelf", 0, shelves, "shelves"))
        .parts(("Shelf", "shelf"), ("Card", 0, 4, "cards"))
        .parts(("LineCard", "lineCard"), ("Line", 0, 8, "lines"))
        .parts(("TrunkCard", "trunkCard"), ("Trunk", 0, 4, "trunks"))
        .association(
            ("Line", 1, 1, "line"),
            BOTH,
            ("Subscriber", 0, 1, "subscriber"),
        )
        .bytes()
}

/// Cards that declare the same attribute each for itself.
fn few_families() -> Vec<u8> {
    DiagramFile::new()
        .value_type("State", &["spare", "working"])
        .of_kind(SINGLETON, "Exchange", &[])
        .of_kind(INTERFACE, "Part", &[])
        .of_kind(INTERFACE, "Wired", &[])
        .of_kind(CLASS, "Shelf", &["Part"])
        .of_kind(ABSTRACT, "Card", &["Part"])
        .of_kind(CLASS, "LineCard", &["Wired", "Card"])
        .of_kind(CLASS, "TrunkCard", &["Wired", "Card"])
        .of_kind(ABSTRACT, "Port", &[])
        .of_kind(CLASS, "Line", &["Port"])
        .of_kind(CLASS, "Trunk", &["Port"])
        .attribute("LineCard", "State", "state")
        .attribute("TrunkCard", "State", "state")
        .parts(("Exchange", "exchange"), ("Shelf", 1, 2, "shelves"))
        .parts(("Shelf", "shelf"), ("Card", 0, 4, "cards"))
        .parts(("LineCard", "lineCard"), ("Line", 1, 8, "lines"))
        .parts(("TrunkCard", "trunkCard"), ("Trunk", 1, 4, "trunks"))
        .bytes()
}

/// The attribute is declared once, for all cards; types stand in another order; there are two more
/// kinds of card, wider limits, and a card may be without a port.
fn new_families() -> Vec<u8> {
    DiagramFile::new()
        .value_type("Signalling", &["loop", "tones"])
        .value_type("State", &["spare", "working", "testing"])
        .of_kind(INTERFACE, "Wired", &[])
        .of_kind(INTERFACE, "Part", &[])
        .of_kind(ABSTRACT, "Port", &["Wired"])
        .of_kind(CLASS, "Trunk", &["Port"])
        .of_kind(CLASS, "Line", &["Port"])
        .of_kind(CLASS, "Shelf", &["Part"])
        .of_kind(ABSTRACT, "Card", &["Wired", "Part"])
        .of_kind(ABSTRACT, "PortCard", &["Card"])
        .of_kind(CLASS, "TrunkCard", &["PortCard"])
        .of_kind(CLASS, "LineCard", &["PortCard"])
        .of_kind(CLASS, "ClockCard", &["Card"])
        .of_kind(CLASS, "ToneCard", &["Card"])
        .of_kind(SINGLETON, "Exchange", &[])
        .attribute("Card", "State", "state")
        .attribute("ToneCard", "Signalling", "signalling")
        .parts(("Exchange", "exchange"), ("Shelf", 1, 4, "shelves"))
        .parts(("Shelf", "shelf"), ("Card", 0, 8, "cards"))
        .parts(("LineCard", "lineCard"), ("Line", 0, MANY, "lines"))
        .parts(("TrunkCard", "trunkCard"), ("Trunk", 0, MANY, "trunks"))
        .bytes()
}

/// An exchange with one to so many groups of up to so many lines, as a file of that edition.
fn line_groups(edition: u8, groups: u16, lines: u16) -> Vec<u8> {
    DiagramFile::of_edition(edition)
        .of_kind(SINGLETON, "Exchange", &[])
        .of_kind(CLASS, "Group", &[])
        .of_kind(CLASS, "Line", &[])
        .parts(("Exchange", "exchange"), ("Group", 1, groups, "groups"))
        .parts(("Group", "group"), ("Line", 0, lines, "lines"))
        .bytes()
}
