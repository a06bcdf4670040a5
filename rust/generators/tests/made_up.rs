//! What the generators promise: the same input for the same seed, and sizes that can be counted by hand.

use generators::damage::{cuts, damaged};
use generators::diagrams::{diagram, SMALL, TINY};
use generators::edition_faults::with_edition_fault;
use generators::editions::{in_edition, NO_UPPER_LIMIT};
use generators::edits::{edited, redrawn};
use generators::families::{family, records, without_a_parent};
use generators::fillings::fillings;
use generators::heads::headed_pair;
use generators::instances::reached;
use generators::notation;
use generators::records::record;
use generators::rows::row;
use generators::{Association, CallPlan, DiagramPlan, End, Random, Type};
use std::collections::BTreeSet;

/// A class without parents.
fn class(name: &str) -> Type {
    Type {
        kind: 0,
        name: name.as_bytes().to_vec(),
        parents: Vec::new(),
    }
}

/// An end with its limits.
fn end(of: u8, low: u16, up: u16, role: &str) -> End {
    let role = role.as_bytes().to_vec();
    End { of, low, up, role }
}

/// Shelf and Card: each Card in one Shelf, at most two Cards in a Shelf.
fn shelf_and_card() -> DiagramPlan {
    DiagramPlan {
        types: vec![class("Shelf"), class("Card")],
        associations: vec![Association {
            form: 1,
            arrow: 1,
            left: end(0, 1, 1, "shelf"),
            right: end(1, 0, 2, "cards"),
        }],
        ..DiagramPlan::default()
    }
}

#[test]
fn a_seed_gives_the_same_input_again() {
    for seed in 0..50 {
        let make = || {
            let mut random = Random::new(seed);
            let plan = diagram(&mut random, SMALL);
            let other = edited(&mut random, &plan);
            let file = damaged(&mut random, &other.fields());
            let faulty = with_edition_fault(&mut random, &plan);
            (plan, other, file, faulty)
        };
        assert_eq!(make(), make());
    }
}

#[test]
fn most_edits_change_more_than_the_edition() {
    let changed = (0..200).filter(|seed| {
        let mut random = Random::new(*seed);
        let plan = diagram(&mut random, SMALL);
        let other = edited(&mut random, &plan);
        in_edition(other.edition, &plan) != Some(other)
    });
    assert!(changed.count() >= 190);
}

/// The arrows of one diagram beside those of the other, where they differ.
fn changed_arrows(one: &DiagramPlan, other: &DiagramPlan) -> Vec<(u8, u8)> {
    let pairs = one.associations.iter().zip(&other.associations);
    let arrows = pairs.map(|(a, b)| (a.arrow, b.arrow));
    arrows.filter(|(a, b)| a != b).collect()
}

#[test]
fn edits_change_every_arrow_to_every_other() {
    let all = (1..=4).flat_map(|a| (1..=4).map(move |b| (a, b)));
    let all: BTreeSet<(u8, u8)> = all.filter(|(a, b)| a != b).collect();
    for edit in [edited, redrawn] {
        let mut seen = BTreeSet::new();
        for seed in 0..8000 {
            let mut random = Random::new(seed);
            let plan = diagram(&mut random, SMALL);
            let mut other = edit(&mut random, &plan);
            let changed = changed_arrows(&plan, &other);
            // Nothing but arrows and editions differs.
            other.edition = plan.edition;
            for (a, b) in other.associations.iter_mut().zip(&plan.associations) {
                a.arrow = b.arrow;
            }
            if other == plan {
                seen.extend(changed);
            }
        }
        assert_eq!(seen, all);
    }
}

#[test]
fn heads_are_exchanged_and_nothing_else() {
    let (mut to_and_fro, mut kept) = (0, 0);
    for seed in 0..500 {
        let (one, mut other) = headed_pair(&mut Random::new(seed), SMALL);
        let changed = changed_arrows(&one, &other);
        assert!(changed.iter().all(|pair| [(3, 4), (4, 3)].contains(pair)));
        assert!(!changed.is_empty());
        to_and_fro += usize::from(changed.contains(&(3, 4)) && changed.contains(&(4, 3)));
        let mirrored = one.associations.iter().filter(|a| a.is_mirrored());
        kept += mirrored.count() - changed.len();
        for (a, b) in other.associations.iter_mut().zip(&one.associations) {
            a.arrow = b.arrow;
        }
        assert_eq!(one, other);
    }
    assert!(to_and_fro >= 20 && kept >= 20, "{to_and_fro}, {kept}");
}

#[test]
fn records_are_made_up_alike_whatever_the_heads() {
    for seed in 0..200 {
        let (one, other) = headed_pair(&mut Random::new(seed), SMALL);
        let records = [one, other].map(|plan| record(&mut Random::new(seed), &plan, 8));
        assert_eq!(records[0], records[1], "seed {seed}");
    }
}

#[test]
fn a_file_has_the_bytes_of_the_worked_example() {
    let bytes = generators::hex::bytes(
        "10 00 01 01 30 00 08 00 05 53 68 65 6C 66 00 30 00 07 00 04 43 61 72 64 00
         50 00 14 01 01 00 01 01 05 73 68 65 6C 66 01 00 02 05 63 61 72 64 73",
    );
    assert_eq!(shelf_and_card().file(), bytes);
    assert_eq!(cuts(&bytes).len(), 48);
}

#[test]
fn a_file_of_edition_2_has_two_bytes_for_each_limit() {
    let mut plan = shelf_and_card();
    plan.associations[0].right.up = 256;
    assert_eq!(in_edition(1, &plan), None);
    plan.associations[0].left.up = NO_UPPER_LIMIT;
    let file = in_edition(2, &plan).map(|plan| plan.file());
    let bytes = generators::hex::bytes(
        "10 00 01 02 30 00 08 00 05 53 68 65 6C 66 00 30 00 07 00 04 43 61 72 64 00
         50 00 18 01 01 00 00 01 FF FF 05 73 68 65 6C 66 01 00 00 01 00 05 63 61 72 64 73",
    );
    assert_eq!(file, Some(bytes));
}

#[test]
fn pairs_mix_the_editions() {
    let mut pairs = [[0; 2]; 2];
    let mut wide = 0;
    for seed in 0..1000 {
        let mut random = Random::new(seed);
        let plan = diagram(&mut random, SMALL);
        let other = edited(&mut random, &plan);
        pairs[usize::from(plan.edition) - 1][usize::from(other.edition) - 1] += 1;
        wide += usize::from(in_edition(1, &plan).is_none());
    }
    let often = pairs.iter().flatten().all(|times| *times >= 100);
    assert!(often && wide >= 50, "{pairs:?}, {wide}");
}

#[test]
fn edition_faults_change_most_files() {
    let changed = (0..200).filter(|seed| {
        let mut random = Random::new(*seed);
        let plan = diagram(&mut random, SMALL);
        with_edition_fault(&mut random, &plan) != plan.file()
    });
    assert!(changed.count() >= 160);
}

#[test]
fn rows_convert_files_of_both_editions_into_every_room() {
    let (mut rooms, mut editions, mut others) = (BTreeSet::new(), [0; 2], 0);
    for seed in 0..200 {
        for call in row(&mut Random::new(seed), 20, TINY, &mut |_, _, _| false) {
            let CallPlan::Convert { file, room } = call else {
                continue;
            };
            rooms.insert(room);
            match file.get(..4) {
                Some([0x10, 0, 1, edition @ 1..=2]) => editions[usize::from(*edition) - 1] += 1,
                _ => others += 1,
            }
        }
    }
    assert_eq!(rooms, [0, 4_095, 4_096, 4_097, 5_000].into());
    let often = editions.iter().all(|times| *times >= 100);
    assert!(often && others >= 30, "{editions:?}, {others}");
}

#[test]
fn fillings_of_shelves_and_cards() {
    let count = |objects| fillings(&shelf_and_card(), objects, u64::MAX);
    // No object; a Shelf or a Card; Shelf and Shelf, twice a Shelf with a Card or without, Card and Card.
    assert_eq!((count(0), count(1), count(2)), (1, 3, 9));
    assert_eq!((count(4), count(8)), (193, 2_497_305));
    assert_eq!(fillings(&shelf_and_card(), 8, 100), 100);
}

#[test]
fn a_diagram_is_read_from_its_text() {
    let text = "class Shelf; class Card;
        composition [1] Shelf (shelf) -> (cards) Card [0..2];";
    assert_eq!(notation::diagram(text), shelf_and_card());
}

#[test]
fn every_part_of_a_diagram_has_its_text() {
    let text = "enum State {spare, working;}
        enum Serial;
        interface Powered;
        abstract class Unit implements Powered;
        <<singleton>> class Main extends Unit implements Powered { State state; Serial serial; }
        association [1..*] Main (main) <-> (units) Unit [*];";
    let plan = notation::diagram(text);
    let bytes = generators::hex::bytes(
        "10 00 01 01
         20 00 15 05 53 74 61 74 65 02 05 73 70 61 72 65 07 77 6F 72 6B 69 6E 67
         20 00 08 06 53 65 72 69 61 6C 00
         30 00 0A 02 07 50 6F 77 65 72 65 64 00
         30 00 08 01 04 55 6E 69 74 01 00
         30 00 09 03 04 4D 61 69 6E 02 00 01
         40 00 08 02 05 73 74 61 74 65 00
         40 00 09 02 06 73 65 72 69 61 6C 01
         50 00 13 00 03 02 01 FF 04 6D 61 69 6E 01 00 FF 05 75 6E 69 74 73",
    );
    assert_eq!(plan.file(), bytes);
}

/// How many types stand one above the other at most, up from this type.
fn depth(plan: &DiagramPlan, of: usize) -> usize {
    let parents = plan.types[of].parents.iter();
    let above = parents.map(|parent| depth(plan, usize::from(*parent)));
    1 + above.max().unwrap_or(0)
}

#[test]
fn families_are_deep_and_wide() {
    let (mut chains, mut widest, mut interfaces, mut changed) = (0, 0, 0, 0);
    for seed in 0..500 {
        let plan = family(&mut Random::new(seed));
        let most = plan.types.iter().map(|of| of.parents.len()).max();
        if most <= Some(1) {
            chains += usize::from(depth(&plan, plan.types.len() - 1) == 24);
        }
        let mut types = plan.types.iter().enumerate();
        let all_before = types.all(|(at, of)| of.parents.len() == at.min(4));
        widest += usize::from(all_before && plan.types.len() == 24);
        let kind_of = |of: &u8| plan.types[usize::from(*of)].kind;
        interfaces += plan
            .types
            .iter()
            .filter(|of| of.kind != 2 && of.parents.iter().any(|p| kind_of(p) == 2))
            .count();
        changed += usize::from(without_a_parent(&mut Random::new(seed), &plan) != plan);
    }
    assert!(
        chains >= 10 && widest >= 10 && interfaces >= 100 && changed >= 400,
        "{chains}, {widest}, {interfaces}, {changed}"
    );
}

#[test]
fn a_type_reaches_itself_and_what_is_above_it() {
    let text = "interface I; interface J extends I; class A; class B extends A implements J;";
    let plan = notation::diagram(text);
    let sets: Vec<Vec<bool>> = (0..4).map(|of| reached(&plan, of)).collect();
    assert_eq!(
        sets,
        [
            [true, false, false, false],
            [true, true, false, false],
            [false, false, true, false],
            [true, true, true, true],
        ]
    );
}

#[test]
fn records_of_a_family_miss_a_value_or_have_one_more() {
    let mut plan = family(&mut Random::new(0));
    plan.types.iter_mut().for_each(|of| of.kind = 0);
    let count = plan.types.len();
    let records = records(&mut Random::new(0), &plan);
    let pairs = &records[count.div_ceil(8)..];
    assert_eq!(pairs.len(), count * 2);
    for (of, pair) in pairs.chunks(2).enumerate() {
        let own = reached(&plan, of).iter().filter(|is| **is).count();
        let more = usize::from(own < count);
        assert_eq!(pair[0].values.len(), own - 1);
        assert_eq!(pair[1].values.len(), own + more);
    }
}
