//! Compiled predicates: the list of a diagram, and what each of its records states.

use crate::diagram::{Association, Diagram, Form, Limits, Side};
use crate::objects::Objects;
use crate::record::{Link, Record};
use crate::rules::links::{mirrors, sources_fit, targets_fit};
use crate::rules::wholes::whole_count;

/// A compiled record: kind, association, side, low and up, "low and up taking two each, high byte
/// first".
pub type Entry = [u8; 7];

/// Gives the compiled records, associations in file order.
pub fn compile(d: &Diagram) -> Vec<Entry> {
    let mut list = Vec::new();
    for (index, association) in (0u8..).zip(&d.associations) {
        compile_one(&mut list, index, association);
    }
    list
}

/// "→ side 0 by rule 6, side 0 by rule 7; ← side 1, side 1; ↔ side 0 and 1 by rule 6, then
/// kind 5"; "the compiled row of arrow 4 gains BidiAssoc in the same spot as ↔", which makes it
/// the row of ↔. "A composition adds kind 6 last."
fn compile_one(list: &mut Vec<Entry>, index: u8, a: &Association) {
    let rule_6 = |side: Side| limit_record([1, 2], index, side, a.target(side).limits);
    let rule_7 = |side: Side| limit_record([3, 4], index, side, a.source(side).limits);
    match a.arrow {
        1 => list.extend([rule_6(Side::R2), rule_7(Side::R2)]),
        2 => list.extend([rule_6(Side::R1), rule_7(Side::R1)]),
        _ => list.extend([rule_6(Side::R2), rule_6(Side::R1), without_limits(5, index)]),
    }
    if a.form == Form::Composition {
        list.push(without_limits(6, index));
    }
}

/// "kinds 5, 6 have side, low, up 0"
fn without_limits(kind: u8, index: u8) -> Entry {
    [kind, index, 0, 0, 0, 0, 0]
}

/// A record of the first kind where there is an upper limit, else of the second with up 0.
fn limit_record(kinds: [u8; 2], index: u8, side: Side, limits: Limits) -> Entry {
    let side = match side {
        Side::R2 => 0,
        Side::R1 => 1,
    };
    let (kind, up) = match limits.up {
        Some(up) => (kinds[0], up),
        None => (kinds[1], 0),
    };
    let ([low_high, low_low], [up_high, up_low]) = (limits.low.to_be_bytes(), up.to_be_bytes());
    [kind, index, side, low_high, low_low, up_high, up_low]
}

/// Gives the number of compiled records if all hold, else the index of the first that doesn't.
pub fn evaluate(d: &Diagram, r: &Record) -> u8 {
    let type_names: Vec<&[u8]> = r.objects.iter().map(Vec::as_slice).collect();
    let objects = Objects::new(d, &type_names);
    let list = compile(d);
    let first = list
        .iter()
        .position(|entry| !holds(&objects, &r.links, entry));
    u8::try_from(first.unwrap_or(list.len())).expect("a list has at most 64 records")
}

/// Tells whether one compiled record holds, with its own limits.
fn holds(objects: &Objects, links: &[Link], entry: &Entry) -> bool {
    let [kind, index, side, low_high, low_low, up_high, up_low] = *entry;
    let a = &objects.diagram.associations[usize::from(index)];
    let side = if side == 0 { Side::R2 } else { Side::R1 };
    let up = u16::from_be_bytes([up_high, up_low]);
    let limits = Limits {
        low: u16::from_be_bytes([low_high, low_low]),
        up: [1, 3].contains(&kind).then_some(up),
    };
    match kind {
        1 | 2 => targets_fit(objects, links, a, side, limits),
        3 | 4 => sources_fit(objects, links, a, side, limits),
        5 => mirrors(objects, links, a),
        _ => objects
            .instances(&a.right.type_name)
            .all(|part| whole_count(objects, links, part) <= 1),
    }
}
