//! Compiled predicates: their names, their meaning in words, and where one does not hold.

use crate::breaches::{breaches, Breach};
use crate::diagram::{Diagram, Limits};
use crate::json::Json;
use crate::names::{association_text, limits_in_words};
use crate::record::Record;

/// One compiled predicate.
#[derive(Clone, Copy, Debug, PartialEq, Eq)]
pub struct Predicate {
    pub kind: u8,
    pub association: usize,
    pub side: u8,
    pub low: u16,
    pub up: u16,
}

impl Predicate {
    /// The predicate of a compiled list's seven bytes; low and up have two each, high byte first.
    pub fn of([kind, association, side, low @ .., up_high, up_low]: [u8; 7]) -> Predicate {
        Predicate {
            kind,
            association: usize::from(association),
            side,
            low: u16::from_be_bytes(low),
            up: u16::from_be_bytes([up_high, up_low]),
        }
    }

    /// The name of its kind.
    pub fn name(&self) -> &'static str {
        match self.kind {
            1 => "ObjLUAttrib",
            2 => "ObjLAttrib",
            3 => "ObjLU",
            4 => "ObjL",
            5 => "BidiAssoc",
            6 => "Composition",
            _ => "unknown",
        }
    }

    /// The rule that it states for its association.
    pub fn rule(&self) -> u8 {
        match self.kind {
            1 | 2 => 6,
            3 | 4 => 7,
            5 => 8,
            _ => 9,
        }
    }

    /// Its limits; kinds 2 and 4 have no upper one.
    fn limits(&self) -> Limits {
        let bounded = self.kind == 1 || self.kind == 3;
        Limits {
            low: usize::from(self.low),
            up: bounded.then_some(usize::from(self.up)),
        }
    }

    /// What it says, with the names of its diagram.
    pub fn in_words(&self, diagram: &Diagram) -> String {
        let Some(association) = diagram.associations.get(self.association) else {
            return "an association that the diagram does not have".to_string();
        };
        let way = association.way(self.side);
        let (from, to) = (&diagram.types[way.from].name, &diagram.types[way.to].name);
        let (role, limits) = (way.role, limits_in_words(self.limits()));
        match self.kind {
            1 | 2 => format!("links of role {role} from each {from}: {limits}, each to a {to}"),
            3 | 4 => format!("{from} objects with a link of role {role} to each {to}: {limits}"),
            5 => {
                let back = association.way(1).role;
                format!("a {from} has a link of role {role} to a {to} exactly when that has one of role {back} to it")
            }
            _ => format!("each {to} is part of at most one whole"),
        }
    }

    /// Where a record breaks it, by the names.
    pub fn breaches(&self, diagram: &Diagram, record: &Record) -> Vec<Breach> {
        let mut found = breaches(diagram, record, self.rule());
        found.retain(|breach| self.concerns(diagram, record, breach));
        found
    }

    /// A breach of its rule is one of this predicate.
    fn concerns(&self, diagram: &Diagram, record: &Record, breach: &Breach) -> bool {
        match self.kind {
            1..=4 => breach.association == Some(self.association) && breach.side == Some(self.side),
            5 => breach.association == Some(self.association),
            _ => {
                let association = diagram.associations.get(self.association);
                let part = breach.objects.first().map(|&object| &record.types[object]);
                matches!((association, part), (Some(a), Some(p)) if diagram.is_instance(p, a.right.of))
            }
        }
    }

    /// The predicate for scripts; diagram names where the diagram is at hand.
    pub fn json(&self, diagram: Option<&Diagram>) -> Json {
        let association = diagram.and_then(|d| {
            let association = d.associations.get(self.association)?;
            Some(association_text(d, association))
        });
        Json::Object(vec![
            ("kind", Json::Number(self.kind.into())),
            ("name", Json::text(self.name())),
            ("association", Json::Number(self.association)),
            ("side", Json::Number(self.side.into())),
            ("low", Json::Number(self.low.into())),
            ("up", Json::Number(self.up.into())),
            ("association_text", Json::or_null(association, Json::Text)),
            (
                "text",
                Json::or_null(diagram, |d| Json::Text(self.in_words(d))),
            ),
        ])
    }
}

#[cfg(test)]
mod tests {
    use super::*;

    #[test]
    fn limits_have_their_high_byte_first() {
        let predicate = Predicate::of([1, 15, 1, 1, 2, 15, 160]);
        let expected = Predicate {
            kind: 1,
            association: 15,
            side: 1,
            low: 258,
            up: 4000,
        };
        assert_eq!(predicate, expected);
    }
}
