//! The pairs that are compared beside the solver, in three families.

mod adversarial;
mod realistic;
mod synthetic;

use crate::inputs::Pair;
use generators::{notation, DiagramPlan};

/// Where a pair comes from.
#[derive(Clone, Copy, Debug, PartialEq, Eq)]
pub enum Family {
    /// Exchanges and changes as releases have them.
    Realistic,
    /// Made up from a seed.
    Synthetic,
    /// Written to make a search long.
    Adversarial,
}

impl Family {
    /// The families in the order of the table.
    pub const ALL: [Family; 3] = [Family::Realistic, Family::Synthetic, Family::Adversarial];

    /// The family's pairs.
    pub fn pairs(self) -> Vec<Pair> {
        match self {
            Family::Realistic => realistic::pairs(),
            Family::Synthetic => synthetic::pairs(),
            Family::Adversarial => adversarial::pairs(),
        }
    }
}

/// A pair of diagrams.
fn pair(name: &str, old: &DiagramPlan, new: &DiagramPlan) -> Pair {
    Pair {
        name: name.to_string(),
        old: old.file(),
        new: new.file(),
    }
}

/// A change of a diagram's text: what stands there once, and what takes its place.
type Change = (&'static str, &'static str);

/// A diagram's text with changes.
fn changed(text: &str, changes: &[Change]) -> DiagramPlan {
    let mut text = text.to_string();
    for (from, to) in changes {
        assert_eq!(text.matches(from).count(), 1, "'{from}' stands there once");
        text = text.replace(from, to);
    }
    notation::diagram(&text)
}

#[cfg(test)]
mod tests {
    use super::*;
    use brute::read_diagram;

    #[test]
    fn every_diagram_is_accepted() {
        let pairs: Vec<Pair> = Family::ALL.iter().flat_map(|f| f.pairs()).collect();
        assert!(pairs.len() >= 40);
        for pair in &pairs {
            for file in [&pair.old, &pair.new] {
                assert!(read_diagram(file).is_ok(), "{}", pair.name);
            }
            let same = pairs.iter().filter(|other| other.name == pair.name);
            assert_eq!(same.count(), 1, "{}", pair.name);
        }
    }

    #[test]
    fn realistic_diagrams_have_6_to_24_types_and_4_to_16_associations() {
        for pair in Family::Realistic.pairs() {
            let old = read_diagram(&pair.old).expect("it is accepted");
            let (types, associations) = (old.types.len(), old.associations.len());
            assert!((6..=24).contains(&types), "{}", pair.name);
            assert!((4..=16).contains(&associations), "{}", pair.name);
        }
    }
}
