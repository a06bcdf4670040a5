//! The editions of a diagram file. They differ in the limits of an association alone.

use crate::diagram::{Diagram, Limits};

/// The edition of a diagram file.
#[derive(Clone, Copy, Debug, PartialEq, Eq)]
pub enum Edition {
    /// A limit is one byte.
    One,
    /// "stores each low and up in two bytes, high byte first"
    Two,
}

impl Edition {
    /// The edition that a byte stands for.
    pub fn of_byte(byte: u8) -> Option<Edition> {
        match byte {
            1 => Some(Edition::One),
            2 => Some(Edition::Two),
            _ => None,
        }
    }

    /// The edition that a diagram file states in its fourth byte, as every accepted one does.
    pub fn of_file(file: &[u8]) -> Option<Edition> {
        file.get(3).copied().and_then(Edition::of_byte)
    }

    /// "an edition 1 file as edition 2 and the other way about"
    pub fn other(self) -> Edition {
        match self {
            Edition::One => Edition::Two,
            Edition::Two => Edition::One,
        }
    }

    /// The byte that stands for the edition.
    pub fn byte(self) -> u8 {
        match self {
            Edition::One => 1,
            Edition::Two => 2,
        }
    }

    /// The largest finite limit.
    pub fn largest(self) -> u16 {
        match self {
            Edition::One => 100,
            Edition::Two => 4_000,
        }
    }

    /// The number for an upper limit: one of its own says that there is none.
    pub fn number_of(self, up: Option<u16>) -> u16 {
        up.unwrap_or(match self {
            Edition::One => 255,
            Edition::Two => 65_535,
        })
    }

    /// The limits that two numbers stand for: "Low is 0 to 100; up is 0 to 100 and not below low,
    /// or 255, no upper limit", in edition 2 "range 0 to 4,000, with 65,535 for no upper limit".
    pub fn limits(self, low: u16, up: u16) -> Option<Limits> {
        let up = (up != self.number_of(None)).then_some(up);
        let fits = low <= self.largest() && up.is_none_or(|up| low <= up && up <= self.largest());
        fits.then_some(Limits { low, up })
    }

    /// Whether a file of this edition can state all limits of the diagram.
    pub fn holds(self, diagram: &Diagram) -> bool {
        let associations = diagram.associations.iter();
        let mut ends = associations.flat_map(|a| [&a.left, &a.right]);
        ends.all(|end| {
            let Limits { low, up } = end.limits;
            self.limits(low, self.number_of(up)) == Some(end.limits)
        })
    }
}

#[cfg(test)]
mod tests {
    use super::*;

    /// The limits that the editions give these two numbers.
    fn both(low: u16, up: u16) -> [Option<Limits>; 2] {
        [Edition::One, Edition::Two].map(|edition| edition.limits(low, up))
    }

    #[test]
    fn each_edition_has_its_range() {
        let finite = |low, up| Some(Limits { low, up: Some(up) });
        let endless = |low| Some(Limits { low, up: None });
        assert_eq!(both(0, 100), [finite(0, 100); 2]);
        assert_eq!(both(100, 255), [endless(100), finite(100, 255)]);
        assert_eq!(both(101, 255), [None, finite(101, 255)]);
        assert_eq!(both(0, 254), [None, finite(0, 254)]);
        assert_eq!(both(4_000, 4_000), [None, finite(4_000, 4_000)]);
        assert_eq!(both(4_000, 65_535), [None, endless(4_000)]);
    }

    #[test]
    fn neither_edition_has_other_numbers() {
        for (low, up) in [
            (1, 0),
            (100, 99),
            (256, 1),
            (0, 4_001),
            (0, 65_534),
            (4_001, 65_535),
            (65_535, 65_535),
        ] {
            assert_eq!(both(low, up), [None; 2], "{low}, {up}");
        }
    }
}
