//! A name that may have been meant.

use super::spelling::shortened;

/// Longer names are not compared: the time for it grows with the product of two lengths.
const LONGEST: usize = 32;

/// The nearest of these names, where it differs in capitals, or in one or two places.
pub fn similar<'a>(name: &str, known: impl Iterator<Item = &'a str>) -> Option<&'a str> {
    // Of a short name nearly everything is near.
    let most = match name.len() {
        0..=2 => 0,
        3 => 1,
        4..=LONGEST => 2,
        _ => return None,
    };
    let near = known.filter(|other| other.len().abs_diff(name.len()) <= most);
    let ranked = near.map(|other| (steps(name, other), other));
    let (least, nearest) = ranked.min_by_key(|(steps, _)| *steps)?;
    (least <= most).then_some(nearest)
}

/// The name that may have been meant, or that a declaration is missing.
pub fn advice(name: &str, meant: Option<&str>) -> String {
    let name = shortened(name);
    match meant {
        Some(meant) => format!("perhaps {meant} is meant; else declare {name}"),
        None => format!("declare {name}, or correct the name"),
    }
}

/// How many letters are put in, taken out or changed; none where only capitals differ.
fn steps(one: &str, other: &str) -> usize {
    let one = one.to_ascii_lowercase();
    let other = other.to_ascii_lowercase();
    let mut row: Vec<usize> = (0..=other.len()).collect();
    for (i, a) in one.bytes().enumerate() {
        let mut corner = row[0];
        row[0] = i + 1;
        for (j, b) in other.bytes().enumerate() {
            let changed = corner + usize::from(a != b);
            corner = row[j + 1];
            row[j + 1] = changed.min(row[j] + 1).min(corner + 1);
        }
    }
    row[other.len()]
}

#[cfg(test)]
mod tests {
    use super::*;

    #[test]
    fn the_nearest_name() {
        let known = ["Shelf", "Card", "LineCard"];
        for (name, meant) in [
            ("Shelv", Some("Shelf")),
            ("CARD", Some("Card")),
            ("LnieCard", Some("LineCard")),
            ("Crad", Some("Card")),
            ("Rack", None),
            ("X", None),
            ("", None),
        ] {
            assert_eq!(similar(name, known.into_iter()), meant, "{name}");
        }
        assert_eq!(similar("Card", std::iter::empty()), None);
        let long = "a".repeat(1_000_000);
        assert_eq!(similar(&long, [long.as_str()].into_iter()), None);
        assert_eq!(similar("Card", [long.as_str()].into_iter()), None);
    }
}
