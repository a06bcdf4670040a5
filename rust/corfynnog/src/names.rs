//! Pieces of a diagram as text: limits, associations, counts.

use crate::diagram::{Association, Diagram, End, Limits};
use crate::unwritable::is_left_out;

/// Limits as they stand at an association's end.
pub fn cardinality(limits: Limits) -> String {
    match (limits.low, limits.up) {
        (0, None) => "[*]".to_string(),
        (low, None) => format!("[{low}..*]"),
        (low, Some(up)) if low == up => format!("[{low}]"),
        (low, Some(up)) => format!("[{low}..{up}]"),
    }
}

/// Limits in words.
pub fn limits_in_words(limits: Limits) -> String {
    match (limits.low, limits.up) {
        (0, None) => "any number".to_string(),
        (low, None) => format!("at least {low}"),
        (low, Some(up)) if low == up => format!("exactly {low}"),
        (0, Some(up)) => format!("at most {up}"),
        (low, Some(up)) => format!("{low} to {up}"),
    }
}

/// An association as text, without the semicolon.
pub fn association_text(diagram: &Diagram, association: &Association) -> String {
    let form = match association.composition {
        true => "composition",
        false => "association",
    };
    let type_of = |end: &End| diagram.types[end.of].name.clone();
    let role_of = |end: &End| match is_left_out(&type_of(end), &end.role) {
        true => String::new(),
        false => format!("({}) ", end.role),
    };
    format!(
        "{form} {} {} {}{} {}{} {}",
        cardinality(association.left.limits),
        type_of(&association.left),
        role_of(&association.left),
        association.arrow.text(),
        role_of(&association.right),
        type_of(&association.right),
        cardinality(association.right.limits),
    )
}

/// A number and its noun.
pub fn count_of(count: usize, one: &str, more: &str) -> String {
    match count {
        0 => format!("no {more}"),
        1 => format!("1 {one}"),
        _ => format!("{count} {more}"),
    }
}

/// The numbers below a count that is not 0.
pub fn numbers_below(count: usize) -> String {
    match count {
        0 | 1 => "0".to_string(),
        _ => format!("0 to {}", count - 1),
    }
}

/// The place of a number in a row, in words up to the ninth.
pub fn ordinal(number: usize) -> String {
    const WORDS: [&str; 9] = [
        "first", "second", "third", "fourth", "fifth", "sixth", "seventh", "eighth", "ninth",
    ];
    if let Some(word) = number.checked_sub(1).and_then(|i| WORDS.get(i)) {
        return word.to_string();
    }
    let ending = match (number % 100, number % 10) {
        (11..=13, _) => "th",
        (_, 1) => "st",
        (_, 2) => "nd",
        (_, 3) => "rd",
        _ => "th",
    };
    format!("{number}{ending}")
}

/// Numbers and their nouns, each noun for one and for more.
pub fn counts_in_words(counts: &[(&str, &str, usize)]) -> String {
    let words = counts.iter().map(|(one, more, n)| count_of(*n, one, more));
    words.collect::<Vec<_>>().join(", ")
}

#[cfg(test)]
mod tests {
    use super::*;

    #[test]
    fn places_in_a_row() {
        for (number, words) in [
            (1, "first"),
            (9, "ninth"),
            (13, "13th"),
            (17, "17th"),
            (25, "25th"),
            (33, "33rd"),
            (257, "257th"),
            (2049, "2049th"),
        ] {
            assert_eq!(ordinal(number), words);
        }
    }

    #[test]
    fn limits_as_text_and_in_words() {
        let cases = [
            (0, None, "[*]", "any number"),
            (2, None, "[2..*]", "at least 2"),
            (1, Some(1), "[1]", "exactly 1"),
            (0, Some(0), "[0]", "exactly 0"),
            (0, Some(4), "[0..4]", "at most 4"),
            (2, Some(100), "[2..100]", "2 to 100"),
            (0, Some(256), "[0..256]", "at most 256"),
            (4000, None, "[4000..*]", "at least 4000"),
        ];
        for (low, up, text, words) in cases {
            let limits = Limits { low, up };
            assert_eq!(cardinality(limits), text);
            assert_eq!(limits_in_words(limits), words);
        }
    }
}
