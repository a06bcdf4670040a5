//! What the texts of one kind are made of.

use super::hints;
use super::stray::{foreign_letter, stray};
use super::tokens::Read;
use super::wanted::Wanted;

/// The marks, the words and the advice of one kind of text.
pub struct Language {
    /// Longest first.
    pub marks: &'static [&'static str],
    /// The words that are no names.
    pub keywords: &'static [&'static str],
    /// What to do about a byte that starts neither a word nor a mark, where this kind knows.
    pub stray: fn(&[u8]) -> Option<&'static str>,
    /// What to do where this was read and that was wanted, where this kind knows.
    pub slip: fn(Read, &[Wanted]) -> Option<&'static str>,
}

impl Language {
    /// A word that may be a name.
    pub fn is_name(&self, word: &str) -> bool {
        !self.keywords.contains(&word)
    }

    /// What to do where this was read and that was wanted; none where nothing special is known.
    pub fn hint(&self, read: Read, wanted: &[Wanted]) -> Option<&'static str> {
        let slip = || (self.slip)(read, wanted);
        match read {
            Read::Stray(rest) => (self.stray)(rest)
                .or_else(|| stray(rest))
                .or_else(slip)
                .or_else(|| foreign_letter(rest)),
            _ => slip(),
        }
    }
}

/// Diagram texts.
pub static DIAGRAM_TEXT: Language = Language {
    marks: &[
        "<->", "->", "<-", "--", "<<", ">>", "..", "{", "}", ";", ",", "(", ")", "[", "]", "*",
    ],
    keywords: &[
        "classdiagram",
        "class",
        "extends",
        "implements",
        "interface",
        "enum",
        "association",
        "composition",
        "abstract",
    ],
    stray: hints::stray,
    slip: hints::slip,
};

/// A word that a diagram's grammar does not quote.
pub fn is_name(word: &str) -> bool {
    DIAGRAM_TEXT.is_name(word)
}

#[cfg(test)]
mod tests {
    use super::*;
    use generators::text_damage;

    /// The generators have lists of their own.
    #[test]
    fn words_and_marks_are_those_of_the_generators() {
        assert_eq!(DIAGRAM_TEXT.keywords, text_damage::KEYWORDS);
        assert_eq!(DIAGRAM_TEXT.marks, text_damage::MARKS);
    }
}
