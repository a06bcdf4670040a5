//! What the grammar allows at a place.

use super::language::Language;
use super::tokens::Read;

/// One thing that may come next.
#[derive(Clone, Copy, Debug, PartialEq, Eq)]
pub enum Wanted {
    Word(&'static str),
    Mark(&'static str),
    /// A name, and what for: "a name for the class".
    Name(&'static str),
    /// A word of any length that serves as a name, and what for.
    AnyWord(&'static str),
    Integer,
    End,
}

impl Wanted {
    /// This is what stands there in a text of that kind.
    pub fn fits(self, read: Read, language: &Language) -> bool {
        match (self, read) {
            (Wanted::Word(wanted), Read::Word(word)) => wanted == word,
            (Wanted::Name(_), Read::Word(word)) => language.is_name(word),
            (Wanted::AnyWord(_), Read::Word(_)) => true,
            (Wanted::Integer, Read::Word(word)) => word.bytes().all(|b| b.is_ascii_digit()),
            (Wanted::Mark(wanted), Read::Mark(mark)) => wanted == mark,
            (Wanted::End, Read::End) => true,
            _ => false,
        }
    }

    /// It is a name of limited length, whatever for.
    pub fn is_name(self) -> bool {
        matches!(self, Wanted::Name(_))
    }

    /// In words.
    fn words(self) -> String {
        match self {
            Wanted::Word(text) | Wanted::Mark(text) => format!("\"{text}\""),
            Wanted::Name(purpose) | Wanted::AnyWord(purpose) => format!("a name {purpose}"),
            Wanted::Integer => "a number".to_string(),
            Wanted::End => "the end of the text".to_string(),
        }
    }
}

/// All that may come next, in words.
pub fn any_of(wanted: &[Wanted]) -> String {
    let mut words: Vec<String> = wanted.iter().map(|w| w.words()).collect();
    let last = words.pop().unwrap_or_default();
    match words.is_empty() {
        true => last,
        false => format!("{} or {last}", words.join(", ")),
    }
}
