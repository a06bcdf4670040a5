//! The words and marks of a text, each with the byte that it starts at.

/// The longest name.
pub const NAME_MOST: usize = 16;

/// What stands at a place of a text.
#[derive(Clone, Copy, Debug, PartialEq, Eq)]
pub enum Read<'a> {
    /// A longest run of name bytes.
    Word(&'a str),
    Mark(&'static str),
    /// A byte that starts neither, and all that follows.
    Stray(&'a [u8]),
    /// Nothing: the text ends.
    End,
}

/// A word or mark with its first byte, counted from 0.
#[derive(Clone, Copy, Debug, PartialEq, Eq)]
pub struct Token<'a> {
    pub at: usize,
    pub read: Read<'a>,
}

/// Goes through a text from left to right.
pub struct Tokens<'a> {
    text: &'a [u8],
    /// Longest first.
    marks: &'static [&'static str],
    at: usize,
}

impl<'a> Tokens<'a> {
    /// The whole text is ahead.
    pub fn of(text: &'a [u8], marks: &'static [&'static str]) -> Tokens<'a> {
        Tokens { text, marks, at: 0 }
    }

    /// The next word or mark. A stray byte and the end stay where they are.
    pub fn next(&mut self) -> Token<'a> {
        let blanks = length_of(&self.text[self.at..], |b| b" \t\n\r".contains(&b));
        self.at += blanks;
        let (at, rest) = (self.at, &self.text[self.at..]);
        let read = first_of(rest, self.marks);
        self.at += match read {
            Read::Word(word) => word.len(),
            Read::Mark(mark) => mark.len(),
            Read::Stray(_) | Read::End => 0,
        };
        Token { at, read }
    }
}

/// What stands at the front.
fn first_of<'a>(rest: &'a [u8], marks: &[&'static str]) -> Read<'a> {
    if rest.is_empty() {
        return Read::End;
    }
    let word = &rest[..length_of(rest, |b| b.is_ascii_alphanumeric() || b == b'_')];
    if !word.is_empty() {
        return Read::Word(std::str::from_utf8(word).unwrap_or_default());
    }
    match marks.iter().find(|mark| rest.starts_with(mark.as_bytes())) {
        Some(mark) => Read::Mark(mark),
        None => Read::Stray(rest),
    }
}

/// How many bytes at the front are of a kind.
fn length_of(bytes: &[u8], is_of: impl Fn(u8) -> bool) -> usize {
    let other = bytes.iter().position(|&byte| !is_of(byte));
    other.unwrap_or(bytes.len())
}

#[cfg(test)]
mod tests {
    use super::*;
    use crate::text::language::DIAGRAM_TEXT;

    /// Words and marks with a blank between, a stray byte as `!`.
    fn told(text: &str) -> String {
        let mut tokens = Tokens::of(text.as_bytes(), DIAGRAM_TEXT.marks);
        let mut told = Vec::new();
        loop {
            match tokens.next().read {
                Read::Word(word) => told.push(word),
                Read::Mark(mark) => told.push(mark),
                Read::Stray(_) => {
                    told.push("!");
                    return told.join(" ");
                }
                Read::End => return told.join(" "),
            }
        }
    }

    #[test]
    fn words_and_marks_are_as_long_as_can_be() {
        for (text, tokens) in [
            ("A<->B", "A <-> B"),
            ("A--B\t[*]\r\nclassA", "A -- B [ * ] classA"),
            ("1..2", "1 .. 2"),
            ("<<singleton>>class", "<< singleton >> class"),
            ("<-->", "<- ->"),
            ("<--", "<- !"),
            ("-->", "-- !"),
            ("<<->", "<< ->"),
            ("....", ".. .."),
            ("a.b", "a !"),
            (" \t\r\n", ""),
            ("a\u{b}b", "a !"),
            ("é", "!"),
        ] {
            assert_eq!(told(text), tokens, "{text:?}");
        }
    }

    #[test]
    fn a_token_knows_its_first_byte() {
        let mut tokens = Tokens::of(b" ab\n<->", DIAGRAM_TEXT.marks);
        let places: Vec<usize> = (0..4).map(|_| tokens.next().at).collect();
        assert_eq!(places, [1, 4, 7, 7]);
    }
}
