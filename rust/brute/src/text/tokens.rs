//! A text as words and marks.

/// "Words (longest runs of name bytes) and marks (longest first)"
#[derive(Clone, Copy, Debug, PartialEq, Eq)]
pub enum Token<'t> {
    Word(&'t [u8]),
    Mark(&'static str),
}

/// The marks, a longer one before those that it starts with.
const MARKS: [&str; 16] = [
    "<->", "->", "<-", "--", "<<", ">>", "..", "{", "}", ";", ",", "(", ")", "[", "]", "*",
];

/// The words and marks of a text; none where a byte belongs to neither.
pub fn tokens(text: &[u8]) -> Option<Vec<Token<'_>>> {
    let mut tokens = Vec::new();
    let mut rest = text;
    while let Some(&first) = rest.first() {
        if is_blank(first) {
            rest = &rest[1..];
        } else if is_name_byte(first) {
            let end = rest.iter().position(|&byte| !is_name_byte(byte));
            let (word, behind) = rest.split_at(end.unwrap_or(rest.len()));
            tokens.push(Token::Word(word));
            rest = behind;
        } else {
            let mark = MARKS
                .iter()
                .find(|mark| rest.starts_with(mark.as_bytes()))?;
            tokens.push(Token::Mark(mark));
            rest = &rest[mark.len()..];
        }
    }
    Some(tokens)
}

/// "blanks, tabs and line ends (0x0A, 0x0D)"
fn is_blank(byte: u8) -> bool {
    [0x20, 0x09, 0x0A, 0x0D].contains(&byte)
}

/// "bytes from A–Z, a–z, 0–9 and underscore"
fn is_name_byte(byte: u8) -> bool {
    byte.is_ascii_alphanumeric() || byte == b'_'
}

#[cfg(test)]
mod tests {
    use super::Token::{Mark, Word};
    use super::*;

    #[test]
    fn the_longest_mark_comes_first() {
        let arrow = |mark| Some(vec![Word(b"A"), Mark(mark), Word(b"B")]);
        for mark in ["<->", "->", "<-", "--", "..", "<<", ">>", "*", "("] {
            assert_eq!(tokens(format!("A{mark}B").as_bytes()), arrow(mark));
        }
        assert_eq!(tokens(b"<-->"), Some(vec![Mark("<-"), Mark("->")]));
        assert_eq!(tokens(b"--->"), Some(vec![Mark("--"), Mark("->")]));
        assert_eq!(tokens(b"<<->"), Some(vec![Mark("<<"), Mark("->")]));
        assert_eq!(tokens(b"...."), Some(vec![Mark(".."), Mark("..")]));
    }

    #[test]
    fn bytes_that_are_no_mark() {
        let texts: [&[u8]; 14] = [
            b"<--", b"-->", b"<<<", b">>>", b"...", b"- >", b"< <", b". .", b"/", b"\x0B", b"\x0C",
            b"\x00", b"\xA0", b"a\xC3",
        ];
        for text in texts {
            assert_eq!(tokens(text), None, "{}", text.escape_ascii());
        }
    }

    #[test]
    fn words_end_at_the_first_byte_that_is_not_theirs() {
        let words = vec![Word(b"classA"), Word(b"_1"), Mark(";"), Word(b"0")];
        assert_eq!(tokens(b"\r\nclassA\t_1;0 "), Some(words));
        assert_eq!(tokens(b""), Some(vec![]));
    }
}
