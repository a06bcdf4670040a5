//! Lines and columns.

/// A place of a text, both counted from 1. A column is a byte; what stands before a fault on its
/// line is ASCII, so that columns are characters too. A tab is one column.
#[derive(Clone, Copy, Debug, PartialEq, Eq)]
pub struct Place {
    pub line: usize,
    pub column: usize,
}

/// So many bytes of a line are shown before a fault and from there on.
const SHOWN: usize = 60;

/// The place of a byte. A line ends with 0x0A, with 0x0D, or with both in this order.
pub fn place_of(text: &[u8], at: usize) -> Place {
    let before = &text[..at.min(text.len())];
    let ends = |i: &usize| ends_line(before, *i);
    let line = 1 + (0..before.len()).filter(ends).count();
    Place {
        line,
        column: 1 + before.len() - line_start(before),
    }
}

/// Byte i is the last of a line.
fn ends_line(text: &[u8], i: usize) -> bool {
    match text[i] {
        b'\n' => true,
        b'\r' => text.get(i + 1) != Some(&b'\n'),
        _ => false,
    }
}

/// Where the last line of a text starts.
fn line_start(before: &[u8]) -> usize {
    let end = before.iter().rposition(|&byte| is_line_end(byte));
    end.map_or(0, |end| end + 1)
}

fn is_line_end(byte: u8) -> bool {
    byte == b'\n' || byte == b'\r'
}

/// The line of a byte, or the part of it around that byte, and below it a sign at the byte.
pub fn excerpt(text: &[u8], at: usize) -> [String; 2] {
    let at = at.min(text.len());
    let start = line_start(&text[..at]).max(at.saturating_sub(SHOWN));
    let rest = &text[at..];
    let length = rest.iter().position(|&byte| is_line_end(byte));
    let end = at + length.unwrap_or(rest.len()).min(SHOWN);
    let shown = |&byte: &u8| match byte {
        b'\t' => ' ',
        b' '..=b'~' => char::from(byte),
        _ => '?',
    };
    let line: String = text[start..end].iter().map(shown).collect();
    let sign = format!("{}^", " ".repeat(at - start));
    [line.trim_end().to_string(), sign]
}

#[cfg(test)]
mod tests {
    use super::*;

    fn place(text: &str, at: usize) -> (usize, usize) {
        let place = place_of(text.as_bytes(), at);
        (place.line, place.column)
    }

    #[test]
    fn lines_and_columns_count_from_1() {
        assert_eq!(place("", 0), (1, 1));
        assert_eq!(place("ab\n\tc", 1), (1, 2));
        assert_eq!(place("ab\n\tc", 4), (2, 2));
        assert_eq!(place("ab\n", 3), (2, 1));
        assert_eq!(place("a\r\nb\rc\n\nd", 3), (2, 1));
        assert_eq!(place("a\r\nb\rc\n\nd", 5), (3, 1));
        assert_eq!(place("a\r\nb\rc\n\nd", 8), (5, 1));
        assert_eq!(place("ab", 9), (1, 3));
    }

    #[test]
    fn the_line_with_a_sign_below() {
        let text = b"one\n\ttwo \x00three\x1b\nfour";
        assert_eq!(excerpt(text, 9), [" two ?three?", "     ^"]);
        assert_eq!(excerpt(text, text.len()), ["four", "    ^"]);
        assert_eq!(excerpt(b"", 0), ["", "^"]);
        let long = [b'a'; 1000];
        let [line, sign] = excerpt(&long, 500);
        assert_eq!((line.len(), sign.len()), (120, 61));
    }
}
