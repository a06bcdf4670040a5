//! What was read, in words that any terminal can show.

use super::tokens::Read;

/// So many bytes of a word are told.
const TOLD: usize = 32;

/// `read "extends"`, or that the text ends.
pub fn read_in_words(read: Read) -> String {
    match read {
        Read::Word(word) => format!("read {}", quoted(word)),
        Read::Mark(mark) => format!("read \"{mark}\""),
        Read::Stray(rest) => format!("read {}", stray(rest)),
        Read::End => "the text ends".to_string(),
    }
}

/// A word in quotation marks; of a long one its front and its length.
pub fn quoted(word: &str) -> String {
    match word.len() > TOLD {
        true => format!("{} ({} bytes)", front(word), word.len()),
        false => front(word),
    }
}

/// A word in quotation marks; of a long one its front.
pub fn front(word: &str) -> String {
    format!("\"{}\"", shortened(word))
}

/// A word; of a long one its front.
pub fn shortened(word: &str) -> String {
    match word.get(..TOLD).filter(|_| word.len() > TOLD) {
        Some(front) => format!("{front}..."),
        None => word.to_string(),
    }
}

/// The character at the front where it can be shown, else the byte.
fn stray(rest: &[u8]) -> String {
    let front = &rest[..rest.len().min(4)];
    let whole = match std::str::from_utf8(front) {
        Ok(text) => text,
        Err(error) => std::str::from_utf8(&front[..error.valid_up_to()]).unwrap_or_default(),
    };
    let letter = whole.chars().next();
    match letter.filter(|&letter| can_be_shown(letter)) {
        Some(letter) => format!("\"{letter}\""),
        None => format!("the byte 0x{:02X}", rest.first().copied().unwrap_or(0)),
    }
}

/// Neither a control character nor one that changes how others look.
pub fn can_be_shown(letter: char) -> bool {
    letter == '"' || letter == '\'' || letter == '\\' || letter.escape_debug().count() == 1
}

#[cfg(test)]
mod tests {
    use super::*;

    #[test]
    fn what_was_read() {
        let long = "a".repeat(70_000);
        let front = "a".repeat(32);
        for (read, words) in [
            (Read::Word("extends"), "read \"extends\"".to_string()),
            (
                Read::Word(&long),
                format!("read \"{front}...\" (70000 bytes)"),
            ),
            (Read::Mark("<->"), "read \"<->\"".to_string()),
            (Read::Stray(b"/ no"), "read \"/\"".to_string()),
            (Read::Stray(b"\"x"), "read \"\"\"".to_string()),
            (Read::Stray("«x".as_bytes()), "read \"«\"".to_string()),
            (Read::Stray("日本語".as_bytes()), "read \"日\"".to_string()),
            (Read::Stray(b"\x00"), "read the byte 0x00".to_string()),
            (Read::Stray(b"\x1b[2J"), "read the byte 0x1B".to_string()),
            (Read::Stray(b"\xFF\xFEc"), "read the byte 0xFF".to_string()),
            (
                Read::Stray("\u{202E}x".as_bytes()),
                "read the byte 0xE2".to_string(),
            ),
            (Read::Stray(b"\xC3"), "read the byte 0xC3".to_string()),
            (Read::End, "the text ends".to_string()),
        ] {
            assert_eq!(read_in_words(read), words);
        }
    }
}
