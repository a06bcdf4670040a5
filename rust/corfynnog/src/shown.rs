//! Names of files and words of the command line in a form that any terminal can show.

use std::ffi::OsStr;
use std::os::unix::ffi::OsStrExt;

use crate::text::can_be_shown;

/// The word itself; what cannot be shown stands there byte by byte, as \xE9, and a backslash is
/// doubled, so that different words are shown differently.
pub fn shown(word: impl AsRef<OsStr>) -> String {
    let mut text = String::new();
    for chunk in word.as_ref().as_bytes().utf8_chunks() {
        for letter in chunk.valid().chars() {
            match letter {
                '\\' => text += "\\\\",
                _ if can_be_shown(letter) => text.push(letter),
                _ => text += &bytes_of(letter.encode_utf8(&mut [0; 4]).as_bytes()),
            }
        }
        text += &bytes_of(chunk.invalid());
    }
    text
}

/// Each byte by its number.
fn bytes_of(bytes: &[u8]) -> String {
    bytes.iter().map(|byte| format!("\\x{byte:02X}")).collect()
}

#[cfg(test)]
mod tests {
    use super::*;

    #[test]
    fn names_as_they_are_shown() {
        let cases: [(&[u8], &str); 9] = [
            (b"site.record", "site.record"),
            ("caf\u{e9} 'a' \"b\"".as_bytes(), "caf\u{e9} 'a' \"b\""),
            (b"caf\xE9", "caf\\xE9"),
            (b"caf\\xE9", "caf\\\\xE9"),
            (b"a\nb\x1B[2J\x7F", "a\\x0Ab\\x1B[2J\\x7F"),
            ("a\u{202E}b".as_bytes(), "a\\xE2\\x80\\xAEb"),
            ("e\u{301}".as_bytes(), "e\\xCC\\x81"),
            (b"\xE2\x82", "\\xE2\\x82"),
            (b"", ""),
        ];
        for (name, words) in cases {
            assert_eq!(shown(OsStr::from_bytes(name)), words);
        }
    }
}
