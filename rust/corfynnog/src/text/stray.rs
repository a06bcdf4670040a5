//! Advice that is the same for texts of all kinds: bytes that no text holds, and a text's end.

/// What to do about a text that ends where more is wanted.
pub const ENDS_EARLY: &str =
    "the text ends too early: was it cut off, or is a closing brace missing?";

/// What to do about a byte that starts neither a word nor a mark.
pub fn stray(rest: &[u8]) -> Option<&'static str> {
    let starts = |front: &[u8]| rest.starts_with(front);
    let is_comment = starts(b"//") || starts(b"/*") || starts(b"#");
    encoding(rest).or(is_comment.then_some("a text has no comments: take it out"))
}

/// What to do about a text that is saved otherwise than as ASCII.
pub fn encoding(rest: &[u8]) -> Option<&'static str> {
    let starts = |front: &[u8]| rest.starts_with(front);
    if starts(b"\xEF\xBB\xBF") {
        return Some("save the file without a byte order mark");
    }
    let is_wide = starts(b"\xFF\xFE") || starts(b"\xFE\xFF") || starts(b"\x00");
    is_wide.then_some("save the file as plain ASCII text, or check the file's name")
}

/// What to do about a letter that is not ASCII, where nothing more special is known.
pub fn foreign_letter(rest: &[u8]) -> Option<&'static str> {
    let first = rest.first().filter(|byte| !byte.is_ascii());
    first.map(|_| "names are made of A-Z, a-z, 0-9 and _ alone")
}
