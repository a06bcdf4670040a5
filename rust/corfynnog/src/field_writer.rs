//! Fields of files, written: the tag, the length with the high byte first, the content.

/// A field with this content.
pub fn field(tag: u8, content: &[u8]) -> Vec<u8> {
    let [high, low] = two_bytes(content.len());
    [&[tag, high, low], content].concat()
}

/// A name behind its length.
pub fn name(text: &str) -> Vec<u8> {
    [&[byte(text.len())], text.as_bytes()].concat()
}

/// A number of one byte. All are below 256; a larger one is written as one that is refused.
pub fn byte(number: usize) -> u8 {
    u8::try_from(number).unwrap_or(u8::MAX)
}

/// A number of two bytes, high byte first. All are below 65,536.
pub fn two_bytes(number: usize) -> [u8; 2] {
    u16::try_from(number).unwrap_or(u16::MAX).to_be_bytes()
}
