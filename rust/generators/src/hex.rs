//! Bytes as text, for messages and tables.

/// The bytes in hexadecimal, set apart by blanks.
pub fn hex(bytes: &[u8]) -> String {
    let pairs: Vec<String> = bytes.iter().map(|byte| format!("{byte:02X}")).collect();
    pairs.join(" ")
}

/// The bytes of a text in hexadecimal; blanks may stand anywhere, and nothing else.
pub fn bytes(text: &str) -> Vec<u8> {
    let digit = |letter: char| letter.to_digit(16).expect("a hexadecimal digit") as u8;
    let letters = text.chars().filter(|letter| !letter.is_whitespace());
    let digits: Vec<u8> = letters.map(digit).collect();
    let pairs = digits.chunks(2);
    pairs
        .map(|pair| pair.iter().fold(0, |sum, digit| sum * 16 + digit))
        .collect()
}
