//! Cardinalities by their value.

use crate::diagram::Limits;
use crate::edition::Edition;

/// "A cardinality left out is [*]"
pub const ANY_NUMBER: Limits = Limits { low: 0, up: None };

/// Whether a word is an integer: "a run of digits".
pub fn is_integer(word: &[u8]) -> bool {
    word.iter().all(u8::is_ascii_digit)
}

/// The value of a limit, however many digits it has; none above 4,000: "Text takes the wider range
/// too."
pub fn limit(digits: &[u8]) -> Option<u16> {
    let zeros = digits.iter().take_while(|&&digit| digit == b'0').count();
    let rest = &digits[zeros..];
    if rest.len() > 4 {
        return None;
    }
    let value = rest
        .iter()
        .fold(0, |sum: u16, &digit| sum * 10 + u16::from(digit - b'0'));
    (value <= Edition::Two.largest()).then_some(value)
}

/// Limits with an upper one; none where it is below the lower.
pub fn between(low: u16, up: u16) -> Option<Limits> {
    (low <= up).then_some(Limits { low, up: Some(up) })
}

#[cfg(test)]
mod tests {
    use super::*;

    #[test]
    fn limits_have_their_value_at_any_length() {
        assert_eq!(limit(b"0"), Some(0));
        assert_eq!(limit(b"255"), Some(255));
        assert_eq!(limit(b"4000"), Some(4_000));
        assert_eq!(limit(b"4001"), None);
        assert_eq!(limit(b"9999"), None);
        assert_eq!(limit(b"65535"), None);
        assert_eq!(limit(b"65537"), None);
        assert_eq!(limit(b"0000000000000000000000000000004000"), Some(4_000));
        assert_eq!(limit(b"4294967297"), None);
        assert_eq!(limit(b"18446744073709551617"), None);
        assert_eq!(limit(&[b'0'; 70_000]), Some(0));
        assert_eq!(limit(&[b'9'; 70_000]), None);
    }
}
