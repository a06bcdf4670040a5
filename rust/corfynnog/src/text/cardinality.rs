//! Cardinalities: `[*]`, `[2]`, `[0..4]`, `[2..*]`.

use crate::diagram::Limits;
use crate::edition::EDITION_2;

use super::fault::{TextFault, TextRule};
use super::reader::{name_of, Found, Reader};
use super::spelling::quoted;
use super::tokens::{Read, Token};
use super::wanted::Wanted::{Integer, Mark};

/// The largest limit, that of the wider edition of files.
const LIMIT_MOST: usize = EDITION_2.most;

/// Those of a cardinality that is left out, and of `[*]`.
pub const NO_LIMITS: Limits = Limits { low: 0, up: None };

impl Reader<'_> {
    /// Behind an opening bracket, up to the closing one.
    pub fn limits(&mut self) -> Found<Limits> {
        let first = self.step(&[Integer, Mark("*")])?;
        if first.read == Read::Mark("*") {
            self.mark("]")?;
            return Ok(NO_LIMITS);
        }
        let low = limit(first)?;
        if self.step(&[Mark("]"), Mark("..")])?.read == Read::Mark("]") {
            return Ok(Limits { low, up: Some(low) });
        }
        let second = self.step(&[Integer, Mark("*")])?;
        let mut up = None;
        if second.read != Read::Mark("*") {
            up = Some(upper_limit(low, second)?);
        }
        self.mark("]")?;
        Ok(Limits { low, up })
    }
}

/// The value of a number that is a limit.
fn limit(token: Token) -> Found<usize> {
    let digits = name_of(token).text;
    let more = |value: usize, digit: u8| value * 10 + usize::from(digit - b'0');
    // Past the largest limit the value no longer matters, so that it stays small.
    let value = digits
        .bytes()
        .fold(0, |value, digit| more(value, digit).min(LIMIT_MOST + 1));
    if value <= LIMIT_MOST {
        return Ok(value);
    }
    let what = format!(
        "the limit {} is too large, at most {LIMIT_MOST} is allowed",
        quoted(digits)
    );
    Err(TextFault::of(TextRule::Grammar, token.at, what)
        .with("lower the limit, or write * where there is no upper limit"))
}

/// The value of an upper limit, which is not below the lower one.
fn upper_limit(low: usize, token: Token) -> Found<usize> {
    let up = limit(token)?;
    if up >= low {
        return Ok(up);
    }
    let what = format!("the upper limit {up} is below the lower limit {low}");
    Err(TextFault::of(TextRule::Grammar, token.at, what)
        .with("write the smaller number first, as in [0..4], or raise the upper limit"))
}

#[cfg(test)]
mod tests {
    use super::*;
    use crate::text::read_text;

    #[test]
    fn limits_that_are_allowed() {
        for (cardinality, low, up) in [
            ("[*]", 0, None),
            ("[0..256]", 0, Some(256)),
            ("[255]", 255, Some(255)),
            ("[0..4000]", 0, Some(4000)),
            ("[4000..*]", 4000, None),
            ("[0004000]", 4000, Some(4000)),
        ] {
            let text = format!("classdiagram d {{class A; association {cardinality} A -> A;}}");
            let read = read_text(text.as_bytes()).expect(cardinality);
            let limits = read.diagram.associations[0].left.limits;
            assert_eq!(limits, Limits { low, up }, "{cardinality}");
        }
    }
}
