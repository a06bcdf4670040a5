//! Taking a field's content apart. A fault of the layout is refusal 3.

use std::ops::RangeInclusive;

use crate::fault::Fault;
use crate::fields::Field;
use crate::names::count_of;

/// The longest name.
const NAME_MOST: usize = 16;

/// A number of a content, with the byte of the file that it stands at.
#[derive(Clone, Copy)]
pub struct Number {
    pub value: usize,
    pub byte: usize,
}

/// A name of a content, with the byte of the file that it starts at (its length byte).
#[derive(Clone)]
pub struct FoundName {
    pub text: String,
    pub byte: usize,
}

/// What is left of a content.
pub struct Content<'a> {
    field: Field<'a>,
    at: usize,
}

impl<'a> Content<'a> {
    /// The whole content is left.
    pub fn of(field: Field<'a>) -> Content<'a> {
        Content { field, at: 0 }
    }

    /// A fault at the present byte.
    fn off_layout(&self, what: String, to_do: &str) -> Fault {
        Fault::within(&self.field, 3, self.byte(), what, to_do)
    }

    /// The byte of the file that comes next.
    fn byte(&self) -> usize {
        self.field.content_start() + self.at
    }

    /// Any number.
    pub fn number(&mut self, what: &str) -> Result<Number, Fault> {
        let Some(&value) = self.field.content.get(self.at) else {
            let to_do = "put in what is missing, and correct the field's length";
            return Err(self.off_layout(format!("the content ends before the {what}"), to_do));
        };
        let byte = self.byte();
        self.at += 1;
        Ok(Number {
            value: usize::from(value),
            byte,
        })
    }

    /// Any number of two bytes, high byte first.
    pub fn two_byte_number(&mut self, what: &str) -> Result<Number, Fault> {
        let high = self.number(what)?;
        let low = self.number(&format!("low byte of the {what}"))?;
        Ok(Number {
            value: high.value * 256 + low.value,
            byte: high.byte,
        })
    }

    /// A number within a range; what to do about another one.
    pub fn number_in(
        &mut self,
        what: &str,
        range: RangeInclusive<usize>,
        to_do: &str,
    ) -> Result<usize, Fault> {
        let found = self.number(what)?;
        if range.contains(&found.value) {
            return Ok(found.value);
        }
        let (least, most) = (range.start(), range.end());
        let what = format!(
            "the {what} is {}, but only {least} to {most} are allowed",
            found.value
        );
        Err(self.fault(3, found.byte, what, to_do))
    }

    /// A name of 1 to 16 bytes.
    pub fn name(&mut self, what: &str) -> Result<FoundName, Fault> {
        self.name_from(what, 1)
    }

    /// A name that may have no bytes, which stands for the unnamed value.
    pub fn name_or_none(&mut self, what: &str) -> Result<FoundName, Fault> {
        self.name_from(what, 0)
    }

    /// A name of at least so many bytes.
    fn name_from(&mut self, what: &str, least: usize) -> Result<FoundName, Fault> {
        let length = self.number(&format!("length of the {what}"))?;
        if !(least..=NAME_MOST).contains(&length.value) {
            let what = format!(
                "the {what} has {} bytes, but a name has {least} to {NAME_MOST}",
                length.value
            );
            let to_do = match length.value {
                0 => "put in a name, and correct its length and the field's",
                _ => "shorten the name, and correct its length and the field's",
            };
            return Err(self.fault(3, length.byte, what, to_do));
        }
        let Some(bytes) = self.field.content[self.at..].get(..length.value) else {
            let announced = count_of(length.value, "byte", "bytes");
            let what =
                format!("the {what} announces {announced}, but the content ends before them");
            return Err(self.off_layout(what, "correct the length of the name, or of the field"));
        };
        if let Some(bad) = bytes.iter().position(|&byte| !is_name_byte(byte)) {
            let what = format!(
                "the {what} holds the byte 0x{:02X}, but a name is made of A-Z, a-z, 0-9 and _",
                bytes[bad]
            );
            let to_do = "put one of these in the place of the byte";
            return Err(self.fault(3, self.byte() + bad, what, to_do));
        }
        self.at += length.value;
        Ok(FoundName {
            text: String::from_utf8_lossy(bytes).into_owned(),
            byte: length.byte,
        })
    }

    /// The content has no further bytes.
    pub fn end(&self) -> Result<(), Fault> {
        let (more, to_do) = match self.field.content.len() - self.at {
            0 => return Ok(()),
            1 => ("one byte".to_string(), "take it out, and correct"),
            more => (format!("{more} bytes"), "take them out, and correct"),
        };
        let what = format!("{more} too many at the end of the content");
        Err(self.off_layout(what, &format!("{to_do} the field's length")))
    }

    /// A fault at a byte that was read before.
    pub fn fault(
        &self,
        refusal: u8,
        byte: usize,
        what: impl Into<String>,
        to_do: impl Into<String>,
    ) -> Fault {
        Fault::within(&self.field, refusal, byte, what, to_do)
    }
}

/// The bytes that names are made of.
fn is_name_byte(byte: u8) -> bool {
    byte.is_ascii_alphanumeric() || byte == b'_'
}
