//! What diagram files and record files share: fields, their tags, and the parts of a content.

use crate::refusal::{require, BAD_TAG, OFF_LAYOUT, PASSES_END};
use crate::Name;
use std::ops::RangeInclusive;

/// One field of a file and the file behind it.
struct Field<'a> {
    tag: u8,
    content: &'a [u8],
    behind: &'a [u8],
}

/// Splits off the first field; none where it passes the end of the file.
fn first_field(file: &[u8]) -> Option<Field<'_>> {
    let (head, rest) = file.split_at_checked(3)?;
    let length = usize::from(head[1]) * 256 + usize::from(head[2]);
    let (content, behind) = rest.split_at_checked(length)?;
    Some(Field {
        tag: head[0],
        content,
        behind,
    })
}

/// Tells whether a tag may follow the one before it; the first of `tags` comes once, at the start.
fn tag_fits(tags: &[u8], before: Option<u8>, tag: u8) -> bool {
    match before {
        None => tag == tags[0],
        Some(before) => tags[1..].contains(&tag) && tag >= before,
    }
}

/// Tries the fields of a file left to right, each for 1, then for 2, then by `take`.
pub fn each_field<'a>(
    file: &'a [u8],
    tags: &[u8],
    mut take: impl FnMut(u8, Content<'a>) -> Result<(), u8>,
) -> Result<(), u8> {
    require(!file.is_empty(), BAD_TAG)?;
    let mut rest = file;
    let mut before = None;
    while !rest.is_empty() {
        let field = first_field(rest).ok_or(PASSES_END)?;
        require(tag_fits(tags, before, field.tag), BAD_TAG)?;
        take(field.tag, Content(field.content))?;
        before = Some(field.tag);
        rest = field.behind;
    }
    Ok(())
}

/// The part of a content that is not taken yet; whatever is off the layout is refused with 3.
pub struct Content<'a>(&'a [u8]);

impl Content<'_> {
    /// Takes one byte.
    pub fn byte(&mut self) -> Result<u8, u8> {
        let (&first, rest) = self.0.split_first().ok_or(OFF_LAYOUT)?;
        self.0 = rest;
        Ok(first)
    }

    /// Takes one byte out of a range.
    pub fn byte_within(&mut self, range: RangeInclusive<u8>) -> Result<u8, u8> {
        let byte = self.byte()?;
        require(range.contains(&byte), OFF_LAYOUT)?;
        Ok(byte)
    }

    /// Takes two bytes as one number, the high one first.
    pub fn two_bytes(&mut self) -> Result<u16, u8> {
        Ok(u16::from_be_bytes([self.byte()?, self.byte()?]))
    }

    /// Takes a name of 1 to 16 bytes.
    pub fn name(&mut self) -> Result<Name, u8> {
        self.name_of_length(1..=16)
    }

    /// Takes a name that may have length 0, the unnamed value.
    pub fn name_or_none(&mut self) -> Result<Name, u8> {
        self.name_of_length(0..=16)
    }

    /// Takes a length byte within a range and a name of that length.
    fn name_of_length(&mut self, lengths: RangeInclusive<u8>) -> Result<Name, u8> {
        let length = self.byte_within(lengths)?;
        let split = self.0.split_at_checked(usize::from(length));
        let (name, rest) = split.ok_or(OFF_LAYOUT)?;
        let plain = |b: &u8| b.is_ascii_alphanumeric() || *b == b'_';
        require(name.iter().all(plain), OFF_LAYOUT)?;
        self.0 = rest;
        Ok(name.to_vec())
    }

    /// Refuses what is left over.
    pub fn end(&self) -> Result<(), u8> {
        require(self.0.is_empty(), OFF_LAYOUT)
    }
}

/// Tells whether each entry is above the one before it.
pub fn strictly_rising<T: Ord>(row: &[T]) -> bool {
    row.windows(2).all(|pair| pair[0] < pair[1])
}

/// Tells whether no entry comes twice.
pub fn all_differ<T: PartialEq>(row: &[T]) -> bool {
    (0..row.len()).all(|i| !row[..i].contains(&row[i]))
}

/// Writes one field behind what is there.
pub fn put_field(file: &mut Vec<u8>, tag: u8, content: &[u8]) {
    let length = u16::try_from(content.len()).expect("contents are far below 65,536 bytes");
    file.push(tag);
    file.extend(length.to_be_bytes());
    file.extend(content);
}

/// Writes a name with its length byte behind what is there.
pub fn put_name(content: &mut Vec<u8>, name: &[u8]) {
    content.push(u8::try_from(name.len()).expect("names have at most 16 bytes"));
    content.extend(name);
}
