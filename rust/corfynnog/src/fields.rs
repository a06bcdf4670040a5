//! The fields of a file and where they stand.
//!
//! Whether a file is accepted is the library's word alone. This reading finds the names in an
//! accepted file, and the place and the words for the refusal of another.

use crate::fault::{Fault, FieldPlace};
use crate::names::{count_of, ordinal};

/// A tag of one kind of file.
pub struct TagRule {
    pub tag: u8,
    pub name: &'static str,
    pub most: usize,
}

/// A kind of file: its tags in rising order, the first of them once and in front.
pub struct FileKind {
    pub name: &'static str,
    pub tags: &'static [TagRule],
}

pub static DIAGRAM: FileKind = FileKind {
    name: "diagram",
    tags: &[
        rule(0x10, "edition", 1),
        rule(0x20, "value type", 12),
        rule(0x30, "type", 24),
        rule(0x40, "attribute", 32),
        rule(0x50, "association", 16),
    ],
};

pub static RECORD: FileKind = FileKind {
    name: "record",
    tags: &[
        rule(0x60, "object count", 1),
        rule(0x61, "object", 8),
        rule(0x62, "value", 256),
        rule(0x63, "link", 2048),
    ],
};

/// Shortens the tables above.
const fn rule(tag: u8, name: &'static str, most: usize) -> TagRule {
    TagRule { tag, name, most }
}

impl FileKind {
    /// The tag that a file of this kind starts with.
    pub fn first_tag(&self) -> u8 {
        self.tags[0].tag
    }

    /// The most fields of a tag.
    pub fn most(&self, tag: u8) -> usize {
        self.rule_of(tag).map_or(0, |rule| rule.most)
    }

    /// The row of a tag, if it belongs to this kind of file.
    pub fn rule_of(&self, tag: u8) -> Option<&'static TagRule> {
        self.tags.iter().find(|rule| rule.tag == tag)
    }
}

/// What a tag stands for, in words.
pub fn tag_name(tag: u8) -> Option<&'static str> {
    let mut kinds = [&DIAGRAM, &RECORD].into_iter();
    kinds
        .find_map(|kind| kind.rule_of(tag))
        .map(|rule| rule.name)
}

/// One field; its content is a part of the file itself.
#[derive(Clone, Copy)]
pub struct Field<'a> {
    /// Counted from 1.
    pub number: usize,
    pub tag: u8,
    pub start: usize,
    pub content: &'a [u8],
}

/// Bytes of a field in front of its content: the tag and the length.
const HEAD: usize = 3;

impl Field<'_> {
    /// The byte of the file that the content starts at.
    pub fn content_start(&self) -> usize {
        self.start + HEAD
    }
}

/// Goes through a file's fields from left to right.
pub struct Fields<'a> {
    file: &'a [u8],
    kind: &'static FileKind,
    at: usize,
    number: usize,
    last_tag: u8,
    /// Fields with the last tag so far.
    same_tag: usize,
    /// As many objects as the object count says; none before it was read.
    pub objects: Option<usize>,
}

impl<'a> Fields<'a> {
    /// All fields are ahead.
    pub fn of(file: &'a [u8], kind: &'static FileKind) -> Fields<'a> {
        Fields {
            file,
            kind,
            at: 0,
            number: 0,
            last_tag: 0,
            same_tag: 0,
            objects: None,
        }
    }

    /// The next field, tried for its end, its tag and its number, in this order; none at the end.
    pub fn next(&mut self) -> Result<Option<Field<'a>>, Fault> {
        if self.at == self.file.len() {
            return match self.number {
                0 => {
                    let to_do = "fetch or write the file again, or check its name";
                    Err(Fault::of_file(2, 0, "the file is empty", to_do))
                }
                _ => Ok(None),
            };
        }
        let field = self.whole_field()?;
        self.try_tag(&field)?;
        self.same_tag = match field.tag == self.last_tag {
            true => self.same_tag + 1,
            false => 1,
        };
        self.try_number(&field)?;
        self.last_tag = field.tag;
        self.number = field.number;
        self.at = field.content_start() + field.content.len();
        Ok(Some(field))
    }

    /// The field at the present byte, where it ends within the file.
    fn whole_field(&self) -> Result<Field<'a>, Fault> {
        let rest = &self.file[self.at..];
        let [tag, high, low, behind @ ..] = rest else {
            let there = rest.len();
            let what = format!("the file ends after {there} of the field's three leading bytes");
            return Err(self.cut(rest, what));
        };
        let length = usize::from(*high) * 256 + usize::from(*low);
        let Some(content) = behind.get(..length) else {
            let (announced, left) = (count_of(length, "byte", "bytes"), behind.len());
            let what = format!(
                "the field announces {announced} of content, but the file has only {left} more"
            );
            return Err(self.cut(rest, what));
        };
        Ok(Field {
            number: self.number + 1,
            tag: *tag,
            start: self.at,
            content,
        })
    }

    /// Refusal 1: the rest of the file is no whole field.
    fn cut(&self, rest: &[u8], what: String) -> Fault {
        let is_line_end = |byte: &u8| matches!(byte, b'\n' | b'\r');
        let (what, to_do) = if self.number > 0 && rest.iter().all(is_line_end) {
            let what = format!(
                "a line end stands behind the last field ({})",
                count_of(rest.len(), "byte", "bytes")
            );
            (what, "take away the line end at the end of the file".into())
        } else if self.kind.rule_of(rest[0]).is_none() {
            (what, self.foreign_tag_advice())
        } else {
            let to_do = "the file was probably cut off: fetch or write it again, \
                         or correct the field's length";
            (what, to_do.into())
        };
        let place = FieldPlace {
            number: self.number + 1,
            tag: rest[0],
            start: self.at,
        };
        Fault {
            field: Some(place),
            ..Fault::of_file(1, self.file.len(), what, to_do)
        }
    }

    /// What to do about a tag that this kind of file does not have.
    fn foreign_tag_advice(&self) -> String {
        let (kind, first) = (self.kind.name, self.kind.first_tag());
        match self.number {
            0 => format!("check the file's name: a {kind} file starts with the byte 0x{first:02X}"),
            before => {
                format!("correct the length of field {before}, or take out what stands behind it")
            }
        }
    }

    /// Refusal 2: the tag and its place among the others.
    fn try_tag(&self, field: &Field) -> Result<(), Fault> {
        let first = &self.kind.tags[0];
        let (tag, kind) = (field.tag, self.kind.name);
        let (what, to_do) = if self.kind.rule_of(tag).is_none() {
            let what = format!("a {kind} file has no fields with tag 0x{tag:02X}");
            (what, self.foreign_tag_advice())
        } else if field.number == 1 && tag != first.tag {
            let start = format!("0x{:02X}", first.tag);
            (
                format!("a {kind} file starts with tag {start}, this one with 0x{tag:02X}"),
                format!("put the {} ({start}) in front", first.name),
            )
        } else if field.number > 1 && tag == first.tag {
            let what = format!("a second field with tag 0x{tag:02X}, which comes once");
            (what, "take this field out".into())
        } else if tag < self.last_tag {
            let last = self.last_tag;
            (
                format!("tag 0x{tag:02X} comes after tag 0x{last:02X}, but tags never fall"),
                format!("put this field in front of the first one with tag 0x{last:02X}"),
            )
        } else {
            return Ok(());
        };
        Err(Fault::within(field, 2, field.start, what, to_do))
    }

    /// Refusal 4: more fields of this tag than allowed.
    fn try_number(&self, field: &Field) -> Result<(), Fault> {
        let Some(rule) = self.kind.rule_of(field.tag) else {
            return Ok(());
        };
        let objects = self.objects.filter(|_| field.tag == 0x61);
        let most = objects.unwrap_or(rule.most);
        if self.same_tag <= most {
            return Ok(());
        }
        let (name, place) = (rule.name, ordinal(self.same_tag));
        let (what, to_do) = match objects {
            None => (
                format!("this is the {place} {name}, but at most {most} are allowed"),
                format!("take {name}s out until {most} are left"),
            ),
            Some(objects) => (
                format!("this is the {place} object (object {objects}), but the object count is {objects}"),
                match objects == rule.most {
                    true => format!("take it out: a record has at most {objects} objects"),
                    false => "take it out, or correct the object count".to_string(),
                },
            ),
        };
        Err(Fault::within(field, 4, field.start, what, to_do))
    }
}
