//! JSON that is written, never read.

use std::ffi::{OsStr, OsString};
use std::fmt;
use std::os::unix::ffi::OsStrExt;

/// A JSON value; an object keeps the order of its members.
#[derive(Clone, Debug, PartialEq, Eq)]
pub enum Json {
    Null,
    Bool(bool),
    Number(usize),
    Text(String),
    /// The name of a file, or a word of the command line, byte for byte.
    Name(OsString),
    List(Vec<Json>),
    Object(Vec<(&'static str, Json)>),
    /// Several answers, a line each.
    Lines(Vec<Json>),
}

impl Json {
    /// A string.
    pub fn text(text: impl Into<String>) -> Json {
        Json::Text(text.into())
    }

    /// The name of a file or a word of the command line.
    pub fn name(name: impl AsRef<OsStr>) -> Json {
        Json::Name(name.as_ref().to_os_string())
    }

    /// A list of whatever becomes JSON.
    pub fn list<T>(items: impl IntoIterator<Item = T>, one: impl FnMut(T) -> Json) -> Json {
        Json::List(items.into_iter().map(one).collect())
    }

    /// Gives the member of an object another value.
    pub fn set(&mut self, name: &'static str, value: Json) {
        let Json::Object(members) = self else {
            return;
        };
        match members.iter_mut().find(|(member, _)| *member == name) {
            Some(member) => member.1 = value,
            None => members.push((name, value)),
        }
    }

    /// The value, or null.
    pub fn or_null<T>(item: Option<T>, one: impl FnOnce(T) -> Json) -> Json {
        item.map_or(Json::Null, one)
    }
}

impl fmt::Display for Json {
    fn fmt(&self, out: &mut fmt::Formatter) -> fmt::Result {
        match self {
            Json::Null => out.write_str("null"),
            Json::Bool(value) => write!(out, "{value}"),
            Json::Number(number) => write!(out, "{number}"),
            Json::Text(text) => write_text(text, out),
            Json::Name(name) => write_name(name, out),
            Json::List(items) => {
                out.write_str("[")?;
                for (i, item) in items.iter().enumerate() {
                    write!(out, "{}{item}", separator(i))?;
                }
                out.write_str("]")
            }
            Json::Lines(answers) => {
                let answers: Vec<String> = answers.iter().map(Json::to_string).collect();
                out.write_str(&answers.join("\n"))
            }
            Json::Object(members) => {
                out.write_str("{")?;
                for (i, (name, value)) in members.iter().enumerate() {
                    out.write_str(separator(i))?;
                    write_text(name, out)?;
                    write!(out, ": {value}")?;
                }
                out.write_str("}")
            }
        }
    }
}

/// What stands in front of the item of that index.
fn separator(index: usize) -> &'static str {
    match index {
        0 => "",
        _ => ", ",
    }
}

/// A string in quotes.
fn write_text(text: &str, out: &mut fmt::Formatter) -> fmt::Result {
    out.write_str("\"")?;
    write_letters(text, out)?;
    out.write_str("\"")
}

/// A name in quotes. A byte that is no UTF-8 is the lone surrogate with that low byte.
fn write_name(name: &OsStr, out: &mut fmt::Formatter) -> fmt::Result {
    out.write_str("\"")?;
    for chunk in name.as_bytes().utf8_chunks() {
        write_letters(chunk.valid(), out)?;
        for byte in chunk.invalid() {
            write!(out, "\\udc{byte:02x}")?;
        }
    }
    out.write_str("\"")
}

/// What stands between the quotes; control characters are escaped.
fn write_letters(text: &str, out: &mut fmt::Formatter) -> fmt::Result {
    for letter in text.chars() {
        match letter {
            '"' => out.write_str("\\\"")?,
            '\\' => out.write_str("\\\\")?,
            '\u{0}'..='\u{1F}' | '\u{7F}' => write!(out, "\\u{:04x}", u32::from(letter))?,
            _ => write!(out, "{letter}")?,
        }
    }
    Ok(())
}

#[cfg(test)]
mod tests {
    use super::*;

    #[test]
    fn strings_are_escaped() {
        let text = Json::text("a\"b\\c\nd\u{7f}é");
        assert_eq!(text.to_string(), r#""a\"b\\c\u000ad\u007fé""#);
    }

    #[test]
    fn names_are_exact() {
        let name = |bytes| Json::name(OsStr::from_bytes(bytes)).to_string();
        assert_eq!(name("é\n\\".as_bytes()), r#""é\u000a\\""#);
        assert_eq!(name(b"a\xE9b\xFF\x80"), r#""a\udce9b\udcff\udc80""#);
    }

    #[test]
    fn lists_and_objects() {
        let numbers = Json::list([1, 20], Json::Number);
        let object = Json::Object(vec![("n", numbers), ("none", Json::Null)]);
        assert_eq!(object.to_string(), r#"{"n": [1, 20], "none": null}"#);
        let both = Json::list([true, false], Json::Bool);
        assert_eq!(both.to_string(), "[true, false]");
        assert_eq!(Json::List(vec![]).to_string(), "[]");
    }
}
