//! A site text by its grammar, from left to right: its declarations, or the first place where it is
//! outside the grammar or has a name that is too long.

use crate::object_diagram::unnamed;
use crate::text::Wanted::{self, AnyWord, Mark, Name as NameOf, Word};
use crate::text::{name_of, try_length, Found, Language, Name, Read, Reader};

use super::declarations::{Link, Object, Site, Value};
use super::hints;

/// Site texts. Every word may be a name.
pub static SITE_TEXT: Language = Language {
    marks: &["->", "{", "}", ";", ":", "=", "(", ")", "\""],
    keywords: &[],
    stray: hints::stray,
    slip: hints::slip,
};

/// What a declaration starts with, or the end of the site.
const BODY: [Wanted; 3] = [AnyWord("for an object"), Word("link"), Mark("}")];

const LINKED: Wanted = AnyWord("of an object");
pub const ATTRIBUTE: &str = "of an attribute";
pub const CONSTANT: &str = "of a constant";
pub const ROLE: &str = "of a role";

/// The declarations of a text that belongs to the grammar.
pub fn read(text: &[u8]) -> Found<Site<'_>> {
    let mut reader = Reader::of(text, &SITE_TEXT);
    reader.step(&[Word("objectdiagram")])?;
    let mut site = Site {
        name: name_of(reader.step(&[AnyWord("for the site")])?),
        objects: Vec::new(),
        links: Vec::new(),
    };
    reader.mark("{")?;
    loop {
        let first = reader.step(&BODY)?;
        if first.read == Read::Mark("}") {
            break;
        }
        declaration(&mut reader, name_of(first), &mut site)?;
    }
    reader.step(&[Wanted::End])?;
    Ok(site)
}

/// An object or a link, behind its first word: an object is told by its colon.
fn declaration<'a>(reader: &mut Reader<'a>, first: Name<'a>, site: &mut Site<'a>) -> Found<()> {
    let next = match first.text {
        "link" => reader.step(&[LINKED, Mark(":")])?,
        _ => reader.step(&[Mark(":")])?,
    };
    match next.read {
        Read::Word(_) => site.links.push(link(reader, first.at, name_of(next))?),
        _ => site.objects.push(object(reader, first)?),
    }
    Ok(())
}

/// Behind an object's colon.
fn object<'a>(reader: &mut Reader<'a>, name: Name<'a>) -> Found<Object<'a>> {
    let of = reader.name("of a type")?;
    let values = match reader.step(&[Mark("{"), Mark(";")])?.read {
        Read::Mark("{") => values(reader)?,
        _ => Vec::new(),
    };
    Ok(Object { name, of, values })
}

/// Behind an object's opening brace, up to the closing one.
fn values<'a>(reader: &mut Reader<'a>) -> Found<Vec<Value<'a>>> {
    let mut values = Vec::new();
    loop {
        let token = reader.step(&[NameOf("of a value type"), Mark("}")])?;
        if token.read == Read::Mark("}") {
            return Ok(values);
        }
        let value_type = name_of(token);
        let attribute = reader.name(ATTRIBUTE)?;
        reader.mark("=")?;
        let constant = constant(reader, value_type)?;
        reader.mark(";")?;
        values.push(Value {
            value_type,
            attribute,
            constant,
        });
    }
}

/// Behind a value's equals sign; in quotation marks it is a constant, however it is spelled.
fn constant<'a>(reader: &mut Reader<'a>, value_type: Name) -> Found<&'a str> {
    let token = reader.step(&[AnyWord(CONSTANT), Mark("\"")])?;
    if token.read == Read::Mark("\"") {
        let constant = reader.name(CONSTANT)?;
        reader.mark("\"")?;
        return Ok(constant.text);
    }
    let word = name_of(token);
    let of_the_type = unnamed(value_type.text);
    if word.text == of_the_type {
        return Ok("");
    }
    match try_length(word) {
        Err(fault) if word.text.starts_with(&unnamed("")) => Err(fault.with(format!(
            "the unnamed value of {} is written {of_the_type}",
            value_type.text
        ))),
        tried => tried.map(|()| word.text),
    }
}

/// Behind a link's first object.
fn link<'a>(reader: &mut Reader<'a>, at: usize, from: Name<'a>) -> Found<Link<'a>> {
    reader.mark("->")?;
    reader.mark("(")?;
    let role = reader.name(ROLE)?;
    reader.mark(")")?;
    let to = name_of(reader.step(&[LINKED])?);
    reader.mark(";")?;
    Ok(Link { at, from, role, to })
}
