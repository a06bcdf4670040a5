//! Advice for the likeliest slips against the grammar of diagram texts.

use super::language::is_name;
use super::stray::ENDS_EARLY;
use super::tokens::Read;
use super::wanted::Wanted::{self, End, Mark, Word};

/// What to do about a byte that starts neither a word nor a mark.
pub fn stray(rest: &[u8]) -> Option<&'static str> {
    let starts = |front: &[u8]| rest.starts_with(front);
    if starts("«".as_bytes()) || starts("»".as_bytes()) {
        return Some("write the stereotype as <<singleton>>");
    }
    if starts(b"-") || starts(b"<") || starts(b">") || starts(b"=") {
        return Some("the arrows are ->, <-, <-> and --, and the stereotype is <<singleton>>");
    }
    let to_do = "a type is one name without dots, and a cardinality is written as [0..4]";
    starts(b".").then_some(to_do)
}

/// What to do where this was read and that was wanted.
pub fn slip(read: Read, wanted: &[Wanted]) -> Option<&'static str> {
    match read {
        Read::Word(word) if !is_name(word) => at_place(read, wanted).or_else(|| keyword(wanted)),
        _ => at_place(read, wanted),
    }
}

/// By what was wanted.
fn at_place(read: Read, wanted: &[Wanted]) -> Option<&'static str> {
    let wants = |one: Wanted| wanted.contains(&one);
    let wants_name = wanted.iter().any(|w| w.is_name());
    let to_do = match read {
        _ if wants(Word("classdiagram")) => {
            "check the file's name: a diagram text starts with classdiagram NAME {, \
             a diagram file with the byte 0x10, a record file with the byte 0x60, \
             a site text with objectdiagram NAME {"
        }
        _ if wants(End) => {
            "a file holds one diagram, which ends with this brace: take out the rest"
        }
        Read::End => ENDS_EARLY,
        _ if wants(Word("singleton")) => "the only stereotype is <<singleton>>",
        _ if wanted == [Word("class")] => {
            "abstract and <<singleton>> stand in front of class alone, and never together"
        }
        Read::Mark(";") if wants(Mark("<<")) => "no semicolon stands behind a closing brace",
        Read::Mark("{") if !wants(Mark("{")) && wants(Mark(";")) && !wants(Mark("[")) => {
            "an interface has no body: end it with a semicolon, and let classes have the attributes"
        }
        Read::Mark("}") if wanted == [Mark(","), Mark(";")] => {
            "a semicolon stands behind the last constant: enum E {a, b;}"
        }
        Read::Mark("}") if wants_name && wants_name_of_constant(wanted) => {
            "an enumeration without constants is written without braces: enum E;"
        }
        Read::Word("extends") if wanted == [Mark(","), Mark(";"), Mark("{")] => {
            "extends stands in front of implements"
        }
        Read::Word("implements") if wants(Word("extends")) || wanted == [Mark(","), Mark(";")] => {
            "an interface extends interfaces; only a class implements them"
        }
        Read::Mark("[") if wants(Mark("->")) => {
            "the left cardinality stands in front of the type: [1] Shelf (shelf) -> ..."
        }
        Read::Word(_) if wants(Mark("->")) => {
            "an association has no name of its own: behind its left type comes a role or the arrow"
        }
        Read::Mark("(") if wants(Mark("[")) && wants_name => {
            "the left role stands behind the type: [1] Shelf (shelf) -> ..."
        }
        Read::Mark("(") if wants(Mark("[")) => {
            "the right role stands in front of the type: ... -> (cards) Card [0..4]"
        }
        _ => return None,
    };
    Some(to_do)
}

/// The first constant of an enumeration is wanted.
fn wants_name_of_constant(wanted: &[Wanted]) -> bool {
    wanted == [Wanted::Name("for a constant")]
}

/// A word of the grammar where a name is wanted.
fn keyword(wanted: &[Wanted]) -> Option<&'static str> {
    let wants_name = wanted.iter().any(|w| w.is_name());
    if wants_name && wanted.contains(&Mark("}")) {
        return Some("close the class's body with } first; a word of the grammar is no name");
    }
    wants_name.then_some(
        "this word belongs to the grammar and is no name; spelled otherwise (Class) it is one",
    )
}
