//! Advice for the likeliest slips against the grammar of site texts.

use crate::text::Wanted::{self, AnyWord, End, Mark, Name, Word};
use crate::text::{Read, ENDS_EARLY};

use super::grammar::{ATTRIBUTE, CONSTANT, ROLE};

const LINK: &str = "a link is written link A -> (role) B;";
const VALUE: &str = "a value is written TYPE ATTRIBUTE = CONSTANT;";
const UNNAMED: &str = "the unnamed value of a type T is written some_type_T";
const OPEN: &str = "a value or a closing brace is missing before this";

/// What to do about a byte that starts neither a word nor a mark.
pub fn stray(rest: &[u8]) -> Option<&'static str> {
    let starts = |front: &str| rest.starts_with(front.as_bytes());
    if starts("-") || starts("<") {
        return Some(LINK);
    }
    if starts(",") {
        return Some("a semicolon stands behind each value and each link, and there are no commas");
    }
    let is_quote = starts("'") || starts("“") || starts("”");
    is_quote.then_some("take the quotation marks out, or write them as \"")
}

/// What to do where this was read and that was wanted.
pub fn slip(read: Read, wanted: &[Wanted]) -> Option<&'static str> {
    let wants = |one: Wanted| wanted.contains(&one);
    let wants_constant = wants(AnyWord(CONSTANT)) || wants(Name(CONSTANT));
    let wants_value = wants(Mark("=")) || wants(Name(ATTRIBUTE));
    let to_do = match read {
        _ if wants(End) => "a file holds one site: take out what stands behind its closing brace",
        Read::End => ENDS_EARLY,
        Read::Mark(";") if wants(Word("link")) => "no semicolon stands behind a closing brace",
        Read::Mark(":") if wants(Word("link")) => "every object has a name before the colon",
        Read::Mark("->" | ":") if wants_value => OPEN,
        _ if wants_value => VALUE,
        _ if wants_constant => UNNAMED,
        _ if wants(Mark("\"")) => "a constant is one word of letters, digits and underscores",
        _ if wants(Mark("->")) || wants(Mark("(")) || wants(Name(ROLE)) => LINK,
        _ if wants(Mark("{")) && wants(Mark(";")) => {
            "behind an object's type stand its values in braces, or a semicolon"
        }
        _ if wants(Mark(":")) => {
            "an object is written NAME:TYPE {}, and a link link A -> (role) B;"
        }
        _ => return None,
    };
    Some(to_do)
}
