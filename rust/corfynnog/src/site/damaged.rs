//! Damaged site texts: each is a site whose record file the library accepts, or has a fault at a
//! place of the text.

use generators::text_damage::damaged_bytes;
use generators::text_layout::laid_out;
use generators::Random;

use super::grammar::SITE_TEXT;
use super::read_back::{awkward, refusals};
use super::read_site;
use crate::object_diagram::object_diagram;
use crate::record_file::read_record;
use crate::record_writer::record_file;
use crate::text::{place_of, Read, TextRule, Tokens};

/// The words and marks of a text.
fn tokens(text: &str) -> Vec<Vec<u8>> {
    let mut tokens = Tokens::of(text.as_bytes(), SITE_TEXT.marks);
    let next = || match tokens.next().read {
        Read::Word(word) => Some(word.as_bytes().to_vec()),
        Read::Mark(mark) => Some(mark.as_bytes().to_vec()),
        Read::Stray(_) | Read::End => None,
    };
    std::iter::from_fn(next).collect()
}

/// Changes one word or mark, or adds a declaration.
fn damage(random: &mut Random, tokens: &mut Vec<Vec<u8>>) {
    if tokens.is_empty() {
        return;
    }
    let (at, other) = (random.below(tokens.len()), random.below(tokens.len()));
    let is_word = |token: &[u8]| token.first().is_some_and(u8::is_ascii_alphanumeric);
    match random.below(12) {
        0 => drop(tokens.remove(at)),
        1 => tokens.insert(at, tokens[other].clone()),
        2 => tokens.swap(at, other),
        3 => tokens.truncate(at),
        4 => tokens[at] = vec![b'n'; random.between(1, 18)],
        5 => double(tokens, at),
        6 => add_object(tokens),
        // A word in the place of another leaves most texts in the grammar.
        _ if is_word(&tokens[at]) && is_word(&tokens[other]) => tokens[at] = tokens[other].clone(),
        _ => (),
    }
}

/// Writes the value or link around a place a second time.
fn double(tokens: &mut Vec<Vec<u8>>, at: usize) {
    let is_end = |token: &Vec<u8>| [";", "{", "}"].iter().any(|end| token == end.as_bytes());
    let start = tokens[..at].iter().rposition(is_end).map_or(0, |i| i + 1);
    let end = at + tokens[at..].iter().position(is_end).map_or(0, |i| i + 1);
    let copy = tokens[start..end].to_vec();
    tokens.splice(end..end, copy);
}

/// Puts one more object in front of all others.
fn add_object(tokens: &mut Vec<Vec<u8>>) {
    let front = tokens.len().min(3);
    let object = ["o", ":", "T", ";"].map(|token| token.as_bytes().to_vec());
    tokens.splice(front..front, object);
}

/// A damaged text, in any layout.
fn damaged(random: &mut Random) -> Vec<u8> {
    let record = read_record(&awkward(random).file()).expect("a record file");
    let text = object_diagram("site", &record);
    if random.chance(1, 4) {
        return damaged_bytes(random, text.as_bytes());
    }
    let mut tokens = tokens(&text);
    for _ in 0..random.below(4) {
        damage(random, &mut tokens);
    }
    laid_out(random, &tokens)
}

/// The rule that a text breaks, its fault being told at a place of the text; else its record file.
fn tried(text: &[u8]) -> Result<Vec<u8>, TextRule> {
    let fault = match read_site(text) {
        Ok(read) => return Ok(record_file(&read.record)),
        Err(fault) => fault,
    };
    let shown = format!("{}: {fault:?}", text.escape_ascii());
    assert!(fault.at <= text.len() && !fault.what.is_empty(), "{shown}");
    assert!(!fault.what.chars().any(char::is_control), "{shown}");
    // The line starts so many bytes before.
    let start = fault.at + 1 - place_of(text, fault.at).column;
    let before = start.checked_sub(1).map(|end| text[end]);
    assert!(matches!(before, None | Some(b'\n' | b'\r')), "{shown}");
    Err(fault.rule)
}

#[test]
fn damaged_texts() {
    let mut random = Random::new(4);
    let mut files = Vec::new();
    let mut faults = Vec::new();
    for _ in 0..10_000 {
        match tried(&damaged(&mut random)) {
            Ok(file) => files.push(file),
            Err(rule) => faults.push(rule),
        }
    }
    for (file, refusal) in files.iter().zip(refusals(&files)) {
        assert_eq!(refusal, None, "{}", file.escape_ascii());
    }
    assert!(files.len() >= 1000, "{}", files.len());
    let count = |rule: TextRule| faults.iter().filter(|&&fault| fault == rule).count();
    for (rule, least) in [
        (TextRule::Grammar, 1000),
        (TextRule::Declared, 100),
        (TextRule::Count, 20),
        (TextRule::Different, 100),
    ] {
        assert!(count(rule) >= least, "{rule:?}: {}", count(rule));
    }
}

#[test]
fn any_byte_at_any_place() {
    let whole = b"objectdiagram s {a:A {V v = \"w\"; V x = some_type_V;} link a -> (r) a; b:B;}";
    let mut files = Vec::new();
    for at in 0..whole.len() {
        for byte in 0..=255 {
            let mut text = whole.to_vec();
            text[at] = byte;
            files.extend(tried(&text).ok());
        }
        assert_eq!(tried(&whole[..at]), Err(TextRule::Grammar), "{at}");
    }
    assert!(files.len() >= 500, "{}", files.len());
    assert!(refusals(&files).iter().all(Option::is_none));
}
