//! Damaged texts: a word or mark left out, doubled, exchanged or replaced; bytes changed, put in or
//! taken out.

use crate::names::{of_length, one_of, FOREIGN};
use crate::random::Random;
use crate::texts::Token;

/// Words that are no names. This list and the next are not taken from a reader, so that what a
/// reader lacks is tried on it all the same.
pub const KEYWORDS: [&str; 9] = [
    "classdiagram",
    "class",
    "extends",
    "implements",
    "interface",
    "enum",
    "association",
    "composition",
    "abstract",
];

/// Marks.
pub const MARKS: [&str; 16] = [
    "<->", "->", "<-", "--", "<<", ">>", "..", "{", "}", ";", ",", "(", ")", "[", "]", "*",
];

/// Words and marks beside those of the grammar, and numbers around the limits.
const OTHERS: [&str; 23] = [
    "singleton",
    "Class",
    "ENUM",
    "0",
    "1",
    "007",
    "100",
    "101",
    "255",
    "256",
    "4000",
    "4001",
    "0004000",
    "65535",
    "1a",
    "A",
    "a",
    "r",
    "<",
    ".",
    "-->",
    "//",
    "18446744073709551617",
];

/// Bytes that stand beside what a text may hold, or that only look like blanks.
const BYTES: [u8; 24] = [
    0x00, 0x08, 0x09, 0x0A, 0x0B, 0x0C, 0x0D, 0x20, 0x7F, 0x80, 0x85, 0xA0, 0xFF, b'-', b'<', b'>',
    b'.', b';', b'_', b'A', b'z', b'0', b'9', b'`',
];

/// The tokens with one to three of them left out, doubled, exchanged or replaced.
pub fn damaged_tokens(random: &mut Random, tokens: &[Token]) -> Vec<Token> {
    let mut tokens = tokens.to_vec();
    for _ in 0..*random.pick(&[1, 1, 1, 2, 3]) {
        damage_token(random, &mut tokens);
    }
    tokens
}

/// Does one kind of damage to the tokens.
fn damage_token(random: &mut Random, tokens: &mut Vec<Token>) {
    if tokens.is_empty() {
        return;
    }
    let (at, other) = (random.below(tokens.len()), random.below(tokens.len()));
    match random.below(16) {
        0 => {
            tokens.remove(at);
        }
        1 => tokens.insert(at, tokens[at].clone()),
        2 => tokens.swap(at, other),
        3 => tokens.insert(at, any_token(random)),
        4 => tokens[at] = any_token(random),
        5 => double_declaration(tokens, at),
        6 => lengthen_list(random, tokens),
        // A name in the place of another name leaves most texts in the grammar.
        _ => exchange_names(random, tokens),
    }
}

/// Puts a name of the text, a copy of it or a name that nobody declares into the place of another.
fn exchange_names(random: &mut Random, tokens: &mut [Token]) {
    let is_name = |at: &usize| {
        let word = &tokens[*at];
        word.first().is_some_and(u8::is_ascii_alphanumeric)
            && !KEYWORDS.iter().any(|keyword| keyword.as_bytes() == word)
    };
    let names: Vec<usize> = (0..tokens.len()).filter(is_name).collect();
    if names.is_empty() {
        return;
    }
    let (one, other) = (*random.pick(&names), *random.pick(&names));
    match random.below(4) {
        0 => tokens.swap(one, other),
        1 => tokens[one] = one_of(random, &FOREIGN),
        _ => tokens[one] = tokens[other].clone(),
    }
}

/// Writes the tokens from behind one semicolon up to the next a second time.
fn double_declaration(tokens: &mut Vec<Token>, at: usize) {
    let is_end = |token: &Token| token == b";";
    let start = tokens[..at]
        .iter()
        .rposition(is_end)
        .map_or(0, |end| end + 1);
    let Some(length) = tokens[start..].iter().position(is_end) else {
        return;
    };
    let end = start + length + 1;
    let copy = tokens[start..end].to_vec();
    tokens.splice(end..end, copy);
}

/// Repeats a parent or constant, so that there are too many or that one comes twice.
fn lengthen_list(random: &mut Random, tokens: &mut Vec<Token>) {
    let starts_entry = |at: &usize| {
        let before = tokens[*at - 1].as_slice();
        [&b"extends"[..], b"implements", b","].contains(&before)
    };
    let entries: Vec<usize> = (1..tokens.len()).filter(starts_entry).collect();
    if entries.is_empty() {
        return;
    }
    let at = *random.pick(&entries);
    let more = vec![[tokens[at].clone(), b",".to_vec()]; random.between(1, 8)];
    tokens.splice(at..at, more.into_iter().flatten());
}

/// Any word or mark, now and then one around a limit on lengths.
fn any_token(random: &mut Random) -> Token {
    match random.below(10) {
        0 => of_length(b'n', random.between(15, 18)),
        1 => of_length(b'0', random.between(15, 40)),
        2..=3 => one_of(random, &KEYWORDS),
        4..=6 => one_of(random, &MARKS),
        _ => one_of(random, &OTHERS),
    }
}

/// The text with one to three of its bytes changed, taken out or put in, or cut off.
pub fn damaged_bytes(random: &mut Random, text: &[u8]) -> Vec<u8> {
    let mut text = text.to_vec();
    for _ in 0..*random.pick(&[1, 1, 1, 2, 3]) {
        damage_byte(random, &mut text);
    }
    text
}

/// Does one kind of damage to the bytes.
fn damage_byte(random: &mut Random, text: &mut Vec<u8>) {
    let at = random.below(text.len() + 1);
    if at == text.len() {
        text.push(any_byte(random));
        return;
    }
    match random.below(14) {
        0 => text.truncate(at),
        1 => {
            text.remove(at);
        }
        2 => text.insert(at, any_byte(random)),
        3 => text.insert(at, text[at]),
        4 => text[at] ^= 1 << random.below(8),
        5 => text[at] = text[random.below(text.len())],
        6 => text[at] = text[at].wrapping_add(1),
        7 => text[at] = any_byte(random),
        // A letter or digit in the place of another leaves more texts in the grammar.
        _ => exchange_letters(random, text),
    }
}

/// Puts a copy of one of the text's letters and digits into the place of another.
fn exchange_letters(random: &mut Random, text: &mut [u8]) {
    let is_letter = |at: &usize| text[*at].is_ascii_alphanumeric();
    let letters: Vec<usize> = (0..text.len()).filter(is_letter).collect();
    // Capitals and digits stand in names and integers alone.
    let in_names = |at: &&usize| !text[**at].is_ascii_lowercase();
    let names: Vec<usize> = letters.iter().filter(in_names).copied().collect();
    if !names.is_empty() {
        text[*random.pick(&names)] = text[*random.pick(&letters)];
    }
}

/// A byte beside what a text may hold, or any.
fn any_byte(random: &mut Random) -> u8 {
    match random.chance(1, 3) {
        true => random.byte(),
        false => *random.pick(&BYTES),
    }
}
