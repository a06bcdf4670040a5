//! Rows of words and marks as texts, with blanks of every kind or with as few as can be.

use crate::random::Random;
use crate::texts::Token;

/// The bytes that part words and marks.
const BLANKS: [u8; 4] = [0x20, 0x09, 0x0A, 0x0D];

/// How a text is laid out.
#[derive(Clone, Copy)]
enum Layout {
    /// No blank where none is needed.
    Tight,
    /// One blank between all.
    Even,
    /// Any number of blanks of any kind, none where none is needed.
    Loose,
}

/// The text of these tokens, in any layout.
pub fn laid_out(random: &mut Random, tokens: &[Token]) -> Vec<u8> {
    let layout = *random.pick(&[Layout::Tight, Layout::Even, Layout::Loose]);
    let mut text = Vec::new();
    for (at, token) in tokens.iter().enumerate() {
        let needed = at > 0 && run_together(&tokens[at - 1], token);
        put_blanks(random, layout, needed, &mut text);
        text.extend_from_slice(token);
    }
    put_blanks(random, layout, false, &mut text);
    text
}

/// Whether two tokens side by side would read as one word.
fn run_together(one: &[u8], other: &[u8]) -> bool {
    let of_a_word = |byte: &u8| byte.is_ascii_alphanumeric() || *byte == b'_';
    one.last().is_some_and(of_a_word) && other.first().is_some_and(of_a_word)
}

/// Adds the blanks before a token or behind the last.
fn put_blanks(random: &mut Random, layout: Layout, needed: bool, text: &mut Vec<u8>) {
    let least = usize::from(needed);
    let (count, kinds) = match layout {
        Layout::Tight => (least, 1),
        Layout::Even => (1, 1),
        Layout::Loose => (least + *random.pick(&[0, 0, 0, 1, 2, 5]), BLANKS.len()),
    };
    for _ in 0..count {
        text.push(*random.pick(&BLANKS[..kinds]));
    }
}
