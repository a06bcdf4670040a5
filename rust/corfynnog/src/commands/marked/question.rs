//! What a row asks.

use std::str::FromStr;

use super::files::{Diagram, Record};

/// An old diagram and a new one.
#[derive(Debug, PartialEq, Eq)]
pub struct Pair {
    pub old: &'static Diagram,
    pub new: &'static Diagram,
}

/// A question to the proved code.
#[derive(Debug, PartialEq, Eq)]
pub enum Question {
    Load(&'static Diagram),
    Judge(&'static Diagram, &'static Record),
    Compare {
        pair: Pair,
        bound: u8,
    },
    /// What compare found goes into a buffer of so many bytes.
    HandOut {
        pair: Pair,
        bound: u8,
        room: u32,
    },
}

impl Question {
    /// The question as the table spells it.
    pub fn read(text: &str) -> Result<Question, String> {
        let words: Vec<&str> = text.split_whitespace().collect();
        match words[..] {
            ["load", diagram] => Ok(Question::Load(Diagram::named(diagram)?)),
            ["judge", diagram, record] => Ok(Question::Judge(
                Diagram::named(diagram)?,
                Record::named(record)?,
            )),
            ["compare", old, new, "bound", bound] => Ok(Question::Compare {
                pair: pair(old, new)?,
                bound: number(bound)?,
            }),
            ["hand", "out", old, new, "bound", bound, "buffer", room] => Ok(Question::HandOut {
                pair: pair(old, new)?,
                bound: number(bound)?,
                room: number(room)?,
            }),
            _ => Err("nothing is asked here that this program knows".to_string()),
        }
    }
}

/// The diagrams of these names.
fn pair(old: &str, new: &str) -> Result<Pair, String> {
    Ok(Pair {
        old: Diagram::named(old)?,
        new: Diagram::named(new)?,
    })
}

/// A number that fits.
pub fn number<T: FromStr>(word: &str) -> Result<T, String> {
    let read = word.parse();
    read.map_err(|_| format!("'{word}' is not a number that can stand there"))
}
