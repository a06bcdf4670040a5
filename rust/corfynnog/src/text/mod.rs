//! Diagrams typed as text, and what texts of other kinds share with them: words and marks, places,
//! faults and advice.
//!
//! Whether a diagram text is accepted is the library's word alone. This reading finds the names in
//! an accepted text, and the place and the words for the refusal of another.

mod associations;
mod cardinality;
mod checks;
mod counts;
mod declarations;
mod declared;
#[cfg(test)]
mod explained;
mod fault;
mod grammar;
mod hints;
mod language;
mod place;
mod reader;
mod references;
mod similar;
mod spelling;
mod stray;
mod tokens;
mod twice;
mod wanted;
#[cfg(test)]
mod worked_cases;

pub use checks::earliest;
pub use counts::{over, TEXT};
pub use declarations::{lowered, Name};
pub use fault::{TextFault, TextRule};
pub use language::{is_name, Language};
pub use place::{excerpt, place_of, Place};
pub use reader::{name_of, try_length, Found, Reader};
pub use similar::{advice, similar};
pub use spelling::{can_be_shown, quoted};
pub use stray::{encoding, ENDS_EARLY};
#[cfg(test)]
pub use tokens::Tokens;
pub use tokens::{Read, NAME_MOST};
pub use twice::{again, repeated, second};
pub use wanted::Wanted;

use crate::diagram::Diagram;

/// A diagram, and the name that its text gives it.
#[derive(Debug)]
pub struct NamedDiagram {
    pub name: String,
    pub diagram: Diagram,
}

/// The diagram that a text declares, or the text's first fault, in the order 23, 24, 4, 5, 8.
pub fn read_text(text: &[u8]) -> Result<NamedDiagram, TextFault> {
    let declarations = grammar::read(text)?;
    match checks::first_fault(text, &declarations) {
        Some(fault) => Err(fault),
        None => Ok(NamedDiagram {
            name: declarations.name.text.to_string(),
            diagram: declared::diagram(&declarations),
        }),
    }
}

/// The word that a text starts with, blanks before it passed over.
pub fn first_word(text: &[u8]) -> Option<&str> {
    match tokens::Tokens::of(text, &[]).next().read {
        Read::Word(word) => Some(word),
        _ => None,
    }
}
