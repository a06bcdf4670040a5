//! Diagrams typed as text: words and marks, the parts that they declare, the checks of the whole
//! text one after the other, and the diagram.

mod cardinality;
mod checks;
mod declare;
mod parse;
mod parts;
mod tokens;

use crate::diagram::Diagram;
use crate::refusal::OUTSIDE_GRAMMAR;

/// Reads a text, or gives its refusal: 23, 24, 4, 5, 8, each tried on the whole text.
pub fn read_text(text: &[u8]) -> Result<Diagram, u8> {
    let tokens = tokens::tokens(text).ok_or(OUTSIDE_GRAMMAR)?;
    let parts = parse::parse(&tokens).ok_or(OUTSIDE_GRAMMAR)?;
    checks::check(&parts)?;
    Ok(declare::declare(&parts))
}
