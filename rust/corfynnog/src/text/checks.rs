//! What is tried behind the grammar, each over the whole text before the next: 24, 4, 5, 8.

use crate::diagram::Arrow;

use super::counts::too_many;
use super::declarations::Declarations;
use super::fault::{TextFault, TextRule};
use super::references::unknown;
use super::twice::twice;

/// The first fault of a text that belongs to the grammar.
pub fn first_fault(text: &[u8], all: &Declarations) -> Option<TextFault> {
    unknown(text, all)
        .or_else(|| too_many(all))
        .or_else(|| twice(text, all))
        .or_else(|| whole_on_the_right(all))
}

/// Of several faults of one number the one that stands first.
pub fn earliest<const N: usize>(faults: [Option<TextFault>; N]) -> Option<TextFault> {
    faults.into_iter().flatten().min_by_key(|fault| fault.at)
}

/// Refusal 8.
fn whole_on_the_right(all: &Declarations) -> Option<TextFault> {
    let mut associations = all.associations.iter();
    let found = associations.find(|a| a.composition && a.arrow == Arrow::Left)?;
    let what = "a composition has its whole on the left, so that its arrow is not \"<-\"";
    Some(TextFault::of(
        TextRule::WholeOnTheLeft,
        found.arrow_at,
        what.to_string(),
    ))
}
