//! The refusals by the numbers that callers see.

pub const PASSES_END: u8 = 1;
pub const BAD_TAG: u8 = 2;
pub const OFF_LAYOUT: u8 = 3;
pub const TOO_MANY: u8 = 4;
pub const NOT_DIFFERENT: u8 = 5;
pub const NAMES_NOTHING: u8 = 6;
pub const INTERFACE_BELOW_CLASS: u8 = 7;
pub const COMPOSITION_BACKWARDS: u8 = 8;
pub const BOUND_ABOVE_8: u8 = 9;
pub const PLACE_ABOVE_1: u8 = 10;
pub const BUFFER_SMALL: u8 = 20;
pub const PLACE_EMPTY: u8 = 21;
pub const NO_WITNESS: u8 = 22;
pub const OUTSIDE_GRAMMAR: u8 = 23;
pub const NOT_DECLARED: u8 = 24;
pub const LIMIT_ABOVE_100: u8 = 25;

/// Gives the refusal unless the condition holds.
pub fn require(condition: bool, refusal: u8) -> Result<(), u8> {
    if condition {
        Ok(())
    } else {
        Err(refusal)
    }
}
