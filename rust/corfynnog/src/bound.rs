//! The bound of a comparison: one digit from 0 to 8, by one rule for whatever is written.

use std::ffi::OsStr;
use std::os::unix::ffi::OsStrExt;

use crate::proved;
use crate::trouble::Trouble;

/// The bound where none is given: the most objects that a record has.
pub const MOST_OBJECTS: u8 = 8;

/// The bound that is written; anything else is refused as every bound above 8 is.
pub fn bound_of(word: Option<&OsStr>) -> Result<u8, Trouble> {
    let Some(word) = word else {
        return Ok(MOST_OBJECTS);
    };
    match word.as_bytes() {
        [digit @ b'0'..=b'8'] => Ok(digit - b'0'),
        _ => Err(proved::refused_bound(word)),
    }
}
