//! Sites typed as text: object diagrams as `show` prints them.
//!
//! A site text becomes the record file of its site, and whether that is accepted is the library's
//! word alone. A text that is no site, or more than a record file can hold, is refused here, since
//! there are no bytes that the library could be asked about.

mod checks;
#[cfg(test)]
mod damaged;
mod declarations;
mod declared;
#[cfg(test)]
mod explained;
mod grammar;
mod hints;
#[cfg(test)]
mod read_back;

use crate::record::Record;
use crate::text::TextFault;

/// A record, and a word to call it by.
#[derive(Debug)]
pub struct NamedRecord {
    pub name: String,
    pub record: Record,
}

/// The record that a text declares, in the order of a record file, or the text's first fault.
pub fn read_site(text: &[u8]) -> Result<NamedRecord, TextFault> {
    let site = grammar::read(text)?;
    match checks::first_fault(text, &site) {
        Some(fault) => Err(fault),
        None => Ok(NamedRecord {
            name: site.name.text.to_string(),
            record: declared::record(&site),
        }),
    }
}
