//! Records in either form: a record file, or a site text, which becomes one.

use std::borrow::Cow;

use crate::disk::Loaded;
use crate::kinds::is_site_text;
use crate::record_writer::record_file;
use crate::site::{read_site, NamedRecord};
use crate::text_trouble::RefusedText;
use crate::trouble::Trouble;

/// The bytes of the record file: those that were given, or those that a site text becomes.
pub fn record_bytes(record: &Loaded) -> Result<Cow<'_, [u8]>, Trouble> {
    match is_site_text(&record.bytes) {
        true => Ok(Cow::Owned(record_file(&site(record)?.record))),
        false => Ok(Cow::Borrowed(&record.bytes)),
    }
}

/// The site that a text declares, or where the text is none.
pub fn site(text: &Loaded) -> Result<NamedRecord, Trouble> {
    let refused = |fault| Trouble::RefusedText(Box::new(RefusedText::site(text, fault)));
    read_site(&text.bytes).map_err(refused)
}
