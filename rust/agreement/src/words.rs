//! Replies in words.

use boundary::Reply;

/// The reply in the words of the table, those on the witness left out.
pub fn said(reply: &Reply) -> String {
    match reply {
        Reply::Done => "0".to_string(),
        Reply::Rule(number) | Reply::FirstFalse(number) | Reply::Refused(number) => {
            number.to_string()
        }
        Reply::Records(list) => {
            let numbers = list.as_flattened().iter().map(|byte| format!(" {byte}"));
            format!("{}{}", list.len(), numbers.collect::<String>())
        }
        Reply::NoDifference => "no difference".to_string(),
        Reply::Difference(count) => format!("difference {count}"),
        Reply::Written { file, .. } => format!("{} bytes", file.len()),
        Reply::NotWritten { refusal, .. } => format!("refused {refusal}"),
    }
}
