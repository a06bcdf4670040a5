//! What a run ends with: an exit status, and the answer for people and for scripts.

use crate::json::Json;

/// No difference, legal, accepted.
pub const FINE: u8 = 0;

/// A difference, illegal, some predicate false.
pub const FOUND: u8 = 1;

/// Refused or misused.
pub const TROUBLE: u8 = 2;

/// The answer of one run.
pub struct Outcome {
    pub status: u8,
    /// For standard output.
    pub text: String,
    /// The text in one line, where it has more.
    pub line: Option<String>,
    /// For standard error.
    pub complaint: String,
    /// The whole answer as one object.
    pub json: Json,
    /// A file for standard output, where one is asked for there; the text then goes to standard
    /// error.
    pub file: Option<Vec<u8>>,
}

impl Outcome {
    /// An answer without a complaint.
    pub fn answer(status: u8, text: String, json: Vec<(&'static str, Json)>) -> Outcome {
        Outcome {
            status,
            text,
            line: None,
            complaint: String::new(),
            json: Json::Object(json),
            file: None,
        }
    }

    /// A complaint without an answer.
    pub fn trouble(complaint: String, json: Vec<(&'static str, Json)>) -> Outcome {
        Outcome {
            complaint,
            ..Outcome::answer(TROUBLE, String::new(), json)
        }
    }
}
