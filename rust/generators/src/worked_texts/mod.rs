//! Worked texts, each with the reply to it: the refusal's number, or the file of the diagram that
//! the text declares.

mod accepted;
mod counted;
mod refused;
mod wide_limits;

pub use accepted::{accepted, Accepted};
pub use counted::{counted, Counted, Reply};
pub use refused::{refused, Refused};
