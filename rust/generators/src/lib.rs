//! Made-up diagram files, record files, texts and rows of calls, for tests and benchmarks, and the
//! worked texts and conversions, which several tests share.
//!
//! What is made up comes from a seed, so that a case can be made again from its number alone.
//! Nothing here judges, refuses or compares: it only makes input. `plan` is what a file is to
//! say, and a plan may say something that a reader has to refuse. Only `worked_texts` and
//! `worked_conversions` say what the reply to their input is.

pub mod arrangement;
pub mod calls;
pub mod damage;
pub mod diagrams;
pub mod edition_faults;
pub mod editions;
pub mod edits;
pub mod families;
pub mod faults;
pub mod fields;
pub mod fillings;
pub mod heads;
pub mod hex;
pub mod instances;
pub mod limits;
pub mod names;
pub mod notation;
pub mod plan;
pub mod random;
pub mod record_limits;
pub mod records;
pub mod rows;
pub mod text_damage;
pub mod text_layout;
pub mod texts;
pub mod upper_limits;
pub mod worked_conversions;
pub mod worked_texts;

pub use calls::CallPlan;
pub use plan::{
    Association, Attribute, DiagramPlan, End, Link, RecordPlan, Type, Value, ValueType,
};
pub use random::Random;
