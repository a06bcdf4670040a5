//! An independent comparer: files, texts, judging, compiling, evaluating, comparing, converting and
//! the bench, written from the specification alone and in the plainest form, to check others against.

mod bench;
mod bytes;
mod compare;
mod convert;
mod diagram;
mod diagram_file;
mod diagram_writer;
mod edition;
mod objects;
mod predicates;
mod record;
mod record_file;
mod refusal;
mod replay;
mod rules;
mod text;

pub use bench::Bench;
pub use compare::{compare, compare_within, TooLarge};
pub use convert::convert;
pub use diagram::{
    Association, Attribute, Diagram, End, Form, Kind, Limits, Side, Type, ValueType,
};
pub use diagram_file::read_diagram;
pub use diagram_writer::write_diagram;
pub use edition::Edition;
pub use predicates::{compile, evaluate, Entry};
pub use record::{Link, Record, Value};
pub use record_file::{read_record, write_record};
pub use replay::replay;
pub use rules::judge;
pub use text::read_text;

/// A name of a diagram or a record, without its length byte.
pub type Name = Vec<u8>;
