//! What the tests that hold the proved library (the product) to the independent comparer share.
//!
//! A check takes a seed, puts the same made-up input to both sides and panics where their answers
//! differ, with the seed and the input; what it met on the way goes to a tally, so that a test can
//! ask whether its input was varied enough. `tests/` runs the checks on a fixed row of seeds, its
//! `soak.rs` on ever more of them. Worked cases have their replies in `crates/cases`, in
//! `generators::worked_texts` and in `generators::worked_conversions`.

pub mod alike;
pub mod comparing;
pub mod converting;
pub mod editions;
pub mod families;
pub mod files;
pub mod heads;
pub mod judging;
pub mod product;
pub mod questions;
pub mod rows;
pub mod solving;
pub mod table;
pub mod text_pairs;
pub mod texts;
pub mod words;
pub mod worked_files;
