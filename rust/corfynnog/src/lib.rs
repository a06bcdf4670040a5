//! The command line of the release comparer.
//!
//! Every verdict is the proved library's. What stands here reads the command line, hands files on,
//! and puts replies into words.

mod args;
mod bound;
mod breaches;
mod command_forms;
mod commands;
mod content;
mod counterparts;
mod deciding_types;
mod diagram;
mod diagram_file;
mod diagram_text;
mod diagram_writer;
mod disk;
pub mod early_end;
mod edition;
mod fault;
mod field_writer;
mod fields;
mod file_json;
mod file_trouble;
mod help;
mod json;
mod kinds;

mod lists;
mod loosening;
mod names;
mod object_diagram;
mod options;
mod out_file;
mod outcome;
mod output;
mod parts;
mod predicates;
mod progress;
mod proved;
mod reasons;
mod record;
mod record_file;
mod record_writer;
mod records;
mod shown;
mod site;
mod start;
mod text;
mod text_trouble;
mod trouble;
mod unwritable;
mod version;
mod ways;
mod words;
mod wrong_kind;

use std::ffi::OsString;

use args::{understand, Misuse, Request};
use outcome::FINE;
use output::{print, tell};
use trouble::Trouble;

/// Runs the program with the words behind its name; returns the exit status.
pub fn run(words: &[OsString]) -> u8 {
    match understand(words) {
        Ok(Request::Help(topic)) => print(help::text(topic).as_bytes(), FINE),
        Ok(Request::Version) => print(version::line().as_bytes(), FINE),
        Ok(Request::Run { command, json }) => {
            let name = Some(command.name());
            let outcome = command
                .run()
                .unwrap_or_else(|trouble| trouble.outcome(name));
            tell(&outcome, json)
        }
        Err(misuse) => tell_misuse(misuse),
    }
}

/// A misuse is told in the form that the rest of the words ask for.
fn tell_misuse(misuse: Misuse) -> u8 {
    let trouble = Trouble::Misused(misuse.sentence);
    tell(&trouble.outcome(misuse.command), misuse.json)
}
