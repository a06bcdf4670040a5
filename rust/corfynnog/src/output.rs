//! Standard output and standard error.

use std::fs::{File, Metadata};
use std::io::{self, stderr, stdout, ErrorKind, Write};
use std::os::fd::AsFd;

use crate::disk::plain_words;
use crate::outcome::{Outcome, TROUBLE};
use crate::start::output_was_closed;

/// Prints an outcome; returns the exit status.
pub fn tell(outcome: &Outcome, json: bool) -> u8 {
    let (out, err) = match (json, &outcome.file) {
        (true, _) => (format!("{}\n", outcome.json).into_bytes(), ""),
        (false, None) => (outcome.text.clone().into_bytes(), ""),
        (false, Some(file)) => (file.clone(), outcome.text.as_str()),
    };
    complain(err);
    let status = print(&out, outcome.status);
    if !json || (outcome.status == TROUBLE && !outcome.text.is_empty()) {
        complain(&outcome.complaint);
    }
    status
}

/// Prints an answer that has this exit status; returns the status of the run. A reader that stops
/// reading is no fault.
pub fn print(answer: &[u8], status: u8) -> u8 {
    let why = match write(answer) {
        Ok(()) => return status,
        Err(error) if error.kind() == ErrorKind::BrokenPipe => return status,
        Err(error) => plain_words(&error),
    };
    complain(&format!(
        "corfynnog: The answer could not be written: {why}. \
         Make room, or send it elsewhere, and run the command again.\n"
    ));
    TROUBLE
}

/// Writes to standard output, and keeps no error to itself.
fn write(bytes: &[u8]) -> io::Result<()> {
    match bytes.is_empty() {
        true => Ok(()),
        false if output_was_closed() => Err(io::Error::other("standard output is closed")),
        false => output()?.write_all(bytes),
    }
}

/// Nobody who reads complaints is no reason for another status.
fn complain(text: &str) {
    let _ = stderr().write_all(text.as_bytes());
}

/// Standard output as a file, since the library's own takes one that cannot be written for a
/// closed one, and says nothing.
fn output() -> io::Result<File> {
    stdout().as_fd().try_clone_to_owned().map(File::from)
}

/// What standard output goes to.
pub fn metadata() -> Option<Metadata> {
    output().ok()?.metadata().ok()
}
