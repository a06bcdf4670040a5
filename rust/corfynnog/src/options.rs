//! The words of a command line, sorted into options and files.

use std::ffi::{OsStr, OsString};
use std::os::unix::ffi::{OsStrExt, OsStringExt};
use std::path::PathBuf;

use crate::out_file::STANDARD_OUTPUT;
use crate::shown::shown;

/// Options with a value behind them or behind `=`.
pub const WITH_VALUE: [&str; 3] = ["--bound", "--out", "--timeout"];

/// Options that stand alone; these three go with every command.
pub const COMMON: [&str; 3] = ["--json", "--help", "--version"];

/// Options that stand alone and go with some commands.
pub const ALONE: [&str; 1] = ["--all"];

/// The words of a command line by kind; options may stand anywhere behind the command.
#[derive(Default)]
pub struct Words {
    pub files: Vec<PathBuf>,
    alone: Vec<&'static str>,
    valued: Vec<(&'static str, OsString)>,
}

impl Words {
    /// An option that stands alone is given.
    pub fn has(&self, option: &str) -> bool {
        self.alone.contains(&option)
    }

    /// The value of an option.
    pub fn value(&self, option: &str) -> Option<&OsString> {
        let mut valued = self.valued.iter();
        valued.find(|(name, _)| *name == option).map(|(_, v)| v)
    }

    /// Only one thing is to go to standard output.
    pub fn try_output(&self) -> Result<(), String> {
        let is_output = |out: &OsString| out == STANDARD_OUTPUT;
        match self.has("--json") && self.value("--out").is_some_and(is_output) {
            true => Err("--json and '--out -' both write to standard output; name a file.".into()),
            false => Ok(()),
        }
    }

    /// All options that are given.
    pub fn options(&self) -> impl Iterator<Item = &'static str> + '_ {
        let valued = self.valued.iter().map(|(name, _)| *name);
        self.alone.iter().copied().chain(valued)
    }
}

/// Sorts words into options and files; behind `--` all are files.
pub fn sort(words: Vec<OsString>) -> Result<Words, String> {
    let mut sorted = Words::default();
    let mut words = words.into_iter();
    while let Some(word) = words.next() {
        let (option, value) = parts(&word);
        if let Some(name) = named(&WITH_VALUE, option) {
            let value = value.or_else(|| words.next());
            set(&mut sorted, name, value)?;
        } else if let Some(name) = alone(option).filter(|_| value.is_none()) {
            sorted.alone.push(name);
        } else if word == "--" {
            sorted.files.extend(words.by_ref().map(PathBuf::from));
        } else if is_option(&word) {
            return Err(format!("There is no option '{}'.", shown(&word)));
        } else {
            sorted.files.push(PathBuf::from(word));
        }
    }
    Ok(sorted)
}

/// A word that starts as an option does; `-` alone is a file.
pub fn is_option(word: &OsStr) -> bool {
    word.as_bytes().starts_with(b"-") && word != "-"
}

/// An option and the value behind its `=`.
fn parts(word: &OsStr) -> (&OsStr, Option<OsString>) {
    let bytes = word.as_bytes();
    let at = bytes.iter().position(|&byte| byte == b'=');
    match at.filter(|_| bytes.starts_with(b"--")) {
        Some(at) => {
            let value = OsString::from_vec(bytes[at + 1..].to_vec());
            (OsStr::from_bytes(&bytes[..at]), Some(value))
        }
        None => (word, None),
    }
}

/// The option of that name.
fn named(options: &[&'static str], word: &OsStr) -> Option<&'static str> {
    options.iter().copied().find(|option| word == *option)
}

/// The option without a value that a word stands for.
fn alone(word: &OsStr) -> Option<&'static str> {
    match word.to_str() {
        Some("-h") => Some("--help"),
        Some("-V") => Some("--version"),
        _ => named(&COMMON, word).or_else(|| named(&ALONE, word)),
    }
}

/// Keeps the value of an option that may be given once.
fn set(words: &mut Words, option: &'static str, value: Option<OsString>) -> Result<(), String> {
    if words.value(option).is_some() {
        return Err(format!("The option {option} is given twice."));
    }
    let Some(value) = value else {
        return Err(format!("The option {option} needs a value behind it."));
    };
    words.valued.push((option, value));
    Ok(())
}
