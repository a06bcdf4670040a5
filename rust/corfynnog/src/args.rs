//! What the command line asks for.

use std::ffi::{OsStr, OsString};
use std::path::PathBuf;
use std::time::Duration;

use crate::command_forms::{form_named, Form};
use crate::options::{is_option, sort, Words};
use crate::shown::shown;

/// A command with its arguments.
#[derive(Clone, Debug, PartialEq, Eq)]
pub enum Command {
    Compare {
        old: PathBuf,
        new: PathBuf,
        /// As it is written; none for the largest one.
        bound: Option<OsString>,
        out: Option<PathBuf>,
        all: bool,
        timeout: Option<Duration>,
    },
    Judge {
        diagram: PathBuf,
        records: Vec<PathBuf>,
        all: bool,
    },
    Compile {
        diagram: PathBuf,
    },
    Evaluate {
        diagram: PathBuf,
        record: PathBuf,
    },
    Check {
        files: Vec<PathBuf>,
    },
    Show {
        file: PathBuf,
    },
    Make {
        site: PathBuf,
        out: PathBuf,
    },
    Convert {
        file: PathBuf,
        out: PathBuf,
    },
    Marked,
}

/// What is to be done.
#[derive(Clone, Debug, PartialEq, Eq)]
pub enum Request {
    /// About one command, or all.
    Help(Option<&'static str>),
    Version,
    Run {
        command: Command,
        json: bool,
    },
}

/// Why a command line is not understood, and the command that help is at hand for.
#[derive(Clone, Debug, PartialEq, Eq)]
pub struct Misuse {
    pub sentence: String,
    pub command: Option<&'static str>,
    pub json: bool,
}

/// Understands the words behind the program's name.
pub fn understand(words: &[OsString]) -> Result<Request, Misuse> {
    let json = words.iter().any(|word| word == "--json");
    let first = words.iter().position(|word| !is_option(word));
    let form = first.and_then(|i| words[i].to_str()).and_then(form_named);
    let misuse = |sentence: String| Misuse {
        sentence,
        command: form.map(|form| form.name),
        json,
    };
    let request = match (first, form) {
        (Some(i), None) if words[i] == "help" => help_on(words.get(i + 1)),
        (Some(i), None) => Err(no_command(&words[i])),
        (Some(i), Some(_)) => of_words([&words[..i], &words[i + 1..]].concat(), form),
        (None, _) => of_words(words.to_vec(), None),
    };
    request.map_err(misuse)
}

/// `help` and `help COMMAND`.
fn help_on(topic: Option<&OsString>) -> Result<Request, String> {
    let Some(topic) = topic else {
        return Ok(Request::Help(None));
    };
    match topic.to_str().and_then(form_named) {
        Some(form) => Ok(Request::Help(Some(form.name))),
        None => Err(no_command(topic)),
    }
}

/// The sentence for a command that there is not.
fn no_command(word: &OsStr) -> String {
    format!("There is no command '{}'.", shown(word))
}

/// The request by the words behind the command, where one is named.
fn of_words(words: Vec<OsString>, form: Option<&'static Form>) -> Result<Request, String> {
    let sorted = sort(words)?;
    if sorted.has("--help") {
        return Ok(Request::Help(form.map(|form| form.name)));
    }
    if sorted.has("--version") {
        return Ok(Request::Version);
    }
    let form = form.ok_or("A command is missing.")?;
    form.try_words(&sorted)?;
    let json = sorted.has("--json");
    let command = command_of(form.name, sorted)?;
    Ok(Request::Run { command, json })
}

/// The command with its files and options.
fn command_of(name: &str, words: Words) -> Result<Command, String> {
    let out = words.value("--out").map(PathBuf::from);
    let all = words.has("--all");
    let bound = words.value("--bound").cloned();
    let timeout = words.value("--timeout").map(|t| timeout_of(t));
    let mut files = words.files.into_iter();
    let mut next = || files.next().unwrap_or_default();
    Ok(match name {
        "compare" => Command::Compare {
            old: next(),
            new: next(),
            bound,
            out,
            all,
            timeout: timeout.transpose()?,
        },
        "judge" => Command::Judge {
            diagram: next(),
            records: files.collect(),
            all,
        },
        "compile" => Command::Compile { diagram: next() },
        "evaluate" => Command::Evaluate {
            diagram: next(),
            record: next(),
        },
        "check" => Command::Check {
            files: files.collect(),
        },
        "show" => Command::Show { file: next() },
        "make" => Command::Make {
            site: next(),
            out: needed_out(name, out)?,
        },
        "convert" => Command::Convert {
            file: next(),
            out: needed_out(name, out)?,
        },
        _ => Command::Marked,
    })
}

/// The file of --out, where a command does nothing else than write it.
fn needed_out(name: &str, out: Option<PathBuf>) -> Result<PathBuf, String> {
    out.ok_or_else(|| {
        format!("'{name}' needs --out FILE, the file to write ('-' for standard output).")
    })
}

/// The longest time limit that can be given, in seconds: over thirty years.
const MOST_SECONDS: f64 = 1e9;

/// A time limit in seconds, with or without a fraction.
fn timeout_of(word: &OsStr) -> Result<Duration, String> {
    let is_plain = |text: &&str| {
        text.bytes()
            .all(|byte| byte.is_ascii_digit() || byte == b'.')
    };
    let plain = word.to_str().filter(is_plain);
    let seconds = plain.and_then(|text| text.parse::<f64>().ok());
    match seconds.filter(|&seconds| 0.0 < seconds && seconds <= MOST_SECONDS) {
        Some(seconds) => Ok(Duration::from_secs_f64(seconds)),
        None => Err(format!(
            "The time limit '{}' is not a number of seconds above 0, such as 60 or 0.5.",
            shown(word)
        )),
    }
}

#[cfg(test)]
mod tests {
    use super::*;

    fn line(text: &str) -> Result<Request, Misuse> {
        let words: Vec<OsString> = text.split_whitespace().map(OsString::from).collect();
        understand(&words)
    }

    fn compare(bound: Option<&str>, out: Option<&str>, json: bool) -> Result<Request, Misuse> {
        Ok(Request::Run {
            command: Command::Compare {
                old: "a".into(),
                new: "b".into(),
                bound: bound.map(OsString::from),
                out: out.map(PathBuf::from),
                all: false,
                timeout: None,
            },
            json,
        })
    }

    #[test]
    fn options_stand_anywhere() {
        assert_eq!(line("compare a b"), compare(None, None, false));
        assert_eq!(
            line("compare --bound 3 a b --out c"),
            compare(Some("3"), Some("c"), false)
        );
        assert_eq!(
            line("--json compare a --bound=0 --out=c b"),
            compare(Some("0"), Some("c"), true)
        );
        assert_eq!(line("compare --json -- a b"), compare(None, None, true));
    }

    #[test]
    fn files_that_repeat() {
        let Ok(Request::Run { command, .. }) = line("judge d --all r - s") else {
            panic!("a judge");
        };
        let expected = Command::Judge {
            diagram: "d".into(),
            records: vec!["r".into(), "-".into(), "s".into()],
            all: true,
        };
        assert_eq!(command, expected);
    }

    #[test]
    fn time_limits() {
        for (text, milliseconds) in [("1", 1000), ("0.5", 500), ("2.", 2000), ("007", 7000)] {
            let Ok(Request::Run { command, .. }) = line(&format!("compare a b --timeout {text}"))
            else {
                panic!("{text}");
            };
            let limit = Some(Duration::from_millis(milliseconds));
            assert!(
                matches!(command, Command::Compare { timeout, .. } if timeout == limit),
                "{text}"
            );
        }
        for text in [
            "0",
            "-1",
            "+1",
            "1e3",
            "inf",
            "nan",
            "",
            ".",
            "1.2.3",
            "10000000000",
        ] {
            let words = ["compare", "a", "b", "--timeout", text].map(OsString::from);
            assert!(understand(&words).is_err(), "{text}");
        }
    }

    #[test]
    fn help_and_version() {
        assert_eq!(line("--help"), Ok(Request::Help(None)));
        assert_eq!(line("help"), Ok(Request::Help(None)));
        assert_eq!(line("help judge"), Ok(Request::Help(Some("judge"))));
        assert_eq!(line("compare -h"), Ok(Request::Help(Some("compare"))));
        assert_eq!(line("--version"), Ok(Request::Version));
    }

    #[test]
    fn what_is_not_understood() {
        let cases = [
            ("", "A command is missing."),
            ("--json", "A command is missing."),
            ("compere a b", "There is no command 'compere'."),
            ("- compare a b", "There is no command '-'."),
            ("help me", "There is no command 'me'."),
            ("compare a", "'compare' needs OLD and NEW; NEW is missing."),
            ("show", "'show' needs FILE; FILE is missing."),
            ("show a b", "'show' takes FILE only; 'b' is too much."),
            ("marked b", "'marked' takes no file; 'b' is too much."),
            ("compare - -", "Standard input, '-', can be read only once."),
            ("check - a -", "Standard input, '-', can be read only once."),
            ("compare a b --bond 3", "There is no option '--bond'."),
            (
                "compare a b --bound",
                "The option --bound needs a value behind it.",
            ),
            (
                "compare a b --bound 1 --bound 2",
                "The option --bound is given twice.",
            ),
            (
                "compare a b --timeout x",
                "The time limit 'x' is not a number of seconds above 0, such as 60 or 0.5.",
            ),
            (
                "show a --out b",
                "'show' has no option --out; 'compare', 'make' and 'convert' have.",
            ),
            (
                "make a --bound 3",
                "'make' has no option --bound; 'compare' has.",
            ),
            (
                "make a",
                "'make' needs --out FILE, the file to write ('-' for standard output).",
            ),
            ("convert --out b", "'convert' needs FILE; FILE is missing."),
            (
                "convert a b --out c",
                "'convert' takes FILE only; 'b' is too much.",
            ),
            (
                "convert a",
                "'convert' needs --out FILE, the file to write ('-' for standard output).",
            ),
            (
                "convert a --out b --all",
                "'convert' has no option --all; 'compare' and 'judge' have.",
            ),
            ("show a --json=1", "There is no option '--json=1'."),
        ];
        for (text, sentence) in cases {
            let misuse = line(text).expect_err(text);
            assert_eq!(misuse.sentence, sentence, "{text}");
            assert_eq!(misuse.json, text.contains("--json") && !text.contains('='));
        }
    }
}
