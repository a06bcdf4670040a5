//! Answers that cannot be written, and complaints that cannot.

mod common;

use std::io::pipe;
use std::process::{Command, Stdio};

use common::{sites, Folder};

/// Lines of every kind with their exit statuses where all goes well.
const LINES: [(&str, i32); 9] = [
    ("--help", 0),
    ("check --help", 0),
    ("--version", 0),
    ("check p.diagram", 0),
    ("show p.diagram --json", 0),
    ("convert p.diagram --out -", 0),
    ("judge p.diagram card.record", 1),
    ("compare s.diagram p.diagram", 1),
    ("compare s.diagram p.diagram --out - --bound 3", 1),
];

/// The last line on standard error of a run whose answer is sent elsewhere, and its status.
fn told(folder: &Folder, line: &str, redirection: &str) -> (i32, String) {
    let ran = folder.shell(&format!("$P {line} {redirection}"));
    let last = ran.err.lines().last().unwrap_or_default();
    (ran.status, last.to_string())
}

#[test]
fn an_answer_that_cannot_be_written_is_trouble() {
    let folder = sites::folder("output_full");
    for (line, _) in LINES {
        for (redirection, why) in [
            ("> /dev/full", "no space left on device"),
            (">&-", "standard output is closed"),
            ("1< p.diagram", "bad file descriptor"),
        ] {
            let (status, told) = told(&folder, line, redirection);
            let first = format!("corfynnog: The answer could not be written: {why}. ");
            assert!(told.starts_with(&first), "{line} {redirection}: {told}");
            assert_eq!(status, 2, "{line} {redirection}");
        }
    }
}

#[test]
fn an_answer_that_nobody_wants_keeps_its_status() {
    let folder = sites::folder("output_null");
    for (line, expected) in LINES {
        for redirection in ["> /dev/null", "1<> /dev/null", ">> /dev/null"] {
            let (status, told) = told(&folder, line, redirection);
            assert_eq!(status, expected, "{line} {redirection}");
            assert!(!told.contains("could not be written"), "{told}");
        }
    }
}

#[test]
fn a_reader_that_stops_reading_is_no_fault() {
    let folder = sites::folder("output_pipe");
    for (line, expected) in LINES {
        let (reader, writer) = pipe().expect("a pipe");
        drop(reader);
        let done = Command::new(env!("CARGO_BIN_EXE_corfynnog"))
            .args(line.split_whitespace())
            .current_dir(folder.path("."))
            .stdin(Stdio::null())
            .stdout(writer)
            .output()
            .expect("the program starts");
        let err = String::from_utf8(done.stderr).expect("text");
        assert_eq!(done.status.code(), Some(expected), "{line}");
        assert!(!err.contains("could not be written"), "{line}: {err}");
    }
}

#[test]
fn a_complaint_that_cannot_be_written_keeps_the_status() {
    let folder = sites::folder("output_err");
    for redirection in ["2> /dev/full", "2>&-", ">&- 2>&-"] {
        let ran = folder.shell(&format!("$P check gone {redirection}"));
        assert_eq!((ran.status, ran.out.as_str()), (2, ""), "{redirection}");
    }
    let ran = folder.shell("$P judge p.diagram card.record --json 2>&-");
    assert_eq!(ran.status, 1);
    let ran = folder.shell("$P check gone >&-");
    assert_eq!(ran.status, 2);
    assert!(ran.err.starts_with("corfynnog: Cannot read gone: "));
    assert_eq!(ran.err.lines().count(), 1, "{}", ran.err);
}
