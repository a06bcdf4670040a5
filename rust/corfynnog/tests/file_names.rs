//! Names of files and words of the command line that a terminal cannot show, and scripts can read.

mod common;

use std::ffi::OsStr;
use std::os::unix::ffi::OsStrExt;

use common::{sites, Folder, Ran};

/// Runs a command on the one file that these bytes name.
fn on_file(folder: &Folder, command: &str, name: &[u8], more: &[&str]) -> Ran {
    let mut words = vec![OsStr::new(command), OsStr::from_bytes(name)];
    words.extend(more.iter().map(OsStr::new));
    folder.run(&words)
}

/// Names, how people see them, and what stands between the quotes for scripts.
const NAMES: [(&[u8], &str, &str); 6] = [
    (b"caf\xE9.cd", r"caf\xE9.cd", r"caf\udce9.cd"),
    (b"caf\xE8.cd", r"caf\xE8.cd", r"caf\udce8.cd"),
    (b"caf\\xE9.cd", r"caf\\xE9.cd", r"caf\\xE9.cd"),
    (
        b"a\nb\x1B[2J.cd",
        r"a\x0Ab\x1B[2J.cd",
        r"a\u000ab\u001b[2J.cd",
    ),
    (
        "x\u{202E}y.cd".as_bytes(),
        r"x\xE2\x80\xAEy.cd",
        "x\u{202E}y.cd",
    ),
    ("café.cd".as_bytes(), "café.cd", "café.cd"),
];

#[test]
fn names_are_told_apart() {
    let folder = Folder::of("names");
    for (name, shown, exact) in NAMES {
        folder.put(OsStr::from_bytes(name), b"classdiagram d {}");
        let ran = on_file(&folder, "check", name, &[]);
        let first = format!("Accepted: {shown} is a diagram text ");
        assert!(ran.out.starts_with(&first), "{}", ran.out);
        let ran = on_file(&folder, "check", name, &["--json"]);
        let member = format!("\"file\": \"{exact}\"");
        assert!(ran.out.contains(&member), "{}", ran.out);
    }
}

#[test]
fn names_of_files_that_are_refused_or_cannot_be_read() {
    let folder = Folder::of("names_refused");
    for (name, shown, exact) in NAMES {
        let member = format!("\"file\": \"{exact}\"");
        let ran = on_file(&folder, "check", name, &[]);
        let first = format!("corfynnog: Cannot read {shown}: ");
        assert!(ran.err.starts_with(&first), "{}", ran.err);
        let ran = on_file(&folder, "check", name, &["--json"]);
        assert!(ran.out.contains(&member), "{}", ran.out);
        for (bytes, kind, place) in [
            (&b"class"[..], "diagram text", format!("\n{shown}:1:1: ")),
            (b"\x10\x00", "diagram file", "\n  where: ".to_string()),
        ] {
            folder.put(OsStr::from_bytes(name), bytes);
            let ran = on_file(&folder, "check", name, &[]);
            let first = format!("corfynnog: {shown} is not an acceptable {kind} (refusal ");
            assert!(ran.err.starts_with(&first), "{}", ran.err);
            assert!(ran.err.contains(&place), "{}", ran.err);
            let ran = on_file(&folder, "check", name, &["--json"]);
            assert!(ran.out.contains(&member), "{}", ran.out);
        }
    }
}

#[test]
fn words_of_the_command_line() {
    let folder = Folder::of("names_words");
    folder.put("d", &sites::e());
    let word = OsStr::from_bytes(b"a\x1B[2J\xE9\\");
    let shown = r"a\x1B[2J\xE9\\";
    let option = OsStr::from_bytes(b"--a\x1B[2J\xE9\\");
    let d = OsStr::new("d");
    for (words, sentence) in [
        (vec![word], format!("There is no command '{shown}'.")),
        (
            vec![OsStr::new("show"), d, word],
            format!("'show' takes FILE only; '{shown}' is too much."),
        ),
        (
            vec![OsStr::new("show"), option],
            format!("There is no option '--{shown}'."),
        ),
        (
            vec![OsStr::new("compare"), d, d, OsStr::new("--timeout"), word],
            format!("The time limit '{shown}' is not a number of seconds above 0"),
        ),
    ] {
        let ran = folder.run(&words);
        let first = format!("corfynnog: {sentence}");
        assert!(ran.err.starts_with(&first), "{}", ran.err);
    }
}
