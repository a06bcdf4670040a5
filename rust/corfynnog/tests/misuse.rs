//! Command lines that are not understood, files that cannot be read, and help.

mod common;

use common::{sites, Folder};
use std::process::Command;

#[test]
fn one_sentence_and_how_to_get_help() {
    let folder = Folder::of("misuse");
    let cases = [
        ("", "A command is missing. Run 'corfynnog --help' for help."),
        ("compere a b", "There is no command 'compere'. Run 'corfynnog --help' for help."),
        ("compare a", "'compare' needs OLD and NEW; NEW is missing. Run 'corfynnog compare --help' for help."),
        ("judge a", "'judge' needs DIAGRAM and RECORD; RECORD is missing. Run 'corfynnog judge --help' for help."),
        ("check", "'check' needs FILE; FILE is missing. Run 'corfynnog check --help' for help."),
        ("show a b", "'show' takes FILE only; 'b' is too much. Run 'corfynnog show --help' for help."),
        ("compile a --out b", "'compile' has no option --out; 'compare', 'make' and 'convert' have. Run 'corfynnog compile --help' for help."),
        ("compile a --fast", "There is no option '--fast'. Run 'corfynnog compile --help' for help."),
        ("compare a b --bound", "The option --bound needs a value behind it. Run 'corfynnog compare --help' for help."),
    ];
    for (line, sentence) in cases {
        let told = folder.complaint(line);
        assert_eq!(told, format!("corfynnog: {sentence}\n"), "{line}");
    }
}

#[test]
fn files_that_cannot_be_read() {
    let folder = Folder::of("unreadable");
    folder.put("p.diagram", &sites::p());
    for (line, file) in [
        ("check gone", "gone"),
        ("show .", "."),
        ("compare p.diagram gone", "gone"),
        ("compare gone p.diagram", "gone"),
        ("judge p.diagram gone", "gone"),
        ("convert gone --out made", "gone"),
    ] {
        let told = folder.complaint(line);
        let first = format!("corfynnog: Cannot read {file}: ");
        assert!(told.starts_with(&first), "{line}");
        assert!(told.contains("corfynnog --help"), "{line}");
        assert_eq!(told.lines().count(), 1, "{line}");
    }
}

#[test]
fn help_has_an_example_of_each_command() {
    let folder = Folder::of("help");
    let help = folder.answer(0, "--help");
    for command in [
        "compare", "judge", "compile", "evaluate", "check", "show", "make", "convert",
    ] {
        assert!(
            help.contains(&format!("  corfynnog {command} ")),
            "{command}"
        );
        let own = folder.answer(0, &format!("{command} --help"));
        assert!(
            own.starts_with(&format!("corfynnog {command} ")),
            "{command}"
        );
        assert!(own.contains("\nExample"), "{command}");
        assert!(own.contains("Exit status: 0 "), "{command}");
        assert!(own.contains("\nJSON: "), "{command}");
        assert_eq!(folder.answer(0, &format!("help {command}")), own);
    }
    for line in [
        "help",
        "help compare",
        "help judge",
        "help evaluate",
        "help check",
        "help show",
        "help make",
        "help convert",
    ] {
        let text = folder.answer(0, line);
        let is_short = |line: &str| line.len() <= 104;
        assert!(text.lines().all(is_short), "{line}: lines are short");
    }
}

/// The commit that the repository's checkout is at, if there is one and git tells.
fn commit() -> Option<String> {
    let git = Command::new("git")
        .args(["-C", env!("CARGO_MANIFEST_DIR"), "rev-parse", "HEAD"])
        .env_remove("GIT_DIR")
        .output();
    let output = git.ok().filter(|output| output.status.success())?;
    String::from_utf8(output.stdout).ok()
}

#[test]
fn version_commit_and_kit_in_one_line() {
    let line = Folder::of("version").answer(0, "--version");
    let start = format!("corfynnog {} (commit ", env!("CARGO_PKG_VERSION"));
    let end = format!(", proved by {})\n", boundary::KIT);
    assert!(!boundary::KIT.is_empty() && !boundary::KIT.contains('\n'));
    let told = line
        .strip_prefix(&start)
        .and_then(|rest| rest.strip_suffix(&end));
    let told = told.unwrap_or_else(|| panic!("{line}"));
    let told = told.strip_suffix(", changed").unwrap_or(told);
    if told != "unknown" {
        let is_digit = |letter: char| letter.is_ascii_hexdigit();
        assert!(told.len() >= 7 && told.chars().all(is_digit), "{line}");
        let head = commit();
        assert!(head.is_none_or(|head| head.starts_with(told)), "{line}");
    }
}
