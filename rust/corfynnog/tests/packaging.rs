//! The man page and the completion for bash name every command and option that the help names, and
//! the man page no others.

mod common;

use common::Folder;
use std::collections::BTreeSet;
use std::path::{Path, PathBuf};
use std::process::Command;

type Words = BTreeSet<String>;

/// A file that is installed beside the program.
fn packaged(name: &str) -> PathBuf {
    let top = Path::new(env!("CARGO_MANIFEST_DIR")).join("../..");
    top.join("packaging").join(name)
}

/// The commands of the lines that start with the program's name.
fn commands(text: &str) -> Words {
    let behind = |line: &str| {
        line.trim_start()
            .strip_prefix("corfynnog ")
            .map(String::from)
    };
    let lines = text.lines().filter_map(behind);
    let first = lines.filter_map(|line| line.split_whitespace().next().map(String::from));
    let is_command = |word: &String| word.bytes().all(|byte| byte.is_ascii_lowercase());
    first.filter(is_command).collect()
}

/// The options that a text names.
fn options(text: &str) -> Words {
    let is_part = |letter: char| letter.is_ascii_lowercase() || letter == '-';
    let words = text.split(|letter| !is_part(letter));
    let is_option = |word: &&str| word.starts_with("--") && word.len() > 2;
    words.filter(is_option).map(String::from).collect()
}

/// The man page without its macros, quotes and escapes.
fn man_page() -> String {
    let source = std::fs::read_to_string(packaged("corfynnog.1")).expect("the man page");
    let plain = source
        .replace("\\-", "-")
        .replace("\\&", "")
        .replace('"', "");
    let without_macro = |line: &str| match line.strip_prefix('.') {
        Some(rest) => rest
            .split_once(' ')
            .map_or("", |(_, text)| text)
            .to_string(),
        None => line.to_string(),
    };
    let lines: Vec<String> = plain.lines().map(without_macro).collect();
    lines.join("\n")
}

/// What bash offers for the last of these words, which is being typed.
fn offered(words: &[&str]) -> Words {
    let script = "source \"$1\"; shift; COMP_WORDS=(\"$@\"); COMP_CWORD=$(($# - 1)); \
        _corfynnog; printf '%s\\n' \"${COMPREPLY[@]}\"";
    let mut bash = Command::new("bash");
    bash.args(["--norc", "--noprofile", "-c", script, "bash"]);
    bash.arg(packaged("corfynnog.bash")).args(words);
    let output = bash.output().expect("bash starts");
    let said = String::from_utf8_lossy(&output.stderr);
    assert!(
        output.status.success() && said.is_empty(),
        "{words:?}\n{said}"
    );
    let printed = String::from_utf8(output.stdout).expect("text");
    printed.split_whitespace().map(String::from).collect()
}

/// The help of the program, and the first lines of each command's own, which show its options.
struct Help {
    overview: String,
    usages: Vec<(String, String)>,
}

impl Help {
    fn of(folder: &Folder) -> Help {
        let overview = folder.answer(0, "--help");
        let own = |command: String| {
            let text = folder.answer(0, &format!("{command} --help"));
            let usage = text.split("\n\n").next().unwrap_or_default().to_string();
            (command, usage)
        };
        let with_help = commands(&overview)
            .into_iter()
            .filter(|name| name != "help");
        let usages = with_help.map(own).collect();
        Help { overview, usages }
    }

    /// Every option that it names anywhere.
    fn options(&self) -> Words {
        let of_commands = self.usages.iter().flat_map(|(_, usage)| options(usage));
        options(&self.overview)
            .into_iter()
            .chain(of_commands)
            .collect()
    }
}

/// All of these words must be among the others.
#[track_caller]
fn has_all(place: &str, named: &Words, wanted: &Words) {
    assert!(!wanted.is_empty(), "{place}: the help names some");
    let missing: Vec<&String> = wanted.difference(named).collect();
    assert!(missing.is_empty(), "{place} lacks {missing:?}");
}

#[test]
fn the_man_page_names_what_the_help_names() {
    let help = Help::of(&Folder::of("man_page"));
    let page = man_page();
    has_all("the man page", &commands(&page), &commands(&help.overview));
    has_all("the man page", &options(&page), &help.options());
    let mut known = commands(&help.overview);
    known.insert("help".to_string());
    has_all("the help", &known, &commands(&page));
    has_all("the help", &help.options(), &options(&page));
}

#[test]
fn the_completion_offers_all_that_the_help_names() {
    let help = Help::of(&Folder::of("completion"));
    let first = offered(&["corfynnog", ""]);
    has_all("the completion", &first, &commands(&help.overview));
    let mut offers = offered(&["corfynnog", "--"]);
    for (command, usage) in &help.usages {
        let of_command = offered(&["corfynnog", command, "--"]);
        has_all(
            &format!("the completion of {command}"),
            &of_command,
            &options(usage),
        );
        offers.extend(of_command);
    }
    has_all("the completion", &offers, &help.options());
}

#[test]
fn the_completion_offers_values_and_else_leaves_files_to_bash() {
    let bounds = ["0", "1", "2", "3", "4", "5", "6", "7", "8"];
    let bounds: Words = bounds.map(String::from).into();
    assert_eq!(offered(&["corfynnog", "compare", "--bound", ""]), bounds);
    assert_eq!(
        offered(&["corfynnog", "compare", "--bound", "=", ""]),
        bounds
    );
    assert_eq!(
        offered(&["corfynnog", "--json", "jud"]),
        ["judge".to_string()].into()
    );
    let everything = offered(&["corfynnog", ""]);
    assert_eq!(offered(&["corfynnog", "help", ""]), everything);
    assert!(offered(&["corfynnog", "compare", "old"]).is_empty());
    assert!(offered(&["corfynnog", "compare", "--out", ""]).is_empty());
}
