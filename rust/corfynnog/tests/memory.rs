//! Runs with little memory: an answer, or a plain sentence and status 2.

mod common;

use common::{sites, Folder, Ran};

/// What is said where memory is short.
const SENTENCE: &str =
    "There is not enough memory. Close other programs, or raise the limit, and try again.";

/// Runs a line with addresses for so many KiB. A run that ends by a signal fails here.
fn within(folder: &Folder, kib: usize, line: &str) -> Ran {
    folder.shell(&format!("ulimit -c 0; ulimit -v {kib}; exec $P {line}"))
}

/// The least memory, in KiB, that the system loads the program with, to a page.
fn least(folder: &Folder) -> usize {
    let is_loaded = |kib: &usize| {
        let line = format!("(ulimit -c 0; ulimit -v {kib}; exec $P --version); echo $?");
        folder.shell(&line).out == "2\n"
    };
    let about = (1024..).step_by(256).find(is_loaded).expect("a size");
    let mut pages = (about - 256..=about).step_by(4);
    pages.find(is_loaded).expect("a size")
}

/// Runs a line within each size: it has its answer, or says that memory is short and no more.
/// Returns how many runs had the answer.
fn expect_plain_ends(folder: &Folder, line: &str, sizes: impl Iterator<Item = usize>) -> usize {
    let whole = folder.line(line);
    let mut answers = 0;
    for kib in sizes {
        let ran = within(folder, kib, line);
        let told = (ran.status, ran.out.as_str(), ran.err.as_str());
        if told == (whole.status, whole.out.as_str(), whole.err.as_str()) {
            answers += 1;
            continue;
        }
        assert_eq!(ran.status, 2, "{line} in {kib} KiB: {told:?}");
        let is_told = match ran.out.is_empty() {
            true => ran.err == format!("corfynnog: {SENTENCE}\n"),
            false => ran.out.contains(SENTENCE) && ran.err.is_empty(),
        };
        assert!(is_told, "{line} in {kib} KiB: {told:?}");
    }
    answers
}

#[test]
fn every_size_has_a_plain_end() {
    let folder = sites::folder("memory_sizes");
    let least = least(&folder);
    for line in ["--help", "check p.diagram", "compare s.diagram p.diagram"] {
        let pages = (least..least + 160).step_by(4);
        assert_eq!(expect_plain_ends(&folder, line, pages), 0, "{line}");
        let sizes = (least..least + 48 * 1024).step_by(2 * 1024);
        let answers = expect_plain_ends(&folder, line, sizes);
        assert!((1..24).contains(&answers), "{line}: {answers}");
    }
}

#[test]
fn a_long_file_has_a_plain_end() {
    let folder = sites::folder("memory_file");
    let blanks = " ".repeat(9 << 20);
    folder.put("long.cd", format!("classdiagram d {{{blanks}}}").as_bytes());
    for line in [
        "check long.cd",
        "show long.cd --json",
        "compare long.cd s.diagram --json",
    ] {
        let sizes = (37 * 1024..107 * 1024).step_by(10 * 1024);
        let answers = expect_plain_ends(&folder, line, sizes);
        assert!((1..7).contains(&answers), "{line}: {answers}");
    }
}
