//! The table of worked cases in `crates/cases`: its `stdin` asks, its `stdout` answers.

use generators::hex::bytes;
use std::path::PathBuf;

/// A worked case: its name, the files, and the expected answers.
pub struct Case {
    pub name: String,
    pub files: Vec<Vec<u8>>,
    pub answers: Vec<String>,
}

/// Every case of these letters.
pub fn cases(letters: &str) -> Vec<Case> {
    let answers = text("stdout");
    let mut answers = answers.lines();
    let mut cases = Vec::new();
    for line in text("stdin").lines() {
        let (head, files) = line.split_once(':').expect("a case has a colon");
        let (letter, name) = head
            .split_once(' ')
            .expect("a case has a letter and a name");
        let letter = letter.chars().next().expect("a letter");
        let count = if letter == 'J' { 2 } else { 1 };
        let case = Case {
            name: name.to_string(),
            files: files.split('/').map(bytes).collect(),
            answers: answers
                .by_ref()
                .take(count)
                .map(|a| after(a, name))
                .collect(),
        };
        if letters.contains(letter) {
            cases.push(case);
        }
    }
    cases
}

/// What an answer says behind the case's name.
fn after(answer: &str, name: &str) -> String {
    let marked = format!(", {name}: ");
    let (_, said) = answer.split_once(&marked).expect("an answer to this case");
    said.to_string()
}

/// A file of the table, found from this crate so that it does not matter where the test is started.
fn text(file: &str) -> String {
    let mut path = PathBuf::from(env!("CARGO_MANIFEST_DIR"));
    path.extend(["..", "..", "crates", "cases", file]);
    std::fs::read_to_string(path).expect("the table of worked cases")
}
