//! The cases of document 01's section "Shelf and card", as document 02 amends it and the program runs
//! them.

mod common;

use common::json::{read, Value};
use common::Folder;

#[test]
fn every_case_is_as_the_documents_have_it() {
    let answer = Folder::of("marked").answer(0, "marked");
    let rows = answer.lines().filter(|line| line.starts_with("* "));
    assert_eq!(rows.count(), 11);
    assert!(!answer.contains("NOT"), "{answer}");
    let (lines, last) = answer.trim_end().rsplit_once("\n\n").expect("a last line");
    let number = lines.lines().count() - 1;
    let all = format!("{number} of {number} as the documents have them");
    assert_eq!(last, all);
}

#[test]
fn the_cases_for_scripts() {
    let answer = read(&Folder::of("marked_json").answer(0, "marked --json"));
    assert_eq!(answer.get("command").text(), "marked");
    assert_eq!(answer.get("result").text(), "as the documents have them");
    let cases = answer.get("cases");
    let number = cases.len() as u64;
    assert_eq!(answer.get("number").number(), number);
    assert_eq!(answer.get("as_asked").number(), number);
    let all: Vec<&Value> = (0..cases.len()).map(|i| cases.at(i)).collect();
    assert!(all.iter().all(|case| case.get("fits").is_true()));
    let marked = all.iter().filter(|case| case.get("marked").is_true());
    assert_eq!(marked.count(), 11);
    let of_text = all
        .iter()
        .find(|case| case.get("asked").text() == "load name_17");
    let came = of_text.expect("a name of 17 bytes").get("came").text();
    assert_eq!(came, "refused 3, as text refused 23");
}

#[test]
fn no_file_is_taken() {
    let told = Folder::of("marked_file").complaint("marked p.cd");
    assert!(told.contains("'marked' takes no file"), "{told}");
}
