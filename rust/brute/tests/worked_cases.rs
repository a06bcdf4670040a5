//! The worked cases of `crates/cases`, line by line: its `stdin` says what is asked, its `stdout`
//! what the reply is. Here the independent comparer has to give the same replies.

use brute::{
    compare, compile, evaluate, judge, read_diagram, read_record, write_record, Diagram, Entry,
};
use generators::hex::bytes;
use std::path::PathBuf;

/// One line of the table: a letter for what is asked, the case's name, and the files.
struct Case {
    letter: char,
    name: String,
    files: Vec<Vec<u8>>,
}

fn table(file: &str) -> Vec<String> {
    let mut path = PathBuf::from(env!("CARGO_MANIFEST_DIR"));
    path.extend(["..", "..", "crates", "cases", file]);
    let text = std::fs::read_to_string(path).expect("the table of worked cases");
    text.lines().map(String::from).collect()
}

fn parse_case(line: &str) -> Case {
    let (head, files) = line.split_once(':').expect("a name and a colon");
    let (letter, name) = head.split_once(' ').expect("a letter and a name");
    Case {
        letter: letter.parse().expect("one letter"),
        name: name.to_string(),
        files: files.split('/').map(bytes).collect(),
    }
}

fn diagram(file: &[u8]) -> Diagram {
    read_diagram(file).expect("an accepted diagram file")
}

/// The refusal's number, 0 where the file is accepted.
fn number<T>(read: Result<T, u8>) -> u8 {
    read.err().unwrap_or(0)
}

fn listed(list: &[Entry]) -> String {
    let numbers = list.as_flattened().iter().map(|byte| format!(" {byte}"));
    format!("{}{}", list.len(), numbers.collect::<String>())
}

/// The reply to two diagrams compared. Which of the smallest witnesses is found is free, so that
/// its length and the rule it breaks are said only where the table has the one witness's bytes.
fn compared(case: &Case) -> String {
    let [bound, old, new] = &case.files[..] else {
        panic!("{}: a bound and two diagrams", case.name);
    };
    let (old, new) = (diagram(old), diagram(new));
    let Some(witness) = compare(&old, &new, usize::from(bound[0])) else {
        return "no difference".to_string();
    };
    let file = write_record(&witness);
    assert_eq!(read_record(&file).as_ref(), Ok(&witness), "{}", case.name);
    assert_eq!(judge(&old, &witness), 0, "{}", case.name);
    let rule = judge(&new, &witness);
    assert_ne!(rule, 0, "{}", case.name);
    let found = format!("difference {}", witness.objects.len());
    if case.letter == 'F' {
        return found;
    }
    let bytes: String = file.iter().map(|byte| format!(" {byte:02x}")).collect();
    format!("{found}, {} bytes, old 0, new {rule}:{bytes}", file.len())
}

/// The replies that the independent comparer gives to a case, as the table spells them.
fn replies(case: &Case) -> Vec<String> {
    let said = |what: &str, reply: String| format!("{what}, {}: {reply}", case.name);
    let first = &case.files[0];
    match case.letter {
        'D' => vec![said("diagram", number(read_diagram(first)).to_string())],
        'R' => vec![said("record", number(read_record(first)).to_string())],
        'C' => vec![said("compile", listed(&compile(&diagram(first))))],
        'J' => {
            let under = diagram(first);
            let record = read_record(&case.files[1]).expect("an accepted record file");
            vec![
                said("judge", judge(&under, &record).to_string()),
                said("evaluate", evaluate(&under, &record).to_string()),
            ]
        }
        _ => vec![said("compare", compared(case))],
    }
}

/// The table's reply without what depends on the choice of the witness.
fn expected(case: &Case, reply: &str) -> String {
    let free = case.letter == 'F' && reply.contains(": difference");
    match reply.rfind(", old 0, new ") {
        Some(end) if free => {
            let length = reply[..end].rfind(", ").expect("the file's length");
            reply[..length].to_string()
        }
        _ => reply.to_string(),
    }
}

/// Runs the cases of these letters and gives how many replies there were.
fn run(letters: &str) -> usize {
    let wanted = table("stdout");
    let mut at = 0;
    let mut compared = 0;
    for line in table("stdin") {
        let case = parse_case(&line);
        let count = if case.letter == 'J' { 2 } else { 1 };
        let lines = &wanted[at..at + count];
        at += count;
        if letters.contains(case.letter) {
            let lines: Vec<String> = lines.iter().map(|line| expected(&case, line)).collect();
            assert_eq!(replies(&case), lines);
            compared += count;
        }
    }
    assert_eq!(
        at,
        wanted.len(),
        "each reply of the table belongs to a case"
    );
    compared
}

#[test]
fn diagram_files() {
    assert!(run("D") >= 138);
}

#[test]
fn record_files() {
    assert!(run("R") >= 35);
}

#[test]
fn records_judged_and_evaluated() {
    assert!(run("J") >= 2 * 118);
}

#[test]
fn compiled_lists() {
    assert!(run("C") >= 22);
}

#[test]
fn diagrams_compared() {
    assert!(run("FW") >= 96);
}
