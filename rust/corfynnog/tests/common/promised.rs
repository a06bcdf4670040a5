//! The members that the help promises, taken out of its words.

use super::json::Value;
use super::Folder;

/// A quoted word of the help, and the quoted words in the brackets behind it.
#[derive(Debug)]
pub struct Word {
    pub name: String,
    pub within: Vec<Word>,
}

/// The members that the help of a command lists.
pub fn of_command(folder: &Folder, command: &str) -> Vec<Word> {
    let help = folder.answer(0, &format!("help {command}"));
    let (_, list) = help.split_once("\nJSON: ").expect("a list of members");
    let mut letters = list.chars();
    words(&mut letters)
}

/// The results without an answer, each with its members, by the help on all commands.
pub fn of_failures(folder: &Folder) -> Vec<(String, Vec<Word>)> {
    let help = folder.answer(0, "help");
    let (_, behind) = help
        .split_once("the result and the other members are\n")
        .expect("a list");
    let rows = behind.lines().take_while(|line| line.starts_with("    "));
    let mut failures: Vec<(String, Vec<Word>)> = Vec::new();
    for row in rows {
        let mut found = words(&mut row.chars());
        match (row.starts_with("    \""), failures.last_mut()) {
            (false, Some(last)) => last.1.extend(found),
            _ => {
                let result = found.remove(0).name;
                failures.push((result, found));
            }
        }
    }
    failures
}

/// The quoted words up to a closing bracket or the end; what stands in brackets is within the word
/// before.
fn words(letters: &mut std::str::Chars) -> Vec<Word> {
    let mut found: Vec<Word> = Vec::new();
    while let Some(letter) = letters.next() {
        match letter {
            '"' => found.push(Word {
                name: letters.by_ref().take_while(|&l| l != '"').collect(),
                within: Vec::new(),
            }),
            '(' => {
                let within = words(letters);
                found.last_mut().expect("a word").within.extend(within);
            }
            ')' => break,
            _ => (),
        }
    }
    found
}

/// The object has all these members; a string is one of the words within, where there are any; an
/// object, and each object of a list, has the members within.
pub fn expect(object: &Value, promised: &[Word], line: &str) {
    for word in promised {
        let value = object.get(&word.name);
        let names = || word.within.iter().map(|w| w.name.as_str());
        match value {
            Value::Text(text) if !word.within.is_empty() => {
                assert!(names().any(|name| name == text), "{line}: {word:?} {text}");
            }
            Value::Object(_) => expect(value, &word.within, line),
            Value::List(items) => {
                for item in items.iter().filter(|item| matches!(item, Value::Object(_))) {
                    expect(item, &word.within, line);
                }
            }
            _ => (),
        }
    }
}
