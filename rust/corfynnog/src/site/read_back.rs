//! Records are written as text, read back, and are the same bytes, whatever they hold.

use boundary::{run, Call, Reply};
use generators::diagrams::{diagram, SMALL};
use generators::names::{of_length, one_of};
use generators::record_limits::{largest, record_files};
use generators::{Link, Random, RecordPlan, Value};

use super::read_site;
use crate::object_diagram::object_diagram;
use crate::record_file::read_record;
use crate::record_writer::record_file;

/// What the library says to each of these record files: a refusal, or none.
pub fn refusals(files: &[Vec<u8>]) -> Vec<Option<u8>> {
    let no_types = Call::Load {
        place: 0,
        file: &[0x10, 0, 1, 1],
    };
    let judge = |file| Call::Judge { place: 0, file };
    let calls: Vec<Call> = std::iter::once(no_types)
        .chain(files.iter().map(|file| judge(file)))
        .collect();
    let replies = run(&calls);
    assert_eq!(replies.len(), calls.len());
    replies[1..].iter().map(Reply::refusal).collect()
}

/// The text of a record file, and the bytes that it becomes.
fn text_and_back(file: &[u8]) -> (String, Vec<u8>) {
    let record = read_record(file).expect("a record file");
    let text = object_diagram("r", &record);
    let read = read_site(text.as_bytes()).unwrap_or_else(|fault| panic!("{fault:?}: {text}"));
    assert_eq!(read.name, "r");
    assert_eq!(object_diagram("r", &read.record), text);
    (text, record_file(&read.record))
}

/// These record files are accepted, and the same again when they are read back from their text.
fn expect_same(files: &[Vec<u8>]) {
    for (file, refusal) in files.iter().zip(refusals(files)) {
        assert_eq!(refusal, None, "{}", file.escape_ascii());
        let (text, back) = text_and_back(file);
        assert_eq!(&back, file, "{text}");
    }
}

/// Names that look like words of some grammar or like the unnamed value, that are digits alone, of
/// the greatest length, or different in one letter.
const NAMES: [&str; 24] = [
    "link",
    "objectdiagram",
    "classdiagram",
    "class",
    "enum",
    "Card",
    "Card0",
    "Card1",
    "Card10",
    "card",
    "Cards",
    "V",
    "W",
    "some_type_",
    "some_type_V",
    "some_type_W",
    "some_type_link",
    "0",
    "007",
    "_",
    "__",
    "A234567890123456",
    "A234567890123457",
    "some_type_some_t",
];

/// A record with such names; a constant is often spelled like its type's unnamed value.
pub fn awkward(random: &mut Random) -> RecordPlan {
    let mut record = RecordPlan::default();
    for _ in 0..random.between(0, 8) {
        record.objects.push(one_of(random, &NAMES));
    }
    let objects = record.objects.len();
    if objects == 0 {
        return record;
    }
    for _ in 0..random.below(12) {
        let value_type = one_of(random, &NAMES);
        let like_unnamed = [b"some_type_", &value_type[..]].concat();
        let constant = match random.below(4) {
            0 => Vec::new(),
            1 if like_unnamed.len() <= 16 => like_unnamed,
            _ => one_of(random, &NAMES),
        };
        record.values.push(Value {
            object: random.below(objects) as u8,
            attribute: one_of(random, &NAMES),
            value_type,
            constant,
        });
    }
    for _ in 0..random.below(12) {
        record.links.push(Link {
            from: random.below(objects) as u8,
            role: one_of(random, &NAMES),
            to: random.below(objects) as u8,
        });
    }
    record.arrange();
    record
}

#[test]
fn records_with_awkward_names() {
    let mut random = Random::new(1);
    for _ in 0..100 {
        let files: Vec<Vec<u8>> = (0..120).map(|_| awkward(&mut random).file()).collect();
        expect_same(&files);
    }
}

#[test]
fn records_of_diagrams() {
    let mut random = Random::new(2);
    for _ in 0..400 {
        let plan = diagram(&mut random, SMALL);
        let record = |random: &mut Random| generators::records::record(random, &plan, 8).file();
        let files: Vec<Vec<u8>> = (0..10).map(|_| record(&mut random)).collect();
        expect_same(&files);
    }
}

#[test]
fn records_at_the_limits() {
    let files = record_files();
    let refused = refusals(&files);
    let accepted = files.into_iter().zip(refused).filter(|(_, r)| r.is_none());
    let accepted: Vec<Vec<u8>> = accepted.map(|(file, _)| file).collect();
    assert!(accepted.len() >= 40, "{}", accepted.len());
    expect_same(&accepted);
    expect_same(&[largest().file()]);
    let names = |length| RecordPlan {
        objects: vec![of_length(b'_', length); 8],
        ..RecordPlan::default()
    };
    expect_same(&[names(1).file(), names(16).file()]);
}

#[test]
fn values_and_links_may_stand_in_any_order() {
    let mut random = Random::new(3);
    for _ in 0..1000 {
        let file = awkward(&mut random).file();
        let (text, _) = text_and_back(&file);
        let lines: Vec<&str> = text.lines().collect();
        let (mut objects, mut links) = (Vec::new(), Vec::new());
        for line in &lines[1..lines.len() - 1] {
            match line.contains("->") {
                true => links.push(line.to_string()),
                false => objects.push(with_values_shuffled(&mut random, line)),
            }
        }
        random.shuffle(&mut links);
        for line in links {
            objects.insert(random.below(objects.len() + 1), line);
        }
        let shuffled = format!("objectdiagram r {{{}}}", objects.join("\n"));
        let read = read_site(shuffled.as_bytes()).expect(&shuffled);
        assert_eq!(record_file(&read.record), file, "{shuffled}");
    }
}

/// An object's line with its values in another order.
fn with_values_shuffled(random: &mut Random, line: &str) -> String {
    let (head, body) = line.split_once('{').expect("a body");
    let mut values: Vec<&str> = body.trim_end_matches('}').split_inclusive(';').collect();
    random.shuffle(&mut values);
    format!("{head}{{{}}}", values.concat())
}
