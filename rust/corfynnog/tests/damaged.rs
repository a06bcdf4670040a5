//! Damaged files: the program always ends with one of its three statuses, finds the place of every
//! refusal, and finds the place of every broken rule.

mod common;

use common::json::read;
use common::{sites, Folder};
use generators::hex::bytes;
use generators::Random;

/// A file with a byte a little larger or smaller, which often is still a file.
fn nudge(file: &[u8], random: &mut Random) -> Vec<u8> {
    let mut file = file.to_vec();
    let at = random.below(file.len());
    file[at] = match random.below(2) {
        0 => file[at].wrapping_add(1),
        _ => file[at].wrapping_sub(1),
    };
    file
}

/// A file with one or two bytes changed, put in or taken out, or its end cut off.
fn damage(file: &[u8], random: &mut Random) -> Vec<u8> {
    let mut file = file.to_vec();
    for _ in 0..=random.below(2) {
        let at = random.below(file.len() + 1);
        match random.below(6) {
            0 => file.truncate(at),
            1 => file.insert(at, random.byte()),
            2 if at < file.len() => drop(file.remove(at)),
            3 if at < file.len() => file[at] = random.byte(),
            4 if at < file.len() => file[at] = random.below(6) as u8,
            _ if at < file.len() => file[at] ^= 1 << random.below(8),
            _ => (),
        }
    }
    file
}

/// Diagrams with every kind of field.
fn diagrams() -> Vec<Vec<u8>> {
    let values =
        "10 00 01 01 20 00 03 01 56 00 20 00 07 01 43 02 01 72 01 67 30 00 04 02 01 49 00 \
        30 00 05 00 01 41 01 00 30 00 05 02 01 4A 01 00 40 00 04 00 01 61 00 40 00 04 01 01 62 01";
    vec![
        sites::p(),
        sites::z(),
        sites::line_and_port(3),
        sites::wide((1, 1), (0, 256)),
        bytes(values),
    ]
}

/// Records with every kind of field.
fn records() -> Vec<Vec<u8>> {
    let values =
        "60 00 01 01 61 00 02 01 41 62 00 06 00 01 61 01 56 00 62 00 07 00 01 62 01 43 01 72";
    vec![
        sites::shelf_with(3),
        sites::one_way(),
        sites::wrong_way(),
        bytes(values),
    ]
}

/// Checks a file that is damaged; what is refused is refused at a place.
fn check(folder: &Folder, file: &[u8]) -> i32 {
    folder.put("file", file);
    let ran = folder.line("check file");
    let shown = format!("{file:02X?}: {} {}", ran.out, ran.err);
    assert!(ran.status == 0 || ran.status == 2, "{shown}");
    assert_eq!(ran.status == 0, ran.err.is_empty(), "{shown}");
    assert!(
        !ran.err.contains("panicked") && !ran.err.contains("could not find"),
        "{shown}"
    );
    assert!(!ran.err.contains("cannot explain"), "{shown}");
    ran.status
}

/// Damages each file so many times; returns how many were accepted and refused.
fn check_all(test: &str, files: &[Vec<u8>], times: usize) -> (usize, usize) {
    let folder = Folder::of(test);
    let mut random = Random::new(1);
    let mut counts = (0, 0);
    for file in files {
        assert_eq!(check(&folder, file), 0, "undamaged: {file:02X?}");
        for _ in 0..times {
            let damaged = match random.below(3) {
                0 => nudge(file, &mut random),
                _ => damage(file, &mut random),
            };
            match check(&folder, &damaged) {
                0 => counts.0 += 1,
                _ => counts.1 += 1,
            }
        }
    }
    counts
}

#[test]
fn damaged_diagrams() {
    let (accepted, refused) = check_all("damaged_diagrams", &diagrams(), 250);
    assert!(accepted >= 50 && refused >= 500, "{accepted} {refused}");
}

#[test]
fn damaged_records() {
    let (accepted, refused) = check_all("damaged_records", &records(), 250);
    assert!(accepted >= 50 && refused >= 500, "{accepted} {refused}");
}

#[test]
fn damaged_diagrams_converted() {
    let folder = Folder::of("damaged_converted");
    let mut random = Random::new(4);
    let mut counts = [0; 26];
    for file in diagrams().iter().cycle().take(750) {
        let file = nudge(file, &mut random);
        folder.put("file", &file);
        let ran = folder.line("convert file --out other --json");
        let shown = format!("{file:02X?}: {} {}", ran.out, ran.err);
        assert_eq!(ran.err, "", "{shown}");
        let object = read(&ran.out);
        if ran.status == 0 {
            folder.answer(0, "convert other --out back");
            assert_eq!(folder.get("back"), Some(file), "{shown}");
            counts[0] += 1;
            continue;
        }
        assert_eq!(object.get("result").text(), "refused", "{shown}");
        if file.starts_with(b"\x10") {
            assert!(object.get("byte").number() <= file.len() as u64, "{shown}");
        }
        counts[object.get("refusal").number() as usize] += 1;
    }
    for (number, least) in [(0, 100), (2, 20), (3, 50), (25, 50)] {
        assert!(counts[number] >= least, "{number}: {counts:?}");
    }
}

/// A text with every construct, a blank between any two words and marks.
const TEXT: &str = "classdiagram d { class A ; interface I ; abstract class B ; \
    class C extends A , B implements I { V v ; E e ; } enum E { a , b ; } enum F ; \
    << singleton >> class M { } composition [ 1 ] A ( x ) -> ( y ) C [ 0 .. 4 ] ; \
    association A <- I [ 2 .. * ] ; association [ * ] B <-> I ; association M -- ( z ) M ; }";

/// Words and marks that may stand for each other.
const ALIKE: [&str; 6] = [
    "A B C I M E F V",
    "a b v e x y z",
    "-> <- <-> --",
    "0 1 2 4 256 4001",
    "extends implements",
    "composition association",
];

/// A text with a few of its words and marks exchanged for others of their kind, or one for any.
fn damaged_text(random: &mut Random) -> Vec<u8> {
    let mut words: Vec<&str> = TEXT.split(' ').collect();
    for _ in 0..random.below(12) {
        let at = random.below(words.len());
        let mut groups = ALIKE
            .iter()
            .map(|group| group.split(' ').collect::<Vec<_>>());
        if let Some(group) = groups.find(|group| group.contains(&words[at])) {
            words[at] = group[random.below(group.len())];
        }
    }
    let (at, from) = (random.below(words.len()), random.below(words.len()));
    match random.below(12) {
        0 => drop(words.remove(at)),
        1 => words.insert(at, words[from]),
        2 => words[at] = words[from],
        _ => (),
    }
    words.join(" ").into_bytes()
}

#[test]
fn damaged_texts() {
    let folder = Folder::of("damaged_texts");
    let mut random = Random::new(3);
    let mut counts = [0; 25];
    for _ in 0..1000 {
        let text = match random.below(4) {
            0 => damage(TEXT.as_bytes(), &mut random),
            _ => damaged_text(&mut random),
        };
        folder.put("file", &text);
        let ran = folder.line("check file --json");
        let shown = format!("{}: {} {}", text.escape_ascii(), ran.out, ran.err);
        assert!(ran.status == 0 || ran.status == 2, "{shown}");
        assert!(
            ran.err.is_empty() && !ran.out.contains("could not find"),
            "{shown}"
        );
        let number = match ran.status {
            0 => 0,
            _ => read(&ran.out).get("refusal").number(),
        };
        counts[number as usize] += 1;
    }
    for (number, least) in [(0, 100), (23, 200), (24, 100), (5, 5), (8, 5)] {
        assert!(counts[number] >= least, "{number}: {counts:?}");
    }
}

#[test]
fn every_broken_rule_has_a_place() {
    let folder = Folder::of("damaged_judged");
    let mut random = Random::new(2);
    let mut illegal = 0;
    for (diagram, record) in diagrams().iter().zip(records()).cycle().take(600) {
        folder.put("d", &nudge(diagram, &mut random));
        folder.put("r", &nudge(&record, &mut random));
        folder.put("whole", diagram);
        for line in ["judge whole r", "evaluate d r"] {
            let ran = folder.line(line);
            let shown = format!("{line}: {} {}", ran.out, ran.err);
            assert!((0..=2).contains(&ran.status), "{shown}");
            assert!(
                !ran.err.contains("panicked") && !ran.err.contains("cannot explain"),
                "{shown}"
            );
            assert!(!ran.out.contains("could not find"), "{shown}");
            illegal += usize::from(ran.status == 1);
        }
    }
    assert!(illegal >= 100, "{illegal}");
}
