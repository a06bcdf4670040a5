//! The folder `examples` of the repository: its files, its texts and its answers.

mod common;

#[path = "../examples/write_examples/builder.rs"]
mod builder;
#[path = "../examples/write_examples/pairs.rs"]
mod pairs;
#[path = "../examples/write_examples/record_builder.rs"]
mod record_builder;
#[path = "../examples/write_examples/shelf_and_card.rs"]
mod shelf_and_card;

use std::fs;
use std::path::{Path, PathBuf};

use common::json::{read, Value};
use common::Folder;

/// The folder of one example.
fn example(name: &str) -> PathBuf {
    let root = Path::new(env!("CARGO_MANIFEST_DIR")).join("../../examples");
    root.join(name)
}

/// Compares an example's diagrams; the exit status and the answer.
fn compare(name: &str, old: &str, new: &str, bound: &str) -> (i32, Value) {
    let path = |file: &str| example(name).join(file).to_string_lossy().into_owned();
    let words = [
        "compare",
        &path(old),
        &path(new),
        "--bound",
        bound,
        "--json",
    ];
    let ran = Folder::of(&format!("example_{name}_{old}")).run(&words);
    assert_eq!(ran.err, "");
    (ran.status, read(&ran.out))
}

/// The types of the objects of a witness, in alphabetical order.
fn types(answer: &Value) -> Vec<String> {
    let objects = answer.get("witness").get("objects");
    let type_of = |i: usize| objects.at(i).get("type").text().to_string();
    let mut types: Vec<String> = (0..objects.len()).map(type_of).collect();
    types.sort();
    types
}

#[test]
fn the_files_are_those_that_the_program_writes() {
    let pairs = pairs::pairs();
    assert_eq!(pairs.len(), 4);
    for (name, old, new) in pairs {
        expect_files(name, "diagram", vec![("old", old), ("new", new)]);
    }
    let folder = shelf_and_card::FOLDER;
    expect_files(folder, "diagram", shelf_and_card::diagrams());
    expect_files(folder, "record", shelf_and_card::records());
}

/// The folder's files of one suffix are these.
fn expect_files(folder: &str, suffix: &str, files: Vec<shelf_and_card::Named>) {
    assert!(files.len() > 1);
    for (name, bytes) in files {
        let found = fs::read(example(folder).join(name).with_extension(suffix)).expect(name);
        assert_eq!(
            found, bytes,
            "{folder}/{name}.{suffix}: run 'cargo run --example write_examples'"
        );
    }
}

#[test]
fn the_texts_are_those_of_show() {
    for (name, _, _) in pairs::pairs() {
        let readme = fs::read_to_string(example(name).join("README.md")).expect(name);
        for release in ["old", "new"] {
            let path = example(name).join(release);
            let text = fs::read_to_string(path.with_extension("cd")).expect(name);
            assert!(readme.contains(&text), "{name}: {release}.cd");
            for suffix in ["cd", "diagram"] {
                assert_eq!(
                    shown(&path.with_extension(suffix)),
                    text,
                    "{name}: {release}"
                );
            }
        }
    }
}

/// What `show` prints of a file.
fn shown(path: &Path) -> String {
    let name = path.file_name().expect("a name").to_string_lossy();
    let ran = Folder::of(&format!("shown_{name}")).run(&["show", &path.to_string_lossy()]);
    assert_eq!((ran.status, ran.err.as_str()), (0, ""), "{name}");
    ran.out
}

/// A text of the folder `shelf_and_card`.
fn shelf_text(file: &str) -> String {
    fs::read_to_string(example(shelf_and_card::FOLDER).join(file)).expect(file)
}

#[test]
fn the_texts_of_shelf_and_card_are_those_of_show() {
    let folder = example(shelf_and_card::FOLDER);
    let accepted = |name: &str| !name.ends_with("_17") && !name.ends_with("_4001");
    for (name, _) in shelf_and_card::diagrams() {
        if accepted(name) {
            let text = shelf_text(&format!("{name}.cd"));
            assert_eq!(shown(&folder.join(format!("{name}.diagram"))), text);
            assert_eq!(shown(&folder.join(format!("{name}.cd"))), text);
        }
    }
    for (name, _) in shelf_and_card::records() {
        let text = shelf_text(&format!("{name}.od"));
        assert_eq!(shown(&folder.join(format!("{name}.record"))), text);
    }
}

#[test]
fn the_texts_that_are_refused_have_one_more_than_those_accepted() {
    let one_more = |text: String| text.replace("_16", "_17");
    let names = one_more(shelf_text("name_16.cd")).replace("Card_", "Cards_");
    assert_eq!(shelf_text("name_17.cd"), names);
    let accepted = shelf_text("associations_16.cd");
    let last = accepted.lines().rev().nth(1).expect("an association");
    let longer = accepted.replace(last, &format!("{last}\n{}", one_more(last.to_string())));
    let named = longer.replace(
        "classdiagram associations_16",
        "classdiagram associations_17",
    );
    assert_eq!(shelf_text("associations_17.cd"), named);
    let limit = shelf_text("lines_4000.cd").replace("4000", "4001");
    assert_eq!(shelf_text("lines_4001.cd"), limit);
}

#[test]
fn line_cards_differ_as_texts_and_as_files() {
    for (old, new) in [("old.cd", "new.cd"), ("old.diagram", "new.diagram")] {
        let (status, answer) = compare("line_cards", old, new, "8");
        assert_eq!((status, answer.get("result").text()), (1, "difference"));
        assert_eq!(types(&answer), ["Card", "Exchange", "Shelf"]);
        let reason = answer.get("reason");
        assert_eq!(reason.get("rule").number(), 6);
        assert_eq!(
            reason.get("places").at(0).get("text").text(),
            "Card0 has no link of role lines; allowed: 1 to 32."
        );
    }
}

#[test]
fn line_groups_differ_in_their_number_alone() {
    for (old, new) in [
        ("old.diagram", "new.diagram"),
        ("old.cd", "new.diagram"),
        ("old.cd", "new.cd"),
    ] {
        let (status, answer) = compare("line_groups", old, new, "8");
        assert_eq!((status, answer.get("result").text()), (1, "difference"));
        assert_eq!(types(&answer), ["Exchange", "Group", "Group"]);
        let (status, answer) = compare("line_groups", new, old, "5");
        assert_eq!((status, answer.get("result").text()), (0, "no difference"));
    }
}

#[test]
fn card_states_differ() {
    let (status, answer) = compare("card_states", "old.cd", "new.cd", "8");
    assert_eq!((status, answer.get("objects").number()), (1, 4));
    assert_eq!(answer.get("reason").get("rule").number(), 4);
    let place = answer.get("reason").get("places").at(0);
    assert_eq!(place.get("attribute").text(), "state");
    assert!(place
        .get("text")
        .text()
        .ends_with("State has no constant blocked."));
}

#[test]
fn new_families_allow_all_that_the_old_ones_do() {
    let (status, answer) = compare("new_families", "old.cd", "new.cd", "5");
    assert_eq!((status, answer.get("result").text()), (0, "no difference"));
    let (status, answer) = compare("new_families", "new.cd", "old.cd", "8");
    assert_eq!((status, answer.get("result").text()), (1, "difference"));
    assert_eq!(answer.get("objects").number(), 3);
}
