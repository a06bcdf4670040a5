//! What README and the pages of the examples say that the program answers.

mod common;

use std::fs;
use std::path::{Path, PathBuf};

use common::Folder;

/// A file or folder of the repository.
fn repository(path: &str) -> PathBuf {
    Path::new(env!("CARGO_MANIFEST_DIR"))
        .join("../..")
        .join(path)
}

/// The files of an example in a folder of the document's own.
fn copy_of(example: &str, document: &str) -> Folder {
    let copy = Folder::of(&document.replace('/', "_"));
    let folder = repository("examples").join(example);
    for entry in fs::read_dir(folder).expect("the folder") {
        let path = entry.expect("a file").path();
        let name = path.file_name().expect("a name");
        copy.put(name, &fs::read(&path).expect("its bytes"));
    }
    copy
}

/// The blocks of a document.
fn blocks(document: &str) -> Vec<String> {
    let text = fs::read_to_string(repository(document)).expect(document);
    let parts = text.split("```\n").skip(1).step_by(2);
    parts.map(str::to_string).collect()
}

/// Each block that starts with a command has the program's answer behind it; there are so many.
fn expect_answers(document: &str, folder: &Folder, number: usize) {
    let blocks = blocks(document);
    let answers = blocks.iter().filter_map(|b| b.strip_prefix("$ corfynnog "));
    let mut found = 0;
    for block in answers {
        let (line, answer) = block.split_once('\n').expect("a command");
        let ran = folder.line(line);
        assert_eq!(ran.out + &ran.err, answer, "{document}: {line}");
        found += 1;
    }
    assert_eq!(found, number, "{document}");
}

#[test]
fn the_answers_of_the_examples() {
    for (example, number) in [
        ("card_states", 1),
        ("line_cards", 1),
        ("line_groups", 3),
        ("new_families", 2),
        ("shelf_and_card", 9),
    ] {
        let document = format!("examples/{example}/README.md");
        expect_answers(&document, &copy_of(example, &document), number);
    }
}

#[test]
fn the_answers_of_readme() {
    let folder = copy_of("line_cards", "README.md");
    let site = blocks("README.md");
    let site = site.iter().find(|b| b.starts_with("objectdiagram "));
    folder.put("site.od", site.expect("a site").as_bytes());
    let new = folder.get("new.cd").expect("new.cd");
    let new = String::from_utf8(new).expect("a text");
    folder.put(
        "typo.cd",
        new.replace("(cards) Card", "(cards) Crad").as_bytes(),
    );
    expect_answers("README.md", &folder, 7);
}
