//! The files that are timed: the worked example and the pairs of the folder `examples`.

use generators::hex::bytes;
use std::path::PathBuf;

/// Shelf and Card: a Shelf holds at most so many Cards, and each Card stands in one Shelf.
pub fn shelf_and_card(most: u8) -> Vec<u8> {
    bytes(&format!(
        "10 00 01 01  30 00 08 00 05 53 68 65 6C 66 00  30 00 07 00 04 43 61 72 64 00
         50 00 14 01 01 00 01 01 05 73 68 65 6C 66 01 00 {most:02X} 05 63 61 72 64 73"
    ))
}

/// Eight singleton classes.
pub fn eight_singletons() -> Vec<u8> {
    let mut file = empty();
    for digit in b'0'..=b'7' {
        file.extend_from_slice(&[0x30, 0, 5, 3, 2, b'S', digit, 0]);
    }
    file
}

/// The diagram without types.
pub fn empty() -> Vec<u8> {
    bytes("10 00 01 01")
}

/// A pair of diagrams and its name.
pub struct Pair {
    pub name: String,
    pub old: Vec<u8>,
    pub new: Vec<u8>,
}

/// The pairs that are compared.
pub fn pairs() -> Vec<Pair> {
    let (p, q) = (shelf_and_card(4), shelf_and_card(2));
    let pair = |name: &str, old: &[u8], new: &[u8]| Pair {
        name: name.to_string(),
        old: old.to_vec(),
        new: new.to_vec(),
    };
    let mut pairs = vec![
        pair("P to Q", &p, &q),
        pair("Q to P", &q, &p),
        pair("S8 to E", &eight_singletons(), &empty()),
    ];
    pairs.extend(example_pairs());
    pairs
}

/// The text of the old diagram of every folder of `examples`, in the order of their names.
pub fn example_texts() -> Vec<(String, Vec<u8>)> {
    let mut texts = Vec::new();
    for folder in example_folders() {
        let text = std::fs::read(folder.join("old.cd"));
        if let (Ok(text), Some(name)) = (text, folder.file_name()) {
            texts.push((format!("examples/{}", name.to_string_lossy()), text));
        }
    }
    texts
}

/// Every folder of `examples`, in the order of their names.
fn example_folders() -> Vec<PathBuf> {
    let examples = PathBuf::from(env!("CARGO_MANIFEST_DIR")).join("../../examples");
    let Ok(folders) = std::fs::read_dir(examples) else {
        return Vec::new();
    };
    let mut folders: Vec<PathBuf> = folders.flatten().map(|entry| entry.path()).collect();
    folders.sort();
    folders
}

/// Every folder of `examples` with an old and a new diagram.
fn example_pairs() -> Vec<Pair> {
    let mut pairs = Vec::new();
    for folder in example_folders() {
        let old = std::fs::read(folder.join("old.diagram"));
        let new = std::fs::read(folder.join("new.diagram"));
        if let (Ok(old), Ok(new), Some(name)) = (old, new, folder.file_name()) {
            let name = format!("examples/{}", name.to_string_lossy());
            pairs.push(Pair { name, old, new });
        }
    }
    pairs
}
