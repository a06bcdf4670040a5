//! Writes the diagram files and record files of the folder `examples` of the repository.

mod builder;
mod pairs;
mod record_builder;
mod shelf_and_card;

use std::fs;
use std::io;
use std::path::Path;

fn main() -> io::Result<()> {
    let root = Path::new(env!("CARGO_MANIFEST_DIR")).join("../../examples");
    for (folder, old, new) in pairs::pairs() {
        let files = [("old", old), ("new", new)];
        write(&root.join(folder), files.into(), "diagram")?;
    }
    let folder = root.join(shelf_and_card::FOLDER);
    write(&folder, shelf_and_card::diagrams(), "diagram")?;
    write(&folder, shelf_and_card::records(), "record")
}

/// Writes files of one suffix into a folder.
fn write(folder: &Path, files: Vec<shelf_and_card::Named>, suffix: &str) -> io::Result<()> {
    fs::create_dir_all(folder)?;
    for (name, bytes) in files {
        let path = folder.join(name).with_extension(suffix);
        fs::write(&path, bytes)?;
        println!("wrote {}", path.display());
    }
    Ok(())
}
