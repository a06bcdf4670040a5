//! Files on disk.

use std::fs::File;
use std::io::{stdin, Read};
use std::path::{Path, PathBuf};

use crate::json::Json;
use crate::shown::shown;
use crate::text::{is_name, NAME_MOST};
use crate::trouble::Trouble;

/// Far above any diagram or record file, and any text that a person types; what is longer is not
/// read to its end.
const MOST_BYTES: u64 = 64 << 20;

/// A file's bytes and where they came from.
#[derive(Clone, Debug)]
pub struct Loaded {
    pub path: PathBuf,
    pub bytes: Vec<u8>,
}

impl Loaded {
    /// A record file that stands in memory alone.
    pub fn site(file: &[u8]) -> Loaded {
        Loaded {
            path: "the site".into(),
            bytes: file.to_vec(),
        }
    }

    /// The file's name for people.
    pub fn name(&self) -> String {
        shown(&self.path)
    }

    /// The file's name for scripts.
    pub fn json_name(&self) -> Json {
        Json::name(&self.path)
    }

    /// A name for the diagram in a diagram file: the file's stem where a text may have it.
    pub fn name_of_diagram(&self) -> String {
        let stem = self.stem_or("diagram");
        match is_name(&stem) && stem.len() <= NAME_MOST {
            true => stem,
            false => "diagram".to_string(),
        }
    }

    /// A word to call a record by: the file's stem where that is a word, else the one given.
    pub fn stem_or(&self, other: &str) -> String {
        let stem = self.path.file_stem().unwrap_or_default().to_string_lossy();
        let is_word = |letter: char| letter.is_ascii_alphanumeric() || letter == '_';
        match !stem.is_empty() && stem.chars().all(is_word) {
            true => stem.into_owned(),
            false => other.to_string(),
        }
    }
}

/// The path that stands for standard input.
pub const STANDARD_INPUT: &str = "-";

/// What standard input is called.
const STANDARD_INPUT_NAME: &str = "standard input";

/// The whole file, or all of standard input.
pub fn load(path: &Path) -> Result<Loaded, Trouble> {
    let is_input = path == Path::new(STANDARD_INPUT);
    let path = match is_input {
        true => Path::new(STANDARD_INPUT_NAME),
        false => path,
    };
    let trouble = |why: String| Trouble::Unreadable {
        path: path.to_path_buf(),
        why,
    };
    let mut bytes = Vec::new();
    let read = match is_input {
        true => stdin().take(MOST_BYTES + 1).read_to_end(&mut bytes),
        false => {
            File::open(path).and_then(|file| file.take(MOST_BYTES + 1).read_to_end(&mut bytes))
        }
    };
    read.map_err(|error| trouble(plain_words(&error)))?;
    if bytes.len() as u64 > MOST_BYTES {
        let most = MOST_BYTES >> 20;
        return Err(trouble(format!(
            "it has more than {most} MiB, which is more than this program reads"
        )));
    }
    Ok(Loaded {
        path: path.to_path_buf(),
        bytes,
    })
}

/// The system's reason without its number.
pub fn plain_words(error: &std::io::Error) -> String {
    let text = error.to_string();
    match text.split_once(" (os error") {
        Some((words, _)) => words.to_lowercase(),
        None => text,
    }
}
