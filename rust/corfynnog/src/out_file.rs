//! The file that `--out` names: tried before any work, and written whole or not at all.

use std::fs::{self, File, Metadata, OpenOptions};
use std::io::{self, ErrorKind, Write};
use std::os::unix::ffi::OsStrExt;
use std::os::unix::fs::MetadataExt;
use std::path::{Path, PathBuf};

use crate::disk::{plain_words, STANDARD_INPUT};
use crate::json::Json;
use crate::output;
use crate::shown::shown;
use crate::trouble::{Trouble, Unwritable};

/// The name that stands for standard output.
pub const STANDARD_OUTPUT: &str = "-";

/// So many symbolic links are followed one after the other.
const MOST_LINKS: usize = 40;

/// So many names of temporary files are tried.
const MOST_PARTS: usize = 100;

/// A file that can be written, as far as that can be told before.
pub struct OutFile {
    /// As it is named.
    path: PathBuf,
    way: Way,
}

/// How the bytes get there.
enum Way {
    /// By standard output.
    Output,
    /// Straight into what is no regular file, such as a device or a pipe.
    Straight,
    /// By a temporary file beside this one, which stands behind all symbolic links.
    Beside(PathBuf),
}

/// Where the bytes are.
#[derive(Debug, PartialEq, Eq)]
pub enum Written {
    /// In the file.
    InFile,
    /// Here: they go to standard output in place of the answer's text.
    ForOutput(Vec<u8>),
}

impl OutFile {
    /// The file of that name, where it can be written and is none of the inputs.
    pub fn ready(path: &Path, inputs: &[&Path]) -> Result<OutFile, Trouble> {
        let way = match path == Path::new(STANDARD_OUTPUT) {
            true => Way::Output,
            false => way_to(path, inputs)?,
        };
        let path = path.to_path_buf();
        Ok(OutFile { path, way })
    }

    /// The bytes go to standard output.
    pub fn is_output(&self) -> bool {
        matches!(self.way, Way::Output)
    }

    /// There is a regular file of that name.
    pub fn is_there(&self) -> bool {
        matches!(&self.way, Way::Beside(file) if file.exists())
    }

    /// The file's name for people.
    pub fn name(&self) -> String {
        match self.way {
            Way::Output => "standard output".to_string(),
            _ => shown(&self.path),
        }
    }

    /// The file's name for scripts.
    pub fn json_name(&self) -> Json {
        Json::name(&self.path)
    }

    /// Writes the file; where that fails, a file of that name is as it was before.
    pub fn write(&self, bytes: &[u8]) -> Result<Written, Trouble> {
        let done = match &self.way {
            Way::Output => return Ok(Written::ForOutput(bytes.to_vec())),
            Way::Straight => write_straight(&self.path, bytes),
            Way::Beside(file) => replace(file, bytes),
        };
        match done {
            Ok(()) => Ok(Written::InFile),
            Err(error) => Err(failed(&self.path, &error)),
        }
    }
}

/// How a file can be written that is not standard output.
fn way_to(path: &Path, inputs: &[&Path]) -> Result<Way, Trouble> {
    match fs::metadata(path) {
        Ok(found) if found.is_dir() => return Err(is_folder(path)),
        Ok(found) if !found.is_file() => return Ok(Way::Straight),
        Ok(found) => {
            try_others(path, &found, inputs)?;
            try_present(path, &found)?;
        }
        Err(error) if error.kind() != ErrorKind::NotFound => return Err(failed(path, &error)),
        Err(_) if path.as_os_str().is_empty() => {
            return Err(Trouble::Misused("--out needs the name of a file.".into()));
        }
        Err(_) if path.as_os_str().as_bytes().ends_with(b"/") => return Err(is_folder(path)),
        Err(_) => (),
    }
    let file = behind_links(path);
    try_beside(path, &file)?;
    Ok(Way::Beside(file))
}

/// The file is neither an input nor the file that standard output goes to, under whatever name.
fn try_others(path: &Path, found: &Metadata, inputs: &[&Path]) -> Result<(), Trouble> {
    let is_same = |other: &Metadata| (other.dev(), other.ino()) == (found.dev(), found.ino());
    let mut files = inputs.iter().filter(|i| **i != Path::new(STANDARD_INPUT));
    if let Some(input) = files.find(|input| fs::metadata(input).is_ok_and(|m| is_same(&m))) {
        return Err(Trouble::Misused(format!(
            "'--out {}' would write over the input '{}'; name another file.",
            shown(path),
            shown(input)
        )));
    }
    if output::metadata().is_some_and(|m| is_same(&m)) {
        return Err(Trouble::Misused(format!(
            "'--out {}' is the file that standard output goes to; use '--out -' to write nothing else there.",
            shown(path)
        )));
    }
    Ok(())
}

/// A file that is there already may be written.
fn try_present(path: &Path, found: &Metadata) -> Result<(), Trouble> {
    let to_do = "Make it writable, or name another file.";
    if found.permissions().readonly() {
        return Err(cannot(path, "the file is read-only", to_do));
    }
    match OpenOptions::new().write(true).open(path) {
        Ok(_) => Ok(()),
        Err(error) => Err(cannot(path, &plain_words(&error), to_do)),
    }
}

/// A file can be made beside the one that the path leads to.
fn try_beside(path: &Path, file: &Path) -> Result<(), Trouble> {
    match part_beside(file).and_then(|(part, _)| fs::remove_file(part)) {
        Ok(()) => Ok(()),
        Err(error) if error.kind() == ErrorKind::NotFound => {
            let to_do = "Make the folder first, or name another file.";
            Err(cannot(path, "its folder does not exist", to_do))
        }
        Err(error) => Err(failed(path, &error)),
    }
}

/// The file behind symbolic links, whether it is there or not.
fn behind_links(path: &Path) -> PathBuf {
    let mut file = path.to_path_buf();
    for _ in 0..MOST_LINKS {
        let Ok(target) = fs::read_link(&file) else {
            break;
        };
        file = file.parent().unwrap_or(Path::new("")).join(target);
    }
    file
}

/// An empty file beside another one, under a name that nothing has.
fn part_beside(file: &Path) -> io::Result<(PathBuf, File)> {
    let folder = file.parent().unwrap_or(Path::new(""));
    let process = std::process::id();
    for number in 0..MOST_PARTS {
        let part = folder.join(format!(".corfynnog.{process}.{number}.part"));
        match OpenOptions::new().write(true).create_new(true).open(&part) {
            Err(error) if error.kind() == ErrorKind::AlreadyExists => (),
            opened => return opened.map(|file| (part, file)),
        }
    }
    Err(ErrorKind::AlreadyExists.into())
}

/// Puts a file in the place of the one of that name, with its permissions.
fn replace(file: &Path, bytes: &[u8]) -> io::Result<()> {
    let (part, opened) = part_beside(file)?;
    let done = fill(opened, file, bytes).and_then(|()| fs::rename(&part, file));
    if done.is_err() {
        let _ = fs::remove_file(&part);
    }
    done
}

/// Fills a temporary file; on disk it is whole before it gets its name.
fn fill(mut part: File, file: &Path, bytes: &[u8]) -> io::Result<()> {
    if let Ok(found) = fs::metadata(file) {
        part.set_permissions(found.permissions())?;
    }
    part.write_all(bytes)?;
    part.sync_all()
}

/// Writes into what is there.
fn write_straight(path: &Path, bytes: &[u8]) -> io::Result<()> {
    let mut file = OpenOptions::new().write(true).open(path)?;
    file.write_all(bytes)
}

/// A folder has that name.
fn is_folder(path: &Path) -> Trouble {
    cannot(path, "it is a folder", "Name a file in it.")
}

/// The system's reason, and what to do about most of them.
fn failed(path: &Path, error: &io::Error) -> Trouble {
    let to_do = match error.kind() {
        ErrorKind::StorageFull | ErrorKind::QuotaExceeded => "Make room, or name another file.",
        _ => "Check its name and the rights of its folder, or name another file.",
    };
    cannot(path, &plain_words(error), to_do)
}

/// A file that cannot be written, why, and what to do.
fn cannot(path: &Path, why: &str, to_do: &'static str) -> Trouble {
    Trouble::Unwritable(Unwritable {
        path: path.to_path_buf(),
        why: why.to_string(),
        to_do,
    })
}

#[cfg(test)]
mod tests {
    use super::*;

    /// A folder of this test's own, empty.
    fn folder(test: &str) -> PathBuf {
        let name = format!("corfynnog_{test}_{}", std::process::id());
        let folder = std::env::temp_dir().join(name);
        fs::create_dir(&folder).expect("a folder for the test");
        folder
    }

    #[test]
    fn a_failure_at_the_end_leaves_what_is_there() {
        let folder = folder("out_end");
        let site = folder.join("site");
        let Ok(out) = OutFile::ready(&site, &[]) else {
            panic!("the file can be written so far");
        };
        fs::create_dir(&site).expect("a folder in its place");
        assert!(matches!(out.write(b"site"), Err(Trouble::Unwritable(_))));
        let left = fs::read_dir(&folder).expect("the folder");
        let left: Vec<_> = left.map(|entry| entry.expect("an entry").path()).collect();
        assert_eq!(left, [site]);
        fs::remove_dir_all(folder).expect("the end of the test");
    }

    #[test]
    fn a_temporary_file_of_before_is_not_touched() {
        let folder = folder("out_part");
        let site = folder.join("site");
        let (first, _) = part_beside(&site).expect("a first file");
        let (second, _) = part_beside(&site).expect("a second file");
        assert_ne!(first, second);
        assert!(replace(&site, b"site").is_ok());
        assert_eq!(fs::read(&site).expect("the site"), b"site");
        assert_eq!(fs::read(&first).expect("the first"), b"");
        fs::remove_dir_all(folder).expect("the end of the test");
    }
}
