//! What the tests share: running the built program, and files to run it on.
#![allow(dead_code)]

pub mod constructs;
pub mod json;
pub mod promised;
pub mod sites;

use std::ffi::OsStr;
use std::fs;
use std::path::{Path, PathBuf};
use std::process::{Command, Stdio};

/// What a run of the program left.
pub struct Ran {
    pub status: i32,
    pub out: String,
    pub err: String,
}

/// A folder of a test's own.
pub struct Folder {
    path: PathBuf,
}

impl Folder {
    /// Empty, whatever an earlier run left.
    pub fn of(test: &str) -> Folder {
        let path = Path::new(env!("CARGO_TARGET_TMPDIR")).join(test);
        let _ = fs::remove_dir_all(&path);
        fs::create_dir_all(&path).expect("a folder for the test");
        Folder { path }
    }

    /// Puts a file into it.
    pub fn put(&self, name: impl AsRef<Path>, bytes: &[u8]) {
        fs::write(self.path.join(name), bytes).expect("a file for the test");
    }

    /// The path of a file of it.
    pub fn path(&self, name: &str) -> PathBuf {
        self.path.join(name)
    }

    /// A file of it.
    pub fn get(&self, name: &str) -> Option<Vec<u8>> {
        fs::read(self.path.join(name)).ok()
    }

    /// Runs the program there. Neither of its outputs is a terminal.
    pub fn run(&self, words: &[impl AsRef<OsStr>]) -> Ran {
        self.start(words, Stdio::null())
    }

    fn start(&self, words: &[impl AsRef<OsStr>], input: Stdio) -> Ran {
        let mut program = Command::new(env!("CARGO_BIN_EXE_corfynnog"));
        program.args(words).stdin(input);
        self.end_of(program)
    }

    /// Runs a program there.
    fn end_of(&self, mut program: Command) -> Ran {
        program.current_dir(&self.path);
        let done = program.output().expect("the program starts");
        Ran {
            status: done.status.code().expect("the program ends by itself"),
            out: String::from_utf8(done.stdout).expect("text"),
            err: String::from_utf8(done.stderr).expect("text"),
        }
    }

    /// Runs a line of words with these bytes as standard input.
    pub fn line_with_input(&self, line: &str, input: &[u8]) -> Ran {
        self.put("input", input);
        let input = fs::File::open(self.path.join("input")).expect("the input");
        self.start(&line.split_whitespace().collect::<Vec<_>>(), input.into())
    }

    /// Runs a line of a shell, in which $P is the program.
    pub fn shell(&self, line: &str) -> Ran {
        let mut shell = Command::new("sh");
        shell.args(["-c", line]);
        shell.env("P", env!("CARGO_BIN_EXE_corfynnog"));
        self.end_of(shell)
    }

    /// Runs a line of words.
    pub fn line(&self, line: &str) -> Ran {
        self.run(&line.split_whitespace().collect::<Vec<_>>())
    }

    /// Runs a line that has this exit status and complains of nothing; what it prints.
    #[track_caller]
    pub fn answer(&self, status: i32, line: &str) -> String {
        let ran = self.line(line);
        assert_eq!((ran.status, ran.err.as_str()), (status, ""), "{line}");
        ran.out
    }

    /// Runs a line that goes wrong and prints nothing; what it complains of.
    #[track_caller]
    pub fn complaint(&self, line: &str) -> String {
        let ran = self.line(line);
        assert_eq!((ran.status, ran.out.as_str()), (2, ""), "{line}");
        ran.err
    }
}
