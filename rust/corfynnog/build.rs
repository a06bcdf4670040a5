//! Tells the crate which commit it is built from, where a git checkout can tell.

use std::env;
use std::path::{Path, PathBuf};
use std::process::Command;

/// What the program is made of, from the repository's top folder. The proved crates are left out:
/// they reach the program by the library, and cargo starts this again where that is another one.
const SOURCES: [&str; 8] = [
    "rust/Cargo.lock",
    "rust/Cargo.toml",
    "rust/boundary/Cargo.toml",
    "rust/boundary/build.rs",
    "rust/boundary/src",
    "rust/corfynnog/Cargo.toml",
    "rust/corfynnog/build.rs",
    "rust/corfynnog/src",
];

/// What the library is made of.
const PROVED_SOURCES: [&str; 2] = ["crates", "crates.txt"];

/// What git prints in a folder; none where it fails or is missing.
fn git(folder: &Path, words: &[&str]) -> Option<String> {
    let mut command = Command::new("git");
    command.arg("--no-optional-locks").arg("-C").arg(folder);
    // A build that a hook of some repository starts is still one of this folder.
    for variable in ["GIT_DIR", "GIT_WORK_TREE", "GIT_INDEX_FILE"] {
        command.env_remove(variable);
    }
    let output = command.args(words).output().ok()?;
    let text = String::from_utf8(output.stdout).ok()?;
    output.status.success().then(|| text.trim_end().to_string())
}

/// Whether the folder is the top of a checkout, and not a part of some other one.
fn is_checkout(top: &Path) -> bool {
    let shown = git(top, &["rev-parse", "--show-toplevel"]).map(PathBuf::from);
    shown.is_some_and(|folder| folder.canonicalize().is_ok_and(|folder| folder == top))
}

/// Has cargo start this again where a file or a folder changes. One that is not there would count
/// as changed at every build.
fn watch(path: &Path) {
    if path.exists() {
        println!("cargo:rerun-if-changed={}", path.display());
    }
}

/// Has cargo start this again at another commit: where HEAD changes, or the branch that it names,
/// which has a file of its own or a line in packed-refs.
fn watch_commit(top: &Path) {
    let file = |name: &str| {
        let path = git(top, &["rev-parse", "--git-path", name]);
        path.map(|path| top.join(path)).unwrap_or_default()
    };
    watch(&file("HEAD"));
    let Some(branch) = git(top, &["symbolic-ref", "--quiet", "HEAD"]).map(|name| file(&name))
    else {
        return;
    };
    if branch.exists() {
        watch(&branch);
    } else {
        watch(&file("packed-refs"));
        watch(&file("refs/heads"));
    }
}

/// The commit, and whether what the program is made of differs from it.
fn commit(top: &Path) -> Option<String> {
    let commit = git(top, &["rev-parse", "--short=7", "HEAD"])?;
    let status = ["status", "--porcelain", "--untracked-files=no", "--"];
    let changes = git(top, &[&status[..], &SOURCES, &PROVED_SOURCES].concat());
    match changes.as_deref() {
        Some("") => Some(commit),
        _ => Some(format!("{commit}, changed")),
    }
}

fn main() {
    let manifest = env::var_os("CARGO_MANIFEST_DIR").expect("cargo sets CARGO_MANIFEST_DIR");
    let top = Path::new(&manifest).join("../..");
    let top = top.canonicalize().unwrap_or(top);
    for source in SOURCES {
        watch(&top.join(source));
    }
    let mut told = None;
    if is_checkout(&top) {
        watch_commit(&top);
        told = commit(&top);
    }
    let told = told.unwrap_or_else(|| "unknown".to_string());
    println!("cargo:rustc-env=CORFYNNOG_COMMIT={told}");
}
