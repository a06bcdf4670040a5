//! Tells the linker where the proved library is, the crate which kit proved it, and the reader what
//! to do where it is missing.

use std::env;
use std::fs;
use std::path::{Path, PathBuf};
use std::process::exit;

/// The folder named by REPLAY_LIB_DIR, else target/staticlib of the repository.
fn library_dir() -> PathBuf {
    if let Some(dir) = env::var_os("REPLAY_LIB_DIR") {
        return PathBuf::from(dir);
    }
    let manifest = env::var_os("CARGO_MANIFEST_DIR").expect("cargo sets CARGO_MANIFEST_DIR");
    Path::new(&manifest).join("../../target/staticlib")
}

/// The kit's identity, which stands beside the library; none where nobody wrote it there.
fn kit(dir: &Path) -> Option<String> {
    let file = dir.join("libreplay.kit");
    let text = fs::read_to_string(&file).ok()?;
    // A file that is not there would count as changed at every build.
    println!("cargo:rerun-if-changed={}", file.display());
    let line = text.lines().next()?.trim();
    (!line.is_empty()).then(|| line.to_string())
}

fn main() {
    println!("cargo:rerun-if-env-changed=REPLAY_LIB_DIR");
    let dir = library_dir();
    let library = dir.join("libreplay.a");
    println!("cargo:rerun-if-changed={}", library.display());
    if !library.is_file() {
        eprintln!("The proved library is missing: {}", library.display());
        eprintln!(
            "Run 'make library' in the repository's top folder first; it proves and builds it."
        );
        exit(1);
    }
    let dir = dir.canonicalize().unwrap_or(dir);
    let kit = kit(&dir).unwrap_or_else(|| "unknown kit".to_string());
    println!("cargo:rustc-env=REPLAY_KIT={kit}");
    println!("cargo:rustc-env=REPLAY_LIB={}/libreplay.a", dir.display());
    println!("cargo:rustc-link-search=native={}", dir.display());
    println!("cargo:rustc-link-lib=static=replay");
}
