//! The file that `--out` names.

mod common;

use std::fs::{self, Permissions};
use std::os::unix::fs::{symlink, MetadataExt, PermissionsExt};

use common::json::{read, Value};
use common::{sites, Folder};

/// What is added to a line whose answer is a difference of one Card.
const DIFFERENCE: &str = "compare s.diagram p.diagram --out";

/// The permissions of a file.
fn mode_of(folder: &Folder, name: &str) -> u32 {
    let found = fs::metadata(folder.path(name)).expect(name);
    found.permissions().mode() & 0o7777
}

/// Temporary files that were left in a folder.
fn parts_in(folder: &Folder) -> usize {
    let entries = fs::read_dir(folder.path(".")).expect("the folder");
    let names = entries.map(|entry| entry.expect("an entry").file_name());
    names
        .filter(|name| name.to_string_lossy().ends_with(".part"))
        .count()
}

#[test]
fn an_input_is_never_written_over() {
    let folder = sites::folder("out_input");
    symlink("s.diagram", folder.path("link")).expect("a link");
    fs::hard_link(folder.path("p.diagram"), folder.path("twin")).expect("a twin");
    for (out, input) in [
        ("s.diagram", "s.diagram"),
        ("./p.diagram", "p.diagram"),
        ("../out_input/s.diagram", "s.diagram"),
        ("link", "s.diagram"),
        ("twin", "p.diagram"),
    ] {
        let line = format!("{DIFFERENCE} {out}");
        let sentence =
            format!("'--out {out}' would write over the input '{input}'; name another file.");
        assert_eq!(
            folder.complaint(&line),
            format!("corfynnog: {sentence} Run 'corfynnog compare --help' for help.\n")
        );
        let object = read(&folder.line(&format!("{line} --json")).out);
        assert_eq!(object.get("result").text(), "misused");
        assert_eq!(object.get("text").text(), sentence);
    }
    assert_eq!(folder.get("s.diagram"), Some(sites::s()));
    assert_eq!(folder.get("p.diagram"), Some(sites::p()));
    let told = folder.complaint("compare s.diagram gone --out s.diagram");
    assert!(told.contains("would write over"), "{told}");
}

#[test]
fn standard_input_is_not_looked_at() {
    let folder = sites::folder("out_from_input");
    let ran = folder.shell("$P compare - p.diagram --out s.diagram < s.diagram");
    assert_eq!((ran.status, ran.err.as_str()), (1, ""));
    assert_eq!(folder.get("s.diagram"), Some(sites::card()));
}

#[test]
fn what_cannot_be_written_is_found_before_the_search() {
    let folder = sites::folder("out_cannot");
    fs::create_dir(folder.path("folder")).expect("a folder");
    folder.put("locked", b"before");
    fs::set_permissions(folder.path("locked"), Permissions::from_mode(0o444)).expect("its mode");
    symlink("gone/site", folder.path("astray")).expect("a link");
    symlink("circle", folder.path("circle")).expect("a link");
    let long = "a".repeat(300);
    for (out, words) in [
        ("gone/site", "its folder does not exist. Make the folder"),
        ("astray", "its folder does not exist. Make the folder"),
        ("folder", "it is a folder. Name a file in it."),
        ("new/", "it is a folder. Name a file in it."),
        ("p.diagram/site", "not a directory. Check its name"),
        ("locked", "the file is read-only. Make it writable"),
        ("circle", "too many levels of symbolic links"),
        (&long, "file name too long"),
        ("/proc/site", "its folder does not exist"),
    ] {
        let line = format!("{DIFFERENCE} {out}");
        let told = folder.complaint(&line);
        let first = format!("corfynnog: Cannot write {out}: {words}");
        assert!(told.starts_with(&first), "{told}");
        assert_eq!(told.lines().count(), 1, "{told}");
        let object = read(&folder.line(&format!("{line} --json")).out);
        assert_eq!(object.get("result").text(), "unwritable");
        assert_eq!(object.get("file").text(), out);
        assert!(words.starts_with(object.get("text").text()), "{object:?}");
    }
    let told = folder.complaint(&format!("{DIFFERENCE}="));
    assert!(told.contains("--out needs the name of a file."), "{told}");
    assert_eq!(folder.get("locked").as_deref(), Some(&b"before"[..]));
    assert_eq!(parts_in(&folder), 0);
}

#[test]
fn the_answer_is_told_where_writing_fails_at_the_end() {
    let folder = sites::folder("out_full");
    let ran = folder.line(&format!("{DIFFERENCE} /dev/full"));
    assert_eq!(ran.status, 2);
    assert!(ran.out.starts_with("Difference: "), "{}", ran.out);
    assert!(!ran.out.contains("as a record file"), "{}", ran.out);
    let told = "corfynnog: Cannot write /dev/full: no space left on device. Make room, or name another file.\n";
    assert_eq!(ran.err, told);
    let ran = folder.line(&format!("{DIFFERENCE} /dev/full --json"));
    assert_eq!((ran.status, ran.err.as_str()), (2, told));
    assert_eq!(read(&ran.out).get("written"), &Value::Null);
}

#[test]
fn the_file_is_replaced_with_its_permissions() {
    let folder = sites::folder("out_replaced");
    folder.put("site", b"before");
    let before = fs::metadata(folder.path("site")).expect("the file");
    for mode in [0o600, 0o666, 0o640] {
        fs::set_permissions(folder.path("site"), Permissions::from_mode(mode)).expect("its mode");
        folder.answer(1, &format!("{DIFFERENCE} site"));
        assert_eq!(folder.get("site"), Some(sites::card()));
        assert_eq!(mode_of(&folder, "site"), mode);
    }
    let after = fs::metadata(folder.path("site")).expect("the file");
    assert_ne!(before.ino(), after.ino());
    assert_eq!(parts_in(&folder), 0);
}

#[test]
fn a_link_is_followed() {
    let folder = sites::folder("out_link");
    fs::create_dir(folder.path("folder")).expect("a folder");
    folder.put("folder/site", b"before");
    symlink("folder/site", folder.path("link")).expect("a link");
    symlink("link", folder.path("link_to_link")).expect("a link");
    symlink("folder/later", folder.path("ahead")).expect("a link");
    for (out, file) in [
        ("link", "folder/site"),
        ("link_to_link", "folder/site"),
        ("ahead", "folder/later"),
    ] {
        folder.answer(1, &format!("{DIFFERENCE} {out}"));
        assert_eq!(folder.get(file), Some(sites::card()), "{out}");
        let link = fs::symlink_metadata(folder.path(out)).expect(out);
        assert!(link.is_symlink(), "{out}");
        folder.put(file, b"before");
    }
}

#[test]
fn what_is_no_regular_file_is_written_straight() {
    let folder = sites::folder("out_special");
    let answer = folder.answer(1, &format!("{DIFFERENCE} /dev/null"));
    assert!(answer.ends_with("\nThe site as a record file: /dev/null (12 bytes)\n"));
    let ran = folder.shell(&format!("$P {DIFFERENCE} /dev/stdout | cat"));
    let site = String::from_utf8(sites::card()).expect("ASCII");
    assert!(ran.out.starts_with(&(site + "Difference: ")), "{}", ran.out);
    let ran = folder.shell(&format!(
        "mkfifo pipe && {{ cat pipe > copy & }} && $P {DIFFERENCE} pipe && exit 9; wait"
    ));
    assert_eq!(ran.err, "");
    assert_eq!(folder.get("copy"), Some(sites::card()));
}

#[test]
fn the_site_on_standard_output() {
    let folder = sites::folder("out_output");
    let told = folder.answer(1, "compare s.diagram p.diagram");
    let ran = folder.line(&format!("{DIFFERENCE} -"));
    assert_eq!((ran.status, ran.out.into_bytes()), (1, sites::card()));
    assert_eq!(
        ran.err,
        told + "\nThe site as a record file: standard output (12 bytes)\n"
    );
    let told = folder.answer(0, "compare p.diagram s.diagram --bound 2");
    let ran = folder.line("compare p.diagram s.diagram --bound 2 --out -");
    assert_eq!((ran.status, ran.out.as_str()), (0, ""));
    assert_eq!(ran.err, told);
    let ran = folder.shell(&format!("$P {DIFFERENCE} - 2> told | $P judge p.diagram -"));
    assert_eq!(ran.status, 1);
    let object = read(&folder.line(&format!("{DIFFERENCE} - --json")).out);
    let sentence = "--json and '--out -' both write to standard output; name a file.";
    assert_eq!(object.get("result").text(), "misused");
    assert_eq!(object.get("text").text(), sentence);
}

#[test]
fn the_file_that_standard_output_goes_to() {
    let folder = sites::folder("out_same");
    for out in ["site", "/dev/stdout"] {
        let ran = folder.shell(&format!("$P {DIFFERENCE} {out} > site"));
        let words =
            format!("'--out {out}' is the file that standard output goes to; use '--out -'");
        assert_eq!(ran.status, 2);
        assert!(ran.err.contains(&words), "{}", ran.err);
        assert_eq!(folder.get("site"), Some(vec![]));
    }
}

#[test]
fn a_file_from_before_stays_and_is_told() {
    let folder = sites::folder("out_before");
    folder.put("site", b"before");
    let words = "site was not written; the file of that name is from before.\n";
    for line in [
        "compare p.diagram s.diagram --bound 2",
        "compare z.diagram p.diagram --bound 0",
    ] {
        let told = folder.answer(0, line);
        assert_eq!(
            folder.answer(0, &format!("{line} --out site")),
            told.clone() + words
        );
        assert_eq!(folder.get("site").as_deref(), Some(&b"before"[..]));
        assert_eq!(folder.answer(0, &format!("{line} --out none")), told);
        assert_eq!(folder.answer(0, &format!("{line} --out /dev/null")), told);
        let object = read(&folder.answer(0, &format!("{line} --out site --json")));
        assert_eq!(object.get("written"), &Value::Null);
    }
}
