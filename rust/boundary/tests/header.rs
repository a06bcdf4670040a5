//! The library from C, by its header: a program is compiled with `cc`, linked and run.
//!
//! There is no test without `cc`: cargo links the tests themselves by that command, and where it
//! is missing all the same this fails and says so.

use boundary::{encode, Call};
use std::path::{Path, PathBuf};
use std::process::{Command, Output};

/// A Card stands on exactly one Shelf.
const DIAGRAM: &[u8] = b"classdiagram P { class Shelf; class Card;
    composition [1] Shelf -> (cards) Card [0..4]; }";

/// One Card, without a Shelf.
const CARD: &[u8] = b"\x60\x00\x01\x01\x61\x00\x05\x04Card";

/// Runs a command; ends the test where it cannot be started or fails.
fn run(command: &mut Command) -> Output {
    let output = command.output();
    let output = output.unwrap_or_else(|error| panic!("{command:?} cannot be started: {error}"));
    let said = String::from_utf8_lossy(&output.stderr);
    assert!(output.status.success(), "{command:?}\n{said}");
    output
}

/// A C program that runs these calls with room for one byte more than their replies, which are
/// `expected` bytes, and prints the number that came back and the whole room.
fn program(calls: &[u8], expected: usize) -> String {
    let listed: Vec<String> = calls.iter().map(u8::to_string).collect();
    let (listed, room) = (listed.join(", "), expected + 1);
    format!(
        "#include <replay.h>
        #include <stdio.h>
        #include <string.h>
        int main(void) {{
            static const uint8_t calls[] = {{{listed}}};
            uint8_t replies[{room}];
            size_t i, written;
            memset(replies, 238, sizeof replies);
            written = replay(calls, sizeof calls, replies, sizeof replies);
            printf(\"%lu:\", (unsigned long) written);
            for (i = 0; i < sizeof replies; i++) printf(\" %d\", replies[i]);
            return 0;
        }}
        "
    )
}

/// Compiles and links a C program as strictly as C of 1999 can be read; where it then stands.
fn compiled(source: &str) -> PathBuf {
    let folder = Path::new(env!("CARGO_TARGET_TMPDIR"));
    let (file, made) = (folder.join("header.c"), folder.join("header"));
    std::fs::write(&file, source).expect("a file for the test");
    let headers = Path::new(env!("CARGO_MANIFEST_DIR")).join("../../packaging");
    let mut compiler = Command::new("cc");
    compiler.args(["-std=c99", "-Wall", "-Wextra", "-Werror", "-pedantic", "-I"]);
    compiler.arg(headers).arg("-o").arg(&made).arg(&file);
    run(compiler.arg(env!("REPLAY_LIB")));
    made
}

#[test]
fn a_program_in_c_gets_the_replies() {
    let calls = encode(&[
        Call::LoadText {
            place: 1,
            text: DIAGRAM,
        },
        Call::Judge {
            place: 1,
            file: CARD,
        },
    ]);
    // Accepted; accepted, and rule 7 is broken; the byte behind the replies as it was.
    let made = compiled(&program(&calls, 3));
    let printed = run(&mut Command::new(made)).stdout;
    assert_eq!(String::from_utf8_lossy(&printed), "3: 0 0 7 238");
}
