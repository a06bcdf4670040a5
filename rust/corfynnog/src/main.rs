//! Starts the command line.

use std::ffi::OsString;
use std::panic::set_hook;
use std::process::ExitCode;

use corfynnog::early_end::{on_panic, MemoryOrEnd};

#[global_allocator]
static MEMORY: MemoryOrEnd = MemoryOrEnd;

fn main() -> ExitCode {
    set_hook(Box::new(on_panic));
    let words: Vec<OsString> = std::env::args_os().skip(1).collect();
    ExitCode::from(corfynnog::run(&words))
}
