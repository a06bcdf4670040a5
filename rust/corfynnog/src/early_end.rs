//! The end of a run that cannot go on: a plain sentence on standard error, and status 2.

use std::alloc::{GlobalAlloc, Layout, System};
use std::ffi::c_int;
use std::fs::File;
use std::io::Write;
use std::mem::ManuallyDrop;
use std::os::fd::FromRawFd;
use std::panic::PanicHookInfo;

use crate::outcome::TROUBLE;

/// What is said where memory is short.
pub const NO_MEMORY: &str =
    "There is not enough memory. Close other programs, or raise the limit, and try again.";

/// The system's memory. Where there is none left, the program ends.
pub struct MemoryOrEnd;

// SAFETY: all is the system's allocator, but that a null pointer is never returned.
unsafe impl GlobalAlloc for MemoryOrEnd {
    unsafe fn alloc(&self, layout: Layout) -> *mut u8 {
        given(unsafe { System.alloc(layout) })
    }

    unsafe fn alloc_zeroed(&self, layout: Layout) -> *mut u8 {
        given(unsafe { System.alloc_zeroed(layout) })
    }

    unsafe fn realloc(&self, memory: *mut u8, layout: Layout, size: usize) -> *mut u8 {
        given(unsafe { System.realloc(memory, layout, size) })
    }

    unsafe fn dealloc(&self, memory: *mut u8, layout: Layout) {
        unsafe { System.dealloc(memory, layout) }
    }
}

/// The memory that was asked for, or the end.
fn given(memory: *mut u8) -> *mut u8 {
    match memory.is_null() {
        true => end_without_memory(),
        false => memory,
    }
}

/// Ends the program where it would panic. The runtime panics where a thread that was started finds
/// no memory for its signals; any other panic is a fault of this program.
pub fn on_panic(info: &PanicHookInfo) {
    let words = info.payload_as_str().unwrap_or("for a reason unknown");
    if words.contains("failed to allocate") {
        end_without_memory();
    }
    end(&[
        "This program failed: ",
        words,
        ". Please report the files and the command.",
    ]);
}

/// Ends the program where memory is short.
pub fn end_without_memory() -> ! {
    end(&[NO_MEMORY])
}

/// Says this much and ends; takes no memory and waits for nobody.
fn end(words: &[&str]) -> ! {
    extern "C" {
        fn _exit(status: c_int) -> !;
    }
    // SAFETY: the file is not closed, and whoever writes to it meanwhile is about to end.
    let mut err = ManuallyDrop::new(unsafe { File::from_raw_fd(2) });
    for part in ["corfynnog: "].iter().chain(words).chain(&["\n"]) {
        let _ = err.write_all(part.as_bytes());
    }
    // SAFETY: it only ends the process.
    unsafe { _exit(TROUBLE.into()) }
}
