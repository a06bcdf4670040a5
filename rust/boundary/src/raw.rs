//! The library's one function, made safe. The only place that declares it.

use std::error::Error;
use std::fmt;
use std::thread;

use crate::room::{has_room, SPARE_BYTES};

extern "C" {
    #[link_name = "replay"]
    fn proved_replay(calls: *const u8, n: usize, replies: *mut u8, m: usize) -> usize;
}

/// Four times what the deepest search is known to take.
const STACK_BYTES: usize = 8 << 20;

/// There is no memory for the thread that the library runs on.
#[derive(Clone, Copy, Debug, PartialEq, Eq)]
pub struct NoMemory;

impl fmt::Display for NoMemory {
    fn fmt(&self, out: &mut fmt::Formatter) -> fmt::Result {
        out.write_str("there is no memory for a thread")
    }
}

impl Error for NoMemory {}

/// Runs coded calls from a fresh bench, writes the coded replies to the front of `replies` and
/// returns their number of bytes; bytes behind them stay as they were.
///
/// It stops at the first call that is cut off or unknown, or whose reply does not fit.
pub fn try_replay(calls: &[u8], replies: &mut [u8]) -> Result<usize, NoMemory> {
    if !has_room(STACK_BYTES + SPARE_BYTES) {
        return Err(NoMemory);
    }
    // A thread of its own, since the stack that a search needs may be more than the caller's.
    thread::scope(|scope| {
        let worker = thread::Builder::new()
            .name("replay".into())
            .stack_size(STACK_BYTES)
            .spawn_scoped(scope, || call_library(calls, replies))
            .map_err(|_| NoMemory)?;
        Ok(worker.join().expect("the library returns"))
    })
}

/// The same where memory is not short; panics where it is.
pub fn replay(calls: &[u8], replies: &mut [u8]) -> usize {
    try_replay(calls, replies).expect("a thread can be started")
}

/// The call itself, on the thread that it is made from.
fn call_library(calls: &[u8], replies: &mut [u8]) -> usize {
    // SAFETY: both slices are valid for the lengths given, `calls` is only read, `replies` is lent
    // to nobody else meanwhile, and the library keeps neither.
    let written = unsafe {
        proved_replay(
            calls.as_ptr(),
            calls.len(),
            replies.as_mut_ptr(),
            replies.len(),
        )
    };
    assert!(written <= replies.len(), "replies lie within their room");
    written
}
