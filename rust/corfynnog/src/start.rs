//! What is done before the runtime starts, since the runtime hides it or fails over it. The system
//! calls the functions that the section .init_array lists before it starts the runtime.

use std::ffi::c_int;
use std::sync::atomic::{AtomicBool, Ordering};

use boundary::has_room;

use crate::early_end::end_without_memory;

/// The memory that a run on small files takes, and more: stacks above all.
const LEAST_ROOM: usize = 16 << 20;

/// The number of standard output.
const OUTPUT: c_int = 1;

/// The command that asks for a descriptor's flags; it fails where the descriptor is closed.
const FLAGS: c_int = 1;

extern "C" {
    fn fcntl(descriptor: c_int, command: c_int, ...) -> c_int;
}

#[cfg(target_os = "linux")]
#[used]
#[link_section = ".init_array"]
static BEFORE: extern "C" fn() = before;

static OUTPUT_WAS_CLOSED: AtomicBool = AtomicBool::new(false);

/// Ends the program where memory is too short for any run, and keeps whether standard output is
/// closed: the runtime puts /dev/null in its place, and what is written there is lost.
extern "C" fn before() {
    share_memory();
    if !has_room(LEAST_ROOM) {
        end_without_memory();
    }
    // SAFETY: with this command the function takes no third argument and changes nothing.
    let flags = unsafe { fcntl(OUTPUT, FLAGS) };
    OUTPUT_WAS_CLOSED.store(flags < 0, Ordering::Relaxed);
}

/// All threads take memory from one place; else each would set 64 MiB of addresses aside.
fn share_memory() {
    #[cfg(target_env = "gnu")]
    {
        extern "C" {
            fn mallopt(parameter: c_int, value: c_int) -> c_int;
        }
        const MOST_PLACES: c_int = -8;
        // SAFETY: no memory was asked for so far, and no other thread runs.
        unsafe { mallopt(MOST_PLACES, 1) };
    }
}

/// Standard output was closed when the program was started.
pub fn output_was_closed() -> bool {
    OUTPUT_WAS_CLOSED.load(Ordering::Relaxed)
}
