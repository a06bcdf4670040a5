//! Whether there is memory for so many bytes more. A thread that finds none while it starts ends
//! the whole process without a plain word, so that this is asked before one is started.

/// What a thread takes besides its stack, and more.
pub const SPARE_BYTES: usize = 1 << 20;

/// There is memory for so many bytes, at this moment.
#[cfg(target_os = "linux")]
pub fn has_room(bytes: usize) -> bool {
    use std::ffi::{c_int, c_long, c_void};
    use std::ptr::null_mut;

    extern "C" {
        fn mmap(
            at: *mut c_void,
            length: usize,
            protection: c_int,
            flags: c_int,
            file: c_int,
            offset: c_long,
        ) -> *mut c_void;
        fn munmap(at: *mut c_void, length: usize) -> c_int;
    }
    const READ_AND_WRITE: c_int = 1 | 2;
    const PRIVATE_AND_ANONYMOUS: c_int = 0x02 | 0x20;
    const NO_FILE: c_int = -1;

    // SAFETY: the system chooses a place that nothing else has; nobody looks at it, and it is given
    // back whole.
    unsafe {
        let at = mmap(
            null_mut(),
            bytes,
            READ_AND_WRITE,
            PRIVATE_AND_ANONYMOUS,
            NO_FILE,
            0,
        );
        at.addr() != usize::MAX && munmap(at, bytes) == 0
    }
}

/// Elsewhere this is not known before.
#[cfg(not(target_os = "linux"))]
pub fn has_room(_bytes: usize) -> bool {
    true
}

#[cfg(test)]
mod tests {
    use super::*;

    #[test]
    fn a_little_fits_and_everything_does_not() {
        assert!(has_room(SPARE_BYTES));
        assert!(!has_room(usize::MAX / 2));
    }
}
