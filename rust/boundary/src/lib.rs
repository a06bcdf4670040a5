//! The one way from Rust to the proved library: a coded list of calls in, a coded list of replies
//! out. The list is run from a fresh bench, so that a list is all there is to know about a run.

mod call;
mod raw;
mod reply;
mod room;

pub use call::{encode, room_for, Call};
pub use raw::{replay, try_replay, NoMemory};
pub use reply::{decode, Reply};
pub use room::{has_room, SPARE_BYTES};

/// The smallest buffer that hand out never refuses for its size.
pub const HAND_OUT_ROOM: u32 = 60_000;

/// The smallest buffer that convert never refuses for its size.
pub const CONVERT_ROOM: u32 = 4_096;

/// The kit that proved the library, as it calls itself; `unknown kit` where nothing beside the
/// library tells.
pub const KIT: &str = env!("REPLAY_KIT");

/// The replies of the proved library to a row of calls from the fresh bench.
pub fn try_run(calls: &[Call]) -> Result<Vec<Reply>, NoMemory> {
    let mut replies = vec![0; room_for(calls)];
    let written = try_replay(&encode(calls), &mut replies)?;
    Ok(decode(calls, &replies[..written]))
}

/// The same where memory is not short; panics where it is.
pub fn run(calls: &[Call]) -> Vec<Reply> {
    try_run(calls).expect("a thread can be started")
}
