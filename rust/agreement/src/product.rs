//! The proved library's replies, taken apart one by one.

use generators::calls::{coded, room, split};
use generators::CallPlan;

/// The replies to these calls from a fresh bench; all of them must come.
pub fn replies(calls: &[CallPlan]) -> Vec<Vec<u8>> {
    let mut buffer = vec![0; room(calls)];
    let written = boundary::replay(&coded(calls), &mut buffer);
    let parts = split(calls, &buffer[..written]);
    assert_eq!(parts.len(), calls.len(), "the row of calls stopped early");
    parts.into_iter().map(<[u8]>::to_vec).collect()
}
