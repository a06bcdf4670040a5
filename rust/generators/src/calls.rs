//! A list of calls in the coding of the exported function, and its replies taken apart.

/// The bytes of an accepted reply to compile: status, number and 64 entries of seven bytes.
const COMPILED: usize = 2 + 64 * 7;

/// The bytes of a reply in front of a lent buffer: status and the length written.
const LENT_HEAD: usize = 5;

/// One call, whether or not its operands are ones that a bench accepts.
#[derive(Clone, Debug, PartialEq, Eq)]
pub enum CallPlan {
    Load { place: u8, file: Vec<u8> },
    Clear { place: u8 },
    Judge { place: u8, file: Vec<u8> },
    Compile { place: u8 },
    Evaluate { place: u8, file: Vec<u8> },
    Compare { bound: u8 },
    HandOut { room: u32 },
    LoadText { place: u8, text: Vec<u8> },
    Convert { file: Vec<u8>, room: u32 },
}

impl CallPlan {
    /// Adds the call to a coded list.
    pub fn put(&self, list: &mut Vec<u8>) {
        match self {
            CallPlan::Load { place, file } => put_with_place_and_file(list, 1, *place, file),
            CallPlan::Clear { place } => list.extend_from_slice(&[2, *place]),
            CallPlan::Judge { place, file } => put_with_place_and_file(list, 3, *place, file),
            CallPlan::Compile { place } => list.extend_from_slice(&[4, *place]),
            CallPlan::Evaluate { place, file } => put_with_place_and_file(list, 5, *place, file),
            CallPlan::Compare { bound } => list.extend_from_slice(&[6, *bound]),
            CallPlan::HandOut { room } => {
                list.push(7);
                list.extend_from_slice(&room.to_be_bytes());
            }
            CallPlan::LoadText { place, text } => put_with_place_and_file(list, 8, *place, text),
            CallPlan::Convert { file, room } => {
                list.push(9);
                put_file(list, file);
                list.extend_from_slice(&room.to_be_bytes());
            }
        }
    }

    /// The number of bytes of this call's reply, given the bytes from there on.
    pub fn reply_length(&self, replies: &[u8]) -> usize {
        let accepted = replies[0] == 0;
        match self {
            CallPlan::HandOut { room } | CallPlan::Convert { room, .. } => {
                LENT_HEAD + *room as usize
            }
            _ if !accepted => 1,
            CallPlan::Load { .. } | CallPlan::LoadText { .. } | CallPlan::Clear { .. } => 1,
            CallPlan::Judge { .. } | CallPlan::Evaluate { .. } => 2,
            CallPlan::Compile { .. } => COMPILED,
            CallPlan::Compare { .. } => 2 + usize::from(replies[1]),
        }
    }

    /// The most bytes that a reply to this call takes.
    pub fn longest_reply(&self) -> usize {
        match self {
            CallPlan::HandOut { room } | CallPlan::Convert { room, .. } => {
                LENT_HEAD + *room as usize
            }
            CallPlan::Compile { .. } => COMPILED,
            _ => 3,
        }
    }
}

/// Adds a call that names a place and brings a file or a text.
fn put_with_place_and_file(list: &mut Vec<u8>, code: u8, place: u8, file: &[u8]) {
    list.extend_from_slice(&[code, place]);
    put_file(list, file);
}

/// Adds a file or a text behind its length.
fn put_file(list: &mut Vec<u8>, file: &[u8]) {
    list.extend_from_slice(&(file.len() as u32).to_be_bytes());
    list.extend_from_slice(file);
}

/// The calls as one coded list.
pub fn coded(calls: &[CallPlan]) -> Vec<u8> {
    let mut list = Vec::new();
    for call in calls {
        call.put(&mut list);
    }
    list
}

/// Room for every reply to these calls.
pub fn room(calls: &[CallPlan]) -> usize {
    calls.iter().map(CallPlan::longest_reply).sum()
}

/// The replies one by one, as far as they go.
pub fn split<'a>(calls: &[CallPlan], mut replies: &'a [u8]) -> Vec<&'a [u8]> {
    let mut parts = Vec::new();
    for call in calls {
        if replies.is_empty() {
            break;
        }
        let (part, rest) = replies.split_at(call.reply_length(replies).min(replies.len()));
        parts.push(part);
        replies = rest;
    }
    parts
}
