//! Record files from names. The files are as good as the calls: nothing is checked here.

use super::builder::{coded, field};

/// A record file that grows field by field.
pub struct RecordFile {
    bytes: Vec<u8>,
}

impl RecordFile {
    /// The objects by their types, numbered from 0.
    pub fn of(types: &[&str]) -> RecordFile {
        let mut bytes = field(0x60, &[types.len() as u8]);
        bytes.extend(types.iter().flat_map(|of| field(0x61, &coded(of))));
        RecordFile { bytes }
    }

    /// A link; links come strictly rising by object, role and target.
    pub fn link(mut self, from: u8, role: &str, to: u8) -> RecordFile {
        let content = [vec![from], coded(role), vec![to]].concat();
        self.bytes.extend(field(0x63, &content));
        self
    }

    /// The finished file.
    pub fn bytes(self) -> Vec<u8> {
        self.bytes
    }
}
