//! Files as rows of fields.

/// A field before its length is written in front of its content.
#[derive(Clone, Debug, PartialEq, Eq)]
pub struct Field {
    pub tag: u8,
    pub content: Vec<u8>,
}

impl Field {
    /// The field of this tag and content.
    pub fn new(tag: u8, content: &[u8]) -> Self {
        Field {
            tag,
            content: content.to_vec(),
        }
    }

    /// Adds the field to a file.
    pub fn put(&self, file: &mut Vec<u8>) {
        let length = self.content.len() as u16;
        file.push(self.tag);
        file.extend_from_slice(&length.to_be_bytes());
        file.extend_from_slice(&self.content);
    }
}

/// The fields one behind the other.
pub fn file(fields: &[Field]) -> Vec<u8> {
    let mut bytes = Vec::new();
    for field in fields {
        field.put(&mut bytes);
    }
    bytes
}

/// Adds a name with its length byte; the name may be one that a reader refuses.
pub fn put_name(content: &mut Vec<u8>, name: &[u8]) {
    content.push(name.len() as u8);
    content.extend_from_slice(name);
}
