//! Diagram files from names. The files are as good as the calls: nothing is checked here.

/// A diagram file that grows field by field.
pub struct DiagramFile {
    edition: u8,
    value_types: Vec<&'static str>,
    types: Vec<&'static str>,
    bytes: Vec<u8>,
}

/// Kinds of types, by their bytes.
pub const CLASS: u8 = 0;
pub const ABSTRACT: u8 = 1;
pub const INTERFACE: u8 = 2;
pub const SINGLETON: u8 = 3;

/// Arrows, by their bytes.
pub const RIGHT: u8 = 1;
pub const BOTH: u8 = 3;
pub const NO_ARROWHEAD: u8 = 4;

/// No upper limit.
pub const MANY: u16 = 65_535;

/// An association's end: type, low, up, role.
pub type End = (&'static str, u16, u16, &'static str);

impl DiagramFile {
    /// The edition alone, edition 1.
    pub fn new() -> DiagramFile {
        DiagramFile::of_edition(1)
    }

    /// The edition alone.
    pub fn of_edition(edition: u8) -> DiagramFile {
        DiagramFile {
            edition,
            value_types: Vec::new(),
            types: Vec::new(),
            bytes: field(0x10, &[edition]),
        }
    }

    /// An enumeration, or a plain type where there are no constants.
    pub fn value_type(mut self, name: &'static str, constants: &[&str]) -> DiagramFile {
        let mut content = coded(name);
        content.push(constants.len() as u8);
        content.extend(constants.iter().flat_map(|constant| coded(constant)));
        self.value_types.push(name);
        self.field(0x20, content);
        self
    }

    /// A type with its parents, named in the order that they were declared in.
    pub fn of_kind(mut self, kind: u8, name: &'static str, parents: &[&str]) -> DiagramFile {
        let mut content = vec![kind];
        content.extend(coded(name));
        content.push(parents.len() as u8);
        content.extend(parents.iter().map(|parent| index(&self.types, parent)));
        self.types.push(name);
        self.field(0x30, content);
        self
    }

    /// An attribute.
    pub fn attribute(mut self, owner: &str, value_type: &str, name: &str) -> DiagramFile {
        let mut content = vec![index(&self.types, owner)];
        content.extend(coded(name));
        content.push(index(&self.value_types, value_type));
        self.field(0x40, content);
        self
    }

    /// An association that is no composition.
    pub fn association(self, left: End, arrow: u8, right: End) -> DiagramFile {
        self.link_field(0, left, arrow, right)
    }

    /// A composition: the whole, then the part.
    pub fn composition(self, whole: End, part: End) -> DiagramFile {
        self.link_field(1, whole, RIGHT, part)
    }

    /// A composition whose parts have exactly one whole: the whole's type and role, then the part.
    pub fn parts(self, (whole, role): (&'static str, &'static str), part: End) -> DiagramFile {
        self.composition((whole, 1, 1, role), part)
    }

    /// An association of either form.
    fn link_field(mut self, form: u8, left: End, arrow: u8, right: End) -> DiagramFile {
        let mut content = vec![form, arrow];
        for (of, low, up, role) in [left, right] {
            content.push(index(&self.types, of));
            content.extend([low, up].map(|limit| self.limit(limit)).concat());
            content.extend(coded(role));
        }
        self.field(0x50, content);
        self
    }

    /// A limit as the edition has it.
    fn limit(&self, limit: u16) -> Vec<u8> {
        match (self.edition, limit) {
            (1, MANY) => vec![255],
            (1, _) => vec![u8::try_from(limit).expect("a limit of one byte")],
            _ => limit.to_be_bytes().to_vec(),
        }
    }

    /// Appends a field.
    fn field(&mut self, tag: u8, content: Vec<u8>) {
        self.bytes.extend(field(tag, &content));
    }

    /// The finished file.
    pub fn bytes(self) -> Vec<u8> {
        self.bytes
    }
}

/// A field: tag, length and content.
pub fn field(tag: u8, content: &[u8]) -> Vec<u8> {
    let length = u16::try_from(content.len()).expect("a content is short");
    let mut bytes = vec![tag];
    bytes.extend(length.to_be_bytes());
    bytes.extend(content);
    bytes
}

/// A name with its length byte.
pub fn coded(name: &str) -> Vec<u8> {
    let mut bytes = vec![name.len() as u8];
    bytes.extend(name.as_bytes());
    bytes
}

/// The index of a name that was declared before.
fn index(names: &[&str], name: &str) -> u8 {
    let found = names.iter().position(|known| *known == name);
    found.unwrap_or_else(|| panic!("{name} is not declared yet")) as u8
}
