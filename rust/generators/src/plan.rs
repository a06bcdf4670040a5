//! What a diagram file or a record file is to say.

use crate::editions::put_limit;
use crate::fields::{file, put_name, Field};

#[derive(Clone, Debug, PartialEq, Eq)]
pub struct ValueType {
    pub name: Vec<u8>,
    pub constants: Vec<Vec<u8>>,
}

#[derive(Clone, Debug, PartialEq, Eq)]
pub struct Type {
    pub kind: u8,
    pub name: Vec<u8>,
    pub parents: Vec<u8>,
}

#[derive(Clone, Debug, PartialEq, Eq)]
pub struct Attribute {
    pub owner: u8,
    pub name: Vec<u8>,
    pub value_type: u8,
}

/// One end of an association: its type, its limits and its role. `NO_UPPER_LIMIT` stands for none.
#[derive(Clone, Debug, PartialEq, Eq)]
pub struct End {
    pub of: u8,
    pub low: u16,
    pub up: u16,
    pub role: Vec<u8>,
}

#[derive(Clone, Debug, PartialEq, Eq)]
pub struct Association {
    pub form: u8,
    pub arrow: u8,
    pub left: End,
    pub right: End,
}

#[derive(Clone, Debug, PartialEq, Eq)]
pub struct DiagramPlan {
    pub edition: u8,
    pub value_types: Vec<ValueType>,
    pub types: Vec<Type>,
    pub attributes: Vec<Attribute>,
    pub associations: Vec<Association>,
}

#[derive(Clone, Debug, PartialEq, Eq, PartialOrd, Ord)]
pub struct Value {
    pub object: u8,
    pub attribute: Vec<u8>,
    pub value_type: Vec<u8>,
    pub constant: Vec<u8>,
}

#[derive(Clone, Debug, PartialEq, Eq, PartialOrd, Ord)]
pub struct Link {
    pub from: u8,
    pub role: Vec<u8>,
    pub to: u8,
}

#[derive(Clone, Debug, Default, PartialEq, Eq)]
pub struct RecordPlan {
    pub objects: Vec<Vec<u8>>,
    pub values: Vec<Value>,
    pub links: Vec<Link>,
}

impl ValueType {
    /// The part's field.
    fn field(&self) -> Field {
        let mut content = Vec::new();
        put_name(&mut content, &self.name);
        content.push(self.constants.len() as u8);
        for constant in &self.constants {
            put_name(&mut content, constant);
        }
        Field::new(0x20, &content)
    }
}

impl Type {
    /// The part's field.
    fn field(&self) -> Field {
        let mut content = vec![self.kind];
        put_name(&mut content, &self.name);
        content.push(self.parents.len() as u8);
        content.extend_from_slice(&self.parents);
        Field::new(0x30, &content)
    }
}

impl Attribute {
    /// The part's field.
    fn field(&self) -> Field {
        let mut content = vec![self.owner];
        put_name(&mut content, &self.name);
        content.push(self.value_type);
        Field::new(0x40, &content)
    }
}

impl End {
    /// Adds the end to its association's content.
    fn put(&self, content: &mut Vec<u8>, edition: u8) {
        content.push(self.of);
        put_limit(content, edition, self.low);
        put_limit(content, edition, self.up);
        put_name(content, &self.role);
    }
}

impl Association {
    /// Whether a link in one role goes with the link back in the other: arrows 3 and 4.
    pub fn is_mirrored(&self) -> bool {
        matches!(self.arrow, 3 | 4)
    }

    /// The part's field in a file of an edition.
    fn field(&self, edition: u8) -> Field {
        let mut content = vec![self.form, self.arrow];
        self.left.put(&mut content, edition);
        self.right.put(&mut content, edition);
        Field::new(0x50, &content)
    }
}

impl Default for DiagramPlan {
    /// The empty diagram, in edition 1.
    fn default() -> Self {
        DiagramPlan {
            edition: 1,
            value_types: Vec::new(),
            types: Vec::new(),
            attributes: Vec::new(),
            associations: Vec::new(),
        }
    }
}

impl DiagramPlan {
    /// The fields of the diagram file.
    pub fn fields(&self) -> Vec<Field> {
        let mut fields = vec![Field::new(0x10, &[self.edition])];
        fields.extend(self.value_types.iter().map(ValueType::field));
        fields.extend(self.types.iter().map(Type::field));
        fields.extend(self.attributes.iter().map(Attribute::field));
        fields.extend(self.associations.iter().map(|a| a.field(self.edition)));
        fields
    }

    /// The diagram file.
    pub fn file(&self) -> Vec<u8> {
        file(&self.fields())
    }

    /// Puts another number in the place of each type's number.
    pub fn renumber_types(&mut self, change: impl Fn(u8) -> u8) {
        for t in &mut self.types {
            t.parents.iter_mut().for_each(|p| *p = change(*p));
            t.parents.sort();
        }
        for a in &mut self.attributes {
            a.owner = change(a.owner);
        }
        for a in &mut self.associations {
            a.left.of = change(a.left.of);
            a.right.of = change(a.right.of);
        }
    }
}

impl Value {
    /// The part's field.
    fn field(&self) -> Field {
        let mut content = vec![self.object];
        put_name(&mut content, &self.attribute);
        put_name(&mut content, &self.value_type);
        put_name(&mut content, &self.constant);
        Field::new(0x62, &content)
    }
}

impl Link {
    /// The part's field.
    fn field(&self) -> Field {
        let mut content = vec![self.from];
        put_name(&mut content, &self.role);
        content.push(self.to);
        Field::new(0x63, &content)
    }
}

impl RecordPlan {
    /// Puts values and links into the order of a record file, each place only once.
    pub fn arrange(&mut self) {
        self.values.sort();
        self.values
            .dedup_by(|b, a| a.object == b.object && a.attribute == b.attribute);
        self.links.sort();
        self.links.dedup();
    }

    /// The fields of the record file, values and links as they stand.
    pub fn fields(&self) -> Vec<Field> {
        let mut fields = vec![Field::new(0x60, &[self.objects.len() as u8])];
        for name in &self.objects {
            let mut content = Vec::new();
            put_name(&mut content, name);
            fields.push(Field::new(0x61, &content));
        }
        fields.extend(self.values.iter().map(Value::field));
        fields.extend(self.links.iter().map(Link::field));
        fields
    }

    /// The record file.
    pub fn file(&self) -> Vec<u8> {
        file(&self.fields())
    }
}
