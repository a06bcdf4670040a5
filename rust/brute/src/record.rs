//! Records by names.

use crate::Name;

/// A record: the type names of its objects in their order, values and links.
#[derive(Clone, Debug, Default, PartialEq, Eq)]
pub struct Record {
    pub objects: Vec<Name>,
    pub values: Vec<Value>,
    pub links: Vec<Link>,
}

/// A value; an empty constant is the unnamed value. The order is that of the file.
#[derive(Clone, Debug, PartialEq, Eq, PartialOrd, Ord)]
pub struct Value {
    pub object: usize,
    pub attribute: Name,
    pub value_type: Name,
    pub constant: Name,
}

/// A link. The order is that of the file.
#[derive(Clone, Debug, PartialEq, Eq, PartialOrd, Ord)]
pub struct Link {
    pub from: usize,
    pub role: Name,
    pub to: usize,
}
