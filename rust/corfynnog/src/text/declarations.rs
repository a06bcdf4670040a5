//! What a text declares, each name with its place.

use crate::diagram::{Arrow, Kind, Limits};

/// A name, with its first byte counted from 0.
#[derive(Clone, Copy, Debug)]
pub struct Name<'a> {
    pub text: &'a str,
    pub at: usize,
}

pub struct Attribute<'a> {
    pub value_type: Name<'a>,
    pub name: Name<'a>,
}

/// A class or an interface.
pub struct Type<'a> {
    pub kind: Kind,
    pub name: Name<'a>,
    /// Behind a class's `extends`.
    pub superclasses: Vec<Name<'a>>,
    /// Behind `implements`, or an interface's `extends`.
    pub interfaces: Vec<Name<'a>>,
    pub attributes: Vec<Attribute<'a>>,
}

pub struct Enumeration<'a> {
    pub name: Name<'a>,
    pub constants: Vec<Name<'a>>,
}

pub struct End<'a> {
    pub of: Name<'a>,
    pub limits: Limits,
    pub role: Option<Name<'a>>,
}

pub struct Association<'a> {
    pub composition: bool,
    pub arrow: Arrow,
    pub arrow_at: usize,
    pub left: End<'a>,
    pub right: End<'a>,
}

/// All declarations, those of one kind by appearance.
pub struct Declarations<'a> {
    pub name: Name<'a>,
    pub types: Vec<Type<'a>>,
    pub enumerations: Vec<Enumeration<'a>>,
    pub associations: Vec<Association<'a>>,
}

impl<'a> Type<'a> {
    /// All parents, as they are written.
    pub fn parents(&self) -> impl Iterator<Item = &Name<'a>> {
        self.superclasses.iter().chain(&self.interfaces)
    }
}

impl<'a> Declarations<'a> {
    /// All attributes, class by class.
    pub fn attributes(&self) -> impl Iterator<Item = &Attribute<'a>> {
        self.types.iter().flat_map(|declared| &declared.attributes)
    }
}

/// The role that is meant where none is written: the type's name, a capital in front lowered.
pub fn lowered(type_name: &str) -> String {
    let mut role = type_name.to_string();
    if let Some(first) = role.get_mut(..1) {
        first.make_ascii_lowercase();
    }
    role
}
