//! What a site text declares, each name with its place.

use crate::text::Name;

pub struct Value<'a> {
    pub value_type: Name<'a>,
    pub attribute: Name<'a>,
    /// Empty for the unnamed value.
    pub constant: &'a str,
}

pub struct Object<'a> {
    pub name: Name<'a>,
    pub of: Name<'a>,
    pub values: Vec<Value<'a>>,
}

pub struct Link<'a> {
    /// The byte that it starts at, counted from 0.
    pub at: usize,
    pub from: Name<'a>,
    pub role: Name<'a>,
    pub to: Name<'a>,
}

impl<'a> Link<'a> {
    /// What sets it apart from other links.
    pub fn names(&self) -> [&'a str; 3] {
        [self.from.text, self.role.text, self.to.text]
    }
}

/// All declarations, those of one kind by appearance.
pub struct Site<'a> {
    pub name: Name<'a>,
    pub objects: Vec<Object<'a>>,
    pub links: Vec<Link<'a>>,
}
