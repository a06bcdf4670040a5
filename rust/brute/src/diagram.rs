//! Diagrams by names.

use crate::Name;

/// A diagram; types and value types are referred to by their names.
#[derive(Clone, Debug, Default, PartialEq, Eq)]
pub struct Diagram {
    pub value_types: Vec<ValueType>,
    pub types: Vec<Type>,
    pub attributes: Vec<Attribute>,
    pub associations: Vec<Association>,
}

/// A value type; without constants it is plain, with one unnamed value.
#[derive(Clone, Debug, PartialEq, Eq)]
pub struct ValueType {
    pub name: Name,
    pub constants: Vec<Name>,
}

/// The kind of a type.
#[derive(Clone, Copy, Debug, PartialEq, Eq)]
pub enum Kind {
    Class,
    AbstractClass,
    Interface,
    SingletonClass,
}

/// A type with the names of its parents.
#[derive(Clone, Debug, PartialEq, Eq)]
pub struct Type {
    pub kind: Kind,
    pub name: Name,
    pub parents: Vec<Name>,
}

/// An attribute with the names of its owner and its value type.
#[derive(Clone, Debug, PartialEq, Eq)]
pub struct Attribute {
    pub owner: Name,
    pub name: Name,
    pub value_type: Name,
}

/// The form of an association.
#[derive(Clone, Copy, Debug, PartialEq, Eq)]
pub enum Form {
    Association,
    Composition,
}

/// Limits; `up` is none where there is no upper limit.
#[derive(Clone, Copy, Debug, PartialEq, Eq)]
pub struct Limits {
    pub low: u16,
    pub up: Option<u16>,
}

/// An end of an association with the name of its type.
#[derive(Clone, Debug, PartialEq, Eq)]
pub struct End {
    pub type_name: Name,
    pub limits: Limits,
    pub role: Name,
}

/// The side of a role: r2 links go from left to right, r1 links from right to left.
#[derive(Clone, Copy, Debug, PartialEq, Eq)]
pub enum Side {
    R2,
    R1,
}

/// An association; its arrow is 1 (→), 2 (←), 3 (↔) or 4 (no arrowhead).
#[derive(Clone, Debug, PartialEq, Eq)]
pub struct Association {
    pub form: Form,
    pub arrow: u8,
    pub left: End,
    pub right: End,
}

impl Association {
    /// "Arrows 1, 3, 4 carry r2 links (L to R); 2, 3, 4 carry r1 links (R to L)."
    pub fn carries(&self, side: Side) -> bool {
        match side {
            Side::R2 => [1, 3, 4].contains(&self.arrow),
            Side::R1 => [2, 3, 4].contains(&self.arrow),
        }
    }

    /// "Arrow 4 mirrors as arrow 3 does": rule 8 covers both.
    pub fn is_mirrored(&self) -> bool {
        [3, 4].contains(&self.arrow)
    }

    /// The end where links of this side start.
    pub fn source(&self, side: Side) -> &End {
        match side {
            Side::R2 => &self.left,
            Side::R1 => &self.right,
        }
    }

    /// The end where links of this side lead, which also names their role.
    pub fn target(&self, side: Side) -> &End {
        match side {
            Side::R2 => &self.right,
            Side::R1 => &self.left,
        }
    }
}

impl Limits {
    /// Tells whether a number lies within the limits.
    pub fn admits(&self, number: usize) -> bool {
        usize::from(self.low) <= number && !self.exceeded_by(number)
    }

    /// Tells whether a number is above the upper limit.
    pub fn exceeded_by(&self, number: usize) -> bool {
        self.up.is_some_and(|up| number > usize::from(up))
    }
}

impl Diagram {
    /// Finds a type by its name.
    pub fn type_named(&self, name: &[u8]) -> Option<&Type> {
        self.types.iter().find(|t| t.name == name)
    }

    /// Finds a value type by its name.
    pub fn value_type_named(&self, name: &[u8]) -> Option<&ValueType> {
        self.value_types.iter().find(|v| v.name == name)
    }
}
