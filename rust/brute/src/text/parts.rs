//! What a text declares, each kind of part in the order of its appearance.

use crate::diagram::{Form, Kind, Limits};

/// The parts of a text. Its own name is not kept.
#[derive(Debug, Default)]
pub struct Parts<'t> {
    pub enumerations: Vec<Enumeration<'t>>,
    pub types: Vec<TypePart<'t>>,
    pub associations: Vec<AssociationPart<'t>>,
}

/// An enumeration, with or without constants.
#[derive(Debug)]
pub struct Enumeration<'t> {
    pub name: &'t [u8],
    pub constants: Vec<&'t [u8]>,
}

/// A class or an interface.
#[derive(Debug)]
pub struct TypePart<'t> {
    pub kind: Kind,
    pub name: &'t [u8],
    pub parents: Vec<Parent<'t>>,
    pub attributes: Vec<AttributePart<'t>>,
}

/// A parent, and whether the keyword before it calls for an interface or for a class.
#[derive(Debug)]
pub struct Parent<'t> {
    pub name: &'t [u8],
    pub is_interface: bool,
}

/// An attribute: its type, then its name.
#[derive(Debug)]
pub struct AttributePart<'t> {
    pub value_type: &'t [u8],
    pub name: &'t [u8],
}

/// An association; its arrow has the number of a diagram file.
#[derive(Debug)]
pub struct AssociationPart<'t> {
    pub form: Form,
    pub arrow: u8,
    pub left: EndPart<'t>,
    pub right: EndPart<'t>,
}

/// An end; the role may be left out.
#[derive(Debug)]
pub struct EndPart<'t> {
    pub type_name: &'t [u8],
    pub limits: Limits,
    pub role: Option<&'t [u8]>,
}

impl<'t> Parts<'t> {
    /// The attributes of all types.
    pub fn attributes(&self) -> impl Iterator<Item = &AttributePart<'t>> {
        self.types.iter().flat_map(|of| &of.attributes)
    }

    /// The ends of all associations.
    pub fn ends(&self) -> impl Iterator<Item = &EndPart<'t>> {
        let associations = self.associations.iter();
        associations.flat_map(|association| [&association.left, &association.right])
    }
}
