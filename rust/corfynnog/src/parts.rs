//! Parts of a diagram, each as one line.

use crate::diagram::{Attribute, Diagram};
use crate::diagram_text::{attribute_text, type_head, value_type_text};
use crate::names::association_text;

/// A part by its index.
#[derive(Clone, Copy, Debug, PartialEq, Eq)]
pub enum Part {
    ValueType(usize),
    Type(usize),
    Attribute(usize),
    Association(usize),
}

impl Part {
    /// The part as text; an attribute with its owner.
    pub fn line(self, diagram: &Diagram) -> String {
        match self {
            Part::ValueType(index) => value_type_text(&diagram.value_types[index]),
            Part::Type(index) => type_head(diagram, &diagram.types[index]),
            Part::Attribute(index) => owned_attribute(diagram, &diagram.attributes[index]),
            Part::Association(index) => association_text(diagram, &diagram.associations[index]),
        }
    }
}

/// `State state; in class Card`
pub fn owned_attribute(diagram: &Diagram, attribute: &Attribute) -> String {
    let owner = &diagram.types[attribute.owner];
    let text = attribute_text(diagram, attribute);
    format!("{text} in {} {}", owner.kind.words(), owner.name)
}
