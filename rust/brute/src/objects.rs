//! The objects of a record as one diagram sees them.

use crate::diagram::Diagram;

/// The types of a record's objects, and what each counts as in the diagram.
pub struct Objects<'a> {
    pub diagram: &'a Diagram,
    type_names: Vec<&'a [u8]>,
    counts_as: Vec<Vec<&'a [u8]>>,
}

impl<'a> Objects<'a> {
    /// The objects of these types under a diagram.
    pub fn new(diagram: &'a Diagram, type_names: &[&'a [u8]]) -> Self {
        let types_of = |name: &&'a [u8]| types_reached(diagram, name);
        Objects {
            diagram,
            type_names: type_names.to_vec(),
            counts_as: type_names.iter().map(types_of).collect(),
        }
    }

    /// The object numbers.
    pub fn all(&self) -> std::ops::Range<usize> {
        0..self.type_names.len()
    }

    /// The name of the object's own type.
    pub fn type_name(&self, object: usize) -> &'a [u8] {
        self.type_names[object]
    }

    /// "An object is an instance of T if its type is T or T is reached from it through parents."
    pub fn is_instance(&self, object: usize, of: &[u8]) -> bool {
        self.counts_as[object].contains(&of)
    }

    /// The objects that are instances of a type.
    pub fn instances<'s>(&'s self, of: &'s [u8]) -> impl Iterator<Item = usize> + 's {
        self.all().filter(move |&o| self.is_instance(o, of))
    }
}

/// The type of this name and all that it reaches; nothing where the diagram has no such type.
fn types_reached<'a>(diagram: &'a Diagram, name: &[u8]) -> Vec<&'a [u8]> {
    let mut reached: Vec<&[u8]> = Vec::new();
    let mut open = vec![name];
    while let Some(next) = open.pop() {
        if reached.contains(&next) {
            continue;
        }
        if let Some(found) = diagram.type_named(next) {
            reached.push(&found.name);
            open.extend(found.parents.iter().map(Vec::as_slice));
        }
    }
    reached
}
