//! Where two diagrams differ in what an object counts as: the types from its own up to the one that
//! it is an instance of in one diagram only.

use crate::counterparts::Seen;
use crate::diagram::Diagram;
use crate::diagram_text::type_head;
use crate::lists::distinct;
use crate::parts::Part;

impl Seen<'_> {
    /// The types of new, then those of old, that decide otherwise what the breach's objects count as.
    pub fn deciding_types(&self) -> (Vec<Part>, Vec<Part>) {
        let pairs = self.objects_and_ends().into_iter();
        let names = pairs.flat_map(|(own, end)| self.deciding(&own, &end));
        let names = distinct(names);
        let in_diagram = |diagram: &Diagram| {
            let known = names.iter().filter_map(|name| diagram.type_named(name));
            known.map(Part::Type).collect()
        };
        (in_diagram(self.new), in_diagram(self.old))
    }

    /// The type names of the breach's objects, each with a type that a declaration there asks for.
    fn objects_and_ends(&self) -> Vec<(String, String)> {
        let own = self.asked_by(self.new, &self.breach.declared);
        let old = self.asked_by(self.old, &self.counterparts());
        distinct(own.into_iter().chain(old))
    }

    /// The same for the declarations of one diagram.
    fn asked_by(&self, diagram: &Diagram, parts: &[Part]) -> Vec<(String, String)> {
        let ends = parts.iter().flat_map(|part| match *part {
            Part::Attribute(index) => vec![diagram.attributes[index].owner],
            Part::Association(index) => {
                let association = &diagram.associations[index];
                vec![association.left.of, association.right.of]
            }
            _ => Vec::new(),
        });
        let ends: Vec<usize> = ends.collect();
        let objects = self.breach.objects.iter();
        let pairs = objects.flat_map(|&object| {
            let own = &self.record.types[object];
            let name = |&end: &usize| (own.clone(), diagram.types[end].name.clone());
            ends.iter().map(name).collect::<Vec<_>>()
        });
        pairs.collect()
    }

    /// The types between an object's own and another one that are declared otherwise, where the
    /// object is an instance of the other one in one of the two diagrams alone.
    fn deciding(&self, own: &str, end: &str) -> Vec<String> {
        let (in_new, in_old) = (between(self.new, own, end), between(self.old, own, end));
        if in_new.is_empty() == in_old.is_empty() {
            return Vec::new();
        }
        let mut names = [in_new, in_old].concat();
        let head = |diagram: &Diagram, name: &str| {
            let of = &diagram.types[diagram.type_named(name)?];
            Some(type_head(diagram, of))
        };
        names.retain(|name| head(self.new, name) != head(self.old, name));
        names
    }
}

/// The names of the types from an object's own up to another one, that one left out unless it is the
/// object's own; none where the object is no instance of it.
fn between(diagram: &Diagram, own: &str, end: &str) -> Vec<String> {
    let (Some(own), Some(end)) = (diagram.type_named(own), diagram.type_named(end)) else {
        return Vec::new();
    };
    let on_the_way = |&of: &usize| {
        let inside = diagram.reaches(own, of) && diagram.reaches(of, end);
        inside && (of != end || own == end)
    };
    let found = (0..diagram.types.len()).rev().filter(on_the_way);
    found.map(|of| diagram.types[of].name.clone()).collect()
}
