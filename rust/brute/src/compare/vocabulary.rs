//! The names that a comparison enumerates: those of both diagrams and a foreign one.

use crate::diagram::Diagram;
use crate::Name;

/// Names by what they can stand for; each list ends with the same foreign name.
pub struct Vocabulary {
    pub types: Vec<Name>,
    pub attributes: Vec<Name>,
    pub value_types: Vec<Name>,
    /// The constants of all value types, and the unnamed value.
    pub constants: Vec<Name>,
    pub roles: Vec<Name>,
}

impl Vocabulary {
    /// The names of both diagrams and one that neither has.
    pub fn of(old: &Diagram, new: &Diagram) -> Self {
        let mut vocabulary = Vocabulary {
            types: Vec::new(),
            attributes: Vec::new(),
            value_types: Vec::new(),
            constants: vec![Name::new()],
            roles: Vec::new(),
        };
        vocabulary.add_names(old);
        vocabulary.add_names(new);
        let foreign = vocabulary.foreign_name();
        for list in vocabulary.lists() {
            add(list, &foreign);
        }
        vocabulary
    }

    /// Adds the names of a diagram.
    fn add_names(&mut self, diagram: &Diagram) {
        for value_type in &diagram.value_types {
            add(&mut self.value_types, &value_type.name);
            for constant in &value_type.constants {
                add(&mut self.constants, constant);
            }
        }
        for found in &diagram.types {
            add(&mut self.types, &found.name);
        }
        for attribute in &diagram.attributes {
            add(&mut self.attributes, &attribute.name);
        }
        for association in &diagram.associations {
            add(&mut self.roles, &association.left.role);
            add(&mut self.roles, &association.right.role);
        }
    }

    /// All lists, to treat them alike.
    fn lists(&mut self) -> [&mut Vec<Name>; 5] {
        [
            &mut self.types,
            &mut self.attributes,
            &mut self.value_types,
            &mut self.constants,
            &mut self.roles,
        ]
    }

    /// Leaves the names of the two diagrams alone.
    #[cfg(test)]
    pub fn drop_foreign(&mut self) {
        for list in self.lists() {
            list.pop();
        }
    }

    /// A valid name that stands in none of the lists.
    fn foreign_name(&mut self) -> Name {
        let taken = self.lists().map(|list| list.clone()).concat();
        let mut names = (0..).map(|i| format!("foreign{i}").into_bytes());
        let free = names.find(|name| !taken.contains(name));
        free.expect("the lists are finite")
    }
}

/// Adds a name that is not there yet.
fn add(list: &mut Vec<Name>, name: &Name) {
    if !list.contains(name) {
        list.push(name.clone());
    }
}
