//! The changes that are offered for a breach, in the order in which they are to be tried.

use super::change::{changed, Change, Changed};
use super::line_changes::net;
use crate::diagram::Diagram;

/// Lines that change together.
pub type Loosening = Vec<Change>;

/// Changes of a diagram, told by how it stands; none where what they are for is not so.
pub type Step<'a> = &'a dyn Fn(&Diagram) -> Option<Loosening>;

/// The diagram that is to be changed, and what it may become.
pub struct Offers<'a> {
    copy: &'a Diagram,
    found: Vec<Changed>,
}

impl<'a> Offers<'a> {
    /// Nothing is offered yet.
    pub fn of(copy: &'a Diagram) -> Offers<'a> {
        Offers {
            copy,
            found: Vec::new(),
        }
    }

    /// All that was offered.
    pub fn found(self) -> Vec<Changed> {
        self.found
    }

    /// Offers changes that are made together.
    pub fn add(&mut self, changes: Loosening) {
        self.add_steps(&[&|_: &Diagram| Some(changes.clone())]);
    }

    /// Offers steps that are made one after the other; nothing where one cannot be made, where a type
    /// would become its own ancestor, or where nothing changes.
    pub fn add_steps(&mut self, steps: &[Step]) {
        let after = after(self.copy, steps);
        let is_new = |after: &Changed| {
            let known = self
                .found
                .iter()
                .any(|other| other.diagram == after.diagram);
            !known && after.diagram != *self.copy
        };
        self.found.extend(after.filter(is_new));
    }
}

/// The diagram after one step and the next.
fn after(copy: &Diagram, steps: &[Step]) -> Option<Changed> {
    let (mut diagram, mut lines) = (copy.clone(), Vec::new());
    for step in steps {
        let next = changed(&diagram, &step(&diagram)?)?;
        diagram = next.diagram;
        lines.extend(next.lines);
    }
    let lines = net(lines);
    Some(Changed { diagram, lines })
}
