//! What a diagram's nine rules ask of a site: conditions that hold together exactly when the site
//! is legal. A diagram meets the site through names alone, so that old and new are treated alike.

mod links;
mod types;
mod values;
mod wholes;

use crate::formula::{Formula, Literal};
use crate::site::Site;
use brute::{Diagram, Name};

/// The conditions of the nine rules.
pub fn conditions(formula: &mut Formula, site: &Site, diagram: &Diagram) -> Vec<Literal> {
    let mut rules = Rules {
        formula,
        site,
        diagram,
        counts_as: site.types.iter().map(|t| reached(diagram, t)).collect(),
        conditions: Vec::new(),
    };
    rules.rule_1();
    rules.rule_2();
    rules.rules_3_and_4();
    rules.rule_5();
    rules.rule_6();
    rules.rule_7();
    rules.rule_8();
    rules.rule_9();
    rules.conditions
}

/// The rules of one diagram for one site, and the conditions that they have come to so far.
struct Rules<'r> {
    formula: &'r mut Formula,
    site: &'r Site,
    diagram: &'r Diagram,
    /// For each of the site's types, the types of the diagram that its objects are instances of.
    counts_as: Vec<Vec<&'r Name>>,
    conditions: Vec<Literal>,
}

impl Rules<'_> {
    /// Adds a condition.
    fn ask(&mut self, condition: Literal) {
        self.conditions.push(condition);
    }

    /// Whether an object is an instance of a type of the diagram.
    fn is_instance(&mut self, object: usize, of: &Name) -> Literal {
        let types = self.site.types.iter().zip(&self.counts_as);
        let below = types.filter(|(_, counts_as)| counts_as.contains(&of));
        let any: Vec<Literal> = below.map(|(t, _)| self.site.has_type(object, t)).collect();
        self.formula.or(&any)
    }
}

/// The type of this name and all that it reaches through parents; nothing where the diagram has no
/// such type.
fn reached<'d>(diagram: &'d Diagram, name: &Name) -> Vec<&'d Name> {
    let mut reached: Vec<&Name> = Vec::new();
    // A type stands behind its parents: from the last to the first, each is met after all of its
    // children.
    for t in diagram.types.iter().rev() {
        let is_parent = |child: &&Name| {
            let found = diagram.type_named(child);
            found.is_some_and(|child| child.parents.contains(&t.name))
        };
        if t.name == *name || reached.iter().any(is_parent) {
            reached.push(&t.name);
        }
    }
    reached
}
