//! Rules 3 and 4, on values.

use super::Rules;
use crate::formula::Literal;
use crate::site::Value;
use brute::{Attribute, Diagram, Name};

impl Rules<'_> {
    /// An object has a value for an attribute name exactly when its type or an ancestor declares
    /// it, and that value belongs to the value type of every such declaration.
    pub fn rules_3_and_4(&mut self) {
        let (site, diagram) = (self.site, self.diagram);
        let declared = diagram.attributes.iter().map(|a| &a.name);
        let mut names: Vec<&Name> = declared
            .chain(site.values.iter().map(|v| &v.attribute))
            .collect();
        names.sort();
        names.dedup();
        for object in 0..site.count {
            for name in &names {
                self.values_at(object, name);
            }
        }
    }

    /// Rules 3 and 4 for one object and one attribute name.
    fn values_at(&mut self, object: usize, name: &[u8]) {
        let (site, diagram) = (self.site, self.diagram);
        let mut declared = Vec::new();
        for declaration in diagram.attributes.iter().filter(|a| a.name == name) {
            let applies = self.is_instance(object, &declaration.owner);
            declared.push(applies);
            for value in site.values_at(object, name) {
                if !belongs(diagram, value, declaration) {
                    let condition = self.formula.or(&[!applies, !value.is_there]);
                    self.ask(condition);
                }
            }
        }
        let there: Vec<Literal> = site.values_at(object, name).map(|v| v.is_there).collect();
        let has = self.formula.or(&there);
        let declared = self.formula.or(&declared);
        let condition = self.formula.same(has, declared);
        self.ask(condition);
    }
}

/// Whether a value belongs to the value type of a declaration.
fn belongs(diagram: &Diagram, value: &Value, declaration: &Attribute) -> bool {
    let found = diagram.value_type_named(&declaration.value_type);
    found.is_some_and(|of| {
        let plain = of.constants.is_empty() && value.constant.is_empty();
        value.value_type == of.name && (plain || of.constants.contains(&value.constant))
    })
}
