//! Rule 9, on wholes.

use super::Rules;
use crate::formula::Literal;
use crate::limits::within;
use brute::{Form, Limits};

impl Rules<'_> {
    /// Over all compositions, an object is the target of at most one different whole.
    pub fn rule_9(&mut self) {
        let at_most_one = Limits {
            low: 0,
            up: Some(1),
        };
        for part in 0..self.site.count {
            let mut wholes = Vec::new();
            for whole in 0..self.site.count {
                wholes.push(self.is_whole(whole, part));
            }
            let condition = within(self.formula, &wholes, at_most_one);
            self.ask(condition);
        }
    }

    /// Whether some composition makes one object the whole of the other.
    fn is_whole(&mut self, whole: usize, part: usize) -> Literal {
        let associations = self.diagram.associations.iter();
        let mut ways = Vec::new();
        for c in associations.filter(|a| a.form == Form::Composition) {
            let left = self.is_instance(whole, &c.left.type_name);
            let right = self.is_instance(part, &c.right.type_name);
            let link = self.site.link(whole, &c.right.role, part);
            ways.push(self.formula.and(&[left, right, link]));
        }
        self.formula.or(&ways)
    }
}
