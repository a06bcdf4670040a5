//! Rules 1 and 2, on types.

use super::Rules;
use crate::formula::Literal;
use crate::limits::within;
use brute::{Kind, Limits};

impl Rules<'_> {
    /// Each object's type is a class or singleton class of the diagram.
    pub fn rule_1(&mut self) {
        let types = self.diagram.types.iter();
        let concrete = types.filter(|t| matches!(t.kind, Kind::Class | Kind::SingletonClass));
        let names: Vec<_> = concrete.map(|t| &t.name).collect();
        for object in 0..self.site.count {
            let has = names.iter().map(|name| self.site.has_type(object, name));
            let any: Vec<Literal> = has.collect();
            let condition = self.formula.or(&any);
            self.ask(condition);
        }
    }

    /// Each singleton class is the type itself of exactly one object.
    pub fn rule_2(&mut self) {
        let once = Limits {
            low: 1,
            up: Some(1),
        };
        let types = self.diagram.types.iter();
        for singleton in types.filter(|t| t.kind == Kind::SingletonClass) {
            let objects = 0..self.site.count;
            let of_it = objects.map(|object| self.site.has_type(object, &singleton.name));
            let of_it: Vec<Literal> = of_it.collect();
            let condition = within(self.formula, &of_it, once);
            self.ask(condition);
        }
    }
}
