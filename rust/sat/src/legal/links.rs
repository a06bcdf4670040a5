//! Rules 5 to 8, on links.

use super::Rules;
use crate::formula::Literal;
use crate::limits::within;
use brute::{Association, Diagram, Side};

impl Rules<'_> {
    /// Each link's role is carried by some association in that direction with both objects
    /// instances of its ends.
    pub fn rule_5(&mut self) {
        let (site, diagram) = (self.site, self.diagram);
        for role in &site.roles {
            for from in 0..site.count {
                for to in 0..site.count {
                    let mut permitted = Vec::new();
                    for (a, side) in carried(diagram).filter(|(a, s)| a.target(*s).role == *role) {
                        let source = self.is_instance(from, &a.source(side).type_name);
                        let target = self.is_instance(to, &a.target(side).type_name);
                        permitted.push(self.formula.and(&[source, target]));
                    }
                    let permitted = self.formula.or(&permitted);
                    let condition = self.formula.implies(site.link(from, role, to), permitted);
                    self.ask(condition);
                }
            }
        }
    }

    /// Each instance of an end has only instances of the other as targets of a carried role, and
    /// as many of them as the limits there allow.
    pub fn rule_6(&mut self) {
        let (site, diagram) = (self.site, self.diagram);
        for (a, side) in carried(diagram) {
            let end = a.target(side);
            for from in 0..site.count {
                let source = self.is_instance(from, &a.source(side).type_name);
                let targets = (0..site.count).map(|to| site.link(from, &end.role, to));
                let targets: Vec<Literal> = targets.collect();
                let number = within(self.formula, &targets, end.limits);
                let condition = self.formula.implies(source, number);
                self.ask(condition);
                for (to, link) in targets.into_iter().enumerate() {
                    let target = self.is_instance(to, &end.type_name);
                    let condition = self.formula.or(&[!source, !link, target]);
                    self.ask(condition);
                }
            }
        }
    }

    /// Arrows 1 and 2: each instance of the end where the arrow leads is the target of as many
    /// instances of the other as the limits there allow.
    pub fn rule_7(&mut self) {
        let (site, diagram) = (self.site, self.diagram);
        for (a, side) in carried(diagram).filter(|(a, _)| matches!(a.arrow, 1 | 2)) {
            let role = &a.target(side).role;
            for to in 0..site.count {
                let target = self.is_instance(to, &a.target(side).type_name);
                let mut sources = Vec::new();
                for from in 0..site.count {
                    let source = self.is_instance(from, &a.source(side).type_name);
                    sources.push(self.formula.and(&[source, site.link(from, role, to)]));
                }
                let number = within(self.formula, &sources, a.source(side).limits);
                let condition = self.formula.implies(target, number);
                self.ask(condition);
            }
        }
    }

    /// Arrows 3 and 4: an instance of the left end has the right role's link to one of the right end
    /// exactly when that has the left role's link to it.
    pub fn rule_8(&mut self) {
        let (site, diagram) = (self.site, self.diagram);
        let associations = diagram.associations.iter();
        for a in associations.filter(|a| matches!(a.arrow, 3 | 4)) {
            for left in 0..site.count {
                for right in 0..site.count {
                    let at_left = self.is_instance(left, &a.left.type_name);
                    let at_right = self.is_instance(right, &a.right.type_name);
                    let there = site.link(left, &a.right.role, right);
                    let back = site.link(right, &a.left.role, left);
                    let mirrored = self.formula.same(there, back);
                    let condition = self.formula.or(&[!at_left, !at_right, mirrored]);
                    self.ask(condition);
                }
            }
        }
    }
}

/// The sides of a diagram's associations that are carried.
fn carried(diagram: &Diagram) -> impl Iterator<Item = (&Association, Side)> {
    let sides = |a| [(a, Side::R2), (a, Side::R1)];
    let all = diagram.associations.iter().flat_map(sides);
    all.filter(|(a, side)| a.carries(*side))
}
