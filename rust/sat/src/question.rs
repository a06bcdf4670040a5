//! "Is there a site of so many objects that old allows and new forbids?"

use crate::formula::{Formula, Literal};
use crate::legal::conditions;
use crate::site::Site;
use brute::{Diagram, Link, Record, Value};

/// The question as a formula, and the site that its variables speak of.
pub struct Question {
    pub formula: Formula,
    pub site: Site,
}

impl Question {
    /// The question about sites of exactly so many objects.
    pub fn new(old: &Diagram, new: &Diagram, count: usize) -> Self {
        let mut formula = Formula::new();
        let site = Site::new(&mut formula, old, count);
        for condition in conditions(&mut formula, &site, old) {
            formula.one_of(&[condition]);
        }
        let kept = conditions(&mut formula, &site, new);
        let broken: Vec<Literal> = kept.iter().map(|condition| !*condition).collect();
        formula.one_of(&broken);
        Question { formula, site }
    }

    /// The site in which exactly the literals of a model hold.
    pub fn record(&self, holds: impl Fn(Literal) -> bool) -> Record {
        let site = &self.site;
        let mut record = Record::default();
        for object in 0..site.count {
            let of = site.types.iter().find(|t| holds(site.has_type(object, t)));
            record.objects.extend(of.cloned());
            for role in &site.roles {
                let targets = (0..site.count).filter(|to| holds(site.link(object, role, *to)));
                record.links.extend(targets.map(|to| Link {
                    from: object,
                    role: role.clone(),
                    to,
                }));
            }
        }
        let there = site.values.iter().filter(|v| holds(v.is_there));
        record.values.extend(there.map(|v| Value {
            object: v.object,
            attribute: v.attribute.clone(),
            value_type: v.value_type.clone(),
            constant: v.constant.clone(),
        }));
        record.values.sort();
        record.links.sort();
        record
    }
}
