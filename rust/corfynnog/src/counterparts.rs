//! What one diagram declares where another one forbids something, found by names.

use crate::breaches::Breach;
use crate::diagram::{Diagram, Way};
use crate::lists::distinct;
use crate::parts::Part;
use crate::record::Record;
use crate::ways::WayOf;

/// A breach of a record under a diagram, seen from another diagram that allows the record.
pub struct Seen<'a> {
    /// The diagram that allows the record.
    pub old: &'a Diagram,
    /// The diagram that the breach is of.
    pub new: &'a Diagram,
    pub record: &'a Record,
    pub breach: &'a Breach,
}

impl Seen<'_> {
    /// What old declares there.
    pub fn counterparts(&self) -> Vec<Part> {
        match self.breach.rule {
            1 | 2 => self.type_there().map(Part::Type).into_iter().collect(),
            3 => self.attributes(),
            4 => self.attributes_and_value_types(),
            _ => {
                let associations = self.ways().into_iter().map(|of| of.association);
                let parts = distinct(associations).into_iter().map(Part::Association);
                parts.collect()
            }
        }
    }

    /// The type of that name.
    fn type_there(&self) -> Option<usize> {
        self.old.type_named(self.breach.type_name.as_deref()?)
    }

    /// The declarations of the attribute for objects of that type.
    fn attributes(&self) -> Vec<Part> {
        let Breach {
            type_name,
            attribute,
            ..
        } = self.breach;
        let (Some(type_name), Some(attribute)) = (type_name, attribute) else {
            return Vec::new();
        };
        let declared = self.old.declarations(type_name, attribute);
        declared.into_iter().map(Part::Attribute).collect()
    }

    /// These, then their value types.
    fn attributes_and_value_types(&self) -> Vec<Part> {
        let attributes = self.attributes();
        let value_type = |part: &Part| match part {
            Part::Attribute(index) => Part::ValueType(self.old.attributes[*index].value_type),
            other => *other,
        };
        let value_types: Vec<Part> = attributes.iter().map(value_type).collect();
        distinct(attributes.into_iter().chain(value_types))
    }

    /// The ways of old that stand there: those that carry the link where the breach is about one,
    /// else those that match the way that is broken.
    pub fn ways(&self) -> Vec<WayOf> {
        let carriers = self.carriers();
        match (self.breach.association, self.breach.side) {
            (Some(association), Some(side)) if carriers.is_empty() => {
                self.matching(WayOf { association, side })
            }
            _ => carriers,
        }
    }

    /// The ways of old that carry the links of the breach.
    fn carriers(&self) -> Vec<WayOf> {
        let links = self.links().into_iter();
        let carriers = links.flat_map(|(from, role, to)| {
            let types = &self.record.types;
            self.old.carriers(&types[from], &role, &types[to])
        });
        distinct(carriers)
    }

    /// The links that the breach is about: one that must not stand, or not alone, or those from
    /// several wholes to one part.
    fn links(&self) -> Vec<(usize, String, usize)> {
        let Breach { objects, role, .. } = self.breach;
        match (self.breach.rule, &objects[..], role) {
            (9, [part, wholes @ ..], _) => {
                let compositions = self.breach.declared.iter().filter_map(|part| match part {
                    Part::Association(index) => Some(&self.new.associations[*index].right.role),
                    _ => None,
                });
                let roles = distinct(compositions);
                let pairs = wholes.iter().flat_map(|whole| {
                    let own = |role: &&&String| self.record.has_link(*whole, role, *part);
                    let roles = roles.iter().filter(own);
                    roles.map(|role| (*whole, role.to_string(), *part))
                });
                pairs.collect()
            }
            (_, [from, to], Some(role)) => vec![(*from, role.clone(), *to)],
            _ => Vec::new(),
        }
    }

    /// The ways of old that match one of new: of the same role between types of the same names, else
    /// of the same role for such objects, else of the same role. Of several, those that hold for the
    /// object.
    fn matching(&self, of: WayOf) -> Vec<WayOf> {
        let way = self.new.way(of);
        let carried = self.old.carried_ways(way.role);
        let same = |of: &WayOf| self.has_same_ends(&way, &self.old.way(*of));
        let holds = |of: &WayOf| self.holds_for_object(&self.old.way(*of));
        let both = |of: &WayOf| same(of) && holds(of);
        let any = |_: &WayOf| true;
        let tiers: [&dyn Fn(&WayOf) -> bool; 4] = [&both, &same, &holds, &any];
        for tier in tiers {
            let found: Vec<WayOf> = carried.iter().copied().filter(tier).collect();
            if !found.is_empty() {
                return found;
            }
        }
        self.old.ways(way.role)
    }

    /// The types at both ends have the same names.
    fn has_same_ends(&self, new: &Way, old: &Way) -> bool {
        let same = |new: usize, old: usize| self.new.types[new].name == self.old.types[old].name;
        same(new.from, old.from) && same(new.to, old.to)
    }

    /// The object stands at the end of the way that its rule is about: rule 7 counts at the end,
    /// rule 6 at the start.
    fn holds_for_object(&self, way: &Way) -> bool {
        let Some(&object) = self.breach.objects.first() else {
            return false;
        };
        let end = match self.breach.rule {
            7 => way.to,
            _ => way.from,
        };
        self.old.is_instance(&self.record.types[object], end)
    }
}

impl Breach {
    /// What a diagram lacks that declares nothing there.
    pub fn nothing_there(&self) -> String {
        match (&self.attribute, &self.type_name, &self.role) {
            (Some(attribute), Some(owner), _) => {
                format!("no attribute {attribute} in {owner} or an ancestor")
            }
            (_, Some(name), _) => format!("no type {name}"),
            (_, _, Some(role)) => format!("no association with role {role}"),
            _ => "no association with these roles".to_string(),
        }
    }
}
