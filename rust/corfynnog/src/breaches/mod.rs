//! Which objects break a rule, and how, in words.
//!
//! That a rule is broken is the library's word. This looks at the names to say where.

mod links;
mod types;
mod values;
mod wholes;

use crate::diagram::Diagram;
use crate::parts::Part;
use crate::record::Record;

/// The rules by their numbers.
pub const RULES: std::ops::RangeInclusive<u8> = 1..=9;

/// One place where a rule is broken.
#[derive(Clone, Debug, Default, PartialEq, Eq)]
pub struct Breach {
    pub rule: u8,
    pub sentence: String,
    /// Numbers of the objects concerned, the first one foremost. Where a link stands that must not,
    /// or not alone, these are its two objects.
    pub objects: Vec<usize>,
    /// Index of the association, with the side where there is one.
    pub association: Option<usize>,
    pub side: Option<u8>,
    pub type_name: Option<String>,
    pub attribute: Option<String>,
    pub role: Option<String>,
    /// What the diagram declares there.
    pub declared: Vec<Part>,
}

impl Breach {
    /// The other one is of the same rule and of the same objects, attribute and role, whatever the
    /// two diagrams declare there.
    pub fn is_alike(&self, other: &Breach) -> bool {
        (self.rule, &self.objects) == (other.rule, &other.objects)
            && (&self.type_name, &self.attribute) == (&other.type_name, &other.attribute)
            && self.role == other.role
    }
}

/// All places where a record breaks a rule of a diagram.
pub fn breaches(diagram: &Diagram, record: &Record, rule: u8) -> Vec<Breach> {
    let mut found = match rule {
        1 => types::not_a_class(diagram, record),
        2 => types::not_single(diagram, record),
        3 => values::not_as_declared(diagram, record),
        4 => values::not_of_the_value_type(diagram, record),
        5 => links::not_carried(diagram, record),
        6 => links::wrong_targets(diagram, record),
        7 => links::wrong_sources(diagram, record),
        8 => links::not_mirrored(diagram, record),
        9 => wholes::several_wholes(diagram, record),
        _ => Vec::new(),
    };
    for breach in &mut found {
        breach.rule = rule;
    }
    found
}

/// The objects that are instances of a type.
fn instances<'a>(
    diagram: &'a Diagram,
    record: &'a Record,
    of: usize,
) -> impl Iterator<Item = usize> + 'a {
    let objects = 0..record.types.len();
    objects.filter(move |&object| diagram.is_instance(&record.types[object], of))
}

/// Names of objects, with commas between.
fn object_names(record: &Record, objects: &[usize]) -> String {
    let names = objects.iter().map(|&object| record.object_name(object));
    names.collect::<Vec<_>>().join(", ")
}
