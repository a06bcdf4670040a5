//! The variables of a site with a given number of objects.
//!
//! Only names that old allows have variables: an object's type is a class or singleton class of
//! old, a value is one of those that a declaration of its attribute in old allows, and a link's
//! role is carried in old. A site with any other name is illegal for old.

use crate::formula::{Formula, Literal, FALSE};
use brute::{Diagram, Kind, Name, Side};

/// A site; whatever is not among its variables is not there.
pub struct Site {
    pub count: usize,
    /// The types that an object may have.
    pub types: Vec<Name>,
    /// For each object, which of these types it has.
    has_type: Vec<Vec<Literal>>,
    /// Which values the objects have.
    pub values: Vec<Value>,
    /// The roles that links may have.
    pub roles: Vec<Name>,
    /// For each role, object and target, whether there is a link.
    links: Vec<Vec<Vec<Literal>>>,
}

/// A value that an object may have.
pub struct Value {
    pub object: usize,
    pub attribute: Name,
    pub value_type: Name,
    pub constant: Name,
    pub is_there: Literal,
}

impl Site {
    /// A site of so many objects, with one type for each object and at most one value for each
    /// object and attribute.
    pub fn new(formula: &mut Formula, old: &Diagram, count: usize) -> Self {
        let concrete = |kind| matches!(kind, Kind::Class | Kind::SingletonClass);
        let types = old.types.iter().filter(|t| concrete(t.kind));
        let types: Vec<Name> = types.map(|t| t.name.clone()).collect();
        let roles = carried_roles(old);
        let table = |formula: &mut Formula, rows, columns| -> Vec<Vec<Literal>> {
            let row = |formula: &mut Formula| (0..columns).map(|_| formula.variable()).collect();
            (0..rows).map(|_| row(formula)).collect()
        };
        let has_type = table(formula, count, types.len());
        for row in &has_type {
            formula.one_of(row);
            formula.at_most_one(row);
        }
        rising(formula, &has_type);
        Site {
            count,
            values: values(formula, old, count),
            links: roles.iter().map(|_| table(formula, count, count)).collect(),
            types,
            has_type,
            roles,
        }
    }

    /// Whether an object has this type itself.
    pub fn has_type(&self, object: usize, name: &[u8]) -> Literal {
        let at = self.types.iter().position(|t| t == name);
        at.map_or(FALSE, |at| self.has_type[object][at])
    }

    /// Whether a link is there.
    pub fn link(&self, from: usize, role: &[u8], to: usize) -> Literal {
        let at = self.roles.iter().position(|r| r == role);
        at.map_or(FALSE, |at| self.links[at][from][to])
    }

    /// The values that an object may have for an attribute.
    pub fn values_at<'s>(
        &'s self,
        object: usize,
        attribute: &'s [u8],
    ) -> impl Iterator<Item = &'s Value> {
        let values = self.values.iter();
        values.filter(move |v| v.object == object && v.attribute == attribute)
    }
}

/// The types of the objects stand in their order. Renumbering the objects of a site changes no
/// judgement, so that no answer is lost.
fn rising(formula: &mut Formula, has_type: &[Vec<Literal>]) {
    for pair in has_type.windows(2) {
        for (at, later) in pair[0].iter().enumerate() {
            for earlier in &pair[1][..at] {
                formula.one_of(&[!*later, !*earlier]);
            }
        }
    }
}

/// The roles that some association of a diagram carries, each once.
fn carried_roles(old: &Diagram) -> Vec<Name> {
    let mut roles = Vec::new();
    for association in &old.associations {
        for side in [Side::R2, Side::R1] {
            let role = &association.target(side).role;
            if association.carries(side) && !roles.contains(role) {
                roles.push(role.clone());
            }
        }
    }
    roles
}

/// The values that the declarations of old allow, at most one for each object and attribute.
fn values(formula: &mut Formula, old: &Diagram, count: usize) -> Vec<Value> {
    let mut spelled: Vec<[&Name; 3]> = Vec::new();
    let unnamed = Name::new();
    for declared in &old.attributes {
        let of = old.value_type_named(&declared.value_type);
        let of = of.expect("an attribute's value type is declared");
        let plain = of.constants.is_empty().then_some(&unnamed);
        for constant in of.constants.iter().chain(plain) {
            spelled.push([&declared.name, &of.name, constant]);
        }
    }
    spelled.sort();
    spelled.dedup();
    let mut values = Vec::new();
    for object in 0..count {
        for of_one in spelled.chunk_by(|one, other| one[0] == other[0]) {
            let there: Vec<Literal> = of_one.iter().map(|_| formula.variable()).collect();
            formula.at_most_one(&there);
            let with_names = of_one.iter().zip(there);
            values.extend(with_names.map(|(names, is_there)| Value {
                object,
                attribute: names[0].clone(),
                value_type: names[1].clone(),
                constant: names[2].clone(),
                is_there,
            }));
        }
    }
    values
}
