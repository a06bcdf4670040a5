//! Deep and wide families of types: chains of up to 24, each type with up to four parents just
//! before it, and types that join others without common ancestors. With an attribute of its own at
//! each type, what a type counts as shows in its objects' values.

use crate::diagrams::add_association;
use crate::instances::{is_concrete, reached};
use crate::names::numbered;
use crate::plan::{Attribute, DiagramPlan, RecordPlan, Type, Value, ValueType};
use crate::random::Random;

/// The one value type, a plain one.
const VALUE_TYPE: &[u8] = b"V";

/// A diagram with a family of 3 to 24 types, mostly of the largest size.
pub fn family(random: &mut Random) -> DiagramPlan {
    let count = *random.pick(&[24, 24, 24, 24, 24, 23, 12, 3]);
    let shape = shape(random, count);
    let mut plan = DiagramPlan {
        edition: *random.pick(&[1, 2]),
        value_types: vec![ValueType {
            name: VALUE_TYPE.to_vec(),
            constants: Vec::new(),
        }],
        ..DiagramPlan::default()
    };
    for at in 0..count {
        let kind = if at < shape.interfaces {
            2
        } else {
            class_kind(random)
        };
        let parents = parents(random, at, &shape);
        plan.types.push(Type {
            kind,
            name: numbered(b"T", at),
            parents,
        });
        plan.attributes.push(Attribute {
            owner: at as u8,
            name: numbered(b"a", at),
            value_type: 0,
        });
    }
    plan
}

/// The family with some associations between its types.
pub fn linked(random: &mut Random, plan: &DiagramPlan) -> DiagramPlan {
    let mut result = plan.clone();
    for _ in 0..random.between(1, 4) {
        add_association(random, &mut result);
    }
    result
}

/// The family with one parent of one type left out; as it is where no type has a parent.
pub fn without_a_parent(random: &mut Random, plan: &DiagramPlan) -> DiagramPlan {
    let mut result = plan.clone();
    let mut children: Vec<&mut Type> = result.types.iter_mut().collect();
    children.retain(|of| !of.parents.is_empty());
    if !children.is_empty() {
        let at = random.below(children.len());
        let parents = &mut children[at].parents;
        parents.remove(random.below(parents.len()));
    }
    result
}

/// How a family is built.
struct Shape {
    /// How many of the first types are interfaces.
    interfaces: usize,
    /// How many parents a type has at most.
    most: usize,
    /// How far before it they stand at most.
    back: usize,
    /// Whether some types have a parent fewer.
    gaps: bool,
    /// Whether half of the types have no parents.
    roots: bool,
}

/// A chain, a family with all four types before as parents, one whose parents stand anywhere
/// before, or one of its own numbers.
fn shape(random: &mut Random, count: usize) -> Shape {
    let interfaces = match random.below(3) {
        0 => random.below(count),
        _ => 0,
    };
    let (most, back) = match random.below(5) {
        0 => (1, 1),
        1 => (4, 4),
        2 => (4, count),
        3 => (2, random.between(2, 4)),
        _ => (random.between(1, 4), random.between(1, 6)),
    };
    Shape {
        interfaces,
        most,
        back,
        gaps: random.chance(1, 2),
        roots: random.chance(1, 3),
    }
}

/// The kind of a class or, now and then, of an abstract one; no singleton, which would have to be
/// in every record.
fn class_kind(random: &mut Random) -> u8 {
    u8::from(random.chance(1, 6))
}

/// The parents of a type: types before it, as many as there are and may be, now and then fewer.
fn parents(random: &mut Random, at: usize, shape: &Shape) -> Vec<u8> {
    if shape.roots && random.chance(1, 2) {
        return Vec::new();
    }
    let mut parents: Vec<u8> = (at.saturating_sub(shape.back)..at)
        .map(|p| p as u8)
        .collect();
    let fewer = usize::from(shape.gaps && random.chance(1, 12));
    while parents.len() > shape.most - fewer {
        parents.remove(random.below(parents.len()));
    }
    parents
}

/// Records of a family: its types as objects, up to eight in one, with a value for each attribute
/// that is theirs, and of each type a record with one value less and one with one more.
pub fn records(random: &mut Random, plan: &DiagramPlan) -> Vec<RecordPlan> {
    let concrete = |at: &usize| is_concrete(plan, *at);
    let types: Vec<usize> = (0..plan.types.len()).filter(concrete).collect();
    let mut records: Vec<RecordPlan> = types.chunks(8).map(|of| record(plan, of)).collect();
    for of in types {
        let mut less = record(plan, &[of]);
        if !less.values.is_empty() {
            less.values.remove(random.below(less.values.len()));
        }
        records.push(less);
        let mut more = record(plan, &[of]);
        let own = reached(plan, of);
        let others = plan.attributes.iter();
        let others: Vec<&Attribute> = others.filter(|a| !own[usize::from(a.owner)]).collect();
        if !others.is_empty() {
            more.values
                .push(value(0, others[random.below(others.len())]));
        }
        more.arrange();
        records.push(more);
    }
    records
}

/// An object of each of these types, with a value for each attribute of what it counts as.
fn record(plan: &DiagramPlan, types: &[usize]) -> RecordPlan {
    let mut record = RecordPlan::default();
    for (object, of) in types.iter().enumerate() {
        record.objects.push(plan.types[*of].name.clone());
        let own = reached(plan, *of);
        let attributes = plan.attributes.iter();
        let attributes = attributes.filter(|a| own[usize::from(a.owner)]);
        record
            .values
            .extend(attributes.map(|attribute| value(object, attribute)));
    }
    record.arrange();
    record
}

/// An object's value for an attribute.
fn value(object: usize, attribute: &Attribute) -> Value {
    Value {
        object: object as u8,
        attribute: attribute.name.clone(),
        value_type: VALUE_TYPE.to_vec(),
        constant: Vec::new(),
    }
}
