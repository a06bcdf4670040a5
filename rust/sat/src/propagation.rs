//! The conditions beside the independent judge, on made-up records and without a solver: once the
//! variables of a site are set, each gate follows from its inputs.

use crate::formula::{Formula, Literal, TRUE};
use crate::legal::conditions;
use crate::site::Site;
use brute::{judge, read_diagram, read_record, Diagram, Record};
use generators::diagrams::{diagram, SMALL};
use generators::edits::edited;
use generators::hex::hex;
use generators::records::record;
use generators::Random;

/// Pairs of diagrams that are tried, with some records each.
const PAIRS: u64 = 1_000;
const RECORDS: usize = 20;

/// Objects that a record has at most.
const OBJECTS: usize = 5;

#[test]
fn conditions_hold_exactly_for_legal_records() {
    let mut told = [[0; 2]; 2];
    for seed in 0..PAIRS {
        let mut random = Random::new(seed);
        let plan = diagram(&mut random, SMALL);
        let (old_file, new_file) = (plan.file(), edited(&mut random, &plan).file());
        let old = read_diagram(&old_file).expect("generated diagrams are accepted");
        let new = read_diagram(&new_file).expect("edited diagrams are accepted");
        for _ in 0..RECORDS {
            let file = record(&mut random, &plan, OBJECTS).file();
            let record = read_record(&file).expect("generated records are accepted");
            let Some(said) = by_conditions(&old, &new, record.clone()) else {
                continue;
            };
            let judged = [&old, &new].map(|diagram| judge(diagram, &record) == 0);
            let files = [&old_file, &new_file, &file].map(|file| hex(file));
            assert_eq!(said, judged, "seed {seed}: {files:#?}");
            told[usize::from(said[0])][usize::from(said[1])] += 1;
        }
    }
    let each_often = told.iter().flatten().all(|times| *times >= 100);
    assert!(each_often, "some judgements are rare: {told:?}");
}

/// Whether the conditions of each diagram hold for a record; none where it has a name that no
/// variable stands for.
fn by_conditions(old: &Diagram, new: &Diagram, record: Record) -> Option<[bool; 2]> {
    let mut formula = Formula::new();
    let site = Site::new(&mut formula, old, record.objects.len());
    let record = in_order(&site, record)?;
    let chosen = literals(&site, &record)?;
    let inputs = formula.variables;
    let all = [old, new].map(|diagram| {
        let all = conditions(&mut formula, &site, diagram);
        formula.and(&all)
    });
    let mut set = vec![None; formula.variables as usize + 1];
    for variable in 2..=inputs {
        set[variable as usize] = Some(chosen.contains(&Literal(variable)));
    }
    set[TRUE.0 as usize] = Some(true);
    propagate(&formula, &mut set);
    Some(all.map(|literal| value(&set, literal).expect("every gate follows")))
}

/// The record with its objects in the order of the site's types.
fn in_order(site: &Site, mut record: Record) -> Option<Record> {
    let place = |name| site.types.iter().position(|t| t == name);
    let places: Option<Vec<usize>> = record.objects.iter().map(place).collect();
    let places = places?;
    let mut order: Vec<usize> = (0..places.len()).collect();
    order.sort_by_key(|object| places[*object]);
    let number = |object| order.iter().position(|o| *o == object).unwrap_or(0);
    record
        .values
        .iter_mut()
        .for_each(|v| v.object = number(v.object));
    for link in &mut record.links {
        (link.from, link.to) = (number(link.from), number(link.to));
    }
    record.objects = order.iter().map(|o| record.objects[*o].clone()).collect();
    Some(record)
}

/// The variables that stand for what a record has.
fn literals(site: &Site, record: &Record) -> Option<Vec<Literal>> {
    let mut chosen = Vec::new();
    for (object, name) in record.objects.iter().enumerate() {
        chosen.push(site.has_type(object, name));
    }
    for value in &record.values {
        let mut known = site.values_at(value.object, &value.attribute);
        let same = known.find(|v| v.value_type == value.value_type && v.constant == value.constant);
        chosen.push(same?.is_there);
    }
    for link in &record.links {
        chosen.push(site.link(link.from, &link.role, link.to));
    }
    chosen.iter().all(|literal| literal.0 > 0).then_some(chosen)
}

/// What a literal is set to.
fn value(set: &[Option<bool>], literal: Literal) -> Option<bool> {
    let variable = set[literal.0.unsigned_abs() as usize];
    variable.map(|holds| holds == (literal.0 > 0))
}

/// Sets what follows from each clause with one literal left. Once through is enough, since a
/// gate's clauses stand behind those of its inputs.
fn propagate(formula: &Formula, set: &mut [Option<bool>]) {
    for clause in &formula.clauses {
        if clause
            .iter()
            .any(|literal| value(set, *literal) == Some(true))
        {
            continue;
        }
        let open = |literal: &&Literal| value(set, **literal).is_none();
        let mut open = clause.iter().filter(open);
        let (first, second) = (open.next(), open.next());
        let last = first.expect("some literal of a clause can hold");
        if second.is_none() {
            set[last.0.unsigned_abs() as usize] = Some(last.0 > 0);
        }
    }
}
