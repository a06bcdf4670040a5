//! The nine rules, one function each, and the judgement.
//!
//! What a rule may depend on shows in what its function takes: rules 1 and 2 the objects alone,
//! rules 3 and 4 objects and values, rules 5 to 9 objects and links.

pub mod links;
pub mod types;
pub mod values;
pub mod wholes;

use crate::diagram::Diagram;
use crate::objects::Objects;
use crate::record::Record;

/// Gives 0, or the lowest rule that the record breaks.
pub fn judge(d: &Diagram, r: &Record) -> u8 {
    let type_names: Vec<&[u8]> = r.objects.iter().map(Vec::as_slice).collect();
    let objects = Objects::new(d, &type_names);
    let rules: [&dyn Fn() -> bool; 9] = [
        &|| types::rule_1(&objects),
        &|| types::rule_2(&objects),
        &|| values::rule_3(&objects, &r.values),
        &|| values::rule_4(&objects, &r.values),
        &|| links::rule_5(&objects, &r.links),
        &|| links::rule_6(&objects, &r.links),
        &|| links::rule_7(&objects, &r.links),
        &|| links::rule_8(&objects, &r.links),
        &|| wholes::rule_9(&objects, &r.links),
    ];
    let broken = (1..=9).zip(rules).find(|(_, is_kept)| !is_kept());
    broken.map_or(0, |(rule, _)| rule)
}
