//! The record of a site text without faults.

use std::collections::HashMap;

use crate::record::{Link, Record, Value};

use super::declarations::Site;

/// Objects by appearance, values and links in the order of a record file.
pub fn record(site: &Site) -> Record {
    let objects = site.objects.iter().enumerate();
    let numbers: HashMap<&str, usize> = objects.clone().map(|(i, o)| (o.name.text, i)).collect();
    let number = |name: &str| numbers.get(name).copied().unwrap_or_default();
    let values = objects.flat_map(|(object, declared)| {
        declared.values.iter().map(move |value| Value {
            object,
            attribute: value.attribute.text.to_string(),
            value_type: value.value_type.text.to_string(),
            constant: value.constant.to_string(),
        })
    });
    let links = site.links.iter().map(|link| Link {
        from: number(link.from.text),
        role: link.role.text.to_string(),
        to: number(link.to.text),
    });
    let mut record = Record {
        types: site.objects.iter().map(|o| o.of.text.to_string()).collect(),
        values: values.collect(),
        links: links.collect(),
        names: site
            .objects
            .iter()
            .map(|o| o.name.text.to_string())
            .collect(),
    };
    record.values.sort();
    record.links.sort();
    record
}
