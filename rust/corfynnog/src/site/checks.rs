//! What is tried behind the grammar, each over the whole text before the next: ends of links that
//! are no objects, more of a kind than a record file can hold, and what stands there twice.

use std::collections::HashSet;

use crate::fields::RECORD;
use crate::text::{advice, again, earliest, over, quoted, repeated, second, similar};
use crate::text::{TextFault, TextRule, TEXT};

use super::declarations::Site;

/// The first fault of a text that belongs to the grammar.
pub fn first_fault(text: &[u8], site: &Site) -> Option<TextFault> {
    unknown(site)
        .or_else(|| too_many(site))
        .or_else(|| twice(text, site))
}

/// The first end of a link that is no object.
fn unknown(site: &Site) -> Option<TextFault> {
    let names = || site.objects.iter().map(|object| object.name.text);
    let known: HashSet<&str> = names().collect();
    let mut ends = site.links.iter().flat_map(|link| [link.from, link.to]);
    let end = ends.find(|end| !known.contains(end.text))?;
    let what = format!("{} is no object of this text", quoted(end.text));
    let to_do = advice(end.text, similar(end.text, names()));
    Some(TextFault::of(TextRule::Declared, end.at, what).with(to_do))
}

/// The first object, value or link that is one too many.
fn too_many(site: &Site) -> Option<TextFault> {
    let objects = site.objects.iter().map(|object| object.name.at);
    let values = site.objects.iter().flat_map(|object| &object.values);
    let values = values.map(|value| value.value_type.at);
    let links = site.links.iter().map(|link| link.at);
    earliest([
        over(TEXT, "objects", RECORD.most(0x61), objects),
        over(TEXT, "values", RECORD.most(0x62), values),
        over(TEXT, "links", RECORD.most(0x63), links),
    ])
}

/// The first object's name, value or link that stands there a second time.
fn twice(text: &[u8], site: &Site) -> Option<TextFault> {
    let objects = second(text, "object", site.objects.iter().map(|o| &o.name));
    let values = site.objects.iter().find_map(|object| {
        let what = format!("attribute of {}", quoted(object.name.text));
        second(text, &what, object.values.iter().map(|v| &v.attribute))
    });
    let links = repeated(site.links.iter().map(|link| (link.names(), link.at)));
    let links = links.map(|(_, places)| again(text, places, "this link stands here a second time"));
    earliest([
        objects,
        values.map(|fault| fault.with("take one of the two values out")),
        links.map(|fault| fault.with("take the second one out")),
    ])
}
