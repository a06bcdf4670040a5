//! Values: for each object and attribute name, none or one of every value type and constant.

use super::vocabulary::Vocabulary;
use super::{Budget, Draft, TooLarge, Views};
use crate::objects::Objects;
use crate::record::Value;
use crate::rules::values::{rule_3_at, rule_4_at};

/// Chooses for each object and attribute name; false where old allows no choice at some.
pub fn choose(
    views: &Views,
    vocabulary: &Vocabulary,
    budget: &mut Budget,
    draft: &mut Draft,
) -> Result<bool, TooLarge> {
    for object in views.old.all() {
        for attribute in &vocabulary.attributes {
            let options = options(vocabulary, object, attribute);
            if !choose_at(views, object, attribute, options, budget, draft)? {
                return Ok(false);
            }
        }
    }
    Ok(true)
}

/// No value, and every value that the vocabulary can spell.
fn options(vocabulary: &Vocabulary, object: usize, attribute: &[u8]) -> Vec<Option<Value>> {
    let mut options = vec![None];
    for value_type in &vocabulary.value_types {
        for constant in &vocabulary.constants {
            options.push(Some(Value {
                object,
                attribute: attribute.to_vec(),
                value_type: value_type.clone(),
                constant: constant.clone(),
            }));
        }
    }
    options
}

/// Takes an option that old allows, one that new forbids where there is one.
fn choose_at(
    views: &Views,
    object: usize,
    attribute: &[u8],
    options: Vec<Option<Value>>,
    budget: &mut Budget,
    draft: &mut Draft,
) -> Result<bool, TooLarge> {
    let mut chosen = None;
    for option in options {
        budget.spend()?;
        if !allowed(views.old, object, attribute, option.as_ref()) {
            continue;
        }
        let forbidden = !allowed(views.new, object, attribute, option.as_ref());
        if chosen.is_none() || forbidden {
            chosen = Some(option);
            draft.forbidden |= forbidden;
        }
        if draft.forbidden {
            break;
        }
    }
    let any = chosen.is_some();
    draft.record.values.extend(chosen.flatten());
    Ok(any)
}

/// Rules 3 and 4 for one object and one attribute name.
fn allowed(objects: &Objects, object: usize, attribute: &[u8], value: Option<&Value>) -> bool {
    rule_3_at(objects, object, attribute, value)
        && value.is_none_or(|value| rule_4_at(objects, value))
}
