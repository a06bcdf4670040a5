//! Rules 3 and 4, on values. Each speaks of one object and one attribute name at a time.

use crate::diagram::Attribute;
use crate::objects::Objects;
use crate::record::Value;

/// "An object has a value for an attribute name exactly when its type or an ancestor declares it."
pub fn rule_3(objects: &Objects, values: &[Value]) -> bool {
    // Of a name that neither the diagram nor the record has, neither side can hold.
    let declared = objects.diagram.attributes.iter().map(|a| &a.name);
    let names: Vec<_> = declared
        .chain(values.iter().map(|v| &v.attribute))
        .collect();
    objects.all().all(|object| {
        let value = |name: &[u8]| value_of(values, object, name);
        names
            .iter()
            .all(|name| rule_3_at(objects, object, name, value(name)))
    })
}

/// Rule 3 for one object and one attribute name, with the value that it has there.
pub fn rule_3_at(objects: &Objects, object: usize, name: &[u8], value: Option<&Value>) -> bool {
    value.is_some() == declarations(objects, object, name).next().is_some()
}

/// "That value belongs to the value type of every such declaration: same type name, and a
/// constant of that type, or the unnamed value where the type is plain."
pub fn rule_4(objects: &Objects, values: &[Value]) -> bool {
    values.iter().all(|value| rule_4_at(objects, value))
}

/// Rule 4 for one value.
pub fn rule_4_at(objects: &Objects, value: &Value) -> bool {
    declarations(objects, value.object, &value.attribute).all(|a| belongs(objects, value, a))
}

/// Tells whether a value belongs to the value type of a declaration.
fn belongs(objects: &Objects, value: &Value, declaration: &Attribute) -> bool {
    let Some(value_type) = objects.diagram.value_type_named(&declaration.value_type) else {
        return false;
    };
    let known = if value_type.constants.is_empty() {
        value.constant.is_empty()
    } else {
        value_type.constants.contains(&value.constant)
    };
    value.value_type == value_type.name && known
}

/// The value that an object has for an attribute name.
fn value_of<'v>(values: &'v [Value], object: usize, name: &[u8]) -> Option<&'v Value> {
    values
        .iter()
        .find(|v| v.object == object && v.attribute == name)
}

/// The declarations of an attribute name by the object's type or an ancestor.
fn declarations<'o>(
    objects: &'o Objects,
    object: usize,
    name: &'o [u8],
) -> impl Iterator<Item = &'o Attribute> {
    let attributes = objects.diagram.attributes.iter();
    attributes.filter(move |a| a.name == name && objects.is_instance(object, &a.owner))
}
