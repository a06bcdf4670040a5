//! Diagrams and records for scripts.

use crate::diagram::{Association, Diagram, End};
use crate::json::Json;
use crate::record::Record;

/// A diagram; types and value types are named, not numbered.
pub fn diagram_json(diagram: &Diagram) -> Json {
    let type_name = |&index: &usize| Json::text(diagram.types[index].name.as_str());
    let value_types = Json::list(&diagram.value_types, |v| {
        Json::Object(vec![
            ("name", Json::text(v.name.as_str())),
            (
                "constants",
                Json::list(&v.constants, |c| Json::text(c.as_str())),
            ),
        ])
    });
    let types = Json::list(&diagram.types, |t| {
        Json::Object(vec![
            ("name", Json::text(t.name.as_str())),
            ("kind", Json::text(t.kind.words())),
            ("parents", Json::list(&t.parents, type_name)),
        ])
    });
    let attributes = Json::list(&diagram.attributes, |a| {
        Json::Object(vec![
            ("owner", type_name(&a.owner)),
            ("name", Json::text(a.name.as_str())),
            (
                "type",
                Json::text(diagram.value_types[a.value_type].name.as_str()),
            ),
        ])
    });
    let associations = Json::list(&diagram.associations, |a| association_json(diagram, a));
    Json::Object(vec![
        ("value_types", value_types),
        ("types", types),
        ("attributes", attributes),
        ("associations", associations),
    ])
}

/// An association with its two ends; `up` is null where there is no upper limit.
fn association_json(diagram: &Diagram, association: &Association) -> Json {
    let form = match association.composition {
        true => "composition",
        false => "association",
    };
    let end = |end: &End| {
        Json::Object(vec![
            ("type", Json::text(diagram.types[end.of].name.as_str())),
            ("low", Json::Number(end.limits.low)),
            ("up", Json::or_null(end.limits.up, Json::Number)),
            ("role", Json::text(end.role.as_str())),
        ])
    };
    Json::Object(vec![
        ("form", Json::text(form)),
        ("arrow", Json::text(association.arrow.text())),
        ("left", end(&association.left)),
        ("right", end(&association.right)),
    ])
}

/// A record; the constant of an unnamed value is null.
pub fn record_json(record: &Record) -> Json {
    let name = |object: usize| Json::Text(record.object_name(object));
    let objects = Json::list(0..record.types.len(), |object| {
        let values = record.values.iter().filter(|v| v.object == object);
        let values = Json::list(values, |v| {
            let constant = Some(v.constant.as_str()).filter(|c| !c.is_empty());
            Json::Object(vec![
                ("attribute", Json::text(v.attribute.as_str())),
                ("type", Json::text(v.value_type.as_str())),
                ("constant", Json::or_null(constant, Json::text)),
            ])
        });
        Json::Object(vec![
            ("name", name(object)),
            ("type", Json::text(record.types[object].as_str())),
            ("values", values),
        ])
    });
    let links = Json::list(&record.links, |link| {
        Json::Object(vec![
            ("from", name(link.from)),
            ("role", Json::text(link.role.as_str())),
            ("to", name(link.to)),
        ])
    });
    Json::Object(vec![("objects", objects), ("links", links)])
}
