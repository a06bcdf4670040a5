//! Types in an order in which parents stand before their children.

use crate::diagram::{Diagram, Type};

/// The same diagram with its types in such an order, the one they have where it will do; none where
/// a type is its own ancestor.
pub fn in_order(diagram: &Diagram) -> Option<Diagram> {
    let order = order(&diagram.types)?;
    let mut place = vec![0; order.len()];
    for (at, &index) in order.iter().enumerate() {
        place[index] = at;
    }
    let mut result = diagram.clone();
    result.types = order.iter().map(|&i| diagram.types[i].clone()).collect();
    for of in &mut result.types {
        of.parents
            .iter_mut()
            .for_each(|parent| *parent = place[*parent]);
        of.parents.sort_unstable();
        of.parents.dedup();
    }
    for attribute in &mut result.attributes {
        attribute.owner = place[attribute.owner];
    }
    for association in &mut result.associations {
        association.left.of = place[association.left.of];
        association.right.of = place[association.right.of];
    }
    Some(result)
}

/// The indices of the types, parents first; each next one is the first whose parents are all placed.
fn order(types: &[Type]) -> Option<Vec<usize>> {
    let mut placed: Vec<usize> = Vec::new();
    while placed.len() < types.len() {
        let is_next = |index: &usize| {
            let mut parents = types[*index].parents.iter();
            !placed.contains(index) && parents.all(|parent| placed.contains(parent))
        };
        let next = (0..types.len()).find(is_next)?;
        placed.push(next);
    }
    Some(placed)
}

#[cfg(test)]
mod tests {
    use super::*;
    use crate::diagram::{Attribute, Kind};

    /// A class of that name and these parents.
    fn class(name: &str, parents: &[usize]) -> Type {
        Type {
            kind: Kind::Class,
            name: name.to_string(),
            parents: parents.to_vec(),
        }
    }

    #[test]
    fn parents_stand_first() {
        let mut diagram = Diagram {
            types: vec![class("A", &[2, 1]), class("B", &[]), class("C", &[1])],
            ..Diagram::default()
        };
        diagram.attributes.push(Attribute {
            owner: 0,
            name: "a".to_string(),
            value_type: 0,
        });
        let ordered = in_order(&diagram).expect("an order");
        let types = [class("B", &[]), class("C", &[0]), class("A", &[0, 1])];
        assert_eq!(ordered.types, types);
        assert_eq!(ordered.attributes[0].owner, 2);
        assert_eq!(in_order(&ordered), Some(ordered));
        diagram.types[1].parents = vec![0];
        assert_eq!(in_order(&diagram), None);
    }
}
