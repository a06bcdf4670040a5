//! Very small diagrams, made by chance but the same in every run.

use crate::diagram::{Association, Attribute, Diagram, End, Form, Kind, Limits, Type, ValueType};
use crate::Name;

/// Numbers by a fixed rule (splitmix64), so that every run tries the same diagrams.
pub struct Numbers(pub u64);

impl Numbers {
    fn below(&mut self, limit: usize) -> usize {
        self.0 = self.0.wrapping_add(0x9E37_79B9_7F4A_7C15);
        let mut z = self.0;
        z = (z ^ (z >> 30)).wrapping_mul(0xBF58_476D_1CE4_E5B9);
        z = (z ^ (z >> 27)).wrapping_mul(0x94D0_49BB_1331_11EB);
        ((z ^ (z >> 31)) % limit as u64) as usize
    }

    fn pick<T: Clone>(&mut self, from: &[T]) -> T {
        from[self.below(from.len())].clone()
    }
}

fn name(text: &str) -> Name {
    text.as_bytes().to_vec()
}

/// One or two types, the second perhaps below the first.
pub fn some_types(numbers: &mut Numbers) -> Vec<Type> {
    let kinds = [
        Kind::Class,
        Kind::Class,
        Kind::Class,
        Kind::SingletonClass,
        Kind::AbstractClass,
    ];
    let mut first = Type {
        kind: numbers.pick(&kinds),
        name: name("A"),
        parents: Vec::new(),
    };
    let mut second = Type {
        kind: numbers.pick(&kinds),
        name: name("B"),
        parents: Vec::new(),
    };
    match numbers.below(5) {
        0 => vec![first],
        1 => vec![second],
        2 => vec![second, first],
        3 => {
            second.parents.push(name("A"));
            vec![first, second]
        }
        _ => {
            first.parents.push(name("B"));
            vec![second, first]
        }
    }
}

fn some_end(numbers: &mut Numbers, types: &[Type]) -> End {
    let ups = [None, Some(256), Some(0), Some(1), Some(2)];
    let up = numbers.pick(&ups);
    let low = numbers.below(usize::from(up.unwrap_or(2).min(2)) + 1);
    End {
        type_name: numbers.pick(types).name,
        limits: Limits {
            low: low as u16,
            up,
        },
        role: numbers.pick(&[name("l"), name("r")]),
    }
}

fn some_association(numbers: &mut Numbers, types: &[Type]) -> Association {
    let form = numbers.pick(&[Form::Association, Form::Composition]);
    let arrow = match form {
        Form::Association => numbers.pick(&[1, 2, 3, 4]),
        Form::Composition => numbers.pick(&[1, 3, 4]),
    };
    Association {
        form,
        arrow,
        left: some_end(numbers, types),
        right: some_end(numbers, types),
    }
}

/// A diagram over these types with at most so many associations and attributes.
pub fn some_diagram(
    numbers: &mut Numbers,
    types: &[Type],
    associations: usize,
    attributes: usize,
) -> Diagram {
    let constants = [vec![], vec![name("a")], vec![name("a"), name("b")]];
    let value_types = ["U", "V"].map(|text| ValueType {
        name: name(text),
        constants: numbers.pick(&constants),
    });
    let some_attribute = |numbers: &mut Numbers| Attribute {
        owner: numbers.pick(types).name,
        name: numbers.pick(&[name("x"), name("y")]),
        value_type: numbers.pick(&value_types).name,
    };
    let attributes = numbers.below(attributes + 1);
    let associations = numbers.below(associations + 1);
    Diagram {
        attributes: (0..attributes).map(|_| some_attribute(numbers)).collect(),
        associations: (0..associations)
            .map(|_| some_association(numbers, types))
            .collect(),
        value_types: if attributes > 0 {
            value_types.to_vec()
        } else {
            Vec::new()
        },
        types: types.to_vec(),
    }
}
